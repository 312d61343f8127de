"""What is in the way: other runs, damage, disks, stops."""

import os
import shutil
import signal
import subprocess
import threading
import time

from .sink import never
from .world import HOST, TOP, Client, begins, check, held, post, same, until

HELD = [0]  # seconds for which another run has a list, at least
TRIED = 'cats: 111 disk: another run has the list'


def case_held_list(world):
    """While another run has a list its mail waits, and that of another list doesn't."""
    world.rows['patience'] = 300
    world.list()
    world.list('dogs')
    world.begin()
    world.post(1)
    answers, before = [], world.log().count(TRIED)
    waiting = threading.Thread(target=lambda: answers.append(world.post(2)))
    with held(world.folder()):
        waiting.start()
        same(world.post(3, to='dogs'), '250 2.0.0 posted 1', 'the other list')
        check(world.tells(TRIED, times=before + 1), 'the list was not tried')
        time.sleep(HELD[0])
        same(answers, [], 'answers meanwhile')
    waiting.join()
    same(answers, ['250 2.0.0 posted 2'], 'answers after it')
    check(world.is_out(9), 'not all went out')


def case_held_at_start(world):
    """Mail waits even if another run has the list when the agent starts."""
    world.list()
    answers = []
    with held(world.folder()):
        world.begin()
        waiting = threading.Thread(target=lambda: answers.append(world.post()))
        waiting.start()
        check(world.tells(TRIED), 'the list was not tried')
        same(answers, [], 'answers meanwhile')
    waiting.join()
    same(answers, ['250 2.0.0 posted 1'], 'answers after it')


def case_held_for_long(world):
    """If another run has a list for too long mail is put off, and given again it counts once. SIGTERM doesn't wait for it."""
    world.rows['patience'] = 2
    world.list()
    world.begin()
    check(until(lambda: world.post(1) == '250 2.0.0 posted 1'), 'it is not posted')
    with held(world.folder()):
        same(world.post(2), '451 4.3.0 111 disk: another run has the list', 'a mail')
    check(until(lambda: world.post(2) == '250 2.0.0 posted 2'), 'the same again is not posted')
    world.end()
    world.rows['patience'] = 300
    world.begin()
    world.post(3)
    said, before = [], world.log().count(TRIED)
    with held(world.folder()):
        waiting = threading.Thread(target=lambda: said.append(world.post(4)))
        waiting.start()
        check(world.tells(TRIED, times=before + 1), 'the list was not tried')
        same(world.end(), 0, 'the status')
        waiting.join()
    check(said[0] is None or said[0].startswith('4'), f'said {said}')
    world.begin()
    same(world.post(4), '250 2.0.0 posted 4', 'after a new start')


def case_damaged_list(world):
    """A damaged list puts its mail off, and that of a sound one goes on; mended, it goes on too."""
    folder = world.list()
    world.list('dogs')
    (folder / 'num').write_bytes(b'x\n')
    world.begin()
    begins(world.post(1), '451 4.3.0 75 num', 'the damaged list')
    same(world.post(2, to='dogs'), '250 2.0.0 posted 1', 'the sound list')
    said = world.mail('w@m.net', [f'dogs@{HOST}', f'cats@{HOST}'], post(3, to='cats@ex.org, dogs'))
    same(said, ['250 2.0.0 posted 2', '451 4.3.0 75 num'], 'a mail to both')
    (folder / 'num').write_bytes(b'0\n')
    same(world.post(1), '250 2.0.0 posted 1', 'the mended list')


def configured(folder, config):
    """Gives a list another configuration while no run of the program has it, as the manual page says: a run reads it once."""
    with held(folder):
        (folder / 'config').write_bytes(config)


def case_damaged_configuration(world):
    """A list whose configuration can't be read puts its mail off, even if it never was served, and the others go on."""
    folder = world.list()
    world.list('dogs')
    config = (folder / 'config').read_bytes()
    configured(folder, b'')
    world.begin()
    same(world.post(1, to='dogs'), '250 2.0.0 posted 1', 'the sound list')
    begins(world.post(2), '451', 'the damaged list')
    begins(world.post(2, to='birds'), '451', 'an address that may be the damaged list\'s')
    configured(folder, config)
    same(world.post(2), '250 2.0.0 posted 1', 'the mended list')
    configured(folder, b'')
    begins(world.post(3), '451', 'the damaged list')
    world.end()
    world.begin()
    begins(world.post(3), '451', 'the damaged list after a new start')
    begins(world.post(3, to='birds'), '550', 'an address of no list')
    configured(folder, config)
    same(world.post(3), '250 2.0.0 posted 2', 'the mended list')


def case_missing_list(world):
    """If a list is gone, as when a disk is missing, its mail is put off, and nothing is made in its place; a new list is taken up."""
    folder = world.list()
    world.list('dogs')
    world.begin()
    world.post(1)
    check(world.is_out(3), 'it did not go out')
    for _ in range(2):
        with held(folder):
            folder.rename(world.place / 'aside')
        begins(world.post(2), '451', 'a list that is gone')
        begins(world.mail('w@m.net', ['cats-help@ex.org'], post(2))[0], '451', 'its other addresses')
        begins(world.post(2, to='birds'), '550', 'an address of no list')
        check(not folder.exists(), 'a folder was made')
        world.end()
        world.begin()
        begins(world.post(2), '451', 'after a new start')
        (world.place / 'aside').rename(folder)
        same(world.post(2), '250 2.0.0 posted 2', 'the list that is back')
    world.list('birds')
    same(world.post(3, to='birds'), '250 2.0.0 posted 1', 'a new list')
    world.list('cats-dogs')
    same(world.post(4, to='cats-dogs'), '250 2.0.0 posted 1', 'a new list with a longer name')
    (world.place / 'lists').rename(world.place / 'aside')
    for to in ('cats', 'birds', 'fish'):
        begins(world.post(5, to=to), '451', 'where all lists are gone')


def case_list_that_goes(world):
    """A list whose folder goes while a run of the program begins is the same list where it is then, and nothing is made in its place."""
    folder = world.list()
    world.stands_in()
    world.begin()
    same(world.post(1), '250 2.0.0 posted 1', 'a post')
    check(world.is_out(3), 'it did not go out')
    (world.place / 'move').touch()
    same(world.post(2), '250 2.0.0 posted 2', 'a post while the folder goes')
    check(not folder.exists(), 'a folder was made')
    begins(world.post(3), '451', 'a list that is gone')
    (world.place / 'aside').rename(folder)
    same(world.post(3), '250 2.0.0 posted 3', 'the list that is back')
    check(world.is_out(9), f'{len(world.sink.copies)} copies')


def case_copied_list(world):
    """A copy of a list's folder beside it is no list: mail goes to the one that was served, and nothing goes out twice."""
    folder = world.list()
    world.begin()
    world.post(1)
    check(world.is_out(3), 'it did not go out')
    for name in ('old', 'a copy'):
        world.settled('cats', lambda found, name=name: shutil.copytree(found, world.folder(name)))
    for n in (2, 3):
        same(world.post(n), f'250 2.0.0 posted {n}', 'a post')
        world.end()
        world.begin()
    same((world.posts('cats'), world.posts('old'), world.posts('a copy')), (3, 1, 1), 'posts')
    check(world.is_out(9), f'{len(world.sink.copies)} copies')
    world.end()
    shutil.rmtree(world.place / 'state')
    world.begin()
    begins(world.post(4), '451', 'where none was served')


def case_stopped_program(world):
    """If a run of the program was stopped and left its log, the queue's entries go out after the next run all the same."""
    folder = world.list()
    now = str(int(time.time()))
    fields = ['0', now, 'w@m.net', f'cats@{HOST}', post(1).decode()]
    item = ('D' + ''.join(f'{len(field)}:{field},' for field in fields)).encode()
    with subprocess.Popen([world.program, folder, 'spool'], stdin=subprocess.PIPE, stdout=subprocess.PIPE) as process:
        process.stdin.write(item * 40)
        process.stdin.flush()
        # Two batches are answered, and it waits for the end of the third.
        same([process.stdout.readline() for _ in range(32)], [b'0 0 posted %d\n' % n for n in range(1, 33)], 'answers')
        process.kill()
    same((world.posts(), (folder / 'num').read_text()), (None, '0\n'), 'what is in the log alone')
    world.begin()
    check(until(lambda: world.queue() == 0), 'the queue stays')
    same((world.posts(), len(world.sink.copies)), (32, 96), 'posts and copies')


def case_full_disk(world):
    """If the notes can't be written mail is put off and nothing is handed on twice, and it goes on when they can."""
    world.list()
    world.begin()
    world.post(1)
    check(world.is_out(3), 'it did not go out')
    limit(world, '1')
    begins(world.post(2), '451', 'a mail')
    same(world.run('cats', 'deliver', '0', 'w@m.net', f'cats@{HOST}', given=post(3)), '0 0 posted 2\n', 'a post by hand')
    # What comes to the list lets the agent look at the queue. The entry's copies go out, which can be noted only in memory.
    begins(world.post(2), '451', 'the mail again')
    check(world.tells('entry 2 stays', 'cats: -25 no answer'), 'the copies could be noted, or reported')
    same(len(world.sink.copies), 6, 'copies')
    check(world.agent.poll() is None, 'the agent ended')
    limit(world, 'unlimited')
    same(world.post(2), '250 2.0.0 posted 3', 'the same again')
    check(world.is_out(9), f'{len(world.sink.copies)} copies')


def limit(world, size):
    """Limits the files that the agent may write, and the program as it is run by it."""
    subprocess.run(['prlimit', '--pid', str(world.agent.pid), f'--fsize={size}:unlimited'], check=True)


def case_full_while_handing_on(world):
    """If the notes can't be written while copies go out, each member has at most one copy, and the entry leaves when they can."""
    members = [f'm{n}@m.net' for n in range(200)]
    world.rows['batch'] = 10
    world.list(members=members)
    world.sink.holds = lambda _: world.sink.answered >= 2
    world.begin()
    world.post()
    check(until(lambda: world.sink.answered == 2 and world.sink.waiting == 6), 'nothing goes out')
    limit(world, '1')
    world.sink.holds = never
    check(world.tells('entry 1 stays', times=2), 'the entry was not tried twice')
    same(len(world.sink.copies), len(set(world.sink.recipients())), 'copies, none twice')
    check(len(world.sink.copies) < 200, 'all went out')
    limit(world, 'unlimited')
    check(world.is_out(200), f'{len(world.sink.copies)} copies')
    same(world.sink.recipients(), sorted(members), 'copies')


def case_idle_client(world):
    """Clients that say nothing, or nothing more in the middle of a mail, don't hold up the end."""
    world.list()
    world.begin()
    with Client(world.place / 'lmtp') as idle, Client(world.place / 'lmtp') as half:
        idle.command(b'MAIL FROM:<a@m.net>')
        half.propose('w@m.net', [f'cats@{HOST}'])
        half.socket.sendall(post()[:40])
        same(world.end(), 0, 'the status')
        # One that was quiet for too long is told nothing.
        begins(idle.reply(), '421', 'to the idle one')
        begins(half.reply(), '421', 'in the middle')


def case_terminated_at_once(world):
    """SIGTERM while mail comes in: each mail that was answered is in the list, each is posted once when it is given again."""
    world.list()
    world.begin()
    said = {}
    threads = [threading.Thread(target=lambda n=n: said.update({n: world.post(n)})) for n in range(60)]
    for thread in threads:
        thread.start()
    check(until(lambda: len(said) >= 5), 'nothing is answered')
    same(world.end(), 0, 'the status')
    # Whoever comes after the end finds nobody who listens.
    world.begin()
    for thread in threads:
        thread.join()
    again = {n: world.post(n) for n in range(60)}
    for n, reply in said.items():
        if reply and reply.startswith('250'):
            same(again[n], reply, 'a mail that was answered')
    same((world.posts(), len(set(again.values()))), (60, 60), 'posts')
