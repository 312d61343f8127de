"""Numbers: a mail that is given again counts once, and old ones are forgotten."""

import os
import shutil
import signal
import threading
import time

from .world import HASTY, HOST, MEMBERS, Client, begins, check, post, same, until


def case_given_again(world):
    """A mail that is given again counts once: in one go by two spellings, at once over many connections, and after a new start."""
    world.list()
    world.begin()
    for _ in range(3):
        same(world.mail('w@m.net', [f'cats@{HOST}', 'Cats@EX.org'], post()), ['250 2.0.0 posted 1'] * 2, 'again')
    said = []
    threads = [threading.Thread(target=lambda: said.append(world.post(2))) for _ in range(20)]
    for thread in threads:
        thread.start()
    for thread in threads:
        thread.join()
    same(said, ['250 2.0.0 posted 2'] * 20, 'at once')
    for number in (signal.SIGKILL, signal.SIGTERM):
        world.end(number)
        world.begin()
        same(world.post(), '250 2.0.0 posted 1', 'after a new start')
    same(world.post(3), '250 2.0.0 posted 3', 'another mail')
    same(world.mail('v@m.net', [f'cats@{HOST}'], post(3)), ['250 2.0.0 posted 4'], 'of another sender')
    same(world.posts(), 4, 'posts')


def case_client_hangs_up(world):
    """A client that hangs up in the middle of a mail has given none; after its end it has, and the mail counts once."""
    world.list()
    world.begin()
    with Client(world.place / 'lmtp') as client:
        client.propose('w@m.net', [f'cats@{HOST}'])
        client.socket.sendall(post()[:40])
    same(world.post(2), '250 2.0.0 posted 1', 'another mail')
    same(world.posts(), 1, 'posts after half a mail')
    with Client(world.place / 'lmtp') as client:
        client.propose('w@m.net', [f'cats@{HOST}'])
        client.send(post())
    check(until(lambda: world.posts() == 2), 'a whole mail was not posted')
    same(world.post(), '250 2.0.0 posted 2', 'again')
    same(world.posts(), 2, 'posts')


def case_lost_answers(world):
    """A run of the program that is killed, or whose answers are lost or missing, puts the mail off, and given again it counts once."""
    world.list()
    world.stands_in()
    world.begin()
    for n, word in enumerate(('lose', 'kill', 'mute', 'babble', 'bad', 'lose'), 1):
        check(world.is_out(3 * n - 3) and world.posts() == n - 1, 'the list is not at rest')
        (world.place / word).touch()
        first = world.post(n)
        begins(first, ('451 4.3.0', '250') if word == 'kill' else '451 4.3.0', word)
        # What is given to a run that is just being killed is put off too.
        check(word != 'bad' or world.tells('cats: 65 bad 7'), 'the log has no error')
        check(until(lambda n=n: world.post(n) == f'250 2.0.0 posted {n}'), f'after {word} it is not posted')
        same(world.posts(), n, 'posts')


def case_lost_notes(world):
    """If the notes are lost, or an old copy stands in their place, no mail is lost: the next number is after all that was answered."""
    world.list()
    world.begin()
    same(world.post(1), '250 2.0.0 posted 1', 'a post')
    check(world.is_out(3), 'it did not go out')
    world.end()
    shutil.copytree(world.place / 'state', world.place / 'old', ignore=shutil.ignore_patterns('status'))  # A socket isn't copied.
    world.begin()
    for n in (2, 3):
        same(world.post(n), f'250 2.0.0 posted {n}', 'a post')
    world.end(signal.SIGKILL)
    shutil.rmtree(world.place / 'state')
    (world.place / 'old').rename(world.place / 'state')
    world.begin()
    same(world.post(4), '250 2.0.0 posted 4', 'after an old copy')
    same(world.post(1), '250 2.0.0 posted 1', 'a mail that the copy has')
    world.end(signal.SIGKILL)
    shutil.rmtree(world.place / 'state')
    world.begin()
    same(world.post(5), '250 2.0.0 posted 5', 'without notes')
    check(until(lambda: world.queue() == 0), 'the queue stays')
    same(sorted(set(world.sink.recipients())), MEMBERS, 'members')


def case_old_list(world):
    """If an old copy of the list stands in its place, new posts go to all, also under the id of an entry that was handed on before."""
    world.list()
    world.begin()
    world.end()
    shutil.copytree(world.folder(), world.place / 'old')
    world.sink.defer = {'b@m.net'}
    world.begin()
    same(world.post(1), '250 2.0.0 posted 1', 'a post')
    check(until(lambda: len(world.sink.copies) == 2), 'it did not go out')
    world.end(signal.SIGKILL)
    check(until(world.is_alone), 'a run goes on')
    shutil.rmtree(world.folder())
    (world.place / 'old').rename(world.folder())
    world.sink.defer = set()
    same(world.run('cats', 'deliver', '0', 'w@m.net', f'cats@{HOST}', given=post(2)), '0 0 posted 1\n', 'a post by hand')
    world.begin()
    check(world.is_out(5), f'{len(world.sink.copies)} copies')
    same(world.post(3), '250 2.0.0 posted 2', 'a new post')


def case_floor_by_hand(world):
    """A floor that was raised by hand puts mail off once, and loses none."""
    world.list()
    world.begin()
    world.post(1)
    check(world.is_out(3), 'it did not go out')
    world.end()
    same(world.run('cats', 'floor', '0', '5000'), '0 0 floored 5000\n', 'the floor')
    world.begin()
    same(world.post(2), '250 2.0.0 posted 2', 'a new mail after a new start')
    same(world.run('cats', 'floor', '0', '9000'), '0 0 floored 9000\n', 'the floor')
    begins(world.post(3), '451', 'a new mail')
    same(world.post(3), '250 2.0.0 posted 3', 'the same again')


def case_forgotten(world):
    """Numbers of mails that can't come again are forgotten, and the list's answers to them; none that may."""
    world.list()
    world.begin()
    for n in range(1, 5):
        world.post(n)
    check(world.is_out(12), 'not all went out')
    world.end()
    world.notes('UPDATE mail SET first = first - 15 * 86400 - 10 WHERE number < 514',
                'UPDATE mail SET first = first - 15 * 86400 + 900 WHERE number = 514')
    world.begin(words=HASTY)
    floor = world.folder() / 'floor'
    check(until(lambda: floor.exists() and floor.read_text() == '514\n'), 'the floor did not rise')
    same(world.run('cats', 'sub', '513', 'list', 'x@y').split()[2], 'stale', 'an answer below the floor')
    same(world.post(3), '250 2.0.0 posted 3', 'one that may come again')
    same(world.post(1), '250 2.0.0 posted 5', 'one that was forgotten counts again')
    same(world.post(6), '250 2.0.0 posted 6', 'a new one')
    world.end()
    same(world.notes('SELECT min(number), max(number) FROM mail'), [(514, 517)], 'numbers')


def case_forgotten_in_order(world):
    """When the agent is killed between the notes and the list, or the list refuses the floor, no mail is lost."""
    world.list()
    world.begin()
    world.post(1)
    check(world.is_out(3), 'it did not go out')
    world.end()
    # The notes forgot the mail, and the list still has its answer.
    world.notes('DELETE FROM mail')
    world.begin(words=HASTY)
    same(world.post(1), '250 2.0.0 posted 2', 'one that was forgotten counts again')
    floor = world.folder() / 'floor'
    check(until(lambda: floor.exists() and floor.read_text() == '513\n'), 'the floor did not rise')
    same(world.post(2), '250 2.0.0 posted 3', 'a new one')


def case_floor_in_steps(world):
    """The floor rises as far as it has to, also by more than one item may raise it."""
    world.list()
    world.begin()
    world.post(1)
    check(world.is_out(3), 'it did not go out')
    world.end()
    world.notes('DELETE FROM mail', 'UPDATE next SET number = 1500000')
    world.begin(words=HASTY)
    floor = world.folder() / 'floor'
    check(until(lambda: floor.exists() and floor.read_text() == '1500000\n'), 'the floor did not rise')
    same(world.post(2), '250 2.0.0 posted 2', 'a new one')


def case_clock_back(world):
    """A clock that goes back loses no mail."""
    world.list()
    world.begin()
    world.post(1)
    check(world.is_out(3), 'it did not go out')
    world.end()
    world.notes('UPDATE mail SET first = first + 100 * 86400')
    os.utime(world.folder() / 'num', (0, 0))
    world.begin()
    same(world.post(1), '250 2.0.0 posted 1', 'the same')
    same(world.post(2), '250 2.0.0 posted 2', 'a new one')
