"""What a host does to the agent: other agents, damaged notes, systemd's sockets, strange bytes."""

import os
import re
import signal
import socket
import sqlite3
import stat
import subprocess
import sys
import threading
import time

from .checking import checked
from .world import HOST, TOP, Client, begins, check, held, post, same, until

sys.path.insert(0, str(TOP / 'agent'))
from ezmlm_agent import listening, trouble  # noqa: E402

# Starts the agent as systemd does by its sockets: they are the descriptors from 3 on.
ACTIVATED = ('/usr/bin/python3', '-c', '''
import os, socket, sys
many = int(sys.argv[1])
for number, path in enumerate(sys.argv[2:2 + many]):
    os.dup2(int(path), 3 + number)
os.environ.update(LISTEN_PID=str(os.getpid()), LISTEN_FDS=str(many))
os.execv(sys.argv[2 + many], sys.argv[2 + many:])
''')


def again(world, **rows):
    """What an agent says and how it ends that can't begin, with other settings than these."""
    kept, world.rows = world.rows, world.rows | rows
    done = subprocess.run([*world.words, world.settings()], capture_output=True, text=True, check=False)
    world.rows = kept
    world.settings()
    return done.returncode, done.stderr


def case_two_agents_at_one_socket(world):
    """A second agent with another state doesn't take the socket of one that serves, whatever became of the lock beside it; a socket that
    nobody serves is taken."""
    world.list()
    world.begin()
    for _ in range(2):
        status, said = again(world, state=world.place / 'other')
        check(status == 1 and 'listens there' in said and said.count('\n') == 1, f'the second: {status}, {said}')
        same(world.post(1), '250 2.0.0 posted 1', 'the first')
        (world.place / 'lmtp.lock').unlink(missing_ok=True)
    world.end(signal.SIGKILL)
    check(stat.S_ISSOCK(os.stat(world.place / 'lmtp').st_mode), 'the socket is gone')
    world.begin()
    same(world.post(1), '250 2.0.0 posted 1', 'over the socket of one that was killed')
    world.end()
    (world.place / 'lmtp').unlink()
    (world.place / 'lmtp').write_text('mine')
    status, said = again(world)
    check(status == 1 and 'no socket' in said, f'over a file: {status}, {said}')
    same((world.place / 'lmtp').read_text(), 'mine', 'the file')


def case_activated(world):
    """With sockets of systemd's no connection is refused while the agent is started anew, and mail that came meanwhile is taken."""
    world.rows['policy'] = world.place / 'policy'
    world.list()
    sockets = []
    for name in ('policy', 'lmtp'):
        sockets.append(socket.socket(socket.AF_UNIX))
        sockets[-1].bind(str(world.place / name))
        sockets[-1].listen(64)
        sockets[-1].set_inheritable(True)
    numbers = [str(each.fileno()) for each in sockets]
    start = subprocess.Popen

    def passing(*words, **more):
        return start(*words, **more, close_fds=False)
    subprocess.Popen = passing
    try:
        world.begin(words=[*ACTIVATED, '2', *numbers, *world.words])
        same(world.post(1), '250 2.0.0 posted 1', 'a post')
        world.end()
        said = []
        waiting = threading.Thread(target=lambda: said.append(world.post(2)))
        waiting.start()
        time.sleep(0.2)
        same(said, [], 'while nobody serves')
        world.begin(words=[*ACTIVATED, '2', *numbers, *world.words])
        waiting.join()
    finally:
        subprocess.Popen = start
    same(said, ['250 2.0.0 posted 2'], 'a post that came meanwhile')
    check((world.place / 'lmtp').exists() and not (world.place / 'lmtp.lock').exists(), 'the agent took the socket for its own')
    for each in sockets:
        each.close()


def case_damaged_notes(world):
    """Notes that are damaged are set aside under another name and begun anew from what the list has answered; --check tells of them."""
    world.list()
    world.begin()
    same(world.post(1), '250 2.0.0 posted 1', 'a post')
    check(world.is_out(3), 'it did not go out')
    world.end()
    notes = world.place / 'state/cats.sqlite'
    kept = notes.read_bytes()
    for n, bad in enumerate((b'no database at all' * 100, kept[:2000] + os.urandom(len(kept) - 2000), b'other tables'), 2):
        notes.write_bytes(bad)
        for end in ('-wal', '-shm'):
            notes.with_name(notes.name + end).unlink(missing_ok=True)
        if n == 4:
            notes.unlink()
            with sqlite3.connect(notes) as database:
                database.execute('CREATE TABLE mail (other TEXT)')
        status, said = checked(world)
        check(status == 1 and 'these notes are damaged' in said, f'--check: {said}')
        world.begin()
        same(world.post(n), f'250 2.0.0 posted {n}', 'a post over damaged notes')
        check(world.tells('cats: its notes were damaged', times=n - 1), 'the log does not tell it')
        check(world.is_out(3 * n), 'it did not go out')
        world.end()
    same(len(list((world.place / 'state').glob('cats.sqlite.bad-*[0-9]'))), 3, 'notes that were set aside')
    same(checked(world)[0], 0, 'the status of --check')


def case_notes_damaged_while_open(world):
    """Notes that are damaged while the agent has them are set aside too, and mail goes on."""
    world.list()
    world.begin()
    same(world.post(1), '250 2.0.0 posted 1', 'a post')
    check(world.is_out(3), 'it did not go out')
    for name in ('cats.sqlite', 'cats.sqlite-wal'):
        path = world.place / 'state' / name
        with open(path, 'r+b') as file:
            file.write(os.urandom(max(1, path.stat().st_size)))
    check(until(lambda: (world.post(2) or '').startswith('250')), 'mail does not go on')
    check(until(lambda: world.queue() == 0), 'the queue stays')
    same(world.posts(), 2, 'posts')


def case_log_without_control(world):
    """No byte of a stranger or of the transfer agent ends a line of the log or moves a cursor."""
    world.list(members=['a@m.net'])
    world.sink.refuse, world.sink.refusal = {'a@m.net'}, '550 5.1.1 bad \x1b[2J\x07\x00 no'
    world.begin()
    same(world.post(1), '250 2.0.0 posted 1', 'a post')
    check(world.is_out(0), 'it stays')
    same(world.mail('a\x1b[2J\u202e@m.net', [f'cats-help@{HOST}'], post(2))[0][:3], '550', 'a sender that is no address')
    (world.folder('x\x1b]0;y\n') / 'config').parent.mkdir()
    (world.folder('x\x1b]0;y\n') / 'config').write_bytes(b'none')
    begins(world.post(3, to='birds'), '451 4.3.0', 'an address that may be the damaged list\'s')
    check(world.tells('x\\x1b]0;y\\n: '), 'the damaged list is not told')
    world.end()
    bad = sorted(set(re.findall(r'[^\n\x20-\x7e]', world.log())))
    same(bad, [], 'bytes of the log')
    check('550 5.1.1 bad \\x1b[2J\\x07' in world.log(), 'the words are not shown')


def case_causes(world):
    """A lock, a full disk, a lack of permission and a damaged file each have words of their own, with the path and what helps."""
    folder = world.list()
    same(str(trouble.of_ending(folder, 75, 'num')), f'this file is damaged ({folder}/num): put a backup of the list back, or see CHECKING A LIST in '
         'ezmlm(1)', 'a damaged file')
    with held(folder):
        check(str(trouble.of_ending(folder, 111, 'disk')).startswith(f'another run has the list ({folder}/lock): '), 'a lock')
    check(str(trouble.of_ending(folder, 111, 'disk')).startswith(f'another run had the list, or its disk failed ({folder}): '), 'neither')
    same(trouble.of_error(folder, OSError(28, 'No space left', str(folder))).what, 'the disk is full', 'ENOSPC')
    same(trouble.of_error(folder, PermissionError(13, 'Permission denied', str(folder / 'num'))).advice.startswith('give it to the agent\'s user: chown -R'), True,
         'EACCES')
    same(trouble.of_error(folder, ValueError('x')), None, 'another error')
    if os.geteuid() == 0:
        full_disk(world)
        as_nobody = f'''
import pathlib, sys, os
sys.path.insert(0, {str(TOP / "agent")!r})
from ezmlm_agent import trouble
os.setgid(65534); os.setuid(65534)
print(trouble.of_ending(pathlib.Path({str(folder)!r}), 111, 'disk'))
'''
        for path in (world.place, world.place / 'lists', folder):
            path.chmod(0o777)
        said = subprocess.run(['/usr/bin/python3', '-P', '-c', as_nobody], capture_output=True, text=True, check=False)
        check(said.stdout.startswith(f'no permission ({folder}') and 'chown -R nobody:' in said.stdout, f'no permission: {said}')
        for path in (world.place, world.place / 'lists', folder):
            path.chmod(0o700)


def full_disk(world):
    """A list on a disk of its own that is full."""
    place = world.place / 'disk'
    place.mkdir()
    if subprocess.run(['mount', '-t', 'tmpfs', '-o', 'size=64k', 'none', place], capture_output=True, check=False).returncode:
        world.note += 'No disk could be mounted. '
        return
    try:
        (place / 'lock').touch()
        same(str(trouble.of_ending(place, 111, 'disk')), f'the disk is full ({place}): make room', 'a full disk')
    finally:
        subprocess.run(['umount', place], check=True)


def case_limits(world):
    """MAIL before LHLO, a size above the limit at MAIL, a line without an end, and recipients that fill the memory: each has its refusal."""
    world.rows.update(memory=1, replies=0)
    world.list()
    world.begin()
    with socket.socket(socket.AF_UNIX) as raw:
        raw.connect(str(world.place / 'lmtp'))
        file = raw.makefile('rb')
        begins(file.readline().decode(), '220 ', 'the greeting')
        raw.sendall(b'MAIL FROM:<a@b>\r\n')
        begins(file.readline().decode(), '503 5.5.1', 'MAIL before LHLO')
    with Client(world.place / 'lmtp') as client:
        begins(client.command(b'MAIL FROM:<a@b> SIZE=67108865'), '552 5.3.4', 'a size above the limit')
        begins(client.command(b'MAIL FROM:<a@b> BODY=8BITMIME size=99999999999999999999 X=1'), '552 5.3.4', 'a size of twenty digits')
        begins(client.command(b'MAIL FROM:<a@b> SIZE=67108864'), '250', 'the largest size')
        client.command(b'RSET')
        same(client.mail('w@m.net', [f'cats@{HOST}'], post(1)), ['250 2.0.0 posted 1'], 'a post')
        client.socket.sendall(b'x' * 5000)
        begins(client.reply(), '500 5.5.2', 'a line without an end')
        same(client.file.read(), b'', 'after it')
    clients = [Client(world.place / 'lmtp') for _ in range(4)]
    replies = []
    for client in clients:
        client.command(b'MAIL FROM:<a@b>')
        replies += [client.command(b'RCPT TO:<cats-%b-%d@ex.org>' % (b'x' * 900, n)) for n in range(300)]
    check(any(reply.startswith('452 4.3.1') for reply in replies), 'recipients take no memory')
    check(600 < sum(reply.startswith('250') for reply in replies) < 900, 'few recipients are taken')
    for client in clients:
        client.__exit__()
    check(until(lambda: world.post(2) == '250 2.0.0 posted 2'), 'the memory is not given back')


def case_sockets_by_address(world):
    """Which socket of systemd's is that of a setting."""
    path = str(world.place / 's')
    with socket.socket(socket.AF_UNIX) as one, socket.socket(socket.AF_INET) as two:
        one.bind(path)
        two.bind(('127.0.0.1', 0))
        port = two.getsockname()[1]
        rows = [(one, path, True), (one, f'{world.place}/../{world.place.name}/s', True), (one, f'{path}2', False), (two, f'127.0.0.1:{port}', True),
                (two, f'127.0.0.1:{port + 1}', False), (two, path, False), (one, f'127.0.0.1:{port}', False)]
        for found, address, wanted in rows:
            same(listening.is_at(found, address), wanted, address)
