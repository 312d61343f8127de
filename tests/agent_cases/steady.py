"""What ends by an error is told and begun anew; entries on which the transfer agent hangs up are set aside; signals, and what systemd hears."""

import os
import signal
import socket
import subprocess
import sys

from .sink import never
from .watched import EARLY, asked, status
from .world import HOST, TOP, begins, check, post, same, until

# The agent in which each task ends once by an error, each of another kind.
BREAKS = ('/usr/bin/python3', '-c', '''
import asyncio, sqlite3, sys
sys.path[:0] = sys.argv[1:3]
from ezmlm_agent import __main__, apart, handing, lists, lmtp, mailing, outgoing, policy, program, retrying, smtp, standing, tended, trouble
__main__.LOOKS, outgoing.LOOKS, retrying.SHORTEST, tended.SHORTEST, smtp.LOOKS = 0.3, 0.3, 0.3, 0.1, 0.1
def once(of, name, error):
    call, left = getattr(of, name), [1]
    def broken(*words, **more):
        if left[0]:
            left[0] -= 1
            raise error
        return call(*words, **more)
    setattr(of, name, broken)
once(mailing.MailingList, 'work_once', RuntimeError('the worker'))
once(mailing.MailingList, 'items', asyncio.CancelledError('the items'))
once(outgoing.Queue, 'wait_for_change', KeyError('the queue'))
once(outgoing.Queue, 'due', asyncio.CancelledError('what is due'))
once(handing.Handing, 'hand_on', MemoryError('the entry'))
once(lists.Lists, 'look', ZeroDivisionError('the look'))
once(smtp.Exchange, 'look', TypeError('the transfer agent'))
once(smtp.Exchange, 'close_unused', ValueError('what is done every minute'))
once(program.Run, 'told', AttributeError('the answers'))
once(lmtp.Session, 'data', LookupError('a connection'))
once(standing.Standing, 'answer', UnicodeError('the status'))
__main__.main(sys.argv[3:])
''', TOP / 'agent', TOP / 'admin')
TOLD = ('cats: its worker ended by an error, and is begun anew in 0.1 s: RuntimeError: the worker (', 'CancelledError: the items',
        'its queue ended by an error, and is begun anew in 0.1 s: KeyError: \'the queue\' (', 'CancelledError: what is due',
        'entry 1 stays: MemoryError: the entry', 'the lists can\'t be looked at: ZeroDivisionError: the look',
        'the look whether the transfer agent is there ended by an error, and is begun anew in 0.1 s: TypeError: the transfer agent',
        'what is done every minute ended by an error, and is begun anew in 0.1 s: ValueError: what is done every minute',
        'an answer couldn\'t be taken: AttributeError: the answers', 'a connection of LMTP ended by an error: LookupError: a connection', 'a monitor has no answer: UnicodeError: the status')
# The agent for which the look why a list failed is itself stuck, as on a disk that is gone.
BLOCKED = ('/usr/bin/python3', '-c', '''
import os, sys, time
sys.path[:0] = sys.argv[1:3]
from ezmlm_agent import __main__, aside, notes, retrying, trouble
retrying.SHORTEST = 0.5
aside.Aside.call.__kwdefaults__['seconds'] = 1
def opened(path):
    if os.path.exists(os.environ['STUCK']):
        raise OSError(5, 'Input/output error')
    return before(path)
def look(*words):
    time.sleep(5)
before, notes.opened, trouble.of_error = notes.opened, opened, look
__main__.main(sys.argv[3:])
''', TOP / 'agent', TOP / 'admin')


def case_broken_tasks(world):
    """Each task that ends by an error, whichever, is told at once and begun anew, and all mail goes its way."""
    world.list()
    world.list('dogs')
    world.rows['patience'] = 5
    world.begin(words=BREAKS)
    status(world)
    check(until(lambda: world.post(1) == '250 2.0.0 posted 1'), 'it is not posted')
    same(until(lambda: world.post(2, to='dogs') == '250 2.0.0 posted 1'), True, 'the other list')
    check(world.is_out(3) or world.is_out(6), f'{len(world.sink.copies)} copies')
    check(until(lambda: len(world.sink.copies) == 6 and world.queue('dogs') == 0), f'{len(world.sink.copies)} copies')
    for words in TOLD:
        check(world.tells(words), f'the log does not tell: {words}')
    check(until(lambda: status(world)[0] == 0), status(world))


def case_blocked_look(world):
    """A list whose look why it failed hangs too, as on a disk that is gone, has a worker afterwards, and takes mail when the disk is back."""
    world.list()
    stuck = world.place / 'stuck'
    stuck.touch()
    os.environ['STUCK'] = str(stuck)
    world.rows['patience'] = 3
    world.begin(words=BLOCKED)
    for _ in range(3):
        begins(world.post(1), '451', 'a mail')
    check(world.tells('Input/output error', 'the look why ended so'), 'the log does not tell it')
    stuck.unlink()
    check(until(lambda: world.post(1) == '250 2.0.0 posted 1'), 'the list is not served')


# The agent whose entries are tried again at once.
SOON = (*EARLY[:2], EARLY[2].replace('__main__.main', 'outgoing.SHORTEST, outgoing.LONGEST = 0.1, 0.1\n__main__.main'), *EARLY[3:])


def case_set_aside(world):
    """An entry on which the transfer agent hangs up five times is set aside while others go on, its list's owner hears of it, and given again it
    goes to those who had no copy; a transfer agent that hangs up on all mail has none set aside."""
    world.list()
    world.sink.refuse_to_take = lambda envelope: b'poison' in envelope.content
    world.begin(words=SOON)
    same(world.post(1, body='poison'), '250 2.0.0 posted 1', 'the mail')
    check(until(lambda: world.log().count('entry 1 is tried again') >= 2), 'it is not tried again')
    same(world.post(2), '250 2.0.0 posted 2', 'another mail')
    check(world.tells('cats: entry 1 is set aside: the transfer agent hung up on it 5 times'), 'it is not set aside')
    check(until(lambda: 'owner@m.net' in world.sink.recipients()), 'its owner does not hear of it')
    sender, _, content = next(copy for copy in world.sink.copies if copy[1] == 'owner@m.net')
    same((sender, b'cats@ex.org: mail is set aside' in content, b'\n  1: ' in content.replace(b'\r', b'')), ('<>', True, True), 'the mail to the owner')
    same(sorted(r for r in world.sink.recipients() if r != 'owner@m.net'), ['a@m.net', 'b@m.net', 'c@m.net'], 'copies')
    tried = world.sink.hung
    level, text = status(world)
    check('cats: 1 entry is set aside, on which the transfer agent hangs up' in text and level == 1, text)

    def admin(*words):
        return asked(world, '--program', world.program, '--agent', world.settings(), world.folder(), *words, command='admin')
    level, text = admin('aside')
    check(level == 0 and text.splitlines()[1].split()[0] == '1' and 'hello' in text, text)
    same(world.queue(), 1, 'entries of the queue')
    world.end()
    world.begin(words=SOON)
    same(world.post(3), '250 2.0.0 posted 3', 'a mail after a new start')
    check(until(lambda: world.sink.recipients().count('a@m.net') == 2), 'it does not go out')
    same((world.sink.hung, world.sink.recipients().count('owner@m.net')), (tried, 1), 'tries meanwhile, and mails to the owner')
    same(admin('again', '2'), (100, 'ezmlm-admin: entry 2 isn\'t set aside\n'), 'another entry')
    world.sink.refuse_to_take = never
    same(admin('again', '1')[0], 0, 'given again')
    check(until(lambda: world.queue() == 0), 'it does not go out')
    same([world.sink.recipients().count(f'{name}@m.net') for name in 'abc'], [3, 3, 3], 'copies')
    check(until(lambda: status(world)[0] == 0), status(world))
    world.sink.refuse_to_take = lambda _: True
    for n in (4, 5):
        same(world.post(n), f'250 2.0.0 posted {n}', 'mails that all are hung up on')
    check(world.tells('entry 4 is tried again', 'entry 5 is tried again', times=8), world.log()[-500:])
    same(world.log().count('is set aside:'), 1, 'entries that were set aside')


def case_hang_up(world):
    """SIGHUP reads the settings anew: what can be changed is, what can't stays and is told, and wrong ones change nothing."""
    world.rows['auto_posts'] = 'take'
    world.list()
    world.begin()
    automatic = b'Auto-Submitted: auto-generated\n'
    same(world.mail('w@m.net', [f'cats@{HOST}'], automatic + post(1)), ['250 2.0.0 posted 1'], 'an automatic post')
    world.rows.update(auto_posts='refuse', replies=1, runs=9)
    world.settings()
    world.agent.send_signal(signal.SIGHUP)
    check(world.tells('the settings were read anew: auto_posts, replies changed', 'runs changed, and counts from a new start on'), 'not told')
    begins(world.mail('w@m.net', [f'cats@{HOST}'], automatic + post(2))[0], '550 5.7.1', 'an automatic post')
    same([world.mail('f@m.net', [f'cats-help@{HOST}'], post(n)) for n in (1, 2)], [['250 2.0.0 help'], ['250 2.0.0 dropped']], 'two requests')
    world.rows['batch'] = 0
    world.settings()
    world.agent.send_signal(signal.SIGHUP)
    check(world.tells('the settings stay as they were: ', 'batch is below 1'), 'not told')
    begins(world.mail('w@m.net', [f'cats@{HOST}'], automatic + post(3))[0], '550 5.7.1', 'after wrong ones')
    same(world.post(4), '250 2.0.0 posted 2', 'a post')
    del world.rows['batch']
    world.rows['auto_posts'] = 'take'
    world.settings()
    world.agent.send_signal(signal.SIGHUP)
    check(world.tells('the settings were read anew: auto_posts changed'), 'not told')
    same(world.mail('w@m.net', [f'cats@{HOST}'], automatic + post(5)), ['250 2.0.0 posted 3'], 'an automatic post')


def case_systemd(world):
    """systemd hears that the agent is ready, that its event loop goes round, that it reads its settings, and that it stops; and nothing while the
    event loop hangs."""
    world.list()
    with socket.socket(socket.AF_UNIX, socket.SOCK_DGRAM) as told:
        told.bind(str(world.place / 'told'))
        told.settimeout(30)
        hangs = '''
import os, sys, time
sys.path.insert(0, sys.argv[1])
os.environ['WATCHDOG_PID'] = str(os.getpid())
from ezmlm_agent import __main__, standing
standing.Standing.answer = lambda self: time.sleep(2) or b''
__main__.main(sys.argv[2:])
'''
        os.environ.update(NOTIFY_SOCKET=str(world.place / 'told'), WATCHDOG_USEC='200000')
        try:
            world.begin(words=('/usr/bin/python3', '-c', hangs, TOP / 'agent'))
        finally:
            del os.environ['NOTIFY_SOCKET'], os.environ['WATCHDOG_USEC']
        same([told.recv(100) for _ in range(5)], [b'READY=1'] + [b'WATCHDOG=1'] * 4, 'what is told')
        world.agent.send_signal(signal.SIGHUP)
        heard = []
        check(until(lambda: heard.append(told.recv(100)) or b'READY=1' in heard), 'it is not ready again')
        check(b'RELOADING=1' in heard, heard)
        subprocess.run([sys.executable, '-c', 'import socket, sys; s = socket.socket(socket.AF_UNIX); s.connect(sys.argv[1]); s.recv(1)',
                        world.place / 'state/status'], check=True)
        told.settimeout(0)
        many = 0
        with_all = []
        try:
            while True:
                with_all.append(told.recv(100))
        except BlockingIOError:
            many = len(with_all)
        check(many <= 6, f'{many} while it hangs for two seconds')
        told.settimeout(30)
        world.agent.send_signal(signal.SIGTERM)
        check(until(lambda: told.recv(100) == b'STOPPING=1'), 'it does not say that it stops')
        same(world.agent.wait(30), 0, 'the status')
