"""What a monitor hears: of lists that take no mail, of an agent that hangs, and of a transfer agent that is away."""

import contextlib
import json
import os
import pathlib
import pwd
import shutil
import signal
import socket
import subprocess
import sys
import time

from .sink import Sink
from .world import HOST, TOP, begins, check, held, same, until

sys.path.insert(0, str(TOP / 'agent'))
from ezmlm_agent import asking  # noqa: E402

# The agent for which what is critical after minutes is so after half a second, and which looks twice a second.
EARLY = ('/usr/bin/python3', '-c', '''
import sys
sys.path[:0] = sys.argv[1:3]
from ezmlm_agent import __main__, outgoing, retrying, smtp, standing
__main__.LOOKS, outgoing.LOOKS, retrying.SHORTEST, smtp.LOOKS = 0.5, 0.5, 0.5, 0.5
standing.PUT_OFF = standing.OUT = standing.AWAY = 0.5
__main__.main(sys.argv[3:])
''', TOP / 'agent', TOP / 'admin')
PATHS = 'import sys; sys.path[:0] = sys.argv[1:3]; from ezmlm_{0} import __main__; sys.exit(__main__.main(sys.argv[3:]))'


def asked(world, *words, command='agent', **more):
    """The status and the output of a monitor's command."""
    start = ['/usr/bin/python3', '-P', '-c', PATHS.format(command), TOP / 'agent', TOP / 'admin']
    done = subprocess.run([*start, *words], capture_output=True, text=True, check=False, **more)
    return done.returncode, done.stdout + done.stderr


def status(world, *words, **more):
    return asked(world, '--status', world.settings(), *words, **more)


def watch(world, **more):
    return asked(world, '--program', world.program, 'watch', world.settings(), command='admin', **more)


def both_say(world, wanted, level):
    """Whether both commands come to say this, with this status."""
    for said in (status, watch):
        found = []
        check(until(lambda: found.append(said(world)) or wanted in found[-1][1].split(' | ')[0] and found[-1][0] == level), found[-1])
        check(found[-1][1].splitlines()[0].startswith(f'EZMLM{"-AGENT" * (said is status)} {asking.NAMES[level]} - '), found[-1])
        check(all(len(line.encode()) <= 4096 for line in found[-1][1].splitlines()), 'a line is too long')


def case_watched(world):
    """All is well with lists that work, by both commands; and nothing is when no agent runs."""
    world.list()
    world.list('dogs')
    world.begin(words=EARLY)
    same(world.post(1), '250 2.0.0 posted 1', 'a post')
    check(world.is_out(3), 'it did not go out')
    same(status(world), (0, 'EZMLM-AGENT OK - 2 lists\ncats: queue 0\ndogs: queue 0\n'), 'the status')
    level, text = watch(world)
    check(level == 0 and text.startswith('EZMLM OK - 2 lists are whole | '), text)
    same(status(world, 'cats'), (0, 'EZMLM-AGENT OK - 1 list\ncats: queue 0\n'), 'the status of one list')
    begins(status(world, 'birds')[1], 'EZMLM-AGENT CRITICAL - there is no list birds', 'a list that is not there')
    world.end()
    both_say(world, 'no agent runs here', 2)


def case_watched_held(world):
    """A list that another run has for long is critical, with the cause, and is well again after that though no mail comes."""
    world.rows['patience'] = 1
    world.list()
    world.begin(words=EARLY)
    with held(world.folder()):
        begins(world.post(1), '451', 'a mail')
        wanted = f'cats: puts mail off for'
        check(until(lambda: wanted in status(world, 'cats')[1]), 'it is not told')
        found = status(world)
        check(found[0] == 2 and 'another run has the list' in found[1] and str(world.folder() / 'lock') in found[1], found)
    check(until(lambda: status(world)[0] == 0), 'it stays critical')
    same(world.post(1), '250 2.0.0 posted 1', 'the mail')


def case_watched_damage(world):
    """A damaged file is critical, with its path, and so is a pipe in the place of a configuration; mended, both are well again though no mail
    comes."""
    folder = world.list()
    world.list('dogs')
    world.begin(words=EARLY)
    (folder / 'num').write_bytes(b'x\n')
    begins(world.post(1), '451 4.3.0 75 num', 'the damaged list')
    both_say(world, f'puts mail off for', 2)
    check(f'75 num: this file is damaged ({folder}/num)' in status(world)[1], status(world))
    same(world.mail('w@m.net', [f'cats-help@{HOST}'], b'x: y\n\n'), ['250 2.0.0 help'], 'what does not read it')
    both_say(world, f'puts mail off for', 2)
    (folder / 'num').write_bytes(b'0\n')
    check(until(lambda: status(world)[0] == 0), f'it stays critical: {status(world)}')
    config = world.folder('dogs') / 'config'
    with held(world.folder('dogs')):
        config.rename(world.place / 'config')
        os.mkfifo(config)
    both_say(world, 'dogs: puts mail off for', 2)
    check(f'{config} is no file' in status(world)[1], status(world))
    config.unlink()
    (world.place / 'config').rename(config)
    check(until(lambda: status(world)[0] == 0), f'it stays critical: {status(world)}')
    with held(folder):
        folder.rename(world.place / 'aside')
    both_say(world, 'cats: puts mail off for', 2)
    check('its folder isn\'t there' in status(world)[1], status(world))
    (world.place / 'aside').rename(folder)
    check(until(lambda: status(world)[0] == 0), f'it stays critical: {status(world)}')


def case_watched_stopped(world):
    """An agent that is stopped, and so answers nothing, is critical after a second."""
    world.list()
    world.begin(words=EARLY)
    check(until(lambda: status(world)[0] == 0), 'it is not well')
    world.agent.send_signal(signal.SIGSTOP)
    try:
        begun = time.monotonic()
        same([fault[2] for fault in asking.ask(chosen(world)).faults], ['the agent doesn\'t answer within 1 s: it is stopped, or hangs'], 'told')
        check(time.monotonic() - begun < 60, 'it is waited for')
        both_say(world, 'the agent doesn\'t answer within 1 s', 2)
    finally:
        world.agent.send_signal(signal.SIGCONT)
    check(until(lambda: status(world)[0] == 0), 'it stays critical')


def chosen(world):
    from ezmlm_agent import settings
    return settings.read(str(world.settings()))


def case_watched_away(world):
    """A transfer agent that is away is critical though no mail goes out, and so is what waits then; and one that puts all off."""
    world.list()
    world.sink.stop()
    pathlib.Path(world.rows['mta']).unlink(missing_ok=True)
    world.begin(words=EARLY)
    both_say(world, 'the transfer agent is away for', 2)
    same(world.post(1), '250 2.0.0 posted 1', 'a post')
    both_say(world, 'cats: hands nothing on for', 2)
    world.sink = Sink(str(world.rows['mta']))
    check(world.is_out(3), 'it did not go out')
    check(until(lambda: status(world)[0] == 0), f'it stays critical: {status(world)}')
    world.sink.defer = {'a@m.net'}
    same(world.post(2), '250 2.0.0 posted 2', 'a post')
    check(world.tells('entry 2 is tried again', times=2), 'it is not tried again')
    same(status(world)[0], 0, 'one recipient who is put off')


def case_watched_socket(world):
    """Nobody at the status socket keeps the agent from its work or from answering: not many, not who says much, and not who takes nothing. Who
    may reach the socket alone hears what the agent knows."""
    world.rows['status'] = world.place / 'ask' / 'status'
    (world.place / 'ask').mkdir()
    world.list()
    world.begin()
    same(oct((world.place / 'ask/status').stat().st_mode & 0o777), '0o660', 'the mode of the socket')
    with contextlib.ExitStack() as all_of_them:
        for n in range(200):
            one = all_of_them.enter_context(socket.socket(socket.AF_UNIX))
            one.setblocking(False)
            if one.connect_ex(str(world.rows['status'])) == 0 and n % 2:
                with contextlib.suppress(OSError):
                    one.send(b'x' * 100_000)
        same(world.post(1), '250 2.0.0 posted 1', 'a post meanwhile')
        check(until(lambda: status(world)[0] == 0), status(world))
    check(world.is_out(3), 'it did not go out')
    if os.geteuid() == 0:
        nobody = pwd.getpwnam('nobody')
        world.place.chmod(0o711)
        (world.place / 'agent.conf').chmod(0o644)
        for path in (world.place / 'ask', world.place / 'ask/status'):
            shutil.chown(path, group=nobody.pw_gid)
        (world.place / 'ask').chmod(0o750)
        def demoted():
            os.setgroups([])
            os.setgid(nobody.pw_gid)
            os.setuid(nobody.pw_uid)
        same(asked(world, '--status', world.place / 'agent.conf', preexec_fn=demoted), (0, 'EZMLM-AGENT OK - 1 list\ncats: queue 0\n'), 'to nobody')
        (world.place / 'ask').chmod(0o700)
        found = asked(world, '--status', world.place / 'agent.conf', preexec_fn=demoted)
        check(found[0] == 3 and 'EZMLM-AGENT UNKNOWN - this user can\'t ask the agent' in found[1], found)
        world.place.chmod(0o700)


def case_watched_lines(world):
    """A line has 4,096 bytes at most, the worst first, and says how much more there is."""
    del world
    rows = [(asking.WARNING, f'list{n}', 'x' * 40) for n in range(200)] + [(asking.CRITICAL, 'last', 'the worst')]
    line = asking.line('EZMLM', rows, 'all is well')
    check(line.startswith('EZMLM CRITICAL - last: the worst; list0: xxx'), line)
    shown = line.count('xxx; ') + 1
    check(3900 < len(line) <= 4096 and line.endswith(f'; and {201 - line.count(": ")} more'), f'{len(line)}, {shown}: {line[-60:]}')
    same(asking.line('EZMLM', [], '3 lists'), 'EZMLM OK - 3 lists', 'nothing wrong')
    same(len(asking.line('EZMLM', [(2, 'a', 'ü' * 5000)], '').encode()) in (4095, 4096), True, 'one long one')
    sys.path.insert(1, str(TOP / 'admin'))
    from ezmlm_admin import monitoring
    measures = [f"'list{n} posts'={n};;;0;" for n in range(2000)]
    lines = monitoring.lines_of('EZMLM OK - 2000 lists are whole', measures)
    check(max(map(len, lines)) <= 4096 and len(lines) > 10, 'the measures')
    same(' '.join(lines).replace(' more |', '').split(' | ')[1].split(' \''), ' '.join(measures).split(' \''), 'all measures')
    same(monitoring.lines_of('EZMLM OK - x', measures[:2]), ["EZMLM OK - x | 'list0 posts'=0;;;0; 'list1 posts'=1;;;0;"], 'two')


def case_watched_many(world):
    """200 lists, each with something wrong, are told in lines of 4,096 bytes, by both commands and the socket."""
    world.rows['lists'].mkdir(exist_ok=True)
    world.list('l0')
    for n in range(1, 200):
        with held(world.folder('l0')):
            shutil.copytree(world.folder('l0'), world.folder(f'l{n}'))
        config = world.folder(f'l{n}') / 'config'
        config.write_bytes(config.read_bytes().replace(b'local l0', b'local l%d' % n))
        if n > 1:
            os.unlink(config)
            os.mkfifo(config)
    world.begin(words=EARLY)
    check(until(lambda: len(asking.ask(chosen(world)).faults) == 198), len(asking.ask(chosen(world)).faults))
    for said in (status, watch):
        level, text = said(world)
        lines = text.splitlines()
        check(level == 2 and ' more' in lines[0] and max(len(line.encode()) for line in lines) <= 4096, f'{level}: {lines[0]}')
    json.loads(asking.answer(chosen(world).status))
