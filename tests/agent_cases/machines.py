"""Hosts of a world that have the same lists: an agent on each with a copy of its own, over PostgreSQL servers of their own."""

import contextlib
import os
import re
import shutil
import signal
import subprocess
import threading

from . import servers
from .world import HOST, LISTENS, LONG, Client, Skipped, check, held, post, until

NAMES = 'one', 'two', 'three'


class Machine:
    """A host of a world: its folder of lists, and its agent."""

    def __init__(self, world, name, history, standby):
        self.world, self.name, self.place = world, name, world.place / name
        (self.place / 'lists').mkdir(parents=True)
        os.chmod(self.place / 'lists', 0o700)
        self.rows = {**world.rows, 'lists': self.place / 'lists', 'state': self.place / 'state', 'listen': self.place / 'lmtp', 'name': f'{name}.ex.org',
                     'history': history, 'host': name, 'standby': standby, 'takeover': 5}
        self.agent, self.told = None, bytearray()

    def settings(self):
        path = self.place / 'agent.conf'
        path.write_text('[agent]\n' + ''.join(f'{name} = {value}\n' for name, value in self.rows.items()))
        return path

    def folder(self, name='cats'):
        return self.place / 'lists' / name

    def begin(self, words=None):
        told = self.told
        before = told.count(LISTENS)
        self.agent = subprocess.Popen([*(words or self.world.words), self.settings()], stdout=subprocess.PIPE, stderr=subprocess.STDOUT)
        self.listening = threading.Thread(target=self.world.listen, args=[self.agent.stdout, told])
        self.listening.start()
        self.world.told.append(told) if not any(told is each for each in self.world.told) else None
        until(lambda: told.count(LISTENS) > before or self.agent.poll() is not None)

    def end(self, number=signal.SIGTERM):
        if self.agent is None:
            return None
        self.agent.send_signal(number)
        status = self.agent.wait(LONG)
        self.listening.join()
        self.agent = None
        return status

    def log(self):
        return self.told.decode(errors='replace')

    def says(self, *words):
        return until(lambda: all(word in self.log() for word in words))

    def command(self, word, *more, given=b''):
        done = subprocess.run([*self.world.words, word, self.settings(), *more], input=given, stdout=subprocess.PIPE, stderr=subprocess.STDOUT,
                              check=False)
        return done.returncode, done.stdout.decode()

    def mail(self, sender, recipient, message):
        try:
            with Client(self.place / 'lmtp') as client:
                return client.mail(sender, [recipient], message)[0]
        except (OSError, EOFError):
            return None

    def post(self, n=1, to='cats', **more):
        return self.mail('w@m.net', f'{to}@{HOST}', post(n, to, **more))


@contextlib.contextmanager
def machines(world, many=3, kept=1, standby='none', names=NAMES):
    """Hosts with a copy of the list cats each, over so many servers. Without PostgreSQL the case is skipped."""
    if (lacking := servers.lacking()) is not None:
        raise Skipped(lacking)
    with servers.Servers(many=kept) as those:
        first = world.list()
        found = [Machine(world, name, those.string(), standby) for name in names[:many]]
        for each in found:
            shutil.copytree(first, each.folder())
        shutil.rmtree(world.place / 'lists')
        try:
            yield those, found
        finally:
            for each in found:
                each.end(signal.SIGKILL)


def files(folder):
    """A list's files except its lock, its log and the agent's hashes."""
    return {str(path.relative_to(folder)): path.read_bytes() for path in sorted(folder.rglob('*'))
            if path.is_file() and path.relative_to(folder).parts[0] not in ('lock', 'log', 'history')}


def are_the_same(hosts, name='cats'):
    """Whether the copies become equal to the byte."""
    return until(lambda: all((each.folder(name) / 'log').stat().st_size <= 1 for each in hosts)
                 and len({repr(files(each.folder(name))) for each in hosts}) == 1)


def are_at_rest(hosts, name='cats'):
    """Whether each host comes to know that all was handed on."""
    return until(lambda: not any(list(each.folder(name).glob('queue/*')) for each in hosts))


def leader(hosts):
    """The host that hands on, when one does."""
    found = []

    def holds():
        found[:] = re.findall(r'(\w+) hands on', hosts[0].command('--status', 'cats')[1])
        return found and found[-1] != 'nobody'
    check(until(holds), 'no host hands on')
    return next(each for each in hosts if each.name == found[-1])


def copied(folder, to):
    """Copies a list's folder as docs/OPERATING.md does it."""
    with held(folder):
        shutil.copytree(folder, to)
