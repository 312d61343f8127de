"""A folder with lists, an agent and a transfer agent, and a client that gives the agent mail."""

import contextlib
import errno
import fcntl
import importlib
import os
import pathlib
import re
import shlex
import shutil
import signal
import socket
import sqlite3
import subprocess
import tempfile
import threading
import time

import needed

from .sink import Sink

TOP = pathlib.Path(__file__).resolve().parent.parent.parent
STAND_IN = TOP / 'tests/agent_cases/stand_in.py'
HOST = 'ex.org'
KEY = '0' * 64
MEMBERS = ['a@m.net', 'b@m.net', 'c@m.net']
LISTENS = b'mail comes in at'
# The agent whose hours and minutes are short.
HASTY = ('/usr/bin/python3', '-c', '''
import sys
sys.path.insert(0, sys.argv[1])
from ezmlm_agent import __main__, mailing, retrying
__main__.LOOKS, mailing.HOUR, retrying.SHORTEST = 0.5, 1, 1
__main__.main(sys.argv[2:])
''', TOP / 'agent')
IS_UNPROVED = bool(os.environ.get('UNPROVED'))  # tests/quick says so: then a run of the program takes much longer
LONG = 900  # seconds after which what has to come is given up. Nothing else depends on time, as a machine may be slow


def until(holds):
    """Whether something comes to hold. A look that takes long is followed by a longer pause, since it keeps the machine from what is waited
    for."""
    end = time.monotonic() + LONG
    while True:
        begun = time.monotonic()
        if holds():
            return True
        now = time.monotonic()
        if now > end:
            return False
        time.sleep(min(1, max(0.02, 2 * (now - begun))))


@contextlib.contextmanager
def held(folder):
    """Has a list as a run of the program has it."""
    with open(folder / 'lock', 'a', encoding='ascii') as lock:
        fcntl.flock(lock, fcntl.LOCK_EX)
        yield


def post(n=1, to='cats', subject='hello', body='hi'):
    """A post, which is another one for each n, as its Received line is."""
    return f'Received: by mx.ex.org id {n}\nFrom: w@m.net\nTo: {to}@{HOST}\nSubject: {subject}\n\n{body}\n'.encode('latin-1')


class Client:
    """An LMTP client that does nothing by itself."""

    def __init__(self, address):
        self.socket = socket.socket(socket.AF_INET if isinstance(address, tuple) else socket.AF_UNIX)
        self.socket.settimeout(LONG)
        # If others come at once it is asked again.
        while error := self.socket.connect_ex(address if isinstance(address, tuple) else str(address)):
            if error != errno.EAGAIN:
                raise OSError(error, os.strerror(error))
            time.sleep(0.02)
        self.file = self.socket.makefile('rb')
        self.reply()
        self.command(b'LHLO test')

    def __enter__(self):
        return self

    def __exit__(self, *_):
        self.socket.close()
        self.file.close()

    def reply(self):
        while True:
            line = self.file.readline()
            if not line.endswith(b'\r\n'):
                raise EOFError
            if line[3:4] == b' ':
                return line.decode().strip()

    def command(self, text):
        self.socket.sendall(text + b'\r\n')
        return self.reply()

    def propose(self, sender, recipients):
        """The replies for the recipients, and whether the mail is waited for."""
        self.command(b'MAIL FROM:<%b>' % sender.encode())
        replies = [self.command(b'RCPT TO:<%b>' % recipient.encode()) for recipient in recipients]
        if not any(reply.startswith('250') for reply in replies):
            return replies, False
        return replies, self.command(b'DATA').startswith('354')

    def send(self, message):
        self.socket.sendall(re.sub(rb'(?m)^\.', b'..', message).replace(b'\n', b'\r\n') + b'.\r\n')

    def mail(self, sender, recipients, message):
        """The reply for each recipient."""
        replies, is_waited_for = self.propose(sender, recipients)
        if is_waited_for:
            self.send(message)
        return [self.reply() if reply.startswith('250') else reply for reply in replies]


class World:
    words = (TOP / 'agent/ezmlm-agent',)

    def __init__(self, program):
        self.program = program
        self.place = pathlib.Path(tempfile.mkdtemp(prefix='ezmlm-agent.', dir='/dev/shm' if os.access('/dev/shm', os.W_OK) else None))
        (self.place / 'lists').mkdir(mode=0o700)
        self.sink = Sink(str(self.place / 'sink'))
        self.rows = {'program': program, 'lists': self.place / 'lists', 'state': self.place / 'state', 'listen': self.place / 'lmtp',
                     'mta': self.place / 'sink', 'name': 'mx.ex.org', 'resolver': '255.255.255.255'}  # to which no question can be sent
        self.agent, self.note = None, ''
        self.told = []  # what each agent said

    def close(self):
        self.end(signal.SIGKILL)
        until(self.is_alone)
        self.sink.stop()
        shutil.rmtree(self.place)

    def is_alone(self):
        """Whether no process is left that the agent began."""
        for process in pathlib.Path('/proc').glob('[0-9]*'):
            with contextlib.suppress(OSError):
                # A run of the program has the list's folder as its own.
                if str(self.place) in os.readlink(process / 'cwd') or os.fsencode(self.place) in (process / 'cmdline').read_bytes():
                    return False
        return True

    def log(self):
        """What the agents said so far."""
        return b''.join(self.told).decode(errors='replace')

    def listen(self, pipe, told):
        while said := pipe.read1():
            told += said
        pipe.close()

    def stands_in(self):
        """Gives the agent a program that fails as files in this folder tell it."""
        self.rows['program'] = self.place / 'program'
        self.rows['program'].write_text(f'#!/bin/sh\nexec /usr/bin/python3 {shlex.join(map(str, (STAND_IN, self.place, self.program)))} "$@"\n')
        self.rows['program'].chmod(0o755)

    # Lists.

    def folder(self, name='cats'):
        return self.place / 'lists' / name

    def list(self, name='cats', members=MEMBERS, words=()):
        """Makes a list."""
        self.run(name, 'make', *words, '--key', KEY, name, HOST, 'owner@m.net')
        now = str(int(time.time()))
        self.run(name, 'spool', given=''.join(f'A1:0,{len(now)}:{now},4:list,{len(m)}:{m},' for m in members).encode())
        return self.folder(name)

    def run(self, name, *words, given=b''):
        """What the program says. If a run of the agent's has the list it is asked again."""
        status = 111
        while status == 111:
            done = subprocess.run([self.program, self.folder(name), *words], input=given, stdout=subprocess.PIPE, check=False)
            status = done.returncode
        return done.stdout.decode()

    def settled(self, name, call):
        """What a call makes of a list's folder when no run of the program has it, or None if one was stopped and left its log."""
        folder = self.folder(name)
        with held(folder):
            return call(folder) if (folder / 'log').stat().st_size <= 1 else None

    def posts(self, name='cats'):
        """How many posts the list has."""
        return self.settled(name, lambda folder: int((folder / 'num').read_text()))

    def queue(self, name='cats'):
        """How many entries are to be sent."""
        return self.settled(name, lambda folder: len(os.listdir(folder / 'queue')) if (folder / 'queue').exists() else 0)

    def is_out(self, copies, name='cats'):
        """Whether the queue gets empty with so many copies handed on."""
        return until(lambda: len(self.sink.copies) >= copies and self.queue(name) == 0) and len(self.sink.copies) == copies

    def notes(self, *statements):
        """Changes the notes of cats, or asks them. The agent has to be at rest."""
        database = sqlite3.connect(self.place / 'state/cats.sqlite', isolation_level=None)
        rows = [database.execute(statement).fetchall() for statement in statements]
        database.close()
        return rows[-1]

    # The agent.

    def settings(self):
        path = self.place / 'agent.conf'
        path.write_text('[agent]\n' + ''.join(f'{name} = {value}\n' for name, value in self.rows.items()))
        return path

    def begin(self, words=None):
        """Starts the agent, and waits until it listens or ends."""
        self.told.append(told := bytearray())
        # What it says goes through a pipe, to which no limit on files applies.
        self.agent = subprocess.Popen([*(words or self.words), self.settings()], stdout=subprocess.PIPE, stderr=subprocess.STDOUT)
        self.listening = threading.Thread(target=self.listen, args=[self.agent.stdout, told])
        self.listening.start()
        until(lambda: LISTENS in told or self.agent.poll() is not None)

    def end(self, number=signal.SIGTERM):
        """The status with which it ends."""
        if self.agent is None:
            return None
        self.agent.send_signal(number)
        status = self.agent.wait(LONG)
        if status == 0:
            self.listening.join()
        return status

    def tells(self, *words, times=1):
        """Whether all of this comes to stand in the log, so often."""
        return until(lambda: all(self.log().count(word) >= times for word in words))

    def mail(self, sender, recipients, message):
        """The replies for the recipients, or None if the agent hung up."""
        try:
            with Client(self.place / 'lmtp') as client:
                return client.mail(sender, recipients, message)
        except (OSError, EOFError):
            return None

    def post(self, n=1, to='cats', **more):
        """The reply to a post."""
        replies = self.mail('w@m.net', [f'{to}@{HOST}'], post(n, to, **more))
        return replies and replies[0]

    def memory(self):
        """The agent's memory, in MiB."""
        return int(re.search(r'VmRSS:\s*(\d+)', pathlib.Path(f'/proc/{self.agent.pid}/status').read_text())[1]) // 1024


class Skipped(Exception):
    """Why a case can't be tried here."""


class Wrong(Exception):
    """What a case found."""


def library(package, name):
    """A package's module. Without it the case is skipped."""
    if lacking := needed.lacking(package):
        raise Skipped(lacking)
    return importlib.import_module(name)


def check(holds, why):
    if not holds:
        raise Wrong(why)


def same(found, wanted, what):
    check(found == wanted, f'{what}: {found!r}, and not {wanted!r}')


def begins(reply, wanted, what):
    check(reply is not None and reply.startswith(wanted), f'{what}: {reply!r}, and not {wanted!r}')
