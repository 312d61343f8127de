"""One list: what is read of its folder under its lock, and runs of the program on it."""

from __future__ import annotations

import asyncio
import contextlib
import fcntl
import os
import pathlib
import pwd
import re
import signal
import time
from collections.abc import Callable, Iterator
from dataclasses import dataclass
from typing import BinaryIO, TypeVar

from ezmlm_agent import folder as folders
from ezmlm_agent import program as programs

from .config import Configuration, configuration

T = TypeVar('T')

WAIT = 10   # seconds for which a list that another run holds is waited for
RUNS = 3    # of the program that fail, a moment apart, although nobody holds the list, until that is believed
MOMENT = 0.1
AGENT = '/etc/ezmlm-agent.conf'
USAGE, WORDS, MEMORY, NO_LIST, NO_PERMISSION, REFUSED, DISK = 64, 65, 71, 75, 77, 100, 111
SETS = 'list', 'digest', 'allow', 'deny', 'mod'
NAME = re.compile('[1-9][0-9]{0,15}', re.ASCII)


class Refused(Exception):
    """Why a command ends without what was asked for, as an exit status and a sentence."""

    def __init__(self, status: int, why: str) -> None:
        super().__init__(why)
        self.status = status


class Busy(Refused):
    """Another process has held the list for as long as it was waited for."""

    def __init__(self, folder: pathlib.Path, wait: float) -> None:
        super().__init__(DISK, f'{folder}: another run, a backup or the agent has held {folder / "lock"} for {wait:.0f} seconds; '
                               'lslocks tells which')


class Damaged(Exception):
    """A file of the list, by its path below the list's folder, isn't as docs/FORMATS.md has it."""


@dataclass(frozen=True)
class Said:
    """What a command has to say: in lines, as JSON has it, and as its exit status."""
    lines: list[str]
    data: object
    status: int = 0


def content(folder: pathlib.Path, name: str, parse: Callable[[bytes], T]) -> T:
    """What a file of the list says. One that is absent is read as an empty one, and a ValueError of `parse` is Damaged."""
    path = folder / name
    if path.exists() and not path.is_file():  # Reading a FIFO would never end.
        raise Damaged(name)
    text: bytes = folders.bytes_or_none(path) or b''
    try:
        return parse(text)
    except ValueError as error:
        raise Damaged(name) from error


def below(name: str) -> str:
    """What stands before the names of a set's folders."""
    return '' if name == 'list' else f'{name}/'


def opened(folder: pathlib.Path, name: str, read: Callable[[BinaryIO], T]) -> T | None:
    """What is read of a file of the list, or None if it isn't there."""
    path = folder / name
    if not path.is_file():
        if path.exists():
            raise Damaged(name)
        return None
    try:
        with open(path, 'rb') as file:
            return read(file)
    except ValueError as error:
        raise Damaged(name) from error


def names(folder: pathlib.Path) -> list[int]:
    """The numbers that name files in a folder of the list, ascending, and none if it isn't there."""
    return sorted(int(name) for name in folders.names(folder) if NAME.fullmatch(name))


class MailingList:
    """A list's folder with the program. Making one is Refused if there is no list, or if root isn't the list's user."""

    def __init__(self, folder: pathlib.Path, program: str) -> None:
        self.folder, self.wait = folder, float(WAIT)
        self.settings = pathlib.Path(AGENT)  # of the agent, which say whether other hosts have the list too
        self.program = programs.Program(program, 1)
        try:
            owner = (folder / 'config').stat().st_uid
        except (FileNotFoundError, NotADirectoryError) as error:
            raise Refused(NO_LIST, f'{folder}: there is no list here, as it has no file config') from error
        if os.geteuid() == 0 and owner != 0:
            raise Refused(NO_PERMISSION, f'{folder} is of the user {user(owner)}, and root would leave files of its own there: '
                                         f'runuser -u {user(owner)} -- ezmlm-admin ..')

    def once(self, folder: pathlib.Path, *words: str, given: bytes = b'') -> tuple[int, bytes]:
        """The status and the output of one run of the program in a folder, whether or not another run has that."""
        status, output = asyncio.run(self.program.run(folder, *words, given=given))
        return int(status), bytes(output)

    def run(self, *words: str, given: bytes = b'') -> tuple[int, str]:
        """The status and the output of one run of the program, when no other one has the list. If one has it all the time that is Busy."""
        end, runs = time.monotonic() + self.wait, 0
        while True:
            self.wait_until_free(end)
            status, output = self.once(self.folder, *words, given=given)
            runs += 1
            if status != DISK or runs == RUNS:
                return status, output.decode('utf-8', 'backslashreplace').strip('\n')
            time.sleep(MOMENT)

    def wait_until_free(self, end: float) -> None:
        """Waits until no other process holds the list. If one does up to this moment of the monotonic clock, that is Busy. It sleeps in the
        kernel, which wakes it at once: between two runs of the agent there may be only milliseconds."""
        try:
            lock = os.open(self.folder / 'lock', os.O_RDONLY | os.O_NONBLOCK | os.O_CLOEXEC)
        except FileNotFoundError:
            return
        try:
            fcntl.flock(lock, fcntl.LOCK_SH | fcntl.LOCK_NB)
        except BlockingIOError:
            with alarm(end - time.monotonic(), Busy(self.folder, self.wait)):
                fcntl.flock(lock, fcntl.LOCK_SH)
        finally:
            os.close(lock)

    def check(self) -> tuple[int, str]:
        """The status of `check`, and its line without what stands before `ok` or the status."""
        status, line = self.run('check')
        return status, line.removeprefix('- ')

    def settled(self, call: Callable[[pathlib.Path], T]) -> T:
        """What a call does with the folder while this process holds the lock, with nothing in the log that isn't in the files."""
        end, runs = time.monotonic() + self.wait, 0
        while True:
            try:
                held: T = folders.settled(self.folder, call)
                return held
            except folders.Unsettled:
                status, line = self.run(*programs.SETTLES)
                runs += 1
                if status != REFUSED or runs > RUNS:
                    raise Refused(status or DISK, f'{self.folder}: an earlier run was stopped, and what it left in the log can\'t be laid down: '
                                                  f'{line or "no answer"}') from None
            except folders.Held:
                self.wait_until_free(end)

    def read(self, call: Callable[[pathlib.Path], T]) -> T:
        """As `settled`, except that what is damaged is refused with what `check` says."""
        try:
            return self.settled(call)
        except Damaged as error:
            raise Refused(NO_LIST, f'{self.folder / str(error)} is damaged; check says: {self.check()[1]}') from error

    def configuration(self) -> Configuration:
        return self.read(lambda folder: content(folder, 'config', configuration))


@contextlib.contextmanager
def alarm(seconds: float, error: Exception) -> Iterator[None]:
    """Raises the error in what is done meanwhile, when so many seconds have passed. Only the main thread can have one."""
    def late(*_: object) -> None:
        raise error

    if seconds <= 0:
        raise error
    former = signal.signal(signal.SIGALRM, late)
    signal.setitimer(signal.ITIMER_REAL, seconds)
    try:
        yield
    finally:
        signal.setitimer(signal.ITIMER_REAL, 0)
        signal.signal(signal.SIGALRM, former)


def user(uid: int) -> str:
    try:
        return pwd.getpwuid(uid).pw_name
    except KeyError:
        return f'#{uid}'
