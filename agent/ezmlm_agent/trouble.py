"""Why a list can't be served, in words for the postmaster: the agent looks, since the program says no more than `111 disk`."""

import dataclasses
import errno
import fcntl
import os
import pathlib
import pwd
import sqlite3

from . import program, wire

LEAST = 1 << 20    # bytes that have to be free on a disk
LOOKED_AT = 20_000  # files of a list at most


@dataclasses.dataclass(frozen=True)
class Cause:
    """What is wrong, at which path, and what helps."""
    what: str
    path: pathlib.Path | str
    advice: str

    def __str__(self) -> str:
        return f'{self.what} ({wire.printable(str(self.path))}): {self.advice}'


def of_ending(folder: pathlib.Path, status: int, words: str) -> Cause:
    """The cause of a run's ending, by the status and the words of its stop line."""
    if status == program.HELD:
        had = Cause('another run had the list, or its disk failed', folder, 'if it stays so look at the kernel\'s messages (dmesg)')
        return held(folder) or full(folder) or foreign(folder) or had
    if status == 75 and words == 'nolist':
        return Cause('there is no list', folder, 'mount its disk, or put the folder back; mail waits')
    if status == 75:
        return Cause('this file is damaged', folder / words, 'put a backup of the list back, or see CHECKING A LIST in ezmlm(1)')
    if status == 71:
        return Cause(words, folder, 'the machine wants memory, or a limit is too low; else see ezmlm(1)')
    return Cause('the program ended without an answer', folder, f'see {status} in ezmlm(1)')


def of_error(folder: pathlib.Path, error: BaseException) -> Cause | None:
    """The cause of an error by which a list's files couldn't be read or its notes not be written, if one is found."""
    if isinstance(error, sqlite3.Error):
        if (name := getattr(error, 'sqlite_errorname', '')).startswith(('SQLITE_CORRUPT', 'SQLITE_NOTADB')):
            return Cause('the notes are damaged', folder, 'they are set aside, and begun anew')
        if name.startswith('SQLITE_FULL'):
            return Cause('the disk is full', folder, 'make room')
        return full(folder) or foreign(folder)
    if not isinstance(error, OSError):
        return None
    path: pathlib.Path | str = error.filename if isinstance(error.filename, str) else folder
    if error.errno in (errno.ENOSPC, errno.EDQUOT):
        return Cause('the disk is full', path, 'make room')
    if error.errno in (errno.EACCES, errno.EPERM):
        return Cause('no permission', path, f'give it to the agent\'s user: chown -R {user()}: {wire.printable(str(folder))}')
    return None


def held(folder: pathlib.Path) -> Cause | None:
    """Whether another run has the list's lock."""
    path = folder / 'lock'
    try:
        lock = os.open(path, os.O_RDONLY | os.O_NONBLOCK | os.O_CLOEXEC)
    except OSError:
        return None
    try:
        fcntl.flock(lock, fcntl.LOCK_SH | fcntl.LOCK_NB)
    except BlockingIOError:
        return Cause('another run has the list', path, 'a command or a backup; it goes on after that, and lslocks tells which process it is')
    except OSError:
        return None
    finally:
        os.close(lock)
    return None


def full(folder: pathlib.Path) -> Cause | None:
    """Whether the disk of a folder has no room left, or takes no further file."""
    try:
        disk = os.statvfs(folder)
    except OSError:
        return None
    if disk.f_bavail * disk.f_frsize < LEAST:
        return Cause('the disk is full', folder, 'make room')
    if disk.f_files and not disk.f_favail:
        return Cause('the disk takes no further file', folder, 'remove some')
    if disk.f_flag & os.ST_RDONLY:
        return Cause('the disk is mounted read-only', folder, 'look at the kernel\'s messages (dmesg)')
    return None


def foreign(folder: pathlib.Path) -> Cause | None:
    """Whether something in a folder can't be written by the agent's user, as what root made."""
    seen = 0
    for place, folders, files in os.walk(folder):
        for path in (place, *(os.path.join(place, name) for name in files)):
            if not os.access(path, os.R_OK | os.W_OK):
                return Cause('no permission', path, f'give it to the agent\'s user: chown -R {user()}: {wire.printable(str(folder))}')
        if (seen := seen + len(files)) > LOOKED_AT:
            break
    return None


def user() -> str:
    """The name of the user that the agent runs as."""
    try:
        return pwd.getpwuid(os.geteuid()).pw_name
    except KeyError:
        return str(os.geteuid())
