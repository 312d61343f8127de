"""What the agent reads of a list's folder, as docs/FORMATS.md has it."""

import fcntl
import os
import pathlib
import re
import stat
from collections.abc import Callable, Iterable
from typing import TypeVar

Result = TypeVar('Result')
SLOTS, SLOT = 512, 9
NO_MAIL = 500_000_000_000  # numbers from here on are given to moves of members
ENTRY = re.compile('[1-9][0-9]{0,15}', re.ASCII)


class Held(Exception):
    """Another run has the list."""


class Unsettled(Exception):
    """A run was stopped, and the list's log has what its files haven't. Any other run sees to that."""


def settled(folder: pathlib.Path, call: Callable[[pathlib.Path], Result]) -> Result:
    """What a call reads of the list's files, which stand still meanwhile. Held and Unsettled say why it can't."""
    lock = opened(folder / 'lock', os.O_WRONLY | os.O_CREAT | os.O_APPEND)
    try:
        fcntl.flock(lock, fcntl.LOCK_EX | fcntl.LOCK_NB)
        if size_or_none(folder / 'log') not in (0, 1):
            raise Unsettled('a run was stopped')
        return call(folder)
    except BlockingIOError as error:
        raise Held('another run has the list') from error
    finally:
        os.close(lock)


def opened(path: pathlib.Path | str, flags: int) -> int:
    """A descriptor of a regular file. Whatever else stands in its place is an OSError: a pipe would keep whoever reads it waiting."""
    file = os.open(path, flags | os.O_NONBLOCK | os.O_CLOEXEC, 0o600)
    if not stat.S_ISREG(os.fstat(file).st_mode):
        os.close(file)
        raise OSError(f'{path} is no file')
    return file


def size_or_none(path: pathlib.Path | str) -> int | None:
    try:
        return os.stat(path).st_size
    except FileNotFoundError:
        return None


def bytes_or_none(path: pathlib.Path) -> bytes | None:
    try:
        with open(opened(path, os.O_RDONLY), 'rb') as file:
            return file.read()
    except FileNotFoundError:
        return None


def names(folder: pathlib.Path) -> list[str]:
    """The names of the files in a folder, and none if it isn't there."""
    try:
        return os.listdir(folder)
    except FileNotFoundError:
        return []


def configuration(folder: pathlib.Path) -> dict[bytes, bytes] | None:
    """The lines of the configuration by their names, or None if there is no list."""
    try:
        lines = bytes_or_none(folder / 'config')
    except NotADirectoryError:
        return None
    if lines is None:
        return None
    pairs = (line.split(b' ', 1) for line in lines.split(b'\n') if b' ' in line)
    return {name: value for name, value in pairs}


def flags(folder: pathlib.Path) -> bytes:
    """The option letters of the list in a folder, in lower case if they are set, and none if there is no list."""
    return (configuration(folder) or {}).get(b'flags', b'')


def address(folder: pathlib.Path) -> tuple[bytes, bytes] | None:
    """LOCAL and HOST of the list in a folder, in lower case, or None if there is no list."""
    lines = configuration(folder)
    if lines is None:
        return None
    if b'local' not in lines or b'host' not in lines:
        raise OSError(f'{folder / "config"} is damaged')
    return lines[b'local'].lower(), lines[b'host'].lower()


def free(folder: pathlib.Path) -> tuple[bytes, bytes] | None:
    """The address of the list in a folder, or None if there is no list. It is Held if another run has the list now."""
    found = address(folder)
    if found is None or not (folder / 'lock').exists():
        return found
    lock = opened(folder / 'lock', os.O_RDONLY)
    try:
        fcntl.flock(lock, fcntl.LOCK_SH | fcntl.LOCK_NB)
        return found
    except BlockingIOError as error:
        raise Held('another run has the list') from error
    finally:
        os.close(lock)


def queue(folder: pathlib.Path) -> list[int]:
    """The ids of the entries in the outgoing queue, oldest first."""
    return sorted(int(name) for name in names(folder / 'queue') if ENTRY.fullmatch(name))


def written(folder: pathlib.Path, entry: int) -> float | None:
    """When an entry of the outgoing queue was written, or None if it is gone."""
    try:
        return os.stat(folder / 'queue' / str(entry)).st_mtime
    except FileNotFoundError:
        return None


def has_work(folder: pathlib.Path) -> bool:
    """Whether a list has something to do that no mail tells of: entries in its queue, or a log that a run left when it was stopped."""
    return bool(queue(folder)) or size_or_none(folder / 'log') not in (0, 1, None)


def entries(folder: pathlib.Path, ids: Iterable[int]) -> dict[int, bytes | None]:
    """These entries of the outgoing queue, each as its file spells it, or None if there is none."""
    return {entry: bytes_or_none(folder / 'queue' / str(entry)) for entry in ids}


def sizes(folder: pathlib.Path, ids: Iterable[int]) -> dict[int, int]:
    """The bytes of these entries' files, in this order, without those that are gone."""
    found = ((entry, size_or_none(f'{folder}/queue/{entry}')) for entry in ids)
    return {entry: size for entry, size in found if size is not None}


def entries_with_times(folder: pathlib.Path, ids: Iterable[int]) -> dict[int, tuple[bytes, float]]:
    """These entries of the outgoing queue, each as its file spells it, and when that was written, without those that are gone."""
    found: dict[int, tuple[bytes, float]] = {}
    for entry in ids:
        try:
            with open(opened(f'{folder}/queue/{entry}', os.O_RDONLY), 'rb') as file:
                found[entry] = file.read(), os.fstat(file.fileno()).st_mtime
        except FileNotFoundError:
            pass
    return found


def floor(folder: pathlib.Path) -> int:
    return int(bytes_or_none(folder / 'floor') or 1)


def after_answers(folder: pathlib.Path) -> int:
    """The first number after all that the list has answered, except those that are no mail's, and not below its floor."""
    blocks = [int(name) for name in names(folder / 'done') if name.isdecimal() and int(name) < NO_MAIL // SLOTS]
    if not blocks:
        return floor(folder)
    kept = (bytes_or_none(folder / 'done' / str(max(blocks))) or b'')[:SLOTS * SLOT].rstrip(b'\0')
    last = (len(kept) - 1) // SLOT if kept else SLOTS - 1
    return max(floor(folder), SLOTS * max(blocks) + last + 1)


def answered(folder: pathlib.Path, numbers: Iterable[int]) -> set[int]:
    """Those of these numbers whose replies the list keeps."""
    blocks: dict[int, set[int]] = {}
    for number in numbers:
        blocks.setdefault(number // SLOTS, set()).add(number)
    found: set[int] = set()
    for block, those in blocks.items():
        kept = bytes_or_none(folder / 'done' / str(block)) or b''
        found |= {number for number in those if any(kept[SLOT * (number % SLOTS):SLOT * (number % SLOTS) + SLOT])}
    return found


def replace(path: pathlib.Path, text: bytes) -> None:
    """Replaces a file, or makes a new one, in one step, and on the disk."""
    new = path.with_name(path.name + '.new')
    with open(os.open(new, os.O_WRONLY | os.O_CREAT | os.O_TRUNC | os.O_CLOEXEC, 0o600), 'wb') as file:
        file.write(text)
        file.flush()
        os.fsync(file.fileno())
    os.replace(new, path)
    parent = os.open(path.parent, os.O_RDONLY | os.O_DIRECTORY | os.O_CLOEXEC)
    try:
        os.fsync(parent)
    finally:
        os.close(parent)
