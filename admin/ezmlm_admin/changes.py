"""Which files of a list changed without a run of the program.

What tells of a run is a file's time: whoever writes a file sets it, and a disk that turns a bit doesn't.
"""

from __future__ import annotations

import dataclasses
import hashlib
import os
import pathlib
import time
from collections.abc import Callable, Iterator

from ezmlm_agent import folder as folders

from . import files, options, sums, texts
from .sums import Row

FRESH = 2     # seconds: a file that was just written may be written again in the same tick of the disk's clock, so it has no sum yet
NAMED = 5     # members that are named of a file
SECOND = 1_000_000_000  # nanoseconds


@dataclasses.dataclass(frozen=True)
class Change:
    """A file that isn't what it was: its path, the second in which it was last seen to be right, what it is, and what is wrong with it."""
    path: str
    taken: int | None
    about: str
    how: str
    repaired: bool = False

    def line(self) -> str:
        since = f'; it was right at {texts.date(self.taken)}' if self.taken else ''
        return f'{self.about} ({self.path}) {self.how}{since}' + ('; it is repaired' if self.repaired else '')


@dataclasses.dataclass
class Scrubbed:
    """What a run saw of a list."""
    began: int
    files: int = 0
    bytes: int = 0
    fresh: int = 0
    changes: list[Change] = dataclasses.field(default_factory=list)

    def left(self) -> int:
        return sum(not change.repaired for change in self.changes)


def merged(folder: pathlib.Path, old: Iterator[Row]) -> Iterator[tuple[str, Row | None]]:
    """The paths of the list's files and of the rows, in order, each with its row if it has one."""
    row = next(old, None)
    for path in sums.paths(folder):
        while row is not None and sums.order(row.path) < sums.order(path):
            yield row.path, row
            row = next(old, None)
        if row is not None and row.path == path:
            yield path, row
            row = next(old, None)
        else:
            yield path, None
    while row is not None:
        yield row.path, row
        row = next(old, None)


def look(folder: pathlib.Path, path: str, row: Row | None, seen: Scrubbed, copy: pathlib.Path | None) -> Row | None:
    """The row that a file gets, while this process holds the list. What isn't right is noted; the former row stays then."""
    try:
        with open(folders.opened(folder / path, os.O_RDONLY), 'rb') as file:
            state, now = os.fstat(file.fileno()), time.time()
            digest, size = sums.sum_of(file)
    except (FileNotFoundError, NotADirectoryError):
        return changed(folder, path, row, 'is gone', seen, copy) if row is not None and row.size and sums.KEPT.fullmatch(path) else None
    except OSError as error:
        return changed(folder, path, row, f'can\'t be read: {texts.safe(str(error))}', seen, copy)
    seen.files, seen.bytes = seen.files + 1, seen.bytes + size
    if row is not None and row.sum != digest and (how := unwritten(row, size, state.st_mtime_ns)):
        return changed(folder, path, row, how, seen, copy)
    had_sum = row is not None and (row.sum, row.time) == (digest, state.st_mtime_ns)
    if abs(now - state.st_mtime) < FRESH and not had_sum and not sums.WRITTEN_ONCE.fullmatch(path):
        seen.fresh += 1
        return None
    return Row(digest, size, state.st_mtime_ns, int(now), path)


def unwritten(row: Row, size: int, changed_at: int) -> str | None:
    """Why a file whose sum is another one wasn't written by a run, or None if it may have been."""
    if sums.WRITTEN_ONCE.fullmatch(row.path):
        return 'has other bytes, and no run writes it a second time'
    if changed_at == row.time:
        return 'has other bytes, though nobody wrote it: its time is as it was' + ('' if size == row.size else ', and its size isn\'t')
    if changed_at < (row.taken - FRESH) * SECOND:
        return f'has other bytes, though its time, {texts.date(changed_at // SECOND)}, is from before'
    return None


def changed(folder: pathlib.Path, path: str, row: Row | None, how: str, seen: Scrubbed, copy: pathlib.Path | None) -> Row | None:
    """Notes a file that isn't right, and repairs it from a copy of the list that has it with the row's sum. The row stays."""
    good = whole(copy / path, row) if copy is not None and row is not None else None
    if good is not None and row is not None:
        target = folder / path
        target.parent.mkdir(mode=0o700, parents=True, exist_ok=True)
        options.write(target, good)
        os.utime(target, ns=(row.time, row.time))
    if good is None and copy is not None:
        how += '; the copy hasn\'t got it as it was either'
    seen.changes.append(Change(path, row.taken if row is not None else None, words(folder, path), how, good is not None))
    return row


def whole(path: pathlib.Path, row: Row) -> bytes | None:
    """The bytes of a file that has this row's sum, or None."""
    try:
        text = folders.bytes_or_none(path)
    except OSError:
        return None
    return text if text is not None and hashlib.sha256(text).hexdigest() == row.sum else None


def words(folder: pathlib.Path, path: str) -> str:
    """What a file is in people's words, with the members that it names, if it can be read."""
    found = sums.about(path) or path
    parts = path.split('/')
    parse: Callable[[bytes], list[bytes]] | None = {
        'subscribers': lambda text: [address for address, _ in files.members(text)],
        'bounce': lambda text: [one.key for one in files.ledger(text)]}.get(parts[-2] if len(parts) > 1 else '')
    try:
        named = [texts.safe(each) for each in parse(folders.bytes_or_none(folder / path) or b'')] if parse else []
    except (ValueError, OSError):
        named = []
    more = [f'and {len(named) - NAMED} more'] if len(named) > NAMED else []
    return f'{found}, now {", ".join(named[:NAMED] + more)}' if named else found
