"""The file `sums` in a list's folder: SHA-256 sums of the list's files, and what was seen when they were taken.

It stands in the folder, since a list's files and their sums have to stay together: a backup that is put back, or a copy on another machine, brings
its own sums. Neither `check` nor the agent looks at files that docs/FORMATS.md doesn't name.

A line is `SUM SIZE TIME TAKEN PATH`: 64 hexadecimal digits, the bytes, the time of the last change in nanoseconds, the second in which the file was
last seen to have this sum, and the path below the list's folder. Lines are in ascending order of their paths' parts. The last line is
`end BEGAN ENDED CHANGED SUM`: the seconds at which the run began and ended, how many files had changed without a run, and the sum of all bytes
before that.
"""

from __future__ import annotations

import fcntl
import hashlib
import os
import pathlib
import re
from collections.abc import Iterator
from dataclasses import dataclass
from typing import BinaryIO

NAME = 'sums'
BUCKET = '[@-t]'
LINE = re.compile(rb'([0-9a-f]{64}) ([0-9]{1,18}) (-?[0-9]{1,19}) ([0-9]{1,12}) ([!-~]{1,60})\n')
END = re.compile(rb'end ([0-9]{1,12}) ([0-9]{1,12}) ([0-9]{1,12}) ([0-9a-f]{64})\n')
LONGEST_END = 128  # bytes
PIECE = 1 << 20
OVERDUE = 15 * 86_400  # seconds after a run until a monitor warns that there was no other: two of the timer's, and a day
# The files that a list has, as docs/FORMATS.md names them, and what is said of each: a match of its path.
KINDS = tuple((re.compile(pattern), about) for pattern, about in (
    (r'log', 'the log'), (r'config', 'the configuration'), (r'key', 'the key'),
    (rf'(?:(digest|allow|deny|mod)/)?subscribers/{BUCKET}', 'members of {0}'),
    (r'counts/(list|digest|allow|deny|mod)', 'the number of members of {0}'),
    (r'archive/([0-9]{1,6})/([0-9]{2})', 'post {post}'), (r'archive/([0-9]{1,6})/index', 'the index of posts {posts}'),
    (r'num', 'the number of posts'), (r'dig', 'the counter of the digests'), (r'pending/([0-9]{1,16})', 'the held post {0}'),
    (r'tickets', 'the counter of held posts'), (rf'(?:(digest)/)?bounce/{BUCKET}', 'bounces of members of {0}'),
    (r'queue/([0-9]{1,16})', 'entry {0} of the queue'), (r'ids', 'the counter of the queue\'s entries'),
    (r'done/([0-9]{1,10})', 'the answers to items {slots}'), (r'archive/threads/([0-9]{3})', 'threads of the archive'), (r'floor', 'the floor')))
# What no run writes a second time.
WRITTEN_ONCE = re.compile(r'archive/[0-9]+/[0-9]{2}|pending/.*|queue/.*')
# What no run removes.
KEPT = re.compile(r'config|key|num|dig|tickets|ids|counts/.*|archive/.*')


@dataclass(frozen=True)
class Row:
    """What `sums` has of a file."""
    sum: str
    size: int
    time: int   # of the last change, in nanoseconds
    taken: int  # seconds
    path: str

    def text(self) -> bytes:
        return f'{self.sum} {self.size} {self.time} {self.taken} {self.path}\n'.encode('ascii')


@dataclass(frozen=True)
class Ended:
    """What the last run found: when it began and ended, and how many files had changed."""
    began: int
    ended: int
    changed: int


def about(path: str) -> str | None:
    """What a file is in people's words, or None if a list has no such file."""
    for pattern, words in KINDS:
        if found := pattern.fullmatch(path):
            first, second = [*(group or 'list' for group in found.groups()), 'list', '0'][:2]
            number = int(first) if first.isdecimal() else 0
            return words.format(first, post=number * 100 + int(second if second.isdecimal() else 0), posts=f'{number * 100} to {number * 100 + 99}',
                                slots=f'{number * 512} to {number * 512 + 511}')
    return None


def order(path: str) -> list[str]:
    return path.split('/')


def paths(folder: pathlib.Path, below: str = '') -> Iterator[str]:
    """The paths of the list's files in order, as they are there when each folder is reached. What isn't a list's is left out."""
    try:
        entries = sorted(os.listdir(folder / below))
    except (FileNotFoundError, NotADirectoryError):
        return
    for name in entries:
        path = f'{below}/{name}' if below else name
        if about(path) is not None:
            yield path
        elif name in ('counts', 'subscribers', 'digest', 'allow', 'deny', 'mod', 'archive', 'pending', 'bounce', 'queue', 'done', 'threads') \
                or below == 'archive' and name.isdecimal():
            yield from paths(folder, path)


def sum_of(file: BinaryIO) -> tuple[str, int]:
    """The SHA-256 of what is left of a file, and how many bytes that were."""
    found, size = hashlib.sha256(), 0
    while piece := file.read(PIECE):
        found.update(piece)
        size += len(piece)
    return found.hexdigest(), size


def ended(folder: pathlib.Path) -> Ended | None:
    """What the last run found, by the last line of `sums`, or None if there is none. Another last line is a ValueError."""
    try:
        with open(folder / NAME, 'rb') as file:
            file.seek(max(0, file.seek(0, os.SEEK_END) - LONGEST_END))
            found = END.fullmatch(b''.join(file.read().splitlines(keepends=True)[-1:]))
    except FileNotFoundError:
        return None
    if found is None:
        raise ValueError(f'{NAME} has no last line')
    return Ended(int(found[1]), int(found[2]), int(found[3]))


def faults(folder: pathlib.Path, now: float) -> Iterator[tuple[int, str]]:
    """What a monitor is told of the last run: 2 if it is critical or 1 for a warning, and a sentence. Of a list that was never looked at nothing is said."""
    try:
        last = ended(folder)
    except ValueError:
        yield 2, 'its sums are damaged: ezmlm-admin scrub takes them anew'
        return
    except OSError:
        return
    if last is not None and last.changed:
        yield 2, f'{last.changed} of its files changed without a run: ezmlm-admin scrub names them'
    if last is not None and now - last.ended > OVERDUE:
        yield 1, f'its files were last looked at {int(now - last.ended) // 86_400} days ago, by ezmlm-admin scrub'


def is_whole(folder: pathlib.Path) -> bool:
    """Whether `sums` has the sum that its last line tells. One that isn't there is whole."""
    found, last = hashlib.sha256(), b''
    try:
        with open(folder / NAME, 'rb') as file:
            for line in file:
                found.update(last)
                if last and LINE.fullmatch(last) is None:
                    return False
                last = line
    except FileNotFoundError:
        return True
    if (end := END.fullmatch(last)) is None:
        return False
    found.update(last[:end.start(4)])
    return end[4].decode() == found.hexdigest()


def rows(folder: pathlib.Path) -> Iterator[Row]:
    """The rows of a `sums` that is whole, in order."""
    try:
        with open(folder / NAME, 'rb') as file:
            for line in file:
                if found := LINE.fullmatch(line):
                    digest, size, time, taken, path = found.groups()
                    yield Row(digest.decode(), int(size), int(time), int(taken), path.decode())
    except FileNotFoundError:
        return


class Writer:
    """Writes a new `sums` beside the former one, and puts it in its place at the end. One process alone has it: others are a BlockingIOError."""

    def __init__(self, folder: pathlib.Path) -> None:
        self.path, self.sum = folder / NAME, hashlib.sha256()
        self.new = folder / f'{NAME}.new'
        descriptor = os.open(self.new, os.O_WRONLY | os.O_CREAT | os.O_NOFOLLOW | os.O_CLOEXEC, 0o600)
        try:
            fcntl.flock(descriptor, fcntl.LOCK_EX | fcntl.LOCK_NB)
            # Another one may have put it in its place between these two calls.
            if not self.new.exists() or os.fstat(descriptor).st_ino != self.new.stat().st_ino:
                raise BlockingIOError(f'{self.new} was just taken')
            os.ftruncate(descriptor, 0)
        except BaseException:
            os.close(descriptor)
            raise
        self.file = open(descriptor, 'wb')

    def add(self, row: Row) -> None:
        text = row.text()
        self.sum.update(text)
        self.file.write(text)

    def end(self, said: Ended) -> None:
        front = f'end {said.began} {said.ended} {said.changed} '.encode('ascii')
        self.sum.update(front)
        self.file.write(front + self.sum.hexdigest().encode('ascii') + b'\n')
        self.file.flush()
        os.fsync(self.file.fileno())
        self.file.close()
        os.replace(self.new, self.path)

    def close(self) -> None:
        """Leaves nothing of one that wasn't ended."""
        if not self.file.closed:
            self.file.close()
            self.new.unlink(missing_ok=True)
