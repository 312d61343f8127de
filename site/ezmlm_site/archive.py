"""What is read of a list: its answer to `pages list`, and the archive's files, as docs/FORMATS.md has them.

Which posts there are, and how many of them a month and a thread have, is what the program answers. Which posts a thread has stands in its
files of threads, and a post's moment and size in its files of the index. They are taken only if they agree with that answer and with each other.
"""

from __future__ import annotations

import array
import collections
import dataclasses
import fcntl
import pathlib
import subprocess
import time
from collections.abc import Iterator

HELD = 111            # another run has the list, or its disk failed
PATIENCE = 60.0       # seconds in which a list that another run has is asked again
PAUSE = 0.25          # seconds between two questions
LONGEST_RUN = 600.0   # seconds
THREAD_FILES = 256
GROUP = 100           # posts in one file of the index
MOST_POSTS = 99_999_999


class Unreadable(Exception):
    """The list can't be read now; nothing is written of it."""


class Damaged(Unreadable):
    """Files of the list don't agree."""


@dataclasses.dataclass(frozen=True)
class Listing:
    """What `pages list` answers: how many posts each month (YYYY-MM, by UTC) has, and each thread, by its first post."""
    months: dict[str, int]
    threads: dict[int, int]

    @property
    def posts(self) -> int:
        """How many posts there are; their numbers are 1 to this one."""
        return sum(self.months.values())


@dataclasses.dataclass(frozen=True)
class Entry:
    """A post by the index: when it came (seconds since 1970), its envelope's sender, and its size in bytes."""
    moment: int
    sender: bytes
    size: int


class Archive:
    """The list in a folder, by the program."""

    def __init__(self, program: str, folder: pathlib.Path, patience: float = PATIENCE) -> None:
        self.program = program
        self.folder = folder
        self.patience = patience

    def ask(self, *words: str) -> bytes:
        """The text of a command. While another run has the list it is asked again."""
        end = time.monotonic() + self.patience
        while True:
            try:
                done = subprocess.run([self.program, '.', *words], cwd=self.folder, stdin=subprocess.DEVNULL, stdout=subprocess.PIPE, timeout=LONGEST_RUN)
            except (OSError, subprocess.TimeoutExpired) as error:
                raise Unreadable(str(error)) from error
            if done.returncode == 0:
                return done.stdout
            if done.returncode != HELD or time.monotonic() >= end:
                said = done.stdout[-200:].decode('ascii', 'replace').strip()
                raise Unreadable(f'`{" ".join(words)}` ended with {done.returncode}: {said}')
            time.sleep(PAUSE)

    def listing(self) -> Listing:
        """The months and threads. It also brings to the files what a run that was killed left in the log."""
        months: dict[str, int] = {}
        threads: dict[int, int] = {}
        for line in self.ask('pages', 'list').decode('ascii', 'replace').splitlines():
            kind, name, count = (line.split(' ') + ['', ''])[:3]
            if kind == 'month' and count.isdecimal():
                months[name] = int(count)
            elif kind == 'thread' and name.isdecimal() and count.isdecimal():
                threads[int(name)] = int(count)
            else:
                raise Unreadable(f'{line[:80]!a} is no line of `pages list`')
        return Listing(months, threads)

    def configuration(self) -> dict[str, str]:
        """The lines of the configuration by their names."""
        try:
            text = (self.folder / 'config').read_bytes().decode('ascii', 'replace')
        except OSError as error:
            raise Unreadable(str(error)) from error
        lines = dict(line.split(' ', 1) for line in text.split('\n') if ' ' in line)
        if missing := {'flags', 'local', 'host'} - lines.keys():
            raise Damaged(f'config wants {", ".join(sorted(missing))}')
        return lines

    def threads(self, listing: Listing) -> array.array[int]:
        """For each post of the listing, by its number, the first post of its thread. Later posts are left out."""
        found = array.array('I', [0]) * (listing.posts + 1)
        counts: collections.Counter[int] = collections.Counter()
        for text in self.thread_files():
            for members in members_of(text):
                first = members[0]
                for number in members:
                    if number > listing.posts:
                        break
                    if found[number]:
                        raise Damaged(f'post {number} stands in two threads')
                    found[number] = first
                    counts[first] += 1
        if dict(counts) != listing.threads:
            raise Damaged('archive/threads has other threads than `pages list` answers')
        return found

    def thread_files(self) -> list[bytes]:
        """All files of threads, read while no run has the list."""
        end = time.monotonic() + self.patience
        while True:
            try:
                with open(self.folder / 'lock', 'rb') as lock:
                    fcntl.flock(lock, fcntl.LOCK_SH | fcntl.LOCK_NB)
                    if size_of(self.folder / 'log') <= 1:
                        return [bytes_of(self.folder / f'archive/threads/{place:03}') for place in range(THREAD_FILES)]
            except BlockingIOError:
                if time.monotonic() >= end:
                    raise Unreadable('another run has the list') from None
            except OSError as error:
                raise Unreadable(str(error)) from error
            else:
                self.ask('pages', 'list')
            time.sleep(PAUSE)

    def group(self, group: int) -> Iterator[tuple[int, Entry]]:
        """The posts of a group (a post's number divided by 100) by the index, with their numbers."""
        path = f'archive/{group}/index'
        try:
            text = bytes_of(self.folder / path)
        except OSError as error:
            raise Unreadable(str(error)) from error
        at = 0
        number = max(1, group * GROUP)
        while at < len(text):
            try:
                moment, at = netstring(text, at)
                sender, at = netstring(text, at)
                size, at = netstring(text, at)
                _, at = netstring(text, at)
                entry = Entry(int(moment), sender, int(size))
            except ValueError as error:
                raise Damaged(f'{path}: {error}') from error
            if text[at:at + 1] != b'\n':
                raise Damaged(f'{path} has no end of a line at {at}')
            yield number, entry
            at += 1
            number += 1

    def post(self, number: int, size: int) -> bytes:
        """The bytes of a post. They never change, so no lock is wanted."""
        path = f'archive/{number // GROUP}/{number % GROUP:02}'
        try:
            content = (self.folder / path).read_bytes()
        except OSError as error:
            raise Unreadable(str(error)) from error
        if len(content) != size:
            raise Damaged(f'{path} has {len(content)} bytes, and by the index it has {size}')
        return content


def size_of(path: pathlib.Path) -> int:
    try:
        return path.stat().st_size
    except FileNotFoundError:
        return 0


def bytes_of(path: pathlib.Path) -> bytes:
    """A file's bytes. An absent file holds nothing, as an empty one does."""
    try:
        return path.read_bytes()
    except FileNotFoundError:
        return b''


def netstring(text: bytes, at: int) -> tuple[bytes, int]:
    """The content of the netstring at a place, and the place after it. Another text is a ValueError."""
    colon = text.find(b':', at, at + 12)
    length = text[at:colon] if colon > 0 else b''
    end = colon + 1 + int(length) if length.isdigit() else -1
    if end < 0 or text[end:end + 1] != b',':
        raise ValueError(f'no netstring at {at}')
    return text[colon + 1:end], end + 1


def members_of(text: bytes) -> Iterator[list[int]]:
    """The posts of each thread of a file of threads: ns(key) ns(numbers), the numbers with commas between."""
    at = 0
    while at < len(text):
        try:
            _, at = netstring(text, at)
            numbers, at = netstring(text, at)
            members = [int(word) for word in numbers.split(b',')]
        except ValueError as error:
            raise Damaged(f'archive/threads: {error}') from error
        if members[0] < 1 or members[-1] > MOST_POSTS or any(a >= b for a, b in zip(members, members[1:])):
            raise Damaged('archive/threads: numbers of posts that don\'t rise')
        yield members
