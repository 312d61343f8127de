"""The archive as its posts tell it: the number of posts, the indexes and the thread files, written anew into a folder beside it."""

from __future__ import annotations

import array
import os
import pathlib
import re
import shutil
from collections.abc import Iterator
from dataclasses import dataclass, field

from ezmlm_agent import folder as folders
from ezmlm_agent import program as programs

from . import entries, files, texts
from .entries import GROUP, Made
from .lists import NO_LIST, Refused

FRONT = 65536  # bytes of a post in which its header mostly ends
GROUPS = re.compile('0|[1-9][0-9]{0,5}', re.ASCII)
POST = re.compile('[0-9]{2}', re.ASCII)
THREADS = re.compile('[0-9]{3}', re.ASCII)
EMPTY_LINE = re.compile(rb'\n\r?\n')


@dataclass
class Written:
    """What was written anew: how many posts there are, what is said of some of them, and which files differ from those that were there."""
    posts: int = 0
    said: list[tuple[int, str]] = field(default_factory=list)
    changed: list[str] = field(default_factory=list)


def path_of(number: int) -> str:
    """The path of a post below the folder of the archive."""
    return f'{number // GROUP}/{number % GROUP:02}'


def groups_there(archive: pathlib.Path) -> list[int]:
    """The numbers of the groups that have a folder, ascending."""
    return sorted(int(name) for name in folders.names(archive) if GROUPS.fullmatch(name))


def posts_there(archive: pathlib.Path) -> list[int]:
    """The numbers of the posts that are there, ascending."""
    found = [group * GROUP + int(name) for group in groups_there(archive) for name in folders.names(archive / str(group))
             if POST.fullmatch(name) and (archive / str(group) / name).is_file()]
    return sorted(number for number in found if number)


def count(folder: pathlib.Path) -> int:
    """How many posts the list has, by their files. It is Refused if one is gone: its number can't be given to others."""
    archive = folder / 'archive'
    there = posts_there(archive)
    last = len(there)
    if there and there[-1] != last:
        gone = next(number for number, found in enumerate(there, 1) if number != found)
        raise lost(archive, gone, 'and later ones are there')
    for group in groups_there(archive):
        whole = sum(piece is not None for piece in entries.pieces(folders.bytes_or_none(archive / str(group) / 'index') or b''))
        of_group = max(0, min(last, group * GROUP + GROUP - 1) - max(1, group * GROUP) + 1)
        if whole > of_group:
            raise lost(archive, max(1, group * GROUP) + of_group, f'and archive/{group}/index has its entry')
    said = number_or_none(folders.bytes_or_none(folder / 'num'))
    if said is not None and said > last and any(said in numbers for numbers in threads_there(archive)):
        raise lost(archive, last + 1, f'and num and a thread file tell of {said} posts')
    return last


def number_or_none(text: bytes | None) -> int | None:
    """What `num` says, or None if it isn't there or is damaged."""
    try:
        return None if text is None else files.count(text)
    except ValueError:
        return None


def lost(archive: pathlib.Path, number: int, why: str) -> Refused:
    return Refused(NO_LIST, f'{archive / path_of(number)} is gone, {why}: lay the post back, or any message in its place; '
                            'its number is never another post\'s')


def threads_there(archive: pathlib.Path) -> Iterator[list[int]]:
    """The numbers of the posts in each thread of the thread files that are whole."""
    for name in folders.names(archive / 'threads'):
        try:
            yield from map(files.numbers, programs.netstrings(folders.bytes_or_none(archive / 'threads' / name) or b'')[1::2])
        except ValueError:
            continue


def facts(path: pathlib.Path) -> entries.Facts:
    """What a post itself tells."""
    with open(path, 'rb') as file:
        state = os.fstat(file.fileno())
        front = file.read(FRONT)
        if len(front) == FRONT and EMPTY_LINE.search(front) is None:
            front += file.read()
    return entries.facts(state.st_size, front, int(state.st_mtime))


def link(old: pathlib.Path, new: pathlib.Path) -> None:
    """Gives a post its place in the new archive too: posts are never changed, so both have the same file if the disk can do that."""
    try:
        os.link(old, new)
    except OSError:
        shutil.copy2(old, new)


def index_of(archive: pathlib.Path, group: int, last: int, before: int, now: int) -> list[Made]:
    """The entries of a group of posts, of which each is as it was if it was whole."""
    found = entries.pieces(folders.bytes_or_none(archive / str(group) / 'index') or b'')
    first = max(1, group * GROUP)
    posts = [facts(archive / path_of(number)) for number in range(first, min(last, group * GROUP + GROUP - 1) + 1)]
    there = entries.placed(found, posts)
    made: list[Made] = []
    for place, (one, post) in enumerate(zip(there, posts)):
        after = next((later.moment for later in there[place + 1:] if later is not None), now)
        made.append(entries.made(one, post, made[-1].entry.moment if made else before, after))
    return made


def write(folder: pathlib.Path, last: int, prefix: bytes, new: pathlib.Path, now: int) -> Written:
    """Writes the archive of posts 1 to `last` anew into the folder `new`, which isn't there yet."""
    archive, written, before = folder / 'archive', Written(last), 0
    threads: dict[bytes, array.array[int]] = {}
    new.mkdir()
    for group in range(last // GROUP + 1) if last else ():
        (new / str(group)).mkdir()
        made = index_of(archive, group, last, before, now)
        before = made[-1].entry.moment if made else before
        for number, one in enumerate(made, max(1, group * GROUP)):
            link(archive / path_of(number), new / path_of(number))
            threads.setdefault(texts.subject_key(prefix, one.entry.subject), array.array('L')).append(number)
            written.said += [(number, one.said)] if one.said else []
        (new / str(group) / 'index').write_bytes(b''.join(one.entry.text() for one in made))
        written.changed += differs(archive, new, f'{group}/index')
    write_threads(archive, new, threads, written)
    for group in groups_there(archive):
        if group > (last // GROUP if last else -1):
            written.changed += differs(archive, new, f'{group}/index')
    return written


def write_threads(archive: pathlib.Path, new: pathlib.Path, threads: dict[bytes, array.array[int]], written: Written) -> None:
    """Writes the thread files: of each key in ascending order the key and the numbers of its posts."""
    (new / 'threads').mkdir()
    places: dict[str, list[bytes]] = {}
    for key in sorted(threads):
        places.setdefault(f'{files.hash_of(key) % 256:03}', []).append(key)
    for name, keys in places.items():
        row = (part for key in keys for part in (key, b','.join(b'%d' % number for number in threads[key])))
        (new / 'threads' / name).write_bytes(b''.join(map(programs.netstring, row)))
    for name in sorted({*places, *filter(THREADS.fullmatch, folders.names(archive / 'threads'))}):
        written.changed += differs(archive, new, f'threads/{name}')


def differs(archive: pathlib.Path, new: pathlib.Path, name: str) -> list[str]:
    """The path of a file if it isn't what it was. One that is empty is as one that is absent."""
    old, now = (folders.bytes_or_none(each / name) or b'' for each in (archive, new))
    return [f'archive/{name}'] if old != now else []
