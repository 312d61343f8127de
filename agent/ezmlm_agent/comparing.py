"""What a copy of a list is, in one hash, and whether it is what the others are."""

import collections
import dataclasses
import hashlib
import os
import pathlib
from collections.abc import Iterable, Iterator
from typing import NamedTuple

from . import folder

GROUP = 100  # posts in one folder of the archive
# The files of a list by docs/FORMATS.md, except the log and the lock. `archive` is taken by groups of posts.
PARTS = ('config', 'key', 'subscribers', 'digest', 'allow', 'deny', 'mod', 'counts', 'num', 'dig', 'pending', 'tickets', 'bounce', 'queue', 'ids',
         'done', 'floor', 'archive/threads')
PIECE = 1 << 20
WAITS = 60  # seconds for which a host may be slower than another to look at its copy


class Seen(NamedTuple):
    """What a host saw at a place of the history: how many of the newest posts it looked at, and the hash."""
    place: int
    host: str
    back: int
    digest: bytes
    moment: int
    hash: bytes = b''  # of the history up to the place


@dataclasses.dataclass(frozen=True)
class Part:
    """The hash of all that items change, and the groups of posts that are looked at beside it: they are full, and never change."""
    digest: bytes
    groups: range


def files(path: pathlib.Path, part: str) -> Iterator[pathlib.Path]:
    """The files of a part of a list, in order."""
    if (path / part).is_file():
        yield path / part
    for place, folders, names in os.walk(path / part):
        folders.sort()
        yield from (pathlib.Path(place, name) for name in sorted(names))


def hashed(path: pathlib.Path, parts: Iterable[str]) -> bytes:
    """The hash of parts of a list. An empty file is what an absent one is."""
    whole = hashlib.sha256()
    for part in parts:
        for each in files(path, part):
            single = hashlib.sha256()
            with open(folder.opened(each, os.O_RDONLY), 'rb') as file:
                size = 0
                while piece := file.read(PIECE):
                    single.update(piece)
                    size += len(piece)
            if size:
                whole.update(os.fsencode(each.relative_to(path)) + b'\0' + single.digest())
    return whole.digest()


def changing(path: pathlib.Path, back: int) -> Part:
    """Looks at what items change, while nothing else has the list. Of the posts the last `back` are to be looked at."""
    posts = int(folder.bytes_or_none(path / 'num') or 0)
    last = posts // GROUP
    return Part(hashed(path, [*PARTS, f'archive/{last}']), range(max(0, posts - back) // GROUP, last))


def whole(path: pathlib.Path, part: Part) -> bytes:
    """The hash of all that was to be looked at. Items may come meanwhile."""
    return hashlib.sha256(part.digest + hashed(path, (f'archive/{group}' for group in part.groups))).digest()


def others(seen: Iterable[Seen], host: str, now: float) -> list[str]:
    """The hosts whose copies were another list at the last place at which this host's was looked at, unless more hosts agree with this one than
    with any of those. Only copies that were given the same items are compared. If as many do nobody can tell which is right; further hosts have a while to look before that counts."""
    rows = list(seen)
    own = max((row for row in rows if row.host == host), default=None)
    if own is None:
        return []
    there = [row for row in rows if (row.place, row.back, row.hash) == (own.place, own.back, own.hash)]
    many = collections.Counter(row.digest for row in there)
    most = max((count for digest, count in many.items() if digest != own.digest), default=0)
    is_tied = most == many[own.digest] and now - max(row.moment for row in there) >= WAITS
    return sorted(row.host for row in there if row.digest != own.digest) if most > many[own.digest] or is_tied else []
