"""What hosts put into the histories of lists, and what these tell them: items with numbers in a row."""

import dataclasses
import functools
from collections.abc import Callable, Collection, Mapping, Sequence
from typing import Any

from . import chain, program, servers

WHOLE = 100_000_000  # posts back from the newest that are compared if all of a list is

Spell = Callable[[int, int], bytes]  # an item's bytes by its number and its moment


@dataclasses.dataclass(frozen=True)
class Row:
    """An item of the row."""
    number: int
    text: bytes
    hash: bytes = b''        # of the history up to it
    back: int | None = None  # of a timed run, how many of the newest posts are compared after it
    is_given: bool = False   # whether an operator waits for its answer


@dataclasses.dataclass(frozen=True)
class Given:
    """An operator's item in the row: its number and the hash up to it, or None if it was given before and is removed."""
    number: int
    hash: bytes | None


def said_of(name: str, given: Given, row: tuple[str | None, bool, bytes | None] | None) -> str | None:
    """What a list answered to an operator's item, if it did, by the answer that is noted, whether the item is removed, and the hash that is there.
    It is Unfit if another item stands in its place."""
    answer, is_removed, digest = row or (None, False, None)
    if row is None or not is_removed and given.hash != digest:
        raise servers.Unfit(f'item {given.number} of the history of {name} isn\'t any more what was given: the servers were set back, and nobody knows '
                            'whether it was done')
    return '100 stale' if is_removed and answer is None else answer


@dataclasses.dataclass
class Adds:
    """What a host puts into a list's history."""
    mails: Sequence[tuple[bytes, Spell]] = ()     # by their keys
    sent: Collection[int] = ()                    # entries of the outgoing queue that were handed on
    keep: int | None = None                       # a timed run; mails that came first before so many seconds are forgotten
    given: Sequence[tuple[int, Spell]] = ()       # of an operator's, by his numbers
    left: Collection[int] = ()                    # entries that left the queue, of which the copies are forgotten
    size: int = 0                                 # bytes of the mails, as far as that is known

    def __bool__(self) -> bool:
        return bool(self.mails or self.sent or self.given or self.left or self.keep is not None)

    def takes_long(self) -> bool:
        """Whether it is more than items after others, so that other lists don't wait for it."""
        return bool(self.given) or self.keep is not None


@dataclasses.dataclass(frozen=True)
class Wish:
    """What a host asks of a list's history: what it puts in, and the items from its place on, so many at most, and of so many bytes, but at
    least one if there is one. `key` is the hash of the list's keys, if it is known."""
    name: str
    place: int
    key: bytes | None
    adds: Adds
    most: int
    size: int
    hash: bytes | None = None  # of the last item before its place, if the copy keeps one
    is_first: bool = False     # since connections were opened anew: it is noted in any case that the host looked


@dataclasses.dataclass
class Put:
    """Items that are put into a list's history from a number on, until they are written."""
    name: str
    following: int
    now: int     # the moment of the server's clock
    head: bytes  # the hash of the last item before them
    texts: list[bytes] = dataclasses.field(default_factory=list)
    timed: tuple[int, int] | None = None  # the number of a timed run, and how many of the newest posts are compared after it
    mails: list[tuple[bytes, int]] = dataclasses.field(default_factory=list)  # keys of those that are new, and their numbers
    given: list[tuple[int, int]] = dataclasses.field(default_factory=list)    # an operator's numbers of those that are new, and theirs
    numbers: list[int] = dataclasses.field(default_factory=list)  # of mails, and of operators' items: those that they had, if these came before
    made: list[bytes] = dataclasses.field(default_factory=list)   # the hashes that are computed

    def add(self, adds: Adds, mails: Mapping[Any, int], given: Mapping[Any, int]) -> None:
        """Puts in what isn't there yet. The numbers of what is are given."""
        numbers, self.mails = numbered(mails, adds.mails, self.put)
        theirs, self.given = numbered(given, adds.given, self.put)
        self.numbers = numbers + theirs
        for entry in adds.sent:
            self.put(functools.partial(report, entry))

    def put(self, text: Spell) -> int:
        number = self.next()
        self.texts.append(text(number, self.now))
        return number

    def hashes(self) -> list[bytes]:
        """The hashes of the history up to each of the items."""
        if len(self.made) < len(self.texts):
            self.made += chain.all_after(self.made[-1] if self.made else self.head, self.texts[len(self.made):])
        return self.made

    def next(self) -> int:
        """The number of the next item."""
        return self.following + len(self.texts)

    def put_timed(self, text: Spell, back: int) -> None:
        self.timed = self.put(text), back

    def rows(self) -> list[Row]:
        """The items as a list is given them."""
        timed, back = self.timed or (None, None)
        return [Row(number, text, digest, back if number == timed else None)
                for number, (text, digest) in enumerate(zip(self.texts, self.hashes()), self.following)]


@dataclasses.dataclass(frozen=True)
class Stand:
    """How a list's history stands for a host that is at some place."""
    name: str
    next: int                # the number that the next item gets
    first: int               # the number of the first item that is kept
    head: bytes              # the hash of the last item
    unhashed: int            # the highest place of a copy that may keep no hash
    epoch: int               # how often an operator had it go on from one copy
    clock: int               # the moment of the server's clock
    hash: bytes | None       # the hash up to the host's place
    known: int | None        # the host's place, as it said last, if it is one of the list's
    configured: int          # the number from which on the configuration holds that holds at its place
    limit: int | None        # the number from which on another one holds
    is_waited_for: bool      # whether operators wait for answers of items before its place


@dataclasses.dataclass
class Told:
    """What the history says to a host."""
    numbers: list[int]       # of its mails, or of an operator's items
    next: int                # the number that the next item gets
    rows: list[Row]          # items from the host's place on
    again: list[Row]         # items before it for whose answers operators still wait
    configured: int          # the number from which on the configuration holds that holds at this place
    hash: bytes              # of the history up to this place
    clock: int               # the moment of the server's clock


@dataclasses.dataclass
class Step:
    """What one host's wish comes to."""
    wish: Wish
    stand: Stand
    put: Put
    rows: list[Row] = dataclasses.field(default_factory=list)
    again: list[Row] = dataclasses.field(default_factory=list)

    def has_news(self) -> bool:
        """Whether there is something to note, or to tell."""
        return self.wish.is_first or not self.put.next() == self.wish.place == self.stand.known

    def is_all_new(self) -> bool:
        """Whether what is put in now is all there is from the place on."""
        return self.wish.place == self.stand.next and not self.wish.adds.given

    def bound(self) -> int:
        """The number below which the items are that are told."""
        return min(self.stand.limit or self.put.next(), self.put.next(), self.wish.place + self.wish.most)

    def told(self) -> Told | servers.Unfit:
        if self.rows and self.rows[0].number != self.wish.place:
            return servers.Unfit(f'the history of {self.wish.name} has no item {self.wish.place}')
        assert self.stand.hash is not None
        return Told(self.put.numbers, self.put.next(), self.rows, self.again, self.stand.configured, self.stand.hash, self.stand.clock)


def look_at(wish: Wish, stand: Stand | None) -> Stand:
    """How a list's history stands. It is Unfit if a host's copy can't go by it."""
    name, place = wish.name, wish.place
    if stand is None:
        raise servers.Unfit('the list has no history')
    look_at_place(name, place, stand)
    if stand.known is None:
        raise servers.Unfit(f'this host is none of {name}\'s any more: it was removed by --forget-host, and takes the list up again')
    if place < stand.first:
        raise servers.Unfit(f'the history of {name} has no item {place}{in_epoch(stand.epoch)}')
    look_at_hash(name, place, wish.hash, stand)
    return stand


def look_at_hash(name: str, place: int, kept: bytes | None, stand: Stand) -> None:
    """A copy whose last item isn't the one that the history has there is Unfit, whatever the history grows to. One that keeps no hash may be one of
    before hashes were kept."""
    if kept is None and place > stand.unhashed:
        raise servers.Unfit(f'this host\'s copy of {name} doesn\'t tell by its file history what item {place - 1} was: it was served by itself, or the '
                            'file is of an old copy')
    if kept is not None and kept != stand.hash:
        raise servers.Unfit(f'item {place - 1} of the history of {name} is another one than this host\'s copy was given: the servers were set back, or '
                            f'the copy is of another history{in_epoch(stand.epoch)}; THE SERVERS WERE SET BACK in ezmlm-agent(8) tells what to do')


def in_epoch(epoch: int) -> str:
    """Words about an epoch that isn't the first."""
    return f'; an operator had it go on from one host\'s copy, in epoch {epoch}' if epoch > 1 else ''


def look_at_place(name: str, place: int, stand: Stand) -> None:
    """Servers that lost items, as old copies of them have, would give a number to another item. A copy that has answered that one is Unfit."""
    if place > stand.next:
        raise servers.Unfit(f'this host\'s copy of {name} has answered item {place - 1}, and its history goes to item {stand.next - 1}: it was served '
                            f'by itself, or the history is an old one{in_epoch(stand.epoch)}')


def first_of(rows: Sequence[Row], bound: int, size: int) -> list[Row]:
    """The first of these items, below a number: of so many bytes, but at least one if there is one."""
    kept: list[Row] = []
    for row in rows:
        size -= len(row.text)
        if row.number >= bound or kept and size < 0:
            break
        kept.append(row)
    return kept


def numbered(found: Mapping[Any, int], entries: Sequence[tuple[Any, Spell]],
             put: Callable[[Spell], int]) -> tuple[list[int], list[tuple[Any, int]]]:
    """The numbers of entries by their keys, those that were found or new ones; and the new ones with their keys. The key 0 is none."""
    known = dict(found)
    numbers: list[int] = []
    new: list[tuple[Any, int]] = []
    for key, text in entries:
        if not key or key not in known:
            known[key] = put(text)
            new.append((key, known[key]))
        numbers.append(known[key])
    return numbers, new


def report(entry: int, number: int, moment: int) -> bytes:
    return program.item(b'S', number, moment, entry)


def raised(floor: int, number: int, moment: int) -> bytes:
    return program.item(b'F', number, moment, floor)
