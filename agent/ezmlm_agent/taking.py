"""Whether a host's copy of a list can go by the list's history: it takes it up, is refused, or an operator has the history go on from it."""

import dataclasses
import time
from collections.abc import Mapping, Sequence

from . import chain, lines, notes, puts, servers
from .columns import Handed, arrays, keep_handed, make_each, one, row_of

DAY = 86400
NOW = 'extract(epoch FROM clock_timestamp())::bigint'


@dataclasses.dataclass(frozen=True)
class Copy:
    """A host's copy of a list, as its history has to know it. `hash` is the one of the last item before its place, if it keeps one."""
    name: str
    address: notes.Address
    place: int
    hash: bytes | None
    floor: int
    config: bytes
    key: bytes


class Taking:
    """The part of `history.History` that has what hosts are to it. Each call is one transaction."""

    def __init__(self, those: lines.Lines) -> None:
        self.lines, self.host = those, those.servers.host

    async def take_up(self, copy: Copy, known: Mapping[bytes, tuple[int, int]], handed: Handed) -> bytes:
        """A list of this host. If it has no history yet that begins at its place, with the mails by their keys (numbers and moments) and the
        copies that were handed on that its host knows. The answer is the hash of the history at its place. It is Unfit if the copy can't be one of
        the history's list."""
        return await self.lines.call(self.taken_up, copy, known, handed)

    def taken_up(self, cursor: lines.Cursor, copy: Copy, known: Mapping[bytes, tuple[int, int]], handed: Handed) -> bytes:
        name, place = copy.name, copy.place
        base = copy.hash or chain.begun()
        cursor.execute(f'INSERT INTO ezmlm.list SELECT %s, %s, %s, %s, %s, %s, {NOW}, {NOW} / 86400, %s, %s, %s, 1 ON CONFLICT DO NOTHING '
                       'RETURNING name', (name, *copy.address, place, place, copy.floor, base, base, place))
        if cursor.fetchone() is not None:
            cursor.execute('INSERT INTO ezmlm.configuration VALUES (%s, %s, %s)', (name, place, copy.config))
            cursor.executemany('INSERT INTO ezmlm.mail VALUES (%s, %s, %s, %s)', [(name, key, *row) for key, row in known.items()])
            keep_handed(cursor, [(name, *row) for row in handed])
        cursor.execute('SELECT FROM ezmlm.list WHERE name = %s FOR UPDATE', (name,))
        digest = look_at(cursor, copy)
        cursor.execute('SELECT place, key FROM ezmlm.host WHERE list = %s AND host = %s', (name, self.host))
        before = cursor.fetchone()
        if before is not None and before[0] == place and before[1] not in (None, copy.key):
            raise servers.Unfit(f'the key of {name} was changed by hand on this host: put the file key of another host\'s copy in its place')
        cursor.execute(f'INSERT INTO ezmlm.host VALUES (%s, %s, %s, {NOW}, %s, %s - {NOW}, pg_postmaster_start_time()::text) '
                       'ON CONFLICT (list, host) DO UPDATE SET place = excluded.place, seen = excluded.seen, key = excluded.key, '
                       'ahead = excluded.ahead, server = excluded.server', (name, self.host, place, copy.key, int(time.time())))
        cursor.execute("DELETE FROM ezmlm.trouble WHERE list = %s AND host = %s AND kind = 'refused'", (name, self.host))
        return digest

    # Trouble.

    async def note_trouble(self, name: str, kind: str, place: int, why: str) -> None:
        """Notes why this host's copy can't go by the history (`refused`), or that it couldn't hand on (`stuck`); or that it is over, without
        a reason."""
        if why:
            await self.lines.call(make_each, 'INSERT INTO ezmlm.trouble SELECT %s, %s, %s, %s, %s, extract(epoch FROM clock_timestamp())::bigint '
                                  'ON CONFLICT (list, host, kind) DO UPDATE SET place = excluded.place, why = excluded.why',
                                  [(name, self.host, kind, place, why)])
        else:
            await self.lines.call(make_each, 'DELETE FROM ezmlm.trouble WHERE list = %s AND host = %s AND kind = %s', [(name, self.host, kind)])

    # What an operator decides.

    async def look_at(self, copy: Copy) -> int:
        """How many items the history has that came since this copy. It is Unfit if the copy can't go by it."""
        def look(cursor: lines.Cursor) -> int:
            look_at(cursor, copy)
            cursor.execute('SELECT next FROM ezmlm.list WHERE name = %s', (copy.name,))
            following: int = one(cursor)
            return following - copy.place
        return await self.lines.call(look)

    async def go_on_from(self, copy: Copy, kept: chain.Kept) -> tuple[int, int, int]:
        """Has a list's history go on from this host's copy, in a new epoch. Items from its place on, and what was said of items from the first
        one on that this copy wasn't given, are gone. The answer is that first one, how many items are gone, and the epoch."""
        return await self.lines.call(self.gone_on_from, copy, kept)

    def gone_on_from(self, cursor: lines.Cursor, copy: Copy, kept: chain.Kept) -> tuple[int, int, int]:
        name, place, digest = copy.name, copy.place, copy.hash or chain.begun()
        cursor.execute('SELECT next, first, base FROM ezmlm.list WHERE name = %s FOR UPDATE', (name,))
        following, first, base = row_of(cursor)
        cursor.execute('SELECT number, hash FROM ezmlm.item WHERE list = %s', (name,))
        theirs: dict[int, bytes] = {number: hash for number, hash in cursor.fetchall()}
        fork = min(place, chain.fork(kept, {first - 1: base} | theirs))
        cursor.execute('DELETE FROM ezmlm.item WHERE list = %s', (name,))
        for statement in ('DELETE FROM ezmlm.mail WHERE list = %s AND number >= %s', 'DELETE FROM ezmlm.given WHERE list = %s AND number >= %s',
                          'DELETE FROM ezmlm.configuration WHERE list = %s AND number >= %s'):
            cursor.execute(statement, (name, fork))
        cursor.execute('INSERT INTO ezmlm.configuration VALUES (%s, %s, %s) ON CONFLICT (list, number) DO UPDATE SET text = excluded.text',
                       (name, place, copy.config))
        for statement in ('DELETE FROM ezmlm.digest WHERE list = %s', 'DELETE FROM ezmlm.host WHERE list = %s',
                          "DELETE FROM ezmlm.trouble WHERE list = %s AND kind = 'refused'"):
            cursor.execute(statement, (name,))
        cursor.execute(f'UPDATE ezmlm.list SET next = %s, first = %s, floor = %s, head = %s, base = %s, unhashed = 0, epoch = epoch + 1, '
                       f'day = {NOW} / 86400 - 1 WHERE name = %s RETURNING epoch', (place, place, copy.floor, digest, digest, name))
        epoch: int = one(cursor)
        cursor.execute("SELECT pg_notify('ezmlm', '0 ' || %s)", (name,))
        return fork, max(0, following - fork), epoch


def look_at(cursor: lines.Cursor, copy: Copy) -> bytes:
    """The hash of a list's history at a copy's place. It is Unfit if the copy can't be one of the history's list."""
    name = copy.name
    cursor.execute('SELECT local, host FROM ezmlm.list WHERE name = %s', (name,))
    local, host = row_of(cursor)
    if (local, host) != copy.address:
        raise servers.Unfit(f'the history of {name} is the one of the list {(local + b"@" + host).decode("ascii", "replace")}')
    stand = stands(cursor, [(name, copy.place)], '')[name]
    puts.look_at_place(name, copy.place, stand)
    if copy.place < stand.first:
        raise servers.Unfit(f'this host\'s copy of {name} wants item {copy.place}, and the history begins at item {stand.first}: take a newer copy '
                            f'of another host{puts.in_epoch(stand.epoch)}')
    puts.look_at_hash(name, copy.place, copy.hash, stand)
    assert stand.hash is not None
    return stand.hash


STATES = f'''SELECT l.name, l.next, l.first, l.head, l.unhashed, l.epoch, {NOW},
        CASE w.place WHEN l.next THEN l.head WHEN l.first THEN l.base
            ELSE (SELECT hash FROM ezmlm.item WHERE list = l.name AND number = w.place - 1) END, h.place,
        (SELECT max(number) FROM ezmlm.configuration WHERE list = l.name AND number <= w.place),
        (SELECT min(number) FROM ezmlm.configuration WHERE list = l.name AND number > w.place),
        EXISTS (SELECT FROM ezmlm.given WHERE list = l.name AND answer IS NULL AND number < w.place)
    FROM unnest(%s::text[], %s::bigint[]) AS w (name, place) JOIN ezmlm.list l ON l.name = w.name
        LEFT JOIN ezmlm.host h ON h.list = l.name AND h.host = %s'''


def stands(cursor: lines.Cursor, places: Sequence[tuple[str, int]], host: str) -> dict[str, puts.Stand]:
    """How lists' histories stand for a host that is at these places."""
    cursor.execute(STATES, (*arrays(places, 2), host))
    return {row[0]: puts.Stand(*row) for row in cursor.fetchall()}
