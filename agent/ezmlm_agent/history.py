"""All that is asked of the database that keeps the histories of lists."""

import hashlib
import time
from collections.abc import Collection, Sequence
from typing import Any

import psycopg

from . import comparing, lines, notes, puts, rows, servers, status
from .columns import Handed, make_each, one, row_of
from .tables import FROM_1, TABLES, VERSION

# The advisory locks of this database by their keys, and who has each.
HOLDERS = '''SELECT (k.classid::bigint << 32) | k.objid::bigint, a.application_name FROM pg_locks k JOIN pg_stat_activity a USING (pid)
    WHERE k.locktype = 'advisory' AND k.granted AND k.objsubid = 1 AND a.datname = current_database()'''
# What the hosts saw, with moments as this host's clock has them, which has the one that is given.
SEEN = '''SELECT list, place, host, back, digest, moment - extract(epoch FROM clock_timestamp())::bigint + %s, hash FROM ezmlm.digest'''
# Where the hosts stand, also those that have trouble alone: place, next number, seconds for which the item at the place waits, the clock.
HOSTS = '''SELECT h.list, h.host, h.place, l.next, extract(epoch FROM clock_timestamp())::bigint - i.first, h.ahead
    FROM (SELECT list, host, place, ahead FROM ezmlm.host UNION SELECT list, host, NULL, NULL FROM ezmlm.trouble t
            WHERE NOT EXISTS (SELECT FROM ezmlm.host WHERE list = t.list AND host = t.host)) AS h JOIN ezmlm.list l ON l.name = h.list
        LEFT JOIN ezmlm.item i ON i.list = h.list AND i.number = h.place ORDER BY h.list, h.host'''
NOTHING = 10**15  # an entry of a queue that was never there, of which a report does nothing


class History(rows.Rows):
    """The one class that knows SQL, with the part of it that has the items. Each call is one transaction, and its answer is on the disks of as
    many servers as these are told to keep it on."""

    def prepare(self, connection: servers.Connection) -> None:
        """Makes the tables if they are missing. It is Unfit if they are of a newer version, or can't be written."""
        try:
            with connection.transaction():
                self.make_tables(lines.Cursor(connection))
        except psycopg.errors.InsufficientPrivilege as error:
            raise servers.Unfit(f'the history can\'t be written: {servers.words_of(error)}') from error

    def make_tables(self, cursor: lines.Cursor) -> None:
        cursor.execute("SELECT pg_advisory_xact_lock(hashtext('ezmlm tables'))")
        if not self.has_tables(cursor):
            cursor.connection.execute(TABLES)
            cursor.execute('INSERT INTO version VALUES (%s)', (VERSION,))
        cursor.execute('SELECT number FROM ezmlm.version')
        if one(cursor) == 1:
            cursor.connection.execute(FROM_1)
            cursor.execute('UPDATE ezmlm.version SET number = %s', (VERSION,))
        self.write_tables(cursor)

    def has_tables(self, cursor: lines.Cursor) -> bool:
        cursor.execute("SELECT to_regclass('ezmlm.version')::text")
        return one(cursor) is not None

    def write_tables(self, cursor: lines.Cursor) -> None:
        """Changes nothing, so that it is seen whether the tables are of this version, and can be written."""
        cursor.execute('UPDATE ezmlm.version SET number = number RETURNING number')
        if (found := one(cursor)) != VERSION:
            raise servers.Unfit(f'the history has version {found}, and this agent knows version {VERSION}: '
                                + ('install the newer agent' if found > VERSION else 'it can\'t be read'))

    async def try_tables(self) -> bool:
        """Whether the tables are there. It is Unfit or Lost if they can't be written, or if no standby confirms what is."""
        def look(cursor: lines.Cursor) -> bool:
            if is_there := self.has_tables(cursor):
                self.write_tables(cursor)
            return is_there
        return await self.lines.call(look)

    # Configurations.

    async def configurations(self, name: str, place: int) -> list[tuple[int, bytes]]:
        """The configuration that holds at a place, and the one that held before, with the numbers from which on they hold."""
        def read(cursor: lines.Cursor) -> list[tuple[int, bytes]]:
            cursor.execute('SELECT number, text FROM ezmlm.configuration WHERE list = %s AND number <= %s ORDER BY number DESC LIMIT 2',
                           (name, place))
            return [(number, text) for number, text in cursor.fetchall()]
        return await self.lines.call(read)

    async def configure(self, name: str, text: bytes) -> None:
        """Has a configuration hold from the next item on, and puts an item there that does nothing: so each host comes to lay it in."""
        def configure(cursor: lines.Cursor) -> None:
            _, following = self.put(cursor, name, puts.Adds(sent=[NOTHING]))
            cursor.execute('INSERT INTO ezmlm.configuration VALUES (%s, %s, %s)', (name, following, text))
        await self.lines.call(configure)

    # Operators.

    async def give(self, name: str, given: Sequence[tuple[int, puts.Spell]]) -> list[puts.Given]:
        """Puts an operator's items into the row, by his numbers. It is Unfit while a host can't go by the history."""
        def give(cursor: lines.Cursor) -> list[puts.Given]:
            self.look_at_hosts(cursor, name)
            numbers, _ = self.put(cursor, name, puts.Adds(given=given))
            cursor.execute('SELECT number, hash FROM ezmlm.item WHERE list = %s AND number = ANY(%s)', (name, numbers))
            hashes: dict[int, bytes] = {number: digest for number, digest in cursor.fetchall()}
            return [puts.Given(number, hashes.get(number)) for number in numbers]
        return await self.lines.call(give)

    def look_at_hosts(self, cursor: lines.Cursor, name: str) -> None:
        """It is Unfit while a host can't go by a list's history, and Lost while one that is there hasn't looked at it since its server runs: the
        history may be an old one."""
        cursor.execute("SELECT host, why FROM ezmlm.trouble WHERE list = %s AND kind = 'refused' ORDER BY host", (name,))
        for host, why in cursor.fetchall():
            raise servers.Unfit(f'{host} can\'t go by the history: {why}')
        cursor.execute('SELECT host FROM ezmlm.host WHERE list = %s AND server <> pg_postmaster_start_time()::text ORDER BY host', (name,))
        late = [host for host, in cursor.fetchall()]
        cursor.execute(HOLDERS)
        holders = {key for key, _ in cursor.fetchall()}
        for host in late:
            if key_of(f'host {host}') in holders:
                raise servers.Late(f'{host} hasn\'t looked at the history of {name} since the server began: try again')

    async def answers(self, name: str, given: Sequence[puts.Given]) -> dict[int, str]:
        """What the list answered to items of operators, as far as it did. One that was removed before its answer was noted is `stale`. It is Unfit
        if others stand in the place of these items, as after the servers were set back."""
        def read(cursor: lines.Cursor) -> dict[int, str]:
            cursor.execute('SELECT g.number, g.answer, g.number < l.first, i.hash FROM ezmlm.given g JOIN ezmlm.list l ON l.name = g.list '
                           'LEFT JOIN ezmlm.item i ON i.list = g.list AND i.number = g.number WHERE g.list = %s AND g.number = ANY(%s)',
                           (name, [each.number for each in given]))
            found = {number: (answer, is_removed, digest) for number, answer, is_removed, digest in cursor.fetchall()}
            return {each.number: said for each in given if (said := puts.said_of(name, each, found.get(each.number))) is not None}
        return await self.lines.call(read)

    async def lists(self) -> dict[str, tuple[notes.Address, range]]:
        """The lists that have a history, by their folders' names: their addresses, and the numbers of the items that are kept."""
        def read(cursor: lines.Cursor) -> dict[str, tuple[notes.Address, range]]:
            cursor.execute('SELECT name, local, host, first, next FROM ezmlm.list ORDER BY name')
            return {name: ((local, host), range(first, following)) for name, local, host, first, following in cursor.fetchall()}
        return await self.lines.call(read)

    async def forget_host(self, host: str) -> int | None:
        """Forgets a host that is gone for good. The answer is how many lists it had, or None if an agent of it runs."""
        def forget(cursor: lines.Cursor) -> int | None:
            cursor.execute('SELECT pg_try_advisory_xact_lock(%s)', (key_of(f'host {host}'),))
            if not one(cursor):
                return None
            cursor.execute('DELETE FROM ezmlm.digest WHERE host = %s', (host,))
            cursor.execute('DELETE FROM ezmlm.trouble WHERE host = %s', (host,))
            cursor.execute('DELETE FROM ezmlm.host WHERE host = %s RETURNING list', (host,))
            return len(cursor.fetchall())
        return await self.lines.call(forget)

    # What copies are.

    async def look(self, name: str, place: int, back: int, digest: bytes, up_to: bytes) -> None:
        """Notes what this host's copy is at a place, up to which the history has this hash, and has all hosts compare."""
        def note(cursor: lines.Cursor) -> None:
            cursor.execute('INSERT INTO ezmlm.digest SELECT %s, %s, %s, %s, %s, extract(epoch FROM clock_timestamp())::bigint, %s ON CONFLICT '
                           '(list, place, host) DO UPDATE SET back = excluded.back, digest = excluded.digest, moment = excluded.moment, '
                           'hash = excluded.hash', (name, place, self.host, back, digest, up_to))
            cursor.execute('SELECT pg_notify(%s, %s)', (rows.CHANNEL, f'0 {name}'))
        await self.lines.call(note)

    async def seen(self, name: str) -> list[comparing.Seen]:
        """What the hosts saw of a list."""
        def read(cursor: lines.Cursor) -> list[comparing.Seen]:
            cursor.execute(f'{SEEN} WHERE list = %s', (int(time.time()), name))
            return [comparing.Seen(*row) for _, *row in cursor.fetchall()]
        return await self.lines.call(read)

    async def forget_looks(self, name: str) -> None:
        """Forgets what this host saw of a list: another copy stands in its place."""
        await self.lines.call(make_each, 'DELETE FROM ezmlm.digest WHERE list = %s AND host = %s', [(name, self.host)])

    # Copies that were handed on.

    async def handed(self, name: str) -> list[tuple[int, bytes, bytes]]:
        """The copies of the entries of a list's queue that were handed on, by whichever host."""
        def read(cursor: lines.Cursor) -> list[tuple[int, bytes, bytes]]:
            cursor.execute('SELECT entry, mark, recipients FROM ezmlm.handed WHERE list = %s', (name,))
            return [(entry, mark, recipients) for entry, mark, recipients in cursor.fetchall()]
        return await self.lines.call(read)

    async def hand(self, name: str, copies: Handed) -> None:
        """Notes copies that were handed on."""
        those = [(name, *row) for row in copies]
        await self.lines.join(rows.keep_all_handed, those, object(), 0)

    async def stands(self, name: str) -> tuple[int, int]:
        """The number that the next item gets, and how many seconds ago the last timed run was put into the history."""
        def read(cursor: lines.Cursor) -> tuple[int, int]:
            following, since = row_of(cursor.execute('SELECT next, extract(epoch FROM clock_timestamp())::bigint - timed FROM ezmlm.list '
                                                     'WHERE name = %s', (name,)))
            return following, since
        return await self.lines.call(read)

    async def standing(self) -> list[status.Standing]:
        """How the lists stand on all hosts, without their queues."""
        return await self.lines.call(self.stood)

    def stood(self, cursor: lines.Cursor) -> list[status.Standing]:
        cursor.execute(HOLDERS)
        holders = {key: str(name).removeprefix('ezmlm-agent ') for key, name in cursor.fetchall()}
        cursor.execute(SEEN, (int(time.time()),))
        seen: dict[str, list[comparing.Seen]] = {}
        for name, *row in cursor.fetchall():
            seen.setdefault(name, []).append(comparing.Seen(*row))
        cursor.execute('SELECT list, host, kind, place, why FROM ezmlm.trouble')
        trouble: dict[tuple[str, str], dict[str, str]] = {}
        places: dict[tuple[str, str], int] = {}
        for name, host, kind, place, why in cursor.fetchall():
            trouble.setdefault((name, host), {})[kind] = why
            places |= {(name, host): place} if kind == 'refused' else {}
        cursor.execute(HOSTS)
        hosts: dict[str, list[status.Host]] = {}
        for name, host, place, following, since, ahead in cursor.fetchall():
            at = places.get((name, host), place)
            hosts.setdefault(name, []).append(status.host_of(host, following if at is None else at, following, since, seen.get(name, []),
                                                             key_of(f'host {host}') in holders, trouble.get((name, host), {}), ahead or 0))
        cursor.execute('SELECT name FROM ezmlm.list ORDER BY name')
        return [status.Standing(name, None, holders.get(key_of(f'list {name}')), hosts.get(name, [])) for name, in cursor.fetchall()]

    # Locks, over a connection of its own that ends with its host.

    def take(self, connection: servers.Connection, names: Collection[str]) -> list[str]:
        """Those of these names of which nobody else has the lock. This connection has it now. It asks the server in any case."""
        keys = {key_of(name): name for name in names}
        found = connection.execute('SELECT key FROM unnest(%s::bigint[]) AS wanted (key) WHERE pg_try_advisory_lock(key)', (list(keys),)).fetchall()
        return [keys[key] for key, in found]

    def confirm(self, connection: servers.Connection) -> None:
        """Waits until as many servers confirm what was written as confirm all else."""
        self.lines.servers.confirm(connection)

    def release(self, connection: servers.Connection, name: str) -> None:
        connection.execute('SELECT pg_advisory_unlock(%s)', (key_of(name),))

    def listen(self, connection: servers.Connection) -> None:
        """Has what is put into histories told to this connection."""
        connection.execute(f'LISTEN {rows.CHANNEL}')


def key_of(name: str) -> int:
    """The key of an advisory lock."""
    return int.from_bytes(hashlib.sha256(b'ezmlm ' + name.encode()).digest()[:8], 'big', signed=True)
