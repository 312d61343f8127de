"""What the agent remembers of one list: the numbers of mails, and the copies that were handed on.

It is one SQLite file, and each change is on the disk before the call returns. If the file is lost, or an old copy stands in its
place, a mail that comes again may count twice, and a copy may go out twice; none is lost.
"""

import asyncio
import contextlib
import itertools
import pathlib
import sqlite3
import time
from collections.abc import Callable, Collection, Iterable, Sequence
from typing import Any, Protocol

from . import aside

TABLES = '''
    PRAGMA journal_mode = WAL;
    PRAGMA synchronous = FULL;
    CREATE TABLE IF NOT EXISTS mail (key BLOB PRIMARY KEY, number INTEGER NOT NULL UNIQUE, first INTEGER NOT NULL) WITHOUT ROWID;
    CREATE TABLE IF NOT EXISTS next (number INTEGER NOT NULL);
    INSERT INTO next SELECT 512 WHERE NOT EXISTS (SELECT * FROM next);
    CREATE TABLE IF NOT EXISTS handed (entry INTEGER, mark BLOB, recipients BLOB);
    CREATE INDEX IF NOT EXISTS entries ON handed (entry);
    CREATE TABLE IF NOT EXISTS list (local BLOB, host BLOB);
'''
FIRST = 512  # the smaller numbers are free for whoever gives items by hand

COLUMNS = 'key, number, first FROM mail', 'number FROM next', 'entry, mark, recipients FROM handed', 'local, host FROM list'
DAMAGE = sqlite3.SQLITE_CORRUPT, sqlite3.SQLITE_NOTADB

Address = tuple[bytes, bytes]  # LOCAL and HOST of a list, in lower case
Execute = Callable[..., sqlite3.Cursor]


def address(path: pathlib.Path) -> Address | None:
    """The address of the list that a file of notes is of, or None if it can't be told."""
    try:
        with contextlib.closing(sqlite3.connect(f'{path.absolute().as_uri()}?mode=ro', uri=True)) as database:
            row: Address | None = database.execute('SELECT local, host FROM list').fetchone()
            return row
    except sqlite3.Error:
        return None


class Copies(Protocol):
    """Which copies of the entries of a list's outgoing queue were handed on, so that none is twice.

    `Notes` keeps them in a file of this host, with the numbers of the list's mails, for a list that one host alone has.
    `handed.Handed` keeps them in the history of a list that several hosts have, for one term in which this host hands on; the numbers of mails
    stand in the history too. What can't be kept is an error, and nothing more is handed on then."""

    def handed_before(self, entry: int, mark: bytes) -> Collection[bytes]:
        """To whom this entry was handed on. `mark` is the hash of what the entry is."""

    async def hand(self, entry: int, mark: bytes, recipients: Sequence[bytes]) -> None:
        """Keeps that an entry was handed on to these. In memory it holds at once, even if it can't be kept for good."""

    async def write(self) -> None:
        """Keeps what couldn't be kept before. It comes before each transaction."""


class Damaged(sqlite3.DatabaseError):
    """The notes aren't what the agent wrote."""


def faults(database: sqlite3.Connection) -> str:
    """What is wrong with notes, or nothing. All of them is read."""
    found = database.execute('PRAGMA quick_check(1)').fetchone()[0]
    try:
        for columns in COLUMNS:
            database.execute(f'SELECT {columns} LIMIT 1').fetchone()
    except sqlite3.OperationalError as error:
        return str(error)
    return '' if found == 'ok' else str(found)


def is_damage(error: BaseException) -> bool:
    return isinstance(error, Damaged) or getattr(error, 'sqlite_errorcode', 0) & 0xff in DAMAGE


def opened(path: pathlib.Path) -> tuple['Notes', str]:
    """Notes that are opened, and what was done with them if they were damaged: they are set aside then, and begun anew."""
    try:
        return Notes(path), ''
    except sqlite3.DatabaseError as error:
        if not is_damage(error):
            raise
        to = set_aside(path)
        return Notes(path), f'its notes were damaged ({error}), and are set aside as {to}; mail that comes again may count twice'


def set_aside(path: pathlib.Path) -> pathlib.Path:
    """Gives notes another name, with the files that SQLite has beside them."""
    to = path.with_name(f'{path.name}.bad-{time.strftime("%Y%m%dT%H%M%S")}')
    for number in itertools.count(2):
        if not to.exists():
            break
        to = path.with_name(f'{path.name}.bad-{time.strftime("%Y%m%dT%H%M%S")}.{number}')
    for end in ('-wal', '-shm', ''):
        with contextlib.suppress(FileNotFoundError):
            path.with_name(path.name + end).rename(to.with_name(to.name + end))
    return to


class Notes:
    """Notes that are open. Their changes go in threads, one at once."""

    def __init__(self, path: pathlib.Path) -> None:
        self.database = sqlite3.connect(path, isolation_level=None, check_same_thread=False, timeout=30)
        try:
            self.database.executescript(TABLES)
            if why := faults(self.database):
                raise Damaged(why)
        except BaseException:
            self.database.close()
            raise
        self.turn = asyncio.Lock()
        self.threads = aside.Aside()
        self.unwritten: list[tuple[int, bytes, bytes]] = []
        self.handed: dict[tuple[int, bytes], set[bytes]] = {}  # by entry and its mark, the recipients
        for entry, mark, recipients in self.database.execute('SELECT * FROM handed'):
            self.handed.setdefault((entry, mark), set()).update(recipients.split(b'\0'))

    async def change(self, call: Callable[..., Any], *words: Any) -> Any:
        """Makes one transaction of a call."""
        async with self.turn:
            return await self.threads.call('notes', self.transaction, call, *words, seconds=None)

    def transaction(self, call: Callable[..., Any], *words: Any) -> Any:
        self.database.execute('BEGIN IMMEDIATE')
        try:
            result = call(self.database.execute, *words)
            self.database.execute('COMMIT')
            return result
        except BaseException:
            if self.database.in_transaction:
                self.database.execute('ROLLBACK')
            raise

    async def close(self) -> None:
        """Ends: SQLite brings all into one file then. A disk that hangs isn't waited for."""
        with contextlib.suppress(OSError):
            await self.threads.call('notes', self.database.close)

    async def begin(self, address: Address, least: int, entries: Collection[int]) -> None:
        """A start: whose notes these are, that no number below `least` is drawn, and which entries there still are."""
        def begin(run: Execute) -> None:
            run('DELETE FROM list')
            run('INSERT INTO list VALUES (?, ?)', address)
            run('UPDATE next SET number = max(number, ?)', (least,))
            noted = {entry for entry, in run('SELECT DISTINCT entry FROM handed').fetchall()}
            self.forget_copies(run, noted - set(entries))
        await self.change(begin)

    # Numbers.

    async def numbers(self, keys: Sequence[bytes], left: Collection[int]) -> list[int]:
        """The number of each mail: the one that it had, or the next one. The copies of entries that left the queue are forgotten."""
        if not keys and not left:
            return []
        numbers: list[int] = await self.change(self.draw, keys, left)
        self.handed = {copies: recipients for copies, recipients in self.handed.items() if copies[0] not in left}
        return numbers

    def draw(self, run: Execute, keys: Sequence[bytes], left: Collection[int]) -> list[int]:
        (following,) = run('SELECT number FROM next').fetchone()
        numbers = []
        for key in keys:
            found = run('SELECT number FROM mail WHERE key = ?', (key,)).fetchone()
            if found is None:
                run('INSERT INTO mail VALUES (?, ?, ?)', (key, following, int(time.time())))
                found, following = (following,), following + 1
            numbers.append(found[0])
        run('UPDATE next SET number = ?', (following,))
        self.forget_copies(run, left)
        return numbers

    def forget_copies(self, run: Execute, entries: Iterable[int]) -> None:
        for entry in entries:
            run('DELETE FROM handed WHERE entry = ?', (entry,))

    async def known(self) -> dict[bytes, tuple[int, int]]:
        """The mails by their keys: the number of each, and when it came first."""
        return {key: (number, first) for key, number, first in await self.change(lambda run: run('SELECT key, number, first FROM mail').fetchall())}

    async def forget(self, keys: Sequence[bytes], least: int) -> None:
        """The mails of these keys get new numbers if they come again, and none below `least`."""
        def forget(run: Execute) -> None:
            for key in keys:
                run('DELETE FROM mail WHERE key = ?', (key,))
            run('UPDATE next SET number = max(number, ?)', (least,))
        await self.change(forget)

    async def forget_before(self, moment: float) -> int:
        """Forgets the mails that came first before this moment. The answer is the lowest number that a mail still has, or the next."""
        def forget(run: Execute) -> Any:
            run('DELETE FROM mail WHERE first < ?', (int(moment),))
            return run('SELECT coalesce(min(number), (SELECT number FROM next)) FROM mail').fetchone()[0]
        lowest: int = await self.change(forget)
        return lowest

    # Copies.

    def handed_before(self, entry: int, mark: bytes) -> Collection[bytes]:
        """To whom this entry was handed on."""
        return self.handed.get((entry, mark), frozenset())

    async def hand(self, entry: int, mark: bytes, recipients: Sequence[bytes]) -> None:
        """Notes that an entry was handed on to these. In memory it holds at once, even if it can't be written."""
        if recipients:
            self.handed.setdefault((entry, mark), set()).update(recipients)
            self.unwritten.append((entry, mark, b'\0'.join(recipients)))
        await self.write()

    async def write(self) -> None:
        """Writes what isn't written yet of the copies. What several tasks note at once is one transaction."""
        if not self.unwritten:
            return
        async with self.turn:
            rows, self.unwritten = self.unwritten, []
            if not rows:
                return
            try:
                await self.threads.call('notes', self.transaction, insert, rows, seconds=None)
            except BaseException:
                self.unwritten = rows + self.unwritten
                raise


def insert(run: Execute, rows: Iterable[tuple[int, bytes, bytes]]) -> None:
    for row in rows:
        run('INSERT INTO handed VALUES (?, ?, ?)', row)
