"""Calls that go over a few connections to the servers: what waits at one moment goes together, and is told when it is on their disks."""

import asyncio
import collections
import logging
import select
import time
from collections.abc import Callable, Iterable, Sequence
from typing import Any, LiteralString, TypeVar

import psycopg

from . import aside, servers

Result = TypeVar('Result')
Word = TypeVar('Word')
MOST = 2      # connections for calls, at once: with more of them fewer calls go together, and each takes longer
SOON = 0.05   # seconds for which calls wait for the connection that is at work, before they go over another one
NEVER = float('-inf')
SLOW = 1.0    # seconds after which a connection begins no further call before what it made is confirmed
# No disk is waited for, and so many milliseconds for a lock that somebody else has. What waits for longer does so over a connection by itself.
SHORT = "SELECT set_config('synchronous_commit', 'off', true), set_config('lock_timeout', '500', true)"
MANY, LARGEST = 64, 8 << 20  # calls of one transaction, and bytes that they put in, unless one alone has more
logging.getLogger('psycopg').setLevel(logging.ERROR)  # It warns of what ends with a call that failed, and that tells why.


class Cursor:
    """How calls give statements, each to a cursor of its own: while statements go out together a cursor has one answer. What is fetched is the
    answer of the last, unless the caller keeps what `execute` answers."""

    def __init__(self, connection: servers.Connection) -> None:
        self.connection = connection
        self.last: servers.Answer = connection.cursor(binary=True)

    def execute(self, query: LiteralString, words: Sequence[Any] | None = None) -> servers.Answer:
        self.last = self.connection.cursor(binary=True)
        return self.last.execute(query, words)

    def executemany(self, query: LiteralString, rows: Iterable[Sequence[Any]]) -> None:
        self.connection.cursor(binary=True).executemany(query, rows)

    def fetchone(self) -> tuple[Any, ...] | None:
        return self.last.fetchone()

    def fetchall(self) -> list[tuple[Any, ...]]:
        return self.last.fetchall()


class Job:
    """A call that waits for its turn, and what came of it. One that may be one transaction with others says what it is about, and how many bytes it
    puts in: it gets a word, and is called once with the words of all such calls. No transaction has it twice about the same."""

    def __init__(self, call: Callable[..., Any], words: tuple[Any, ...], of: object = None, size: int = 0) -> None:
        self.call, self.words, self.of, self.size = call, words, of, size
        self.is_joined = of is not None
        self.is_alone = not self.is_joined  # whether it is a transaction by itself
        self.is_held = False  # whether somebody has a lock for long that it waits for
        self.ended: asyncio.Future[Any] = asyncio.get_running_loop().create_future()
        self.ended.add_done_callback(lambda ended: ended.cancelled() or ended.exception())  # Nobody may ask for it any more.
        self.result: Any = None
        self.error: BaseException | None = None

    def tell(self, error: BaseException | None) -> None:
        """Tells what came of it to whoever waits. The error is one of all calls over the same connection."""
        if self.ended.done():
            return
        if error is None and self.error is None:
            self.ended.set_result(self.result)
        else:
            self.ended.set_exception(error or self.error or servers.Lost())


class Transaction:
    """Calls that are made together."""

    def __init__(self, job: Job) -> None:
        self.jobs, self.size = [job], job.size
        self.known = {(job.call, job.of)}

    def takes(self, job: Job) -> bool:
        """Whether a further call may go with these, which it does then."""
        if len(self.jobs) == MANY or (job.call, job.of) in self.known or self.size + job.size > LARGEST:
            return False
        self.jobs.append(job)
        self.size += job.size
        self.known.add((job.call, job.of))
        return True

    def make(self, connection: servers.Connection) -> None:
        """Makes the calls. Their statements go out together if none wants the answer of another. No disk is waited for."""
        with connection.pipeline():
            cursor = Cursor(connection)
            cursor.execute('BEGIN')
            cursor.execute('SET LOCAL synchronous_commit TO off' if self.jobs[0].is_held else SHORT)
            for call in dict.fromkeys(job.call for job in self.jobs):
                self.call(call, cursor, [job for job in self.jobs if job.call == call])
            cursor.execute('COMMIT')

    def call(self, call: Callable[..., Any], cursor: Cursor, jobs: Sequence[Job]) -> None:
        """Calls once for all who ask for it, and keeps what each of them is told."""
        if not jobs[0].is_joined:
            jobs[0].result = call(cursor, *jobs[0].words)
            return
        for job, result in zip(jobs, call(cursor, [job.words[0] for job in jobs]), strict=True):
            job.result, job.error = (None, result) if isinstance(result, Exception) else (result, None)


def transactions(jobs: Iterable[Job]) -> list[Transaction]:
    """Calls as they are made: those together that may be."""
    found: list[Transaction] = []
    joined: list[Transaction] = []
    for job in jobs:
        if job.is_alone or not any(each.takes(job) for each in joined):
            found.append(Transaction(job))
            joined += found[-1:] if not job.is_alone else []
    return found


class Batch:
    """Calls over one connection, in a thread. No transaction of them holds its locks for longer than it takes. After the last one a commit over
    the same connection waits for the disks: by its answer all that was committed before is there for good."""

    def __init__(self, lines: 'Lines', jobs: list[Job]) -> None:
        self.lines, self.jobs = lines, jobs
        self.left: list[Job] = []  # that go over another connection, or later
        self.connection: servers.Connection | None = None
        self.warning = ''

    def run(self) -> None:
        connection = self.lines.taken(self.has)
        connection.add_notice_handler(self.noticed)
        try:
            self.make_all(connection)
            self.lines.servers.confirm(connection)
        except psycopg.Error as error:
            connection.close()
            raise servers.Lost(servers.words_of(error)) from error
        except BaseException:
            connection.close()
            raise
        connection.remove_notice_handler(self.noticed)
        if self.warning:
            connection.close()
            raise servers.Lost(self.warning)
        self.lines.idle.append(connection)

    def make_all(self, connection: servers.Connection) -> None:
        """Makes the calls, and those of a transaction that fails each alone. After one that takes long the others aren't waited for."""
        end = time.monotonic() + SLOW
        waiting, ended = collections.deque(transactions(self.jobs)), list[Job]()
        while waiting and not ((ended or self.left) and time.monotonic() > end):
            transaction = waiting.popleft()
            if self.make(connection, transaction):
                ended += transaction.jobs
            elif transaction.jobs[0].is_held:
                self.left += transaction.jobs
            else:
                waiting.extendleft(map(Transaction, reversed(transaction.jobs)))
        self.jobs, self.left = ended, self.left + [job for transaction in waiting for job in transaction.jobs]

    def make(self, connection: servers.Connection, transaction: Transaction) -> bool:
        """Makes a transaction. If it fails nothing is left of it, and if it has one call, that one fails. The answer is whether it has ended; else
        each of its calls is to be made alone, or waits for a lock."""
        try:
            transaction.make(connection)
        except Exception as error:
            if connection.closed:
                raise
            connection.rollback()
            first, *others = transaction.jobs
            if others or isinstance(error, psycopg.errors.LockNotAvailable) and not first.is_held:
                for job in transaction.jobs:
                    job.error, job.is_alone, job.is_held = None, True, not others
                return False
            first.error = why_of(error)
        return True

    def noticed(self, notice: servers.Notice) -> None:
        self.warning = servers.warning_of(notice) or self.warning

    def has(self, connection: servers.Connection) -> None:
        self.connection = connection

    def cut(self) -> None:
        """Ends calls that take too long."""
        if self.connection is not None:
            servers.cut(self.connection)


def why_of(error: Exception) -> Exception:
    """Why a call fails, by the error that ended it."""
    if not isinstance(error, psycopg.Error):
        return error
    is_refused = isinstance(error, psycopg.errors.InsufficientPrivilege)
    return (servers.Unfit if is_refused else servers.Lost)(servers.words_of(error))


class Lines:
    """Connections for calls. What waits when one of them is free goes over it together."""

    def __init__(self, those: servers.Servers) -> None:
        self.servers = those
        self.idle: list[servers.Connection] = []
        self.waiting: list[Job] = []
        self.held: list[Job] = []  # that wait for locks, over no more than one connection
        self.at_work: dict[asyncio.Task[None], float] = {}  # and when each began, or NEVER for one that waits for a lock
        self.later: asyncio.TimerHandle | None = None  # when calls go over another connection

    async def call(self, call: Callable[..., Result], *words: Any) -> Result:
        """What a call answers that gets a cursor, in a transaction by itself. All that it changed, and all that it saw, is on as many disks as the
        servers are told to keep it on. It is Lost if the servers are, or that takes longer than twice `takeover`."""
        result: Result = await self.ended(Job(call, words))
        return result

    async def join(self, call: Callable[[Cursor, Sequence[Word]], Sequence[Result | Exception]], word: Word, of: object, size: int) -> Result:
        """The same of a call that may be one transaction with others, also with such calls about something else: it gets the words of all of these,
        and answers for each, or says why that one failed, which has changed nothing then."""
        result: Result = await self.ended(Job(call, (word,), of, size))
        return result

    async def ended(self, job: Job) -> Any:
        self.waiting.append(job)
        self.begin()
        return await job.ended

    def begin(self) -> None:
        """Gives the calls that wait to a connection. While one is at work, and not for long, they wait for that, since more of them go together
        then."""
        loop = asyncio.get_running_loop()
        if self.held and len(self.at_work) < MOST and NEVER not in self.at_work.values():
            jobs, self.held = self.held, []
            self.give(jobs, NEVER)
        if self.waiting and len(self.at_work) < MOST:
            soonest = max(self.at_work.values(), default=NEVER) + SOON
            if loop.time() < soonest:
                self.later = self.later or loop.call_at(soonest, self.begin_later)
                return
            jobs, self.waiting = self.waiting, []
            self.give(jobs, loop.time())

    def begin_later(self) -> None:
        self.later = None
        self.begin()

    def give(self, jobs: list[Job], begun: float) -> None:
        task = asyncio.create_task(self.work(jobs))
        self.at_work[task] = begun
        task.add_done_callback(self.has_worked)

    def has_worked(self, task: 'asyncio.Task[None]') -> None:
        del self.at_work[task]
        if not task.cancelled():
            self.begin()

    async def work(self, jobs: list[Job]) -> None:
        batch = Batch(self, jobs)
        future: asyncio.Future[None] = asyncio.get_running_loop().create_future()
        future.add_done_callback(lambda ended: ended.cancelled() or ended.exception())
        aside.begin((future, batch.run, ()))
        done, _ = await asyncio.wait([future], timeout=2 * self.servers.takeover)
        error = future.exception() if done else servers.Lost(
            f'a call took longer than {2 * self.servers.takeover} seconds, as when no standby confirms')
        if not done:
            batch.cut()
            self.servers.turn()
            self.close()
        for job in batch.jobs:
            job.tell(error)
        self.waiting = [job for job in batch.left if not job.is_held] + self.waiting
        self.held += [job for job in batch.left if job.is_held]

    def taken(self, has: Callable[[servers.Connection], object]) -> servers.Connection:
        """A connection at which nothing came since it was used last, or a new one. `has` gets it as soon as it is there."""
        while self.idle:
            try:
                connection = self.idle.pop()
            except IndexError:
                break
            if not connection.closed and not select.select([connection.fileno()], [], [], 0)[0]:
                has(connection)
                return connection
            connection.close()
        return self.servers.connect(opened=has)

    def close(self) -> None:
        while self.idle:
            self.idle.pop().close()
