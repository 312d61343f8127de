"""Which lists this host hands on for: one host does for each list, by a lock that ends with its connection to the servers."""

import asyncio
import contextlib
import logging
import select
import threading
import time
from collections.abc import Callable

from . import history, servers

log = logging.getLogger('ezmlm-agent')
BEATS = 4     # times in `takeover` seconds that the server hears of a host
PREPARING = 3600  # seconds for making tables, or for taking over those of an older version
LONGEST = 1.0  # seconds between two of them


def clock() -> float:
    """Seconds that go on even while the machine sleeps."""
    return time.clock_gettime(time.CLOCK_BOOTTIME)


class Term:
    """A time for which this host hands on what a list sends. It ends with the lock, and nothing of it goes on in a later one."""

    def __init__(self, leading: 'Leading', name: str) -> None:
        self.leading, self.name = leading, name

    def holds(self) -> bool:
        """Whether no other host can have the lock. The server ends a connection of which it heard nothing for `takeover` seconds; so a host that
        stood still for longer sees by its clock that it lost it, before it hears so."""
        return self.leading.terms.get(self.name) is self and clock() < self.leading.until


class Leading:
    """A connection of its own, in a thread, that has the locks and hears what is put into histories. `told` gets names of lists: those whose
    history grew with the number that comes next, and those whose lock came or went, or all (None), with 0."""

    def __init__(self, past: history.History, told: Callable[[str | None, int], object]) -> None:
        self.past, self.servers = past, past.lines.servers
        self.told = told
        self.servers.moved = self.moved
        self.loop = asyncio.get_running_loop()
        self.wanted: frozenset[str] = frozenset()
        self.terms: dict[str, Term] = {}
        self.until = 0.0
        self.pause = min(LONGEST, self.servers.takeover / BEATS)
        self.is_there = False    # whether the servers are
        self.is_known = False    # whether this agent ever had its host's name among them: before that it gives no list anything
        self.doubled: Callable[[str], object] = lambda why: None  # gets why this agent has to end: another one has its name
        self.first: asyncio.Future[None] = self.loop.create_future()  # what came of the first try
        self.heard: list[str] = []
        self.connection: servers.Connection | None = None
        self.warning = ''  # of the server: a commit that no standby confirmed
        self.limit = float('inf')  # when what is asked now counts as hanging
        self.is_ending = threading.Event()
        self.thread = threading.Thread(target=self.work, daemon=True)

    def start(self) -> None:
        self.thread.start()
        self.watch()

    def watch(self) -> None:
        """Ends the connection if a server doesn't answer any more, as on a machine that stands still."""
        if self.connection is not None and clock() > self.limit:
            self.servers.turn()
            servers.cut(self.connection)
        if not self.is_ending.is_set():
            self.loop.call_later(self.pause, self.watch)

    def moved(self) -> None:
        """Calls go to another server than before, if another host may have the locks: those of this connection are worth nothing."""
        self.until = 0.0
        if self.connection is not None:
            servers.cut(self.connection)

    def stop(self) -> None:
        """Gives all locks back."""
        self.is_ending.set()
        self.thread.join(2 * self.pause)

    def want(self, name: str, is_wanted: bool) -> None:
        """Whether this host would hand on for a list. One whose list can't be served lets others do it."""
        if (name in self.wanted) != is_wanted:
            self.wanted = self.wanted | {name} if is_wanted else self.wanted - {name}

    def hears(self) -> bool:
        """Whether the servers confirmed something in the last `takeover` seconds."""
        return self.is_there and clock() < self.until

    def term(self, name: str) -> Term | None:
        """The time for which this host hands on, if it does now."""
        term = self.terms.get(name)
        return term if term is not None and term.holds() else None

    # In the thread.

    def tell(self, name: str | None, number: int = 0) -> None:
        with contextlib.suppress(RuntimeError):  # The loop is closed if the agent has ended meanwhile.
            self.loop.call_soon_threadsafe(self.told, name, number)

    def settle(self, error: Exception | None) -> None:
        """The first try ended. Only servers that aren't fit end the agent."""
        def settle() -> None:
            if not self.first.done():
                if isinstance(error, servers.Unfit):
                    self.first.set_exception(error)
                else:
                    self.first.set_result(None)
        with contextlib.suppress(RuntimeError):
            self.loop.call_soon_threadsafe(settle)

    def work(self) -> None:
        said = ''
        while not self.is_ending.is_set():
            try:
                with contextlib.closing(self.servers.connect(True, self.has)) as connection:
                    self.begin(connection)
                    if said:
                        log.info('the history can be reached again')
                        said = ''
                    while not self.is_ending.is_set():
                        self.beat(connection)
            except Exception as error:  # Whatever it is, it is tried again.
                words = servers.words_of(error)
                if words != said:
                    log.error('the history can\'t be reached, and mail waits: %s', words)
                said = words
                self.settle(error)
                if isinstance(error, servers.Twice):
                    with contextlib.suppress(RuntimeError):
                        self.loop.call_soon_threadsafe(self.doubled, words)
            self.lose()
            self.is_ending.wait(self.pause)

    def has(self, connection: servers.Connection) -> None:
        """From here on the server has so much time to answer."""
        self.connection, self.limit = connection, clock() + 2 * self.servers.takeover

    def begin(self, connection: servers.Connection) -> None:
        """Waits until no connection of this host's name is left from before, and hears from then on what is put into histories."""
        name, end = f'host {self.servers.host}', clock() + 3 * self.servers.takeover
        while not self.past.take(connection, [name]):
            if clock() > end:
                raise servers.Twice(f'another agent calls itself host = {self.servers.host}')
            self.is_ending.wait(self.pause)
            self.has(connection)
        connection.add_notice_handler(self.noticed)
        connection.add_notify_handler(lambda notify: self.heard.append(notify.payload))
        self.past.listen(connection)
        self.has(connection)
        self.limit = clock() + PREPARING  # The hashes of an older history may have to be computed.
        self.past.prepare(connection)
        self.is_there = self.is_known = True
        self.settle(None)
        self.tell(None)

    def noticed(self, notice: 'servers.Notice') -> None:
        self.warning = servers.warning_of(notice) or self.warning

    def beat(self, connection: servers.Connection) -> None:
        """Asks for the locks that are wanted, and then waits for what is told. A lock is worth something while the standbys confirm what the
        server writes: one that was cut off from them gives locks too, beside the one that took its place."""
        self.has(connection)
        begun = clock()
        wanted = self.wanted
        taken = self.past.take(connection, [f'list {name}' for name in wanted - self.terms.keys()])
        self.past.confirm(connection)
        if self.warning or self.connection is not connection:
            raise servers.Lost(self.warning or 'another server was taken')
        for key in taken:
            name = key.removeprefix('list ')
            self.terms[name] = Term(self, name)
        self.until = begun + self.servers.takeover
        for key in taken:
            self.tell(key.removeprefix('list '))
        for name in self.terms.keys() - wanted:
            del self.terms[name]
            self.past.release(connection, f'list {name}')
            self.tell(name)
        left = self.pause
        while left > 0 and not self.is_ending.is_set():
            self.listen(connection, left)
            left = begun + self.pause - clock()

    def listen(self, connection: servers.Connection, seconds: float) -> None:
        """Waits for what is told, so long at most, and tells it."""
        if select.select([connection.fileno()], [], [], seconds)[0]:
            connection.pgconn.consume_input()
        while notify := connection.pgconn.notifies():
            self.heard.append(notify.extra.decode())
        heard, self.heard = self.heard, []
        for text in dict.fromkeys(heard):
            number, _, name = text.partition(' ')
            self.tell(name, int(number))

    def lose(self) -> None:
        """Has no lock any more."""
        was_there, self.is_there = self.is_there, False
        self.connection, self.limit = None, float('inf')
        self.terms = {}
        self.until, self.warning = 0.0, ''
        self.past.lines.close()
        if was_there:
            self.tell(None)
