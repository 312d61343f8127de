"""Connections to the PostgreSQL servers that keep the histories of lists."""

import contextlib
import os
import socket
import time
from collections.abc import Callable
from typing import Any, TypeAlias

import psycopg
from psycopg import conninfo

from . import wire

Connection: TypeAlias = 'psycopg.Connection[tuple[Any, ...]]'
Answer: TypeAlias = 'psycopg.Cursor[tuple[Any, ...]]'
Notice: TypeAlias = 'psycopg.errors.Diagnostic'
SKEW = 60     # seconds by which the clocks of a host and of the servers may differ
OLDEST = 140000  # of PostgreSQL: idle_session_timeout came with 14
FLUSHED = 'on', 'remote_apply'  # values of synchronous_commit by which a standby has what is committed on its disk
CONFIRMED = "SELECT pg_conf_load_time()::text, pg_logical_emit_message(true, 'ezmlm', '')"  # writes nothing that is kept, and is committed as all else would be
# What is in force once that is committed, when the settings were loaded, and the clock.
IN_FORCE = '''SELECT current_setting('synchronous_commit'), current_setting('synchronous_standby_names'), pg_conf_load_time()::text,
    extract(epoch FROM clock_timestamp())::float8'''
PROCESS = 'SELECT pg_backend_pid()'
TRIES = 3  # to find a pooler
STATE = '''SELECT current_setting('synchronous_commit'), current_setting('synchronous_standby_names'),
    current_setting('server_version_num')::int, extract(epoch FROM clock_timestamp())::float8, pg_backend_pid(),
    (SELECT setting::int FROM pg_settings WHERE name = 'lock_timeout')'''


class Lost(Exception):
    """No server can be reached that takes changes, or it stopped answering. What was to be changed may be changed or not."""


class Skewed(Lost):
    """The clocks of this host and of the server differ by too much. Nothing is given to a list, or handed on, by such a clock."""


class Late(Lost):
    """A host that is there hasn't looked yet whether it can go by the history. It does so soon."""


class Unfit(Lost):
    """The servers can be reached, and can't keep the history, or not this one: the words say why."""


def each(servers: str) -> list[dict[str, Any]]:
    """The parameters of each server that a connection string of several hosts names. A wrong string is a ValueError.

    libpq goes through them itself, but has no limit on the time for one of them when it is called as psycopg calls it."""
    try:
        given = conninfo.conninfo_to_dict(servers)
    except psycopg.Error as error:
        raise ValueError(f'history is no connection string: {words_of(error)}') from error
    parts = {name: str(given.pop(name)).split(',') for name in ('host', 'hostaddr', 'port') if given.get(name)}
    many = max((len(words) for name, words in parts.items() if name != 'port'), default=1)
    if any(len(words) not in (1, many) for words in parts.values()):
        raise ValueError('history names hosts and ports, and not as many of the one as of the other')
    return [{**given, **{name: words[at % len(words)] for name, words in parts.items()}} for at in range(many)]


def words_of(error: BaseException) -> str:
    """What an error of the servers says, in one line."""
    return wire.printable(' '.join(str(error).split())) or type(error).__name__


def warning_of(notice: Notice) -> str:
    """What a server warns of, or nothing. It answers a commit also when it gave up waiting for a standby, and warns of that."""
    return wire.printable(notice.message_primary or 'a warning') if notice.severity_nonlocalized == 'WARNING' else ''


class Servers:
    """How connections are opened: each server is tried in turn, and one that takes changes is taken."""

    def __init__(self, servers: str, host: str, standby: str, takeover: int) -> None:
        self.rows, self.host, self.standby, self.takeover = each(servers), host, standby, takeover
        self.moved: Callable[[], object] = lambda: None  # is called when another server is taken than before
        self.process = 0  # the id of the server's process of the connection that was looked at last
        self.ahead = 0.0  # seconds by which this host's clock is before the server's, as it was seen last
        self.first = self.last = 0  # the server that is tried first, and the one that was taken last

    def shown(self) -> str:
        """The servers by host and port, as the log names them."""
        return wire.printable(', '.join(f'{row.get("host") or row.get("hostaddr") or "a local socket"}:{row.get("port", 5432)}' for row in self.rows))

    def connect(self, idle: bool = False, opened: Callable[[Connection], object] = lambda connection: None) -> Connection:
        """A connection. `idle` is whether the server ends it when it hears nothing for `takeover` seconds; `opened` gets it before the server is
        asked for anything. It is Lost if there is no server, and Unfit if one is there that isn't as it has to be."""
        whys = []
        for at in [*range(self.first, len(self.rows)), *range(self.first)]:
            try:
                connection = psycopg.Connection.connect(self.parameters(self.rows[at], idle), autocommit=True)
            except psycopg.Error as error:
                whys.append(words_of(error))
                continue
            try:
                opened(connection)
                self.look(connection)
                if idle or connection.info.backend_pid != self.process:
                    self.look_for_pooler(connection, self.rows[at])
            except BaseException:
                connection.close()
                raise
            is_other, self.first, self.last = at != self.last, at, at
            if is_other and not idle:
                self.moved()
            return connection
        raise Lost('; '.join(whys))

    def turn(self) -> None:
        """Has another server tried first: the one that was taken last hangs, as one does that was cut off from its standbys."""
        self.first = (self.last + 1) % len(self.rows)

    def parameters(self, row: dict[str, Any], idle: bool) -> str:
        seconds, milliseconds = max(2, self.takeover // 3), 1000 * self.takeover
        limits = {'idle_in_transaction_session_timeout': milliseconds, 'lock_timeout': milliseconds, 'tcp_user_timeout': milliseconds,
                  'client_connection_check_interval': 1000, 'tcp_keepalives_idle': seconds, 'tcp_keepalives_interval': max(1, seconds // 3),
                  'tcp_keepalives_count': 3} | ({'idle_session_timeout': milliseconds} if idle else {})
        options = ' '.join([str(row.get('options') or ''), *(f'-c {name}={value}' for name, value in limits.items())])
        more = {'connect_timeout': seconds, 'keepalives': 1, 'keepalives_idle': seconds, 'keepalives_interval': max(1, seconds // 3),
                'keepalives_count': 3, 'tcp_user_timeout': milliseconds, 'target_session_attrs': 'read-write',
                'application_name': f'ezmlm-agent {self.host}', 'options': options.strip()}
        return conninfo.make_conninfo(**{**row, **more})

    def look(self, connection: Connection) -> None:
        """Looks whether what is committed here outlives the server."""
        try:
            row = connection.execute(STATE).fetchone()
        except psycopg.Error as error:
            raise Lost(words_of(error)) from error
        assert row is not None
        commit, names, version, clock, self.process, limit = row
        if version < OLDEST:
            raise Unfit(f'the server is PostgreSQL {version // 10000}, and 14 is the oldest that can keep a history')
        self.look_at_force(commit, names)
        if limit != 1000 * self.takeover:
            raise Unfit('the server doesn\'t take the limits that a connection asks for, as through a pooler that leaves `options` out: name the servers '
                        'themselves in history')
        self.look_at_clock(clock)

    def look_at_force(self, commit: str, names: str) -> None:
        """It is Unfit if what is committed by these settings may be lost with the server."""
        if commit == 'off' or self.standby != 'none' and commit not in FLUSHED:
            raise Unfit(f'synchronous_commit is {commit} on the server, by which an answer is given before the mail is on a disk: it has to be on')
        if self.standby != 'none' and not names:
            raise Unfit('the server has no synchronous standby (synchronous_standby_names is empty), so a mail that was answered may be lost with '
                        'its disk; if that is what you want say standby = none')

    def look_at_clock(self, clock: float) -> None:
        self.ahead = time.time() - clock
        if abs(self.ahead) > SKEW:
            raise Skewed(f'the clocks of this host and of the server differ by {abs(self.ahead):.0f} seconds, and may by {SKEW}: set them right')

    def look_for_pooler(self, connection: Connection, row: dict[str, Any]) -> None:
        """It is Unfit if one process of the server has several connections in turn, as through a pooler in transaction mode: locks and what is listened
        to belong to a process. While another connection has a transaction such a pooler gives this one another process, or had given that one this one's."""
        try:
            with contextlib.closing(psycopg.Connection.connect(self.parameters(row, False))) as other:
                for _ in range(TRIES):
                    theirs = other.execute(PROCESS).fetchone()
                    if theirs == (self.process,) or connection.execute(PROCESS).fetchone() != (self.process,):
                        raise Unfit('there is a pooler in transaction mode before the server, by which locks don\'t hold: name the servers themselves in '
                                    'history')
                    other.rollback()
        except psycopg.Error as error:
            raise Lost(words_of(error)) from error

    def confirm(self, connection: Connection) -> None:
        """Ends when all that was committed over a connection is on as many disks as it has to be. What is in force is read after the commit, in
        the same round trip: settings that were changed while it waited may have let it go on alone."""
        with connection.pipeline() as pipeline:
            before = connection.execute(CONFIRMED)
            pipeline.sync()
            after = connection.execute(IN_FORCE)
        begun, ended = before.fetchone(), after.fetchone()
        assert begun is not None and ended is not None
        commit, names, loaded, clock = ended
        self.look_at_force(commit, names)
        if loaded != begun[0]:
            raise Lost('the server\'s settings were loaded anew while a commit waited for its standby')
        self.look_at_clock(clock)


class Twice(Unfit):
    """Another agent has this host's name among those of the history."""


def cut(connection: Connection) -> None:
    """Ends a connection under a call that hangs, so that its thread ends."""
    with contextlib.suppress(psycopg.Error, OSError), socket.socket(fileno=os.dup(connection.fileno())) as ended:
        ended.shutdown(socket.SHUT_RDWR)
