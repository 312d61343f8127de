"""PostgreSQL servers with all their files in a folder of their own: one takes changes, and the others follow it.

None of them is the machine's own server. If root starts them they run as the user postgres, since PostgreSQL doesn't run as root. A
change is there for a client when it is on the disks of two of them (`synchronous_standby_names`), unless there is one server alone.
"""

import contextlib
import fcntl
import os
import pathlib
import shutil
import signal
import socket
import subprocess
import tempfile
import time
from collections.abc import Callable, Iterator, Sequence
from typing import Any

import needed

USER = 'postgres'
LONG = 120  # seconds after which what has to come is given up. Nothing else depends on time, as a machine may be slow
DATABASE = ROLE = 'ezmlm'  # what `string` names. The role owns the database, and may do no more
SHARED = 6  # the line of postmaster.pid that names the segment of shared memory, from 0 on
CONFIGURATION = '''unix_socket_directories = ''
wal_level = replica
max_wal_senders = 10
wal_keep_size = 128MB
wal_sender_timeout = 5s
wal_receiver_timeout = 5s
wal_retrieve_retry_interval = 200ms
synchronous_commit = on
synchronous_standby_names = '{standbys}'
primary_conninfo = '{servers} user=postgres connect_timeout=3 target_session_attrs=read-write'
shared_buffers = 32MB
dynamic_shared_memory_type = mmap
log_line_prefix = '%m [%p] %q%u '
'''
ACCESS = 'host all all samenet trust\nhost replication all samenet trust\n'


def binaries() -> pathlib.Path | None:
    """The folder of the newest PostgreSQL's programs, as Debian has it, or None if there is none."""
    found = {int(path.parts[-3]): path.parent for path in pathlib.Path('/usr/lib/postgresql').glob('[0-9]*/bin/initdb')}
    return found[max(found)] if found else None


def lacking() -> str | None:
    """What isn't installed that the servers and their clients take, as a sentence, or None."""
    return needed.lacking('postgresql', 'python3-psycopg')


def free_ports(many: int) -> list[int]:
    """Ports of loopback at which nothing listens."""
    probes = [socket.create_server(('127.0.0.1', 0)) for _ in range(many)]
    ports = [probe.getsockname()[1] for probe in probes]
    for probe in probes:
        probe.close()
    return ports


def until(what: str, holds: Callable[[], Any]) -> Any:
    """Waits until a call answers with something, and answers that. What takes too long is a TimeoutError."""
    end = time.monotonic() + LONG
    while not (found := holds()):
        if time.monotonic() > end:
            raise TimeoutError(f'it was not so in {LONG} seconds: {what}')
        time.sleep(0.05)
    return found


class Server:
    """One server: where it listens, and its process."""

    def __init__(self, name: str, place: pathlib.Path, address: str, port: int, within: Sequence[str]) -> None:
        self.name, self.place, self.address, self.port, self.within = name, place, address, port, within
        self.process: subprocess.Popen[bytes] | None = None
        self.is_stopped = False

    def command(self, binary: str, *words: str) -> list[str]:
        """What runs one of PostgreSQL's programs as the servers' user. It ends with the thread that starts it."""
        found = binaries()
        assert found
        changed = ['--reuid', USER, '--regid', USER, '--clear-groups'] if os.geteuid() == 0 else []
        return [*self.within, 'setpriv', *changed, '--pdeathsig', 'QUIT', str(found / binary), *words]

    def run(self, binary: str, *words: str) -> None:
        done = subprocess.run(self.command(binary, *words), stdout=subprocess.PIPE, stderr=subprocess.STDOUT, text=True, cwd='/', check=False)
        if done.returncode:
            raise RuntimeError(f'{binary} of {self.name}: {done.stdout}')

    def start(self) -> None:
        """Starts it on its files, and waits until it takes connections."""
        words = ['-D', str(self.place), '-h', self.address, '-p', str(self.port), '-c', f'cluster_name={self.name}']
        with open(f'{self.place}.log', 'ab') as log:
            self.process = subprocess.Popen(self.command('postgres', *words), stdin=subprocess.DEVNULL, stdout=log, stderr=log, cwd='/')
        until(f'{self.name} takes connections', self.is_up)

    def is_up(self) -> bool:
        import psycopg
        if self.process is None or self.process.poll() is not None:
            raise RuntimeError(f'{self.name} ended: see {self.place}.log')
        try:
            self.sql('SELECT 1')
            return True
        except psycopg.OperationalError:
            return False

    def sql(self, text: str, *values: Any, options: str = '') -> list[tuple[Any, ...]]:
        """The rows of a statement that PostgreSQL's own user gives to this server."""
        import psycopg
        with psycopg.connect(f'host={self.address} port={self.port} user={USER} dbname=postgres connect_timeout=5', options=options,
                             autocommit=True) as connection:
            cursor = connection.execute(text, values or None)
            return cursor.fetchall() if cursor.description else []

    def processes(self) -> Iterator[int]:
        """The ids of its processes. Each has the folder of its files as its own."""
        for path in pathlib.Path('/proc').glob('[0-9]*'):
            with contextlib.suppress(OSError):
                if os.readlink(path / 'cwd').removesuffix(' (deleted)') == str(self.place):
                    yield int(path.name)

    def signal(self, number: int) -> None:
        for process in self.processes():
            with contextlib.suppress(ProcessLookupError):
                os.kill(process, number)

    def kill(self) -> None:
        """Kills all its processes at once, and lets the memory go that they shared."""
        if self.process is None:
            return
        lines = (self.place / 'postmaster.pid').read_text().split('\n') if (self.place / 'postmaster.pid').exists() else []
        self.process.kill()
        while list(self.processes()):
            self.signal(signal.SIGKILL)
        self.process.wait()
        self.process, self.is_stopped = None, False
        if len(lines) > SHARED and lines[SHARED].strip():
            subprocess.run(['ipcrm', '-m', lines[SHARED].split()[1]], stderr=subprocess.DEVNULL, check=False)

    def stop(self) -> None:
        """Holds all its processes, as a machine does that stands still."""
        self.is_stopped = True
        self.signal(signal.SIGSTOP)

    def go_on(self) -> None:
        self.signal(signal.SIGCONT)
        self.is_stopped = False


KEPT: list[pathlib.Path] = []  # a folder for the files that initdb makes, if servers are copies of it


@contextlib.contextmanager
def made_once() -> Iterator[None]:
    """Lets the servers that are begun meanwhile have copies of one server's new files, as making them takes longer."""
    with tempfile.TemporaryDirectory(prefix='ezmlm-servers.', dir='/dev/shm' if os.access('/dev/shm', os.W_OK) else None) as place:
        if binaries() and os.geteuid() == 0:
            shutil.chown(place, USER, USER)
        KEPT.append(pathlib.Path(place))
        yield
        KEPT.pop()


def new_files(server: Server) -> None:
    """Gives a server the files of an empty database."""
    words = '-A', 'trust', '-U', USER, '-E', 'UTF8', '--locale=C', '--no-sync'
    if not KEPT:
        server.run('initdb', '-D', str(server.place), *words)
        return
    made = KEPT[0] / 'made'
    with open(KEPT[0] / 'lock', 'a', encoding='ascii') as lock:
        fcntl.flock(lock, fcntl.LOCK_EX)
        if not (KEPT[0] / 'is_made').exists():
            server.run('initdb', '-D', str(made), *words)
            (KEPT[0] / 'is_made').touch()
    subprocess.run(['cp', '-a', made, server.place], check=True)


class Servers:
    """Servers that are numbered from 0 on. The first one takes changes at first."""

    def __init__(self, place: pathlib.Path | None = None, many: int = 3, addresses: Sequence[str] = (),
                 within: Callable[[int], Sequence[str]] = lambda number: ()) -> None:
        """The folder is made, or else a new one is, and stays until `end`. Every user has to be able to go through those above it. Without
        addresses the servers are on loopback, each at a port of its own. `within` is the command after which a server's own stands."""
        made = place or pathlib.Path(tempfile.mkdtemp(prefix='ezmlm-servers.', dir='/dev/shm' if os.access('/dev/shm', os.W_OK) else None))
        made.mkdir(exist_ok=True)
        if os.geteuid() == 0:
            shutil.chown(made, USER, USER)
        self.place = made.resolve()
        ports = [5432] * many if addresses else free_ports(many)
        self.all = [Server(f's{number}', self.place / f's{number}', address, port, within(number))
                    for number, (address, port) in enumerate(zip(addresses or ['127.0.0.1'] * many, ports))]
        self.first = 0

    def __enter__(self) -> 'Servers':
        try:
            self.begin()
        except BaseException:
            self.end()
            raise
        return self

    def __exit__(self, *_: object) -> None:
        self.end()

    def hosts(self) -> str:
        return f'host={",".join(server.address for server in self.all)} port={",".join(str(server.port) for server in self.all)}'

    def string(self) -> str:
        """The connection string for clients, which names all servers."""
        return f'{self.hosts()} dbname={DATABASE} user={ROLE}'

    def begin(self) -> None:
        """Makes the servers and starts them. The database is empty then, and the others follow the first one."""
        first, *others = self.all
        new_files(first)
        names = ', '.join(server.name for server in self.all)
        values = {'standbys': f'ANY 1 ({names})' if others else '', 'servers': self.hosts()}
        with open(first.place / 'postgresql.conf', 'a', encoding='ascii') as file:
            file.write(CONFIGURATION.format(**values))
        (first.place / 'pg_hba.conf').write_text(ACCESS)
        first.start()
        # No other server is there yet that these could wait for.
        first.sql(f'CREATE ROLE {ROLE} LOGIN', options='-c synchronous_commit=local')
        first.sql(f'CREATE DATABASE {DATABASE} OWNER {ROLE}', options='-c synchronous_commit=local')
        for number in range(1, len(self.all)):
            self.follow(number)

    def follow(self, number: int) -> None:
        """Starts a server that isn't there, on a new copy of the first one's files, and waits until changes may wait for it."""
        server, first = self.all[number], self.all[self.first]
        shutil.rmtree(server.place, ignore_errors=True)
        server.run('pg_basebackup', '-h', first.address, '-p', str(first.port), '-U', USER, '-D', str(server.place), '-c', 'fast', '--no-sync')
        signals = server.place / 'standby.signal'
        signals.touch()
        if os.geteuid() == 0:
            shutil.chown(signals, USER, USER)
        server.start()
        until(f'{server.name} follows', lambda: server.name in self.following())

    def following(self) -> list[str]:
        """The names of the servers for whose disks a change may wait."""
        rows = self.all[self.first].sql("SELECT application_name FROM pg_stat_replication WHERE state = 'streaming' AND sync_state = 'quorum'")
        return [name for name, in rows]

    def sql(self, text: str, *values: Any, database: str = DATABASE) -> list[tuple[Any, ...]]:
        """The rows of a statement that the role gives to the server that takes changes."""
        import psycopg
        string = f'{self.hosts()} dbname={database} user={ROLE} target_session_attrs=read-write connect_timeout=5'
        with psycopg.connect(string, autocommit=True) as connection:
            cursor = connection.execute(text, values or None)
            return cursor.fetchall() if cursor.description else []

    def kill(self, number: int) -> None:
        """Kills a server at once. It comes back by `follow`, on a new copy, or with its own files by `Server.start`."""
        self.all[number].kill()

    def promote(self) -> int:
        """Of the servers that are there the one that has most takes changes from now on. The answer is its number. The first one has to be
        gone, and all others there: what a client was told may be on any one of them."""
        assert self.all[self.first].process is None
        had: dict[int, int] = {}
        # What was sent to them before the first one went may still come.
        while had != (had := self.places()):
            time.sleep(0.2)
        self.first = max(had, key=had.__getitem__)
        self.all[self.first].sql('SELECT pg_promote(true, 60)')
        until(f's{self.first} takes changes', lambda: not self.all[self.first].sql('SELECT pg_is_in_recovery()')[0][0])
        return self.first

    def places(self) -> dict[int, int]:
        """How many bytes of changes each server except the first one has."""
        text = "SELECT pg_wal_lsn_diff(greatest(pg_last_wal_receive_lsn(), pg_last_wal_replay_lsn()), '0/0')::bigint"
        return {number: server.sql(text)[0][0] for number, server in enumerate(self.all) if number != self.first}

    def end(self) -> None:
        """Kills the servers and removes their folder."""
        for server in self.all:
            server.kill()
        shutil.rmtree(self.place, ignore_errors=True)
