"""The sockets at which others reach the agent: made by it, or by systemd, which keeps them while the agent is started anew."""

import asyncio
import contextlib
import errno
import fcntl
import os
import pathlib
import socket
import stat
from collections.abc import Awaitable, Callable
from typing import TextIO

from . import settings

FIRST = 3  # the first descriptor that systemd hands over: sd_listen_fds(3)
BACKLOG = 1024
MODE = 0o660

Serve = Callable[[asyncio.StreamReader, asyncio.StreamWriter], Awaitable[None]]


class Taken(OSError):
    """Somebody else listens there."""


def handed_over() -> list[socket.socket]:
    """The sockets that systemd made for this process."""
    many = os.environ.get('LISTEN_FDS', '') if os.environ.get('LISTEN_PID') == str(os.getpid()) else ''
    for name in ('LISTEN_PID', 'LISTEN_FDS', 'LISTEN_FDNAMES'):
        os.environ.pop(name, None)
    sockets = [socket.socket(fileno=number) for number in range(FIRST, FIRST + int(many or 0))]
    for each in sockets:
        each.set_inheritable(False)
    return sockets


def is_at(found: socket.socket, address: str) -> bool:
    """Whether a socket is the one of an address of the settings."""
    where, name = settings.endpoint(address), found.getsockname()
    if isinstance(where, str):
        return isinstance(name, str) and os.path.realpath(name) == os.path.realpath(where)
    return isinstance(name, tuple) and name[1] == where[1] and name[0] in ('127.0.0.1', '::1', where[0])


class Listener:
    """Listens at the addresses of the settings."""

    def __init__(self) -> None:
        self.sockets = handed_over()
        self.servers: list[asyncio.Server] = []
        self.locks: list[TextIO] = []

    async def listen(self, address: str, serve: Serve) -> None:
        """Serves whoever comes to an address. It is an OSError if nobody can listen there, and Taken if somebody does."""
        for found in self.sockets:
            if is_at(found, address):
                self.sockets.remove(found)
                found.listen(BACKLOG)
                if found.family == socket.AF_UNIX:
                    self.servers.append(await asyncio.start_unix_server(serve, sock=found, backlog=BACKLOG))
                else:
                    self.servers.append(await asyncio.start_server(serve, sock=found, backlog=BACKLOG))
                return
        where = settings.endpoint(address)
        if isinstance(where, str):
            path = pathlib.Path(where)
            self.locks.append(alone(path))
            self.servers.append(await asyncio.start_unix_server(serve, where, backlog=BACKLOG))
            os.chmod(path, MODE)
        else:
            self.servers.append(await asyncio.start_server(serve, where[0], where[1], backlog=BACKLOG))

    def unknown(self) -> list[str]:
        """Where sockets of systemd's are that no setting names. They are closed, so that nobody waits there in vain."""
        names = [str(found.getsockname()) for found in self.sockets]
        for found in self.sockets:
            found.close()
        self.sockets = []
        return names

    def close(self) -> None:
        for server in self.servers:
            server.close()


def alone(path: pathlib.Path) -> TextIO:
    """Makes way for a socket: one that nobody listens at is removed. A lock beside it, which is held as long as the answer is open, and a look
    whether somebody answers keep two agents from taking it from one another. It is Taken if another one has it."""
    lock = open(path.with_name(path.name + '.lock'), 'a', encoding='ascii')
    try:
        fcntl.flock(lock, fcntl.LOCK_EX | fcntl.LOCK_NB)
        with contextlib.suppress(FileNotFoundError):
            if not stat.S_ISSOCK(path.lstat().st_mode):
                raise OSError(errno.EEXIST, 'there is something that is no socket', str(path))
            if answers(path):
                raise Taken(errno.EADDRINUSE, 'somebody listens there already', str(path))
            path.unlink()
    except BlockingIOError as error:
        lock.close()
        raise Taken(errno.EADDRINUSE, 'another agent listens there', str(path)) from error
    except OSError:
        lock.close()
        raise
    return lock


def answers(path: pathlib.Path) -> bool:
    """Whether somebody listens at a socket. One that is only busy does."""
    with socket.socket(socket.AF_UNIX) as probe:
        probe.setblocking(False)
        return probe.connect_ex(str(path)) not in (errno.ECONNREFUSED, errno.ENOENT)
