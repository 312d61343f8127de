"""Mail out, by SMTP (RFC 5321), over connections that stay; and with XVERP, by which Postfix names each recipient in its sender."""

import asyncio
import contextlib
import re
import time
from collections.abc import AsyncIterator, Sequence
from typing import NamedTuple

from . import settings, wire

STAYS = 60       # seconds for which a connection that isn't used stays
CONNECTING = 30  # seconds
LOOKS = 150      # seconds after which it is seen whether the transfer agent is there though no mail goes out
TAKING = 600     # seconds until a mail that was sent is taken (RFC 5321 4.5.3.2.6)
MOST_LINES = 100  # of a reply


class Untouched(wire.Gone):
    """The connection ended before any of the mail was sent over it, so nobody got it."""


class Away(wire.Gone):
    """The transfer agent can't be reached, or doesn't greet."""


class Reply(NamedTuple):
    """A reply of the transfer agent, and whether it is to a recipient by itself, and not to the sender or to the whole mail."""
    code: int
    lines: list[str]
    is_of_recipient: bool = False

    def words(self) -> str:
        """Its first line, as it stands in the log."""
        return wire.printable(self.lines[0])


def is_good(reply: Reply) -> bool:
    return 200 <= reply.code < 300


async def connect(address: str) -> 'Connection':
    """A connection to HOST:PORT or a socket's path."""
    where = settings.endpoint(address)
    try:
        async with asyncio.timeout(CONNECTING):
            if isinstance(where, str):
                return Connection(*await asyncio.open_unix_connection(where))
            return Connection(*await asyncio.open_connection(*where))
    except OSError as error:
        raise Away(f'{address}: {error or "no answer"}') from error


class Connection:
    def __init__(self, reader: asyncio.StreamReader, writer: asyncio.StreamWriter) -> None:
        self.wire = wire.Wire(reader, writer)
        self.extensions: set[str] = set()
        self.used = time.monotonic()
        self.is_open = True
        self.address = ''  # of the transfer agent, as the settings have it

    async def reply(self, seconds: float = wire.QUIET) -> Reply:
        """A reply: its code and its text. By 421 the other side says that it hangs up."""
        lines: list[str] = []
        while len(lines) < MOST_LINES:
            line = await self.wire.line(seconds)
            if not re.match(rb'[2-5]\d\d', line):
                break
            lines.append(line[4:].decode('utf-8', 'replace'))
            if line[:3] == b'421':
                break
            if line[3:4] != b'-':
                return Reply(int(line[:3]), lines)
        raise wire.Gone(f'said {line[:80]!r}')

    async def greet(self, name: str) -> None:
        for command in (None, b'EHLO %b\r\n' % name.encode()):
            if command:
                await self.wire.say(command)
            reply = await self.reply()
            if not is_good(reply):
                raise wire.Gone(f'{reply.code} {reply.words()}')
        self.extensions = {wire.printable(line.split(' ')[0].upper()) for line in reply.lines[1:]}

    async def ask(self, commands: Sequence[bytes]) -> AsyncIterator[Reply]:
        """The replies to these commands, one by one. They go out together if the other side reads them so."""
        if 'PIPELINING' in self.extensions:
            await self.wire.say(b''.join(commands))
        for command in commands:
            if 'PIPELINING' not in self.extensions:
                await self.wire.say(command)
            yield await self.reply()

    def commands(self, sender: bytes, named: bool, recipients: Sequence[bytes], mail: bytes) -> list[bytes]:
        """What is asked before the mail is sent: MAIL, and RCPT for each recipient."""
        words = [b'MAIL FROM:<%b>' % wire.quoted(sender)]
        words += [b'XVERP=-='] * named
        words += [b'SIZE=%d' % len(mail)] * ('SIZE' in self.extensions)
        words += [b'BODY=8BITMIME'] * ('8BITMIME' in self.extensions and not mail.isascii())
        return [b' '.join(words) + b'\r\n', *(b'RCPT TO:<%b>\r\n' % wire.quoted(recipient) for recipient in recipients)]

    async def propose(self, commands: Sequence[bytes]) -> tuple[list[Reply], Reply | None]:
        """The replies for the recipients, and the one to DATA, or None if nobody is to have the mail. DATA goes out with the others if they go
        together (RFC 2920 3.1)."""
        if 'PIPELINING' in self.extensions:
            return await self.propose_together(commands)
        replies: list[Reply] = []
        is_first = True
        async for reply in self.ask(commands):
            if is_first and not is_good(reply):
                self.is_open = False  # Whatever it says to the other commands, it is said without a sender.
                return [reply] * (len(commands) - 1), None
            if not is_first:
                replies.append(reply._replace(is_of_recipient=True))
            is_first = False
        if not any(map(is_good, replies)):
            return replies, None
        await self.wire.say(b'DATA\r\n')
        reply = await self.reply()
        if reply.code < 400 and reply.code != 354:
            raise wire.Gone(f'said {reply.code} to DATA')
        return replies, reply

    async def propose_together(self, commands: Sequence[bytes]) -> tuple[list[Reply], Reply | None]:
        await self.wire.say(b''.join(commands) + b'DATA\r\n')
        first = await self.reply()
        if not is_good(first):
            self.is_open = False  # Whatever it says to the other commands, it is said without a sender.
            return [first] * (len(commands) - 1), None
        replies = [(await self.reply())._replace(is_of_recipient=True) for _ in commands[1:]]
        reply = await self.reply()
        if reply.code < 400 and reply.code != 354:
            raise wire.Gone(f'said {reply.code} to DATA')
        if any(map(is_good, replies)):
            return replies, reply
        if reply.code == 354:  # It waits for a mail to nobody.
            await self.wire.say(b'.\r\n')
            await self.reply(TAKING)
        return replies, None

    async def hand_on(self, sender: bytes, named: bool, recipients: Sequence[bytes], mail: bytes) -> list[Reply]:
        """The reply for each recipient. `mail` is what is sent for a mail."""
        self.used = time.monotonic()
        if named and 'XVERP' not in self.extensions:
            raise wire.Gone('it takes no XVERP any more')
        try:
            replies, end = await self.propose(self.commands(sender, named, recipients, mail))
        except wire.Gone as error:
            raise Untouched(str(error)) from error
        if end is not None and end.code == 354:
            await self.wire.say(mail, TAKING)
            end = await self.reply(TAKING)
        if end is None or not is_good(end):
            self.is_open = False
        return [end if end is not None and is_good(reply) else reply for reply in replies]

    def close(self) -> None:
        self.wire.writer.write(b'QUIT\r\n')
        self.wire.close()


class Exchange:
    """The transfer agent, by a few connections."""

    def __init__(self, address: str, name: str, connections: int) -> None:
        self.address, self.name, self.connections = address, name, connections
        self.free = asyncio.Semaphore(connections)
        self.kept: list[Connection] = []
        self.extensions: set[str] = set()
        self.has_taken = False  # whether it took any copy so far
        self.heard = 0.0  # when it last greeted or answered, by the monotonic clock
        self.fault: tuple[float, str] | None = None  # since when it can't be reached, and why
        self.hung_up: set[object] = set()  # whose mail it hung up on since it last took any

    async def fresh(self) -> Connection:
        begun = time.monotonic()
        try:
            connection = await self.greeted()
        except wire.Gone as error:
            self.fault = self.fault[0] if self.fault else begun, str(error)
            raise Away(str(error)) from error
        self.extensions, self.heard, self.fault = connection.extensions, time.monotonic(), None
        return connection

    async def greeted(self) -> Connection:
        connection = await connect(self.address)
        connection.address = self.address
        try:
            await connection.greet(self.name)
        except BaseException:
            connection.wire.close()
            raise
        return connection

    def goes_to(self, address: str, name: str) -> None:
        """From now on mail is handed on there, under this name."""
        if (address, name) != (self.address, self.name):
            self.address, self.name, self.fault, self.heard = address, name, None, 0.0
            self.close_unused(0)

    async def look(self) -> None:
        """Sees whether the transfer agent is there, unless that was seen a short time ago, or all connections to it are at work."""
        if (self.fault or time.monotonic() - self.heard > LOOKS) and not self.free.locked():
            with contextlib.suppress(wire.Gone):
                async with self.free:
                    self.kept.append(await self.fresh())

    def hangs_up(self, whose: object) -> bool:
        """Notes that it hung up on somebody's mail. The answer is whether it hung up on no other since it last took any: then it is this mail's
        fault, as far as can be told, and not the transfer agent's."""
        self.hung_up.add(whose)
        return self.hung_up == {whose}

    def used(self) -> Connection | None:
        """A connection that was used before, or None."""
        self.close_unused()
        return self.kept.pop() if self.kept else None

    def close_unused(self, stays: float = STAYS) -> None:
        """Closes the connections that nobody used for so long, and those that the other side closed."""
        oldest = time.monotonic() - stays
        closed = [kept for kept in self.kept if kept.used < oldest or kept.wire.reader.at_eof()]
        for kept in closed:
            self.kept.remove(kept)
            kept.close()

    async def takes_verp(self) -> bool:
        """Whether the transfer agent takes XVERP, by the last that it said."""
        async with self.free:
            self.kept.append(self.used() or await self.fresh())
        return 'XVERP' in self.extensions

    async def hand_on(self, sender: bytes, named: bool, recipients: Sequence[bytes], mail: bytes) -> list[Reply]:
        """Hands one transaction on, for whoever has one of the connections that are free."""
        if (kept := self.used()) is not None:
            try:
                return await self.over(kept, sender, named, recipients, mail)
            except Untouched:
                pass  # It may have been closed while nobody used it.
        return await self.over(await self.fresh(), sender, named, recipients, mail)

    async def over(self, connection: Connection, sender: bytes, named: bool, recipients: Sequence[bytes], mail: bytes) -> list[Reply]:
        try:
            replies = await connection.hand_on(sender, named, recipients, mail)
        except BaseException:
            connection.wire.close()
            raise
        if connection.is_open and connection.address == self.address:
            self.kept.append(connection)
        else:
            connection.close()
        self.heard = time.monotonic()
        if any(map(is_good, replies)):
            self.has_taken = True
            self.hung_up.clear()
        return replies
