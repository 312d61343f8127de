"""Lines and mails over a connection, as SMTP and LMTP have them (RFC 5321, RFC 2033)."""

import asyncio
import re
from collections.abc import Callable

LONGEST_LINE = 4096
PIECE = 1 << 16
QUIET = 300  # seconds in which the other side has to say something
PATH = re.compile(rb'(?:MAIL FROM|RCPT TO): *<((?:"(?:[^"\\]|\\.)*"|[^">])*)>(?: +(.*))?', re.IGNORECASE | re.DOTALL)
ATOM = re.compile(rb"[A-Za-z0-9!#$%&'*+/=?^_`{|}~-]+(?:\.[A-Za-z0-9!#$%&'*+/=?^_`{|}~-]+)*")


class Gone(Exception):
    """The other side hung up, kept quiet, or says what can't be read."""


class TooLong(Gone):
    """A line of the other side is longer than 4,096 bytes."""


def printable(text: str) -> str:
    """Words of a stranger as they stand in the log and in replies: nothing of them ends a line or moves a terminal's cursor."""
    return ascii(text)[1:-1]


def shown(address: bytes) -> str:
    """An address as it stands in the log."""
    return printable(address.decode('utf-8', 'surrogateescape')) or '<>'


def unquoted(address: bytes) -> bytes:
    """An address as the list has it: without quotes (RFC 5321 4.1.2)."""
    local, at, host = address.rpartition(b'@')
    if local[:1] == local[-1:] == b'"' and len(local) > 1:
        local = re.sub(rb'\\(.)', rb'\1', local[1:-1], flags=re.DOTALL)
    return local + at + host


def quoted(address: bytes) -> bytes:
    """An address as a transfer agent reads it: with quotes if the part before the @ has more than plain bytes."""
    local, at, host = address.rpartition(b'@')
    if at and not ATOM.fullmatch(local):
        local = b'"' + re.sub(rb'(["\\])', rb'\\\1', local) + b'"'
    return local + at + host


def with_line_feeds(sent: bytes) -> bytes:
    """A mail with LF at its lines' ends from what is sent for it, which begins and ends with CR LF."""
    return sent.replace(b'\r\n.', b'\r\n')[2:].replace(b'\r\n', b'\n')


def as_sent(mail: bytes) -> bytes:
    """What is sent for a mail with LF at its lines' ends, the line that ends it too. A CR elsewhere stays."""
    text = (b'\n' + mail if mail.endswith(b'\n') else b'\n' + mail + b'\n').replace(b'\n', b'\r\n')
    return text.replace(b'\r\n.', b'\r\n..')[2:] + b'.\r\n'


class Room:
    """Bytes of mail that may stand in memory at once."""

    def __init__(self, size: int) -> None:
        self.size, self.taken = size, 0

    def take(self, size: int) -> bool:
        """Whether there was room for so many more bytes, which is taken then. If there is nothing else there always is."""
        if self.taken and self.taken + size > self.size:
            return False
        self.taken += size
        return True

    def give(self, size: int) -> None:
        self.taken -= size


class Wire:
    """A connection, read by lines and by mails."""

    def __init__(self, reader: asyncio.StreamReader, writer: asyncio.StreamWriter) -> None:
        self.reader, self.writer = reader, writer
        self.read = bytearray()

    async def fill(self, until: float) -> int:
        """Reads a piece before this moment of the loop's clock."""
        try:
            async with asyncio.timeout_at(until):
                more = await self.reader.read(PIECE)
        except OSError as error:
            raise Gone(str(error) or 'quiet for too long') from error
        if not more:
            raise Gone('hung up')
        self.read += more
        return len(more)

    async def line(self, seconds: float = QUIET) -> bytes:
        until = asyncio.get_running_loop().time() + seconds
        while (end := self.read.find(b'\n')) < 0:
            if len(self.read) > LONGEST_LINE:
                raise TooLong('a line is too long')
            await self.fill(until)
        line = bytes(self.read[:end])
        del self.read[:end + 1]
        return line.rstrip(b'\r')

    async def mail(self, refusal: Callable[[int], str | None]) -> tuple[bytes | None, str | None]:
        """What is sent for a mail, with CR LF before it, and None; or None, and the first refusal of one of its pieces."""
        refused = refusal(len(self.read))
        self.read[:0] = b'\r\n'
        start = 0
        while (end := self.read.find(b'\r\n.\r\n', start)) < 0:
            start = max(0, len(self.read) - 4)
            if refused:
                del self.read[:start]
                start = 0
            size = await self.fill(asyncio.get_running_loop().time() + QUIET)
            refused = refused or refusal(size)
        sent = None if refused else bytes(self.read[:end + 2])
        del self.read[:end + 5]
        return sent, refused

    async def say(self, text: bytes, seconds: float = QUIET) -> None:
        try:
            self.writer.write(text)
            if self.writer.transport.get_write_buffer_size() or self.writer.transport.is_closing():
                async with asyncio.timeout(seconds):
                    await self.writer.drain()
        except OSError as error:
            raise Gone(str(error) or 'takes nothing') from error

    def close(self) -> None:
        self.writer.close()
