"""Mail in, by LMTP (RFC 2033)."""

import asyncio
import logging
import re
from collections.abc import Awaitable, Callable
from typing import NamedTuple

from . import lists, program, refusals, replies, room, signing, tended, wire

log = logging.getLogger('ezmlm-agent')
LONGEST_MAIL = 33_554_432  # of a message, with LF at its lines' ends
LONGEST_SENT = 2 * LONGEST_MAIL  # as it is sent, with two bytes for each end of a line
LONGEST_PATH = 1000
MOST_RECIPIENTS = 1000
MOST_SESSIONS = 1000
PER_RECIPIENT = 500  # bytes of memory for each, beside its address
SAID = 4096   # bytes of replies that wait for others, at most
LEAVING = 10  # seconds for telling the last replies, when the agent stops
DROPPED = program.Answer(0, 'dropped')  # said of a mail that would be one answer too many
SIZE = re.compile(rb'SIZE=(\d{1,20})', re.IGNORECASE)  # RFC 1870
PARAMETER = re.compile(SIZE.pattern + rb'|BODY=(?:7BIT|8BITMIME)|SMTPUTF8', re.IGNORECASE)  # of MAIL; RFC 6152, RFC 6531. RCPT has none
UNKNOWN = '555 5.5.4 %s has a parameter that isn\'t known here'  # RFC 5321 4.1.1.11

Find = Callable[[bytes], Awaitable[lists.Named | None]]


class Server:
    """What all connections share: the lists, and how much mail may wait in memory."""

    def __init__(self, name: str, find: Find, memory: int, answers: int, rooms: room.Rooms) -> None:
        self.name, self.find, self.room, self.replies = name, find, wire.Room(memory), replies.Replies(answers)
        self.rooms = rooms
        self.stopping = False
        self.sessions: set[asyncio.Task[None]] = set()
        self.answering: set[asyncio.Task[None]] = set()

    async def serve(self, reader: asyncio.StreamReader, writer: asyncio.StreamWriter) -> None:
        if len(self.sessions) >= MOST_SESSIONS:
            writer.write(b'421 4.3.2 Too many connections.\r\n')
            return writer.close()
        session = Session(self, wire.Wire(reader, writer))
        task = asyncio.current_task()
        assert task
        self.sessions.add(task)
        try:
            await session.talk()
        except wire.TooLong:
            writer.write(session.said + b'500 5.5.2 A line is longer than %d bytes.\r\n' % wire.LONGEST_LINE)
        except wire.Gone:
            pass
        except asyncio.CancelledError:
            writer.write(session.said + b'421 4.3.2 The agent stops.\r\n')
        except Exception as error:  # Whatever it is, the mail comes again, and other connections go on.
            log.error('a connection of LMTP ended by an error: %s', tended.told(error))
            writer.write(session.said + b'421 4.3.0 The agent has an error, which its log tells.\r\n')
        finally:
            self.sessions.discard(task)
            session.forget()
            writer.close()

    async def stop(self) -> None:
        """Ends the connections: at once those that have given no mail, the others when it is answered."""
        self.stopping = True
        for task in self.sessions - self.answering:
            task.cancel()
        while self.answering:
            await asyncio.sleep(0.05)
        if self.sessions:
            await asyncio.wait(self.sessions, timeout=LEAVING)


class Recipient(NamedTuple):
    """A recipient, and what its answer counts for, or None if it would be one too many."""
    named: lists.Named
    address: bytes
    counted: replies.Keys | None


class Session:
    """One connection."""

    def __init__(self, server: Server, connection: wire.Wire) -> None:
        self.server, self.wire = server, connection
        self.is_greeted = False
        self.held, self.said = 0, b''  # what is said together with what follows
        self.sender: bytes | None = None
        self.recipients: list[Recipient] = []  # that weren't answered yet
        self.commands: dict[bytes, Callable[[bytes], Awaitable[None]]] = {
            b'LHLO': self.hello, b'MAIL': self.mail, b'RCPT': self.rcpt, b'DATA': self.data, b'RSET': self.reset, b'NOOP': self.noop}
        self.forget()

    def forget(self) -> None:
        """There is no mail in hand."""
        for recipient in self.recipients:
            self.server.replies.give_back(recipient.counted or ())
        self.sender, self.recipients, self.size = None, [], 0
        self.give_room()

    async def talk(self) -> None:
        await self.say(f'220 {self.server.name} LMTP ezmlm-agent')
        while not self.server.stopping:
            line = await self.wire.line()
            word = line.split(b' ', 1)[0].upper()
            if word == b'QUIT':
                await self.say('221 2.0.0 Bye')
                return await self.flush()
            await self.commands.get(word, self.unknown)(line)
        await self.say('421 4.3.2 The agent stops.')
        await self.flush()

    async def say(self, *lines: str) -> None:
        """Says lines, together with those that follow if their commands are there already (RFC 2920 3.2)."""
        self.said += b''.join(line.encode('utf-8', 'replace') + b'\r\n' for line in lines)
        if b'\n' not in self.wire.read or len(self.said) > SAID:
            await self.flush()

    async def flush(self) -> None:
        said, self.said = self.said, b''
        if said:
            await self.wire.say(said)

    async def unknown(self, _: bytes) -> None:
        await self.say('500 5.5.1 Unknown command')

    async def hello(self, _: bytes) -> None:
        self.forget()
        self.is_greeted = True
        await self.say(f'250-{self.server.name}', '250-PIPELINING', '250-8BITMIME', '250-SMTPUTF8', f'250-SIZE {LONGEST_SENT}',
                       '250 ENHANCEDSTATUSCODES')

    async def noop(self, _: bytes) -> None:
        await self.say('250 2.0.0 Ok')

    async def reset(self, _: bytes) -> None:
        self.forget()
        await self.say('250 2.0.0 Ok')

    async def mail(self, line: bytes) -> None:
        if not self.is_greeted:
            return await self.say('503 5.5.1 LHLO comes first')
        if self.sender is not None:
            return await self.say('503 5.5.1 There is a sender already')
        sender = path_of(line)
        if sender is None:
            return await self.say(f'501 5.1.7 MAIL FROM:<address> of at most {LONGEST_PATH} bytes')
        if declared_size(line) > LONGEST_SENT:
            return await self.say(refusals.SENTENCES['toobig'])
        if not all(map(PARAMETER.fullmatch, parameters(line))):
            return await self.say(UNKNOWN % 'MAIL')
        self.sender = sender
        await self.say('250 2.1.0 Ok')

    async def rcpt(self, line: bytes) -> None:
        if self.sender is None:
            return await self.say('503 5.5.1 There is no sender')
        recipient = path_of(line)
        if recipient is None:
            return await self.say(f'501 5.1.3 RCPT TO:<address> of at most {LONGEST_PATH} bytes')
        if parameters(line):
            return await self.say(UNKNOWN % 'RCPT')
        if len(self.recipients) == MOST_RECIPIENTS:
            return await self.say('452 4.5.3 Too many recipients')
        try:
            found = await self.server.find(recipient)
        except lists.Unavailable as error:
            return await self.say(f'451 4.3.0 {error}')
        if found is None:
            return await self.say('550 5.1.1 There is no list of this address.')
        if await self.server.rooms.lacks(found.list.folder, found.list.threads):
            return await self.say(room.FULL)
        if not self.take_room(len(recipient) + PER_RECIPIENT):
            return await self.say(refusals.CROWDED)
        self.recipients.append(Recipient(found, recipient, await self.server.replies.take(found, self.sender)))
        await self.say('250 2.1.5 Ok')

    def take_room(self, size: int) -> bool:
        has_room = self.server.room.take(size)
        self.held += size * has_room
        return has_room

    def refusal(self, size: int) -> str | None:
        """Why a further piece of a mail isn't taken, or None."""
        self.size += size
        if self.size > LONGEST_SENT:
            return refusals.SENTENCES['toobig']
        if self.take_room(size):
            return None
        self.give_room()
        return refusals.CROWDED

    def give_room(self) -> None:
        self.server.room.give(self.held)
        self.held = 0

    async def data(self, _: bytes) -> None:
        if not self.recipients:
            return await self.say('503 5.5.1 There is no recipient')
        await self.say('354 End with a dot alone')
        await self.flush()
        sent, refused = await self.wire.mail(self.refusal)
        message = wire.with_line_feeds(sent) if sent is not None else b''
        del sent
        if len(message) > LONGEST_MAIL:
            refused = refusals.SENTENCES['toobig']
        replies = [refused] * len(self.recipients) if refused else await self.answers(message)
        self.forget()
        await self.say(*replies)

    async def answers(self, message: bytes) -> list[str]:
        """The replies by the lists' answers, which are waited for even when the agent stops."""
        sender, task = self.sender or b'', asyncio.current_task()
        assert task
        given = asyncio.gather(*(given_to(recipient, sender, message) for recipient in self.recipients))
        self.server.answering.add(task)
        try:
            answers = await given
        finally:
            self.server.answering.discard(task)
        texts = [refusals.reply_for(answer, recipient.named.rest) for answer, recipient in zip(answers, self.recipients)]
        self.recipients = [recipient for answer, recipient in zip(answers, self.recipients) if not is_mailed(answer)]
        return texts


async def given_to(to: Recipient, sender: bytes, message: bytes) -> program.Answer:
    """The list's answer to a mail. One that would be an answer too many isn't given to the list, and one by which `--check` looks for
    signatures neither."""
    named, recipient, counted = to
    if counted is None:
        log.info('%s - %s %s: dropped: its sender has asked for too many answers', named.list.name, wire.shown(sender), wire.shown(recipient))
        return DROPPED
    number = signing.number_of(named.rest)
    if number is None:
        return await named.list.receive(sender, recipient, named.rest, message)
    answer = await asyncio.to_thread(signing.keep, named.list.settings.state, number, message)
    log.info('%s - %s %s: %s', named.list.name, wire.shown(sender), wire.shown(recipient), answer.words)
    return answer


def is_mailed(answer: program.Answer) -> bool:
    """Whether a list has answered with a mail, as it does unless it refuses."""
    return answer.is_answer and answer.status == 0 and not answer.words.startswith('weeded')


def path_of(line: bytes) -> bytes | None:
    """The address of MAIL or RCPT as the list has it, or None if it is none or too long."""
    path = wire.PATH.fullmatch(line)
    if path is None:
        return None
    address = wire.unquoted(path[1])
    return address if len(address) <= LONGEST_PATH else None


def parameters(line: bytes) -> list[bytes]:
    """The parameters of MAIL or RCPT."""
    path = wire.PATH.fullmatch(line)
    return (path[2] or b'').split() if path else []


def declared_size(line: bytes) -> int:
    """The bytes that MAIL says the message has, or 0 if it says none."""
    return next((int(found[1]) for word in parameters(line) if (found := SIZE.fullmatch(word))), 0)
