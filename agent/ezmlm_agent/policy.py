"""Postfix's access policy protocol (SMTPD_POLICY_README): what a list would refuse by the envelope is refused before the mail is taken.

So the sending machine gets the refusal, and no bounce goes to a sender who may be forged.
"""

import asyncio
import functools
import logging

from . import envelope, folder, lists, lmtp, refusals, replies, tended, wire

log = logging.getLogger('ezmlm-agent')
MOST_LINES = 200  # of a request
MOST_SESSIONS = 1000
IDLE = 3600  # seconds; Postfix hangs up before
JUDGING = 2  # seconds in which it must be told what a list refuses


class Policy:
    """Answers each request with an action: a refusal, or DUNNO for all else and if it can't be told."""

    def __init__(self, find: lmtp.Find, counted: replies.Replies) -> None:
        self.find, self.replies = find, counted
        self.sessions: set[asyncio.Task[None]] = set()

    async def serve(self, reader: asyncio.StreamReader, writer: asyncio.StreamWriter) -> None:
        task = asyncio.current_task()
        assert task
        if len(self.sessions) >= MOST_SESSIONS:
            return writer.close()
        self.sessions.add(task)
        connection = wire.Wire(reader, writer)
        try:
            while (asked := await attributes(connection)) is not None:
                await connection.say(b'action=%b\n\n' % (await self.action(asked)).encode())
        except (wire.Gone, asyncio.CancelledError):
            pass
        except Exception as error:  # Whatever it is, Postfix asks again, and other connections go on.
            log.error('a connection of the policy service ended by an error: %s', tended.told(error))
        finally:
            self.sessions.discard(task)
            writer.close()

    async def action(self, asked: dict[bytes, bytes]) -> str:
        """The action for a request."""
        if asked.get(b'request') != b'smtpd_access_policy' or asked.get(b'protocol_state') != b'RCPT':
            return 'DUNNO'
        sender, recipient = asked.get(b'sender', b''), asked.get(b'recipient', b'')
        if max(len(sender), len(recipient)) > lmtp.LONGEST_PATH:
            return 'DUNNO'
        try:
            named = await self.find(recipient)
            word = await judge(named, sender) if named else None
            if named and word is None and await self.replies.wanted(named, sender) is None:
                word = 'often'
        except lists.Unavailable:
            return 'DUNNO'
        except Exception as error:  # Whatever it is, the list decides.
            log.error('policy: %s: %s', type(error).__name__, error)
            return 'DUNNO'
        if named is None or word is None:
            return 'DUNNO'
        log.info('%s - %s %s: refused by policy: %s', named.list.name, wire.shown(sender), wire.shown(recipient), word)
        return replies.OFTEN if word == 'often' else refusals.refusal_for(word, named.rest)

    def stop(self) -> None:
        for task in self.sessions:
            task.cancel()


async def judge(named: lists.Named, sender: bytes) -> str | None:
    """The word by which a list refuses mail of this sender by the envelope alone. It is None if it doesn't, and if that can't be told
    soon, or not for good: the list's files are read under its lock, between two runs, and only while they are known to be right."""
    read = functools.partial(envelope.refusal, rest=named.rest, sender=sender)
    try:
        async with asyncio.timeout(JUDGING), named.list.turn:
            if not named.list.is_sure():
                return None
            return await named.list.aside(folder.settled, named.list.folder, read)
    except (OSError, ValueError, folder.Held, folder.Unsettled):
        return None


async def attributes(connection: wire.Wire) -> dict[bytes, bytes] | None:
    """The attributes of the next request, or None if one is too long to be any."""
    asked: dict[bytes, bytes] = {}
    for _ in range(MOST_LINES):
        line = await connection.line(IDLE)
        if not line:
            return asked
        name, _, value = line.partition(b'=')
        asked[name] = value
    return None
