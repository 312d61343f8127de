"""One entry of a list's outgoing queue is handed on to the transfer agent: which copies go, and what each reply means."""

import asyncio
import contextlib
import dataclasses
import functools
import hashlib
import logging
import random
import time
from collections.abc import Callable, Sequence
from typing import TYPE_CHECKING

from . import copies, fields, notes, program, smtp, wire

if TYPE_CHECKING:
    from . import outgoing

log = logging.getLogger('ezmlm-agent')
DAY = 86400  # for which an entry stays if all its copies are refused
HOPELESS = 100  # copies that were refused and none taken, after which no more are tried for now


@dataclasses.dataclass
class Attempt:
    """One try to hand an entry on."""
    kept: notes.Copies  # where it is kept which copies were handed on
    entry: int
    mark: bytes      # what the entry is, beside its id
    mail: bytes      # what is sent for its mail
    age: float       # seconds
    is_named: bool   # whether its copies' senders name their recipients, so that the list learns from bounces
    recipients: int  # of the whole entry
    is_taken: bool   # whether a copy was ever taken
    is_tried: bool = False  # whether the entry was tried before
    refused: list[tuple[copies.Copy, smtp.Reply]] = dataclasses.field(default_factory=list)  # copies that were refused for good
    put_off: int = 0  # copies that are to be tried again
    is_hung_up: bool = False  # whether the transfer agent hung up in the middle
    is_put_off_alone: bool = True  # whether each of these was put off by the reply to its recipient, and not to the mail

    def is_hopeless(self) -> bool:
        return not self.is_taken and len(self.refused) >= HOPELESS and self.age < DAY


def attempt_of(kept: notes.Copies, text: bytes, mark: bytes, entry: int, age: float, before: frozenset[bytes], size: int, verp: bool,
               mail_of: Callable[[Sequence[bytes]], bytes]) -> tuple[Attempt, list[copies.Transaction]]:
    """What is to be done for an entry that a file spells so, and the transactions. `mail_of` makes of its elements the mail that goes out."""
    elements = program.netstrings(text)
    rows = copies.batches(elements, size, verp, before)
    random.shuffle(rows)  # If an attempt ends early the next one begins with others.
    mail = wire.as_sent(mail_of(elements))
    return Attempt(kept, entry, mark, mail, age, copies.is_named(elements), len(elements) - 4, bool(before)), rows


class Handing:
    """Hands entries of a queue on."""

    def __init__(self, queue: 'outgoing.Queue') -> None:
        self.queue, self.list = queue, queue.list
        self.exchange: smtp.Exchange = queue.exchange
        self.attempts: dict[int, Attempt] = {}  # of the entries in hand

    async def hand_on(self, entry: int, text: bytes, written: float, verp: bool, is_tried: bool) -> bool:
        """Whether all copies of an entry are done with. `written` is when it came into the queue, and `is_tried` whether it was tried since
        the agent began."""
        kept = self.list.copies()
        assert kept
        mark = hashlib.sha256(text).digest()
        before = frozenset(kept.handed_before(entry, mark))
        words = kept, text, mark, entry, time.time() - written, before, self.list.settings.batch, verp, functools.partial(self.mail_of, entry)
        attempt, rows = attempt_of(*words) if self.queue.section is None else await asyncio.to_thread(attempt_of, *words)
        del text, words
        attempt.is_tried = is_tried
        self.attempts[entry] = attempt
        if len(rows) == 1:  # It needs no task of its own.
            ends: list[BaseException | None] = [await self.ended(attempt, *rows[0])]
        else:
            ends = await asyncio.gather(*(self.ended(attempt, *row) for row in rows))
        is_told = await self.tell_refused(attempt)
        for error in ends:
            if isinstance(error, BaseException):
                raise error
        return is_told and not attempt.put_off

    async def ended(self, attempt: Attempt, sender: bytes, named: bool, row: list[copies.Copy]) -> BaseException | None:
        """By which error one transaction ended, or None."""
        try:
            await self.hand_on_row(attempt, sender, named, row)
        except Exception as error:
            return error
        return None

    def mail_of(self, entry: int, elements: Sequence[bytes]) -> bytes:
        """What goes out for an entry's mail: with the fields of its list's section, or as the list wrote it if they can't be put in."""
        try:
            return fields.as_handed_on(elements, self.queue.section, self.queue.flags)
        except Exception as error:  # Whatever it is, no mail is kept back for the sake of a field.
            log.warning('%s: entry %d goes out as the list wrote it: %s', self.list.name, entry, error or type(error).__name__)
            return elements[3]

    async def hand_on_row(self, attempt: Attempt, sender: bytes, named: bool, row: list[copies.Copy]) -> None:
        """Hands one transaction on."""
        turn: contextlib.AbstractAsyncContextManager[None] = contextlib.nullcontext()
        if attempt.is_tried:
            turn = self.queue.tried
        async with turn, self.queue.lanes, self.exchange.free:
            if self.list.stopping or attempt.is_hopeless():
                attempt.put_off += len(row)
                return
            await attempt.kept.write()
            replies: list[smtp.Reply] | None = None
            try:
                replies = await self.exchange.hand_on(sender, named, [recipient for _, recipient in row], attempt.mail)
            except smtp.Untouched:
                if len(row) == 1:
                    attempt.is_hung_up = True
                    raise
            except smtp.Away:
                raise
            except wire.Gone:
                attempt.is_hung_up = True
                raise
            # The connection is free for others when this is noted. So what a crash may double is one transaction for each connection.
            if replies is not None:
                await self.note(attempt, row, replies)
        if replies is None:  # It may have hung up since it refused too many at once.
            half = len(row) // 2
            await self.hand_on_row(attempt, sender, named, row[:half])
            await self.hand_on_row(attempt, sender, named, row[half:])

    async def note(self, attempt: Attempt, row: list[copies.Copy], replies: list[smtp.Reply]) -> None:
        """Notes whose copies were taken, and of which the transfer agent said something else."""
        taken = [recipient for (_, recipient), reply in zip(row, replies) if smtp.is_good(reply)]
        attempt.is_taken = attempt.is_taken or bool(taken)
        if taken:
            self.queue.moves()
        for copy, reply in zip(row, replies):
            if smtp.is_good(reply):
                continue
            log.warning('%s: entry %d to %s: %d %s', self.list.name, attempt.entry, wire.shown(copy[1]), reply.code, reply.words())
            if reply.code >= 500 or attempt.age >= self.list.settings.keep_days * DAY:
                attempt.refused.append((copy, reply))
            else:
                attempt.put_off += 1
                attempt.is_put_off_alone = attempt.is_put_off_alone and reply.is_of_recipient
                if not taken and not reply.is_of_recipient:
                    self.queue.waits(f'the transfer agent says {reply.code} {reply.words()}')
        await attempt.kept.hand(attempt.entry, attempt.mark, taken)

    async def tell_refused(self, attempt: Attempt) -> bool:
        """Whether the list knows of all copies that were refused for good. If none was ever taken it isn't told for a day: by a
        transfer agent that refuses all, each member of each post would bounce. A single recipient that is refused by itself is no such case.
        """
        if attempt.refused and not attempt.is_taken and attempt.age < DAY and not self.is_refused_alone(attempt):
            return False
        return not attempt.refused or all(await asyncio.gather(*(self.bounce(attempt, *refused) for refused in attempt.refused)))

    def is_refused_alone(self, attempt: Attempt) -> bool:
        """Whether an entry's one recipient is what was refused. A refusal by policy (RFC 3463 3.8: 5.7) may be of this host, and so of all,
        unless the transfer agent took other mail."""
        (_, reply), *others = attempt.refused
        is_alone = attempt.recipients == 1 and not others and reply.is_of_recipient
        return is_alone and (self.exchange.has_taken or not reply.lines[0].startswith('5.7.'))

    async def bounce(self, attempt: Attempt, copy: copies.Copy, reply: smtp.Reply) -> bool:
        """Gives the list the bounce that a refused copy is, unless it is one of the list's own answers: of these it learns nothing. The
        answer is whether the copy is done with."""
        sender, recipient = copy
        if attempt.is_named:
            message = b'Subject: refused\n\n%d to %b: %d %b\n' % (attempt.entry, recipient, reply.code, reply.lines[0].encode())
            if not (await self.list.deliver(b'', sender, message)).is_answer:
                return False
        await attempt.kept.hand(attempt.entry, attempt.mark, [recipient])
        return True
