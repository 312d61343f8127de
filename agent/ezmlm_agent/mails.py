"""A mail on its way into a list, and what a run of the program was given of such."""

import asyncio
import collections
import dataclasses
import hashlib
import time

from . import aside, program, settings, smtp, weeding, wire

MOST_MAILS, MOST_BYTES = 128, 8 << 20  # of a run; one with so many takes no more
SLOW = 5  # seconds after which a list that hasn't answered counts as one that doesn't
GENTLE = 4  # lists without mail that begin, or have a timed run, at once


@dataclasses.dataclass(eq=False)
class Mail:
    sender: bytes
    recipient: bytes
    message: bytes
    came: float
    answer: 'asyncio.Future[program.Answer]'
    number: int = 0

    def key(self) -> bytes:
        """What a mail is known by if it comes again. A recipient is the same in any case of letters."""
        return hashlib.sha256(program.item(b'', self.sender, self.recipient.lower(), hashlib.sha256(self.message).digest())).digest()

    def settle(self, answer: program.Answer) -> None:
        if not self.answer.done():
            self.answer.set_result(answer)

    def is_wanted(self) -> bool:
        return not self.answer.done()


def first_of(waiting: collections.deque[Mail]) -> list[Mail]:
    """Takes the first mails that wait, as many as one run gets."""
    batch: list[Mail] = []
    size = 0
    while waiting and len(batch) < MOST_MAILS and (not batch or size + len(waiting[0].message) <= MOST_BYTES):
        batch.append(waiting.popleft())
        size += len(batch[-1].message)
    return batch


class Unanswered:
    """The mails that wait for a list's answer. A list that doesn't answer has a part of the memory at most, so that others have the rest."""

    def __init__(self, share: int) -> None:
        self.share = share
        self.mails: dict[Mail, None] = {}  # in the order in which they came

    def is_crowded(self, size: int, is_held: bool) -> bool:
        """Whether one mail more, of so many bytes, would be too much. `is_held` is whether the list is known not to answer now."""
        oldest = next(iter(self.mails), None)
        if oldest is None or not is_held and time.monotonic() - oldest.came < SLOW:
            return False
        return sum(len(mail.message) for mail in self.mails) + size > self.share


@dataclasses.dataclass
class Load:
    """What a run was given so far."""
    until: float
    mails: int = 0
    size: int = 0
    stale: list[bytes] = dataclasses.field(default_factory=list)  # keys of mails whose numbers are below the floor

    def is_full(self) -> bool:
        return bool(self.stale) or self.mails >= MOST_MAILS or self.size >= MOST_BYTES or time.monotonic() > self.until


@dataclasses.dataclass
class Shared:
    """What all lists have together."""
    settings: settings.Settings
    program: program.Program
    exchange: smtp.Exchange
    room: wire.Room   # for mail that is handed on
    stuck: wire.Room  # for mail that a run has in hand, and that nobody waits for any more
    reads: asyncio.Semaphore = dataclasses.field(default_factory=lambda: asyncio.Semaphore(aside.TURNS))  # of folders
    gentle: asyncio.Semaphore = dataclasses.field(default_factory=lambda: asyncio.Semaphore(GENTLE))
    weeder: weeding.Weeding = dataclasses.field(default_factory=weeding.Weeding)
