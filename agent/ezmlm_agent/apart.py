"""Which entries of a list's queue aren't tried any more, since the transfer agent hangs up on each of them, and that the owner hears of it."""

import dataclasses
import logging
import pathlib
import time
from typing import TYPE_CHECKING

from . import handing, parked, wire

if TYPE_CHECKING:
    from . import outgoing

log = logging.getLogger('ezmlm-agent')
TELLS = 60  # seconds after which the owner's mail is tried again


class Apart:
    def __init__(self, queue: 'outgoing.Queue') -> None:
        self.queue, self.list = queue, queue.list
        self.path = parked.place(queue.list.settings.state, queue.list.folder.name)
        self.found: dict[int, parked.Parked] = {}
        self.stamp: parked.Stamp | str = 'unread'
        self.times: dict[int, int] = {}  # how often the transfer agent hung up on an entry
        self.tells_at = 0.0  # when the owner gets a mail, by the monotonic clock

    async def refresh(self, stamp: parked.Stamp) -> None:
        """Reads what is set aside if that may have changed, as when an entry is given again."""
        if stamp != self.stamp:
            before = self.found
            self.found = await self.list.reading(lambda path: parked.still(self.path, path)) if stamp else {}
            self.stamp = stamp
            for entry in before.keys() - self.found.keys():
                log.info('%s: entry %d isn\'t set aside any more', self.list.name, entry)
                self.queue.later.pop(entry, None)
                self.times.pop(entry, None)
        if any(not one.is_told for one in self.found.values()) and time.monotonic() >= self.tells_at:
            self.tells_at = time.monotonic() + TELLS
            await self.tell()

    async def hung_up(self, attempt: handing.Attempt | None, why: str) -> None:
        """Counts that an entry failed, if the transfer agent hung up on it, and sets it aside when that was so a few times."""
        if attempt is None or not attempt.is_hung_up or not self.queue.exchange.hangs_up((self.list.name, attempt.entry)):
            return
        self.times[attempt.entry] = self.times.get(attempt.entry, 0) + 1
        if self.times[attempt.entry] >= parked.MOST:
            await self.set_aside(attempt.entry, parked.now_parked(attempt.mark, wire.printable(why)))

    async def set_aside(self, entry: int, one: parked.Parked) -> None:
        """An entry that can't be set aside is tried again."""
        try:
            await self.list.threads.call('aside', parked.write, self.path, entry, one)
        except OSError as error:
            log.error('%s: entry %d can\'t be set aside: %s', self.list.name, entry, error)
            return
        log.error('%s: entry %d is set aside: the transfer agent hung up on it %d times, the last time so: %s; ezmlm-admin %s again %d has it tried '
                  'again', self.list.name, entry, parked.MOST, one.why, self.list.folder, entry)
        self.found[entry] = one
        del self.times[entry]

    async def tell(self) -> None:
        """Writes to the list's owner of those of which he wasn't told. If the transfer agent doesn't take that it is tried again."""
        rows = sorted((entry, one) for entry, one in self.found.items() if not one.is_told)
        address, owner = await self.list.reading(parked.owner_of)
        mail = wire.as_sent(parked.mail(address, owner, str(self.list.folder), rows, time.time()))
        try:
            async with self.queue.exchange.free:
                reply, = await self.queue.exchange.hand_on(b'', False, [owner], mail)
        except wire.Gone as error:
            return log.warning('%s: its owner can\'t be told what is set aside: %s', self.list.name, error)
        if reply.code >= 400:
            log.warning('%s: its owner can\'t be told what is set aside: %d %s', self.list.name, reply.code, reply.words())
        if 400 <= reply.code < 500:
            return
        for entry, one in rows:
            self.found[entry] = dataclasses.replace(one, is_told=True)
            await self.list.threads.call('aside', rewrite, self.path, entry, self.found[entry])


def rewrite(path: pathlib.Path, entry: int, one: parked.Parked) -> None:
    """Notes that the owner was told, unless the entry was given again meanwhile."""
    if (path / str(entry)).exists():
        parked.write(path, entry, one)
