"""Mail out of one list: which entries of its outgoing queue are handed on to the transfer agent, and when."""

import asyncio
import logging
import pathlib
import random
import time
from collections.abc import Iterable
from typing import TYPE_CHECKING

from . import apart, folder, handing, parked, sections, smtp, tended, wire

if TYPE_CHECKING:
    from . import mailing

log = logging.getLogger('ezmlm-agent')
ENTRIES = 512  # read at once
AT_ONCE = 16   # of them that are taken apart
TRIED = 8      # entries in hand that were tried before, at most
OTHERS = 2  # connections that are for other lists alone
FRESH = 2  # of a list's connections, those that are for entries alone that weren't tried yet
SHORTEST, LONGEST = 5, 900  # seconds until an entry is tried again
LOOKS = 60  # seconds until the queue is looked at again, whatever comes
CROWDED = 1  # seconds until there may be room in memory


class Queue:
    def __init__(self, mailing_list: 'mailing.MailingList', exchange: smtp.Exchange, room: wire.Room) -> None:
        self.list, self.folder = mailing_list, mailing_list.folder
        self.exchange: smtp.Exchange = exchange
        self.room = room
        self.section: sections.Section | None = mailing_list.settings.by_list.get(self.folder.name)
        self.flags: bytes = b''  # the list's option letters, which are read if its section asks for them
        lanes = max(1, exchange.connections - OTHERS)
        self.lanes: asyncio.Semaphore = asyncio.Semaphore(lanes)
        self.tried: asyncio.Semaphore = asyncio.Semaphore(max(1, lanes - FRESH))  # of them, for entries that were tried before
        self.handing = handing.Handing(self)
        self.at_once = asyncio.Semaphore(AT_ONCE)
        self.changed = asyncio.Event()
        self.has_more = False  # whether entries that are due wait for those in hand
        self.in_hand: dict[int, asyncio.Task[None]] = {}  # entries that are handed on
        self.handed_on: set[int] = set()  # entries that were, until the list knows it
        self.left: set[int] = set()       # entries that left the queue, until the notes forget them
        self.later: dict[int, tuple[float, float]] = {}  # entries that are tried again: when, and after how many seconds then
        self.apart = apart.Apart(self)
        self.refused_alone: set[int] = set()  # of those, which wait since the transfer agent puts off their recipients by themselves
        self.stands: tuple[int, float | None] = 0, None  # entries when it was last looked, and when the oldest of them was written
        self.fault: tuple[float, str] | None = None  # since when something waits and nothing is handed on, by the monotonic clock, and why

    def start(self) -> None:
        self.task = tended.begun(f'{self.list.name}: its queue', self.work, lambda: self.list.stopping)

    def has_left(self, entry: int) -> None:
        self.handed_on.discard(entry)
        self.left.add(entry)

    async def work(self) -> None:
        """Hands on what stands in the queue, a few entries at once, as long as there is an agent."""
        pause = SHORTEST
        while not self.list.stopping:
            self.changed.clear()
            self.has_more = len(self.in_hand) > ENTRIES // 2
            try:
                begun = not self.has_more and await self.begin()
                pause = SHORTEST
            except Exception as error:  # Whatever it is, the other lists go on.
                self.list.said_out.say(f'nothing is handed on: {type(error).__name__}: {error}')
                self.waits(f'{type(error).__name__}: {error}')
                await self.wait(pause)
                begun, pause = True, min(2 * pause, LOOKS)
            else:
                self.list.said_out.worked()
            if not begun:
                await self.wait_for_change()
        if self.in_hand:
            await asyncio.wait(self.in_hand.values())

    async def wait(self, seconds: float) -> None:
        """Waits, but not if the agent stops."""
        end = time.monotonic() + seconds
        while not self.list.stopping and (left := end - time.monotonic()) > 0:
            self.changed.clear()
            try:
                async with asyncio.timeout(left):
                    await self.changed.wait()
            except TimeoutError:
                pass

    async def wait_for_change(self) -> None:
        """Waits until the queue may have changed, or an entry is due again."""
        soonest = min((at for at, _ in self.later.values()), default=time.monotonic() + LOOKS) - time.monotonic()
        try:
            async with asyncio.timeout(min(max(soonest, CROWDED), LOOKS * random.uniform(0.5, 1))):
                await self.changed.wait()
        except TimeoutError:
            pass

    # Which entries are handed on.

    def due(self, entries: Iterable[int]) -> list[int]:
        """The entries to hand on now: those that weren't tried yet, oldest first, and then a few of the others, longest due first. So what
        can't be handed on, however much it is, keeps nothing new waiting."""
        there, now = set(entries), time.monotonic()
        self.later = {entry: times for entry, times in self.later.items() if entry in there}
        idle = there - self.in_hand.keys() - self.handed_on
        tried = sorted((self.later[entry][0], entry) for entry in idle & self.later.keys() if self.later[entry][0] <= now)
        new = sorted(idle - self.later.keys())
        most, some = ENTRIES - len(self.in_hand), max(0, TRIED - len(self.in_hand.keys() & self.later.keys()))
        self.has_more = len(new) > most or len(tried) > some
        return new[:most] + [entry for _, entry in tried[:some]]

    async def begin(self) -> bool:
        """Begins with the entries that are due and have room in memory. The answer is whether there are any."""
        if self.list.copies() is None:  # A list that has nothing to do isn't begun with.
            self.fault = None
            if self.list.notes is None and await self.list.aside(folder.has_work, self.folder):
                self.list.wake.set()
            return False
        entries, stamp, oldest = await self.list.aside(self.look)
        self.stands = len(entries), oldest
        await self.apart.refresh(stamp)
        due = self.due(entry for entry in entries if entry not in self.apart.found)
        self.sees(entries)
        sizes = self.reserved(await self.list.aside(folder.sizes, self.folder, due) if due else {})
        begun: list[int] = []
        texts: dict[int, tuple[bytes, float]] = {}
        verp = False
        try:
            if sizes:
                verp = await self.exchange.takes_verp()
                texts = await self.list.reading(lambda path: self.read(path, sizes))
                begun = [entry for entry in sizes if entry in texts]
        finally:
            self.room.give(sum(size for entry, size in sizes.items() if entry not in begun))
        for entry in begun:
            self.in_hand[entry] = asyncio.create_task(self.hand_on(entry, *texts[entry], verp, sizes[entry]))
        return bool(begun)

    def look(self) -> tuple[list[int], parked.Stamp, float | None]:
        """The queue's entries, whether one was set aside or given again, and when the oldest entry was written."""
        entries = folder.queue(self.folder)
        return entries, parked.stamp(self.apart.path), folder.written(self.folder, entries[0]) if entries else None

    # Whether it goes on.

    def moves(self) -> None:
        """A copy was handed on."""
        self.fault = None

    def waits(self, why: str) -> None:
        """Something waits, and nothing of it was handed on. Since when stays, until it is."""
        self.fault = self.fault[0] if self.fault else time.monotonic(), why

    def sees(self, entries: Iterable[int]) -> None:
        """Notes whether something waits. What is set aside doesn't, nor what the transfer agent puts off for its recipient's sake alone."""
        waiting = set(entries) - self.handed_on - self.apart.found.keys() - self.refused_alone
        if not waiting:
            self.fault = None
        elif self.fault is None:
            self.waits('it isn\'t taken')

    def read(self, path: pathlib.Path, ids: Iterable[int]) -> dict[int, tuple[bytes, float]]:
        """These entries with their times, and the list's options if its section asks for them."""
        if self.section is not None and self.section.rewrite_from == 'yes':
            self.flags = folder.flags(path)
        return folder.entries_with_times(path, ids)

    def reserved(self, sizes: dict[int, int]) -> dict[int, int]:
        """The sizes of the first of these entries, as many as there is room for, which is taken."""
        kept: dict[int, int] = {}
        for entry, size in sizes.items():
            if not self.room.take(size):
                self.has_more = True
                asyncio.get_running_loop().call_later(CROWDED, self.changed.set)
                break
            kept[entry] = size
        return kept

    def put_off(self, entry: int) -> None:
        pause = min(2 * self.later.get(entry, (0, SHORTEST / 2))[1], LONGEST)
        self.later[entry] = time.monotonic() + pause, pause
        log.info('%s: entry %d is tried again in %d s', self.list.name, entry, pause)

    async def hand_on(self, entry: int, text: bytes, written: float, verp: bool, size: int) -> None:
        """Hands an entry's copies on, except those that were before, and has it reported when all are."""
        done = False
        try:
            async with self.at_once:
                done = await self.handing.hand_on(entry, text, written, verp, entry in self.later)
        except Exception as error:  # Whatever it is, the entry stays, and the others go on.
            log.error('%s: entry %d stays: %s: %s', self.list.name, entry, type(error).__name__, error)
            self.list.heed(error)
            self.waits(f'{type(error).__name__}: {error}')
            await self.apart.hung_up(self.handing.attempts.get(entry), str(error))
        finally:
            self.room.give(size)
            del self.in_hand[entry]
            attempt = self.handing.attempts.pop(entry, None)
            (self.refused_alone.add if attempt and attempt.put_off and attempt.is_put_off_alone else self.refused_alone.discard)(entry)
            if done:
                self.later.pop(entry, None)
                self.handed_on.add(entry)
                self.list.report()
            else:
                self.put_off(entry)
            if self.has_more or not done:  # Else what comes next comes by a run of the program, after which the queue is looked at.
                self.changed.set()
