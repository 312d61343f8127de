"""One mailing list: its mail in, its reports and its timed runs, each batch by one run of the program; and its outgoing queue."""

import asyncio
import collections
import functools
import logging
import os
import pathlib
import time
import zlib
from collections.abc import Callable
from typing import TypeVar

from . import aside, folder, mails, notes, outgoing, program, retrying, tended, timed, weed, wire

Result = TypeVar('Result')
log = logging.getLogger('ezmlm-agent')
GATHERING = 0.02, 0.1  # seconds for which mails, and reports alone, wait for others
HOUR, DAY = 3600, 86400
OPEN = 1  # seconds for which a run goes while mail comes
PATIENT = 2.0  # seconds for which a list without mail has its turn to begin, or for its timed run
ENDING = 10    # seconds until a run that nobody waits for any more is ended, when the agent stops


def own_second(name: str) -> int:
    """The second of the hour at which a list of this folder's name has its timed run."""
    return zlib.crc32(os.fsencode(name)) % HOUR


class MailingList:
    def __init__(self, path: pathlib.Path, shared: mails.Shared) -> None:
        self.folder, self.shared, self.settings, self.program = path, shared, shared.settings, shared.program
        self.name = wire.printable(path.name)
        self.threads = aside.Aside(shared.reads)
        self.turn, self.wake = asyncio.Lock(), asyncio.Event()  # one run of the program or read at once; there is something to do
        self.waiting: collections.deque[mails.Mail] = collections.deque()
        self.unanswered = mails.Unanswered((self.settings.memory << 20) // 4)
        self.notes: notes.Notes | None = None
        self.is_due = self.stopping = self.ended = False  # whether a timed run is due; no more is begun; no more mail comes
        self.health = retrying.Health(path, self.name, self.threads, self.wake.set)
        self.said_out = retrying.Said(self.name, 'mail is handed on again')
        self.running: program.Run | None = None
        self.stuck = 0  # bytes in hand of a run that nobody waits for
        self.queue = outgoing.Queue(self, shared.exchange, shared.room)

    def start(self) -> None:
        self.task = tended.begun(f'{self.name}: its worker', self.work, lambda: self.ended)
        self.queue.start()
        self.wait_for_hour()

    def wait_for_hour(self) -> None:
        """A timed run is due each hour, at a second that is the list's own: so those of many lists don't come at once."""
        self.hour = asyncio.get_running_loop().call_later((own_second(self.folder.name) - time.time()) % HOUR or HOUR, self.strike)

    def strike(self) -> None:
        self.wait_for_hour()
        self.is_due = True
        self.wake.set()

    def hurry(self) -> None:
        """No more is handed on than what is in hand, and a list that another run has isn't waited for."""
        self.stopping = True
        self.queue.changed.set()

    async def stop(self) -> None:
        """Ends after what is in hand. No more mail may come."""
        self.hurry()
        self.hour.cancel()
        await self.queue.task
        self.ended = True
        self.wake.set()
        await asyncio.wait([self.task], timeout=ENDING)
        if self.running:
            program.kill(self.running.process)
        await self.task
        if self.notes is not None:
            await self.notes.close()

    def abandon(self) -> None:
        self.health.again.worked()
        if self.running:
            program.kill(self.running.process)

    def is_stuck(self) -> bool:
        """Whether something of the list's hangs when the agent has ended."""
        return not self.task.done() or not self.queue.task.done() or bool(self.queue.in_hand)

    async def receive(self, sender: bytes, recipient: bytes, rest: bytes | None, message: bytes) -> program.Answer:
        """The answer to a mail that came in for LOCAL-REST@HOST, or LOCAL@HOST if the rest is None. What is weeded isn't given to the list."""
        place = weed.place_of(None if rest is None else rest.decode('latin-1'))
        why = None
        if place is weed.Place.LIST and self.settings.auto_posts == 'refuse':
            if await self.shared.weeder.told(weed.is_automatic, message):
                why = program.Answer(100, 'automatic')
        elif self.settings.weed and place in weed.WEEDED and (word := await self.shared.weeder.told(weed.verdict, message, place)):
            why = program.Answer(0, f'weeded {word}')
        if why is None:
            return await self.deliver(sender, recipient, message)
        log.info('%s - %s %s: %s', self.name, wire.shown(sender), wire.shown(recipient), why.words)
        return why

    async def deliver(self, sender: bytes, recipient: bytes, message: bytes) -> program.Answer:
        """The list's answer to a mail, or why there is none `patience` seconds after it came. What the list answers later is kept under the
        mail's number, and told when it comes again."""
        mail = mails.Mail(sender, recipient, message, time.monotonic(), asyncio.get_running_loop().create_future())
        if self.unanswered.is_crowded(len(message), self.health.cause is not None):
            mail.settle(program.Ending(75, 'crowded'))
        else:
            await self.wait_for(mail)
        answer = mail.answer.result()
        log.info('%s %d %s %s: %d %s, %d ms', self.name, mail.number, wire.shown(sender), wire.shown(recipient),
                 answer.status, answer.words, 1000 * (time.monotonic() - mail.came))
        return answer

    async def wait_for(self, mail: mails.Mail) -> None:
        self.unanswered.mails[mail] = None
        self.waiting.append(mail)
        self.wake.set()
        timer = asyncio.get_running_loop().call_later(self.settings.patience, self.give_up, mail)
        try:
            await mail.answer
        finally:
            timer.cancel()
            del self.unanswered.mails[mail]

    def give_up(self, mail: mails.Mail) -> None:
        """Nobody waits for a mail any more. If a run has it in hand its bytes count, so that runs which hang don't fill the memory."""
        mail.settle(self.health.ending())
        if self.health.fault is None:
            self.health.fails('a run of the program hangs, or takes longer than mail waits')
        if mail in self.waiting:
            self.waiting.remove(mail)
        elif self.running and self.shared.stuck.take(len(mail.message)):
            self.stuck += len(mail.message)
        elif self.running:
            program.kill(self.running.process)

    async def work(self) -> None:
        """Gives the list what waits, as long as there is an agent. Nothing else gives it items."""
        if self.waiting or self.is_due:  # It is begun anew.
            self.wake.set()
        last = False
        while not last:
            await self.wake.wait()
            self.wake.clear()
            last = self.ended
            if not self.stopping:
                await asyncio.sleep(GATHERING[not self.waiting])
            if self.waiting or self.stopping:
                await self.work_once()
            else:
                async with aside.lent(self.shared.gentle, PATIENT):
                    await self.work_once()
            if self.waiting:
                self.wake.set()
            self.queue.changed.set()

    async def work_once(self) -> None:
        batch = mails.first_of(self.waiting)
        try:
            await self.serve(batch)
            if self.health.wants_check():
                async with self.turn:
                    status, _ = await self.program.run(self.folder, 'check')
                self.health.checked(status)
        except Exception as error:
            await self.fail(batch, error)

    async def serve(self, batch: list[mails.Mail]) -> None:
        """Gives the list these mails, and what else it is to be told."""
        opened = await self.begin()
        await self.give(opened, [mail for mail in batch if mail.is_wanted()])

    def report(self) -> None:
        """An entry was handed on, of which the list is to be told."""
        self.wake.set()

    def is_sure(self) -> bool:
        """Whether nothing is known to be wrong with the list: by its files it can be told for good what it would refuse."""
        return self.health.cause is None

    def copies(self) -> notes.Copies | None:
        """Where it is kept which copies were handed on, or None while this host hands nothing on."""
        return self.notes

    async def aside(self, call: Callable[..., Result], *words: object) -> Result:
        """What a call reads of the list's folder. It is aside.Blocked if it takes too long."""
        return await self.threads.call('folder', call, *words)

    async def begin(self) -> notes.Notes:
        """The list's notes, which it opens at first. No number is drawn that the list has answered, and the program isn't run without a list."""
        if (address := await self.free()) is None:
            raise retrying.Refused('there is no list')
        if self.notes is None:
            least, entries = await self.reading(lambda path: (folder.after_answers(path), folder.queue(path)))
            opened, done = await self.threads.call('notes', notes.opened, self.settings.state / f'{self.folder.name}.sqlite', seconds=None)
            if done:
                log.error('%s: %s', self.name, done)
            await opened.begin(address, least, entries)
            self.notes = opened
        return self.notes

    async def free(self) -> notes.Address | None:
        """The list's address, when no other run has it: the program would wait for that, and nobody would know what for."""
        patience = retrying.Patience(self)
        while True:
            try:
                async with self.turn:  # The agent's own reads aren't another run.
                    return await self.aside(folder.free, self.folder)
            except folder.Held as error:
                if not await patience.lasts(program.HELD):
                    raise retrying.Refused(str(error), await self.health.find(program.Ending(program.HELD, 'disk'))) from error

    async def reading(self, call: Callable[[pathlib.Path], Result]) -> Result:
        """What a call reads of the list's files, with nothing left in its log: any run of the program sees to that."""
        patience = retrying.Patience(self)
        while True:
            words = 'disk'
            async with self.turn:
                try:
                    return await self.aside(folder.settled, self.folder, call)
                except folder.Held:
                    status = program.HELD
                except folder.Unsettled:
                    status, text = await self.program.run(self.folder, *program.SETTLES)
                    words = text.decode('ascii', 'replace').partition(str(status))[2].strip()
            if status not in (0, 100, program.HELD) or not await patience.lasts(status):
                raise retrying.Refused(f'{status} {words}', await self.health.find(program.Ending(status, words)))

    async def give(self, opened: notes.Notes, batch: list[mails.Mail]) -> None:
        """One run of the program: these mails, what comes while it goes, and what else the list is to be told."""
        self.load = mails.Load(time.monotonic() + OPEN)
        now = int(time.time())
        items = await self.items(opened, batch)
        items += [program.Item(program.item(b'S', 0, now, entry), functools.partial(self.reported, entry)) for entry in self.queue.handed_on]
        if self.is_due and not self.stopping:
            items += await timed.items(self, opened, now)
            self.is_due = False
        if not items and self.health.fault:  # Whether the list works again is seen by an item that does nothing.
            items = [program.Item(program.FILL, lambda _: None)]
        await self.run(opened, items)
        if self.load.stale:
            await opened.forget(self.load.stale, await self.reading(folder.after_answers))

    async def more(self, opened: notes.Notes) -> list[program.Item]:
        """Items of the mails that came while a run goes, for a second at most."""
        if not self.waiting:
            await asyncio.sleep(GATHERING[0])
        return [] if self.stopping or self.load.is_full() else await self.joining(opened)

    async def joining(self, opened: notes.Notes) -> list[program.Item]:
        """Items of the mails that came meanwhile."""
        batch = mails.first_of(self.waiting)
        try:
            return await self.items(opened, batch)
        except Exception as error:
            await self.fail(batch, error)
            return []

    async def items(self, opened: notes.Notes, batch: list[mails.Mail]) -> list[program.Item]:
        """The items of mails, each under its number."""
        keys = [mail.key() for mail in batch]
        left = frozenset(self.queue.left)
        for mail, number in zip(batch, await opened.numbers(keys, left)):
            mail.number = number
        self.queue.left -= left
        now = int(time.time())
        self.load.mails += len(batch)
        self.load.size += sum(len(mail.message) for mail in batch)
        return [program.Item(program.item(b'D', mail.number, now, mail.sender, mail.recipient, mail.message),
                             functools.partial(self.delivered, mail, key), mail.is_wanted) for mail, key in zip(batch, keys)]

    async def run(self, opened: notes.Notes, items: list[program.Item]) -> None:
        """Gives the list these items, again those that got no answer while another run has it, and with them what comes meanwhile."""
        patience = retrying.Patience(self)
        more = functools.partial(self.more, opened)
        while items:
            async with self.turn:
                try:
                    items, ending = await self.program.spool(self.folder, items, more, self.began)
                finally:
                    self.began(None)
            if not items:
                return self.health.works()
            if ending.status != program.HELD or not await patience.lasts(ending.status):
                await self.health.ended(ending)
                for item in items:
                    item.settle(ending)
                return
            items = [item for item in items if item.is_wanted()] + await self.joining(opened)

    def began(self, run: program.Run | None) -> None:
        """Which run the list has, and no bytes that nobody waits for."""
        self.running = run
        self.shared.stuck.give(self.stuck)
        self.stuck = 0

    def delivered(self, mail: mails.Mail, key: bytes, answer: program.Answer) -> None:
        if answer.words == 'stale':  # The floor was raised by hand. The mail gets a number above it when it comes again.
            self.load.stale.append(key)
            answer = program.Ending(75, answer.words)
        mail.settle(answer)

    def reported(self, entry: int, answer: program.Answer) -> None:
        if answer.is_answer:
            self.queue.has_left(entry)

    async def fail(self, batch: list[mails.Mail], error: Exception) -> None:
        """Whatever it is, the mail comes again, and the other lists go on."""
        ending = await self.health.failed(error, self.settings.state)
        self.heed(error)
        for mail in batch:
            mail.settle(ending)

    def heed(self, error: BaseException) -> None:
        """Lets notes go that are damaged: they are opened anew, and set aside then."""
        if notes.is_damage(error) and self.notes is not None:
            self.notes = None
            self.wake.set()
