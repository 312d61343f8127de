"""A list that several hosts have: each gives its own copy what the list's history has, and one of them hands on what it sends."""

import asyncio
import functools
import logging
import pathlib
import time

from . import handed, history, leading, mailing, mails, notes, own_copy, program, puts, retrying, servers, states, trouble

log = logging.getLogger('ezmlm-agent')
FOLLOWS = 0.5  # seconds for which items that another host put in, and hands on, wait for further ones
REPORTS, RESTS = 0.5, 2  # seconds for which reports, and where this host stands, wait for mail
AGAIN = 0.25  # seconds until servers are asked again that couldn't be reached, while mail waits


class SharedList(own_copy.OwnCopy):
    """Where this host stands is read from the list before each run. Mail goes into the history, and is answered when this list answers it."""

    def __init__(self, path: pathlib.Path, shared: mails.Shared, past: history.History, lead: leading.Leading) -> None:
        super().__init__(path, shared, past, lead)
        self.next = 0  # the number that the next item of its history gets
        self.is_asking = False  # whether the history is asked now
        self.soon: asyncio.TimerHandle | None = None  # when the history is asked though no mail comes
        self.waits: dict[int, list[tuple[mails.Mail, bytes]]] = {}  # mails that wait for the answers of items, with their keys
        self.kept: handed.Handed | None = None  # in this term, or the last
        self.hands_from = 0  # the place from which on it hands on in this term
        self.clock = 0  # the moment of the server's clock when the history was asked last
        self.reporting: set[int] = set()  # entries of which the history has the report since this term began
        self.answers: list[tuple[int, bytes, str]] = []  # of operators' items, until they are noted
        self.looks_after: puts.Row | None = None  # a timed run after which this copy is looked at

    def start(self) -> None:
        super().start()
        self.wake.set()

    def hear(self, number: int) -> None:
        """The next item of the history has this number; or, with 0, this host begins or ends to hand on, or a host has looked at its copy."""
        if number == 0:
            self.wake.set()
        elif number > self.next and not self.is_asking:
            self.wake_soon()
        self.next = max(self.next, number)
        self.is_judging = self.is_judging or number == 0

    def lags(self) -> bool:
        """Whether the history has more than one run is given at once."""
        return self.next - self.place >= mails.MOST_MAILS

    def is_in_no_hurry(self) -> bool:
        """Whether nobody waits for what this host's list does with the next items: it has no mail, and another host hands on."""
        return not self.waiting and not self.lags() and self.lead.term(self.name) is None

    def wake_soon(self) -> None:
        if self.is_in_no_hurry():
            self.wake_later(FOLLOWS)
        else:
            self.wake.set()

    async def stop(self) -> None:
        await super().stop()
        if self.looking is not None:
            self.looking.cancel()

    def is_sure(self) -> bool:
        """Whether this copy is also known to be the history's, up to its last item: else whoever joined meanwhile would be refused for good."""
        return super().is_sure() and self.is_taken_up and not self.is_new and not self.others and self.lead.hears() and self.place >= self.next

    def copies(self) -> notes.Copies | None:
        if self.kept is None or self.others or self.place < self.hands_from or not self.kept.term.holds():
            return None
        return self.kept

    async def serve(self, batch: list[mails.Mail]) -> None:
        try:
            await self.proceed([mail for mail in batch if mail.is_wanted()])
            while self.lags() and self.health.cause is None and not self.waiting and not self.stopping:
                await self.proceed([])
        except servers.Unfit as error:
            self.is_taken_up = False
            await self.note_trouble('refused', str(error))
            raise self.refused('it can\'t go by its history', str(error)) from error
        except retrying.Refused as error:
            if error.cause is not None:
                await self.note_trouble('refused', str(error.cause))
            raise
        except servers.Lost as error:
            raise self.refused('its history can\'t be reached', str(error)) from error

    def refused(self, what: str, advice: str) -> retrying.Refused:
        return retrying.Refused(what, trouble.Cause(what, self.past.lines.servers.shown(), advice))

    async def proceed(self, batch: list[mails.Mail]) -> None:
        """Puts mails and what else there is into the history, and gives the list what the history has."""
        opened = await self.begin()
        if not self.lead.is_known:
            raise servers.Lost(f'the servers haven\'t yet let this host have its name, {self.past.host}')
        state = await self.reading(states.state_of)
        self.place = state.place
        if not self.is_taken_up:
            await self.take_up(opened, state)
            self.noted.pop('refused', None)
        await self.judge()
        await self.look_at(state)
        await self.take_lead()
        self.load = mails.Load(time.monotonic() + mailing.OPEN)
        if items := await self.step(batch):
            await self.run(opened, items)
        else:
            self.health.works()
        if self.load.stale:
            await self.past.forget(self.name, self.load.stale)
        await self.note_answers()
        await self.note_trouble('refused', '')
        if self.looks_after is not None and self.place == self.looks_after.number + 1:
            await self.look(self.place, self.looks_after.back or puts.WHOLE)
        self.lead.want(self.name, self.health.cause is None)
        if self.next > self.place and self.health.cause is None:
            self.wake_soon()
        elif self.place > state.place:  # The history learns where this host stands when nothing else comes.
            self.wake_later(RESTS)

    def wake_later(self, seconds: float) -> None:
        """Has the history told soon what there is to tell, though no mail comes."""
        loop = asyncio.get_running_loop()
        if self.soon is None or not loop.time() < self.soon.when() <= loop.time() + seconds:
            if self.soon is not None:
                self.soon.cancel()
            self.soon = loop.call_later(seconds, self.wake.set)

    def report(self) -> None:
        self.wake_later(REPORTS)

    async def fail(self, batch: list[mails.Mail], error: Exception) -> None:
        """While no server can be reached mail waits as long as its patience lasts: another one may take the place of the first."""
        self.lead.want(self.name, False)
        if is_waited_for := is_lost(error) and not self.stopping:
            self.waiting.extendleft(mail for mail in reversed(batch) if mail.is_wanted())
            batch = []
        await super().fail(batch, error)
        if is_waited_for and self.waiting:
            await asyncio.sleep(AGAIN)

    async def take_lead(self) -> None:
        """Begins a term in which this host hands on, or ends one."""
        term = self.lead.term(self.name)
        if self.kept is not None and self.kept.term is term or term is None and not self.reporting and self.kept is None:
            return
        self.reporting = set()
        self.queue.handed_on.clear()
        if term is None:
            return
        kept = handed.Handed(self.past, self.name, term, await self.past.handed(self.name), self.kept)
        # What another host handed on before may stand in the queue until this list has answered all that the history has by now.
        self.hands_from, since = await self.past.stands(self.name)
        self.kept, self.is_due = kept, self.is_due or since >= mailing.HOUR
        log.info('%s: this host hands on', self.name)

    # Items.

    async def step(self, batch: list[mails.Mail]) -> list[program.Item]:
        """Puts mails, reports and a timed run into the history. The answer is items for the list: repeats, and those from its place on."""
        is_leading = self.copies() is not None
        sent = self.queue.handed_on - self.reporting if is_leading else set()
        left = frozenset(self.queue.left)
        is_timed = self.is_due and is_leading and not self.stopping
        keys = [mail.key() for mail in batch]
        adds = puts.Adds([(key, functools.partial(spelled, mail)) for key, mail in zip(keys, batch)], sorted(sent),
                         self.settings.keep_days * mailing.DAY if is_timed else None, left=left if is_leading else (),
                         size=sum(len(mail.message) for mail in batch))
        told = await self.asked(adds)
        await self.keep(told)
        self.reporting |= sent
        self.queue.left -= left
        if left and self.kept is not None:
            self.kept.forget(left)
        self.is_due = self.is_due and not is_timed and self.lead.term(self.name) is not None
        self.load.mails += max(len(batch), len(told.rows))
        self.load.size += max(sum(len(mail.message) for mail in batch), sum(len(row.text) for row in told.rows))
        for mail, key, number in zip(batch, keys, told.numbers):
            mail.number = number
            self.waits.setdefault(number, []).append((mail, key))
        items = self.repeats() + [program.Item(row.text, functools.partial(self.answered, row)) for row in told.again]
        rows, self.looks_after = told.rows, None
        for at, row in enumerate(rows):
            if row.back is not None:  # The run ends there, so that the copy is looked at.
                rows, self.looks_after, self.load.until = rows[:at + 1], row, 0
                break
        if told.configured != self.configured_at:  # It is laid in between two runs.
            self.configured_at, self.load.until = -1, 0
            return items
        return items + [program.Item(row.text, functools.partial(self.answered, row)) for row in rows]

    async def asked(self, adds: puts.Adds) -> puts.Told:
        """What the history says. What it tells of meanwhile may be what is put in now, or what other hosts put in after it."""
        self.next, self.is_asking = 0, True
        try:
            is_first, self.is_new = self.is_new, False
            assert self.hashes is not None
            told = await self.past.proceed(puts.Wish(self.name, self.place, self.key, adds, mails.MOST_MAILS, mails.MOST_BYTES,
                                                     self.hashes.at(self.place), is_first))
            self.clock, is_first = told.clock, False
            self.next = max(self.next, told.next)
            return told
        finally:
            self.is_asking, self.is_new = False, self.is_new or is_first

    def repeats(self) -> list[program.Item]:
        """Items of the mails that wait for what the list has answered before: it tells its answer again."""
        again = [(number, *wait) for number in sorted(self.waits) if number < self.place for wait in self.waits[number]]
        self.waits = {number: waits for number, waits in self.waits.items() if number >= self.place}
        return [program.Item(spelled(mail, number, self.clock), functools.partial(self.delivered, mail, key), mail.is_wanted)
                for number, mail, key in again if mail.is_wanted()]

    def answered(self, row: puts.Row, answer: program.Answer) -> None:
        """An item of the history has an answer, or why it has none."""
        if answer.is_answer:
            self.place = max(self.place, row.number + 1)
            if row.is_given:
                self.answers.append((row.number, row.hash, f'{answer.status} {answer.words}'))
            match row.text[:1]:
                case b'S':
                    self.reported(int(program.netstrings(row.text[1:])[2]), answer)
                case b'K':
                    self.key = None
                case b'T' | b'F':
                    log.info('%s: %d %s', self.name, answer.status, answer.words)
        for mail, key in self.waits.pop(row.number, ()):
            self.delivered(mail, key, answer)

    async def more(self, opened: notes.Notes) -> list[program.Item]:
        """What came into the history while a run goes, and mails that came meanwhile, which are put into it, for a second at most."""
        if not self.waiting and self.next <= self.place:
            await asyncio.sleep(mailing.GATHERING[0])
        if self.stopping or self.load.is_full() or not self.waiting and (self.next <= self.place or self.is_in_no_hurry()):
            return []
        batch = mails.first_of(self.waiting)
        try:
            return await self.step([mail for mail in batch if mail.is_wanted()])
        except Exception as error:
            await self.fail(batch, error)
            return []

    async def joining(self, opened: notes.Notes) -> list[program.Item]:
        """What waits for the next run if another run has the list."""
        return []

    async def note_answers(self) -> None:
        """Notes the answers for which operators wait."""
        answers, self.answers = self.answers, []
        if answers:
            await self.past.answer(self.name, answers)


def is_lost(error: BaseException | None) -> bool:
    """Whether an error says that no server can be reached. One that can be, and isn't as it has to be, is another thing."""
    error = error.__cause__ if isinstance(error, retrying.Refused) else error
    return isinstance(error, servers.Lost) and not isinstance(error, servers.Unfit)


def spelled(mail: mails.Mail, number: int, moment: int) -> bytes:
    """The item of a mail."""
    return program.item(b'D', number, moment, mail.sender, mail.recipient, mail.message)
