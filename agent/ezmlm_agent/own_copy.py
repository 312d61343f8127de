"""This host's copy of a list that several hosts have: whether it is what the list's history makes."""

import asyncio
import functools
import logging
import pathlib
import time

from . import chain, comparing, folder, history, leading, mailing, mails, notes, puts, retrying, servers, states, taking, trouble

log = logging.getLogger('ezmlm-agent')


class OwnCopy(mailing.MailingList):
    """The part of `following.SharedList` that looks at the folder."""

    def __init__(self, path: pathlib.Path, shared: mails.Shared, past: history.History, lead: leading.Leading) -> None:
        super().__init__(path, shared)
        self.past, self.lead = past, lead
        self.is_taken_up = False
        self.place = 0  # the first item that the list hasn't answered
        self.hashes: chain.Kept | None = None  # of the items that the list was given
        self.is_new = True  # whether connections were opened since the history was asked last
        self.configured_at, self.config = -1, b''  # the configuration that holds here, and from which item on
        self.key: bytes | None = None  # the hash of the keys after the last run, if it is known
        self.others: list[str] = []  # hosts whose copy is another list than this one
        self.is_judging = True       # whether what the hosts saw may have changed
        self.looking: asyncio.Task[None] | None = None
        self.noted: dict[str, str] = {}  # what the history knows of this host's trouble

    def copy_of(self, address: notes.Address, state: states.State, kept: chain.Kept) -> taking.Copy:
        return taking.Copy(self.name, address, state.place, kept.at(state.place), state.floor, state.config, state.key)

    async def note_trouble(self, kind: str, why: str) -> None:
        """Has the history know of this host's trouble, or that it is over. If it can't be told that isn't worse than the trouble."""
        if self.noted.get(kind, '') == why:
            return
        try:
            await self.past.note_trouble(self.name, kind, self.place, why)
            self.noted[kind] = why
        except servers.Lost as error:
            log.warning('%s: the history isn\'t told of trouble: %s', self.name, error)

    async def keep(self, told: puts.Told) -> None:
        """Keeps what the items are that the list is given next, before it is: so it is known what it answered, also after a crash. It is Unfit if
        they aren't a row."""
        assert self.hashes is not None
        if chain.all_after(told.hash, (row.text for row in told.rows)) != [row.hash for row in told.rows]:
            raise servers.Unfit(f'the history of {self.name} was replaced while it was read, or it is damaged')
        if new := self.hashes.lacks((row.number, row.hash) for row in told.rows):
            await self.threads.call('folder', self.hashes.keep, new, seconds=None)

    async def take_up(self, opened: notes.Notes, state: states.State) -> None:
        """Takes the list up, with the mails and copies that this host alone knew if it has no history yet."""
        address = await self.aside(folder.address, self.folder)
        assert address
        known = await opened.known()
        answered = await self.reading(lambda path: folder.answered(path, [number for number, _ in known.values()]))
        rows = {key: row for key, row in known.items() if row[0] in answered}
        copies = [(entry, mark, b'\0'.join(recipients)) for (entry, mark), recipients in opened.handed.items()]
        kept = await self.reading(chain.read)
        digest = await self.past.take_up(self.copy_of(address, state, kept), rows, copies)
        if kept.at(state.place) is None:
            await self.threads.call('folder', kept.keep, [(state.place - 1, digest)], seconds=None)
        self.hashes = kept
        seen = await self.past.seen(self.name)
        if comparing.others(seen, self.past.host, time.time()):  # It may have been replaced by a good copy.
            last = max(row for row in seen if row.host == self.past.host)
            if last.place == state.place:
                await self.look(last.place, last.back)
            else:
                await self.past.forget_looks(self.name)
        self.is_taken_up = True

    async def judge(self) -> None:
        """Looks whether this copy is what the other hosts' are."""
        if self.is_judging:
            self.is_judging = False
            self.others = comparing.others(await self.past.seen(self.name), self.past.host, time.time())
        if self.others:
            names = ' and '.join(self.others)
            raise retrying.Refused('another list', trouble.Cause(
                f'this copy differs from the one of {names}', self.folder, 'stop this agent and put a copy of the folder of a host that is right in '
                'its place; where as many hosts have the one as the other see which files differ'))

    async def look(self, place: int, back: int) -> None:
        """Looks what this copy is at a place. What items change is read now, and full groups of posts while the next items come."""
        if self.looking is not None and not self.looking.done():
            return
        part = await self.reading(functools.partial(comparing.changing, back=back))
        up_to = self.hashes.at(place) if self.hashes is not None else None
        self.looking = asyncio.create_task(self.look_further(place, back, part, up_to or b''))

    async def look_further(self, place: int, back: int, part: comparing.Part, up_to: bytes) -> None:
        try:
            digest = await self.threads.call('posts', comparing.whole, self.folder, part, seconds=None)
            await self.past.look(self.name, place, back, digest, up_to)
        except Exception as error:  # Whatever it is, the next look is soon.
            log.error('%s: the copy can\'t be compared: %s: %s', self.name, type(error).__name__, error)

    async def look_at(self, state: states.State) -> None:
        """Looks whether the configuration and the keys are those that the history has made, and lays in a configuration that begins here."""
        if self.key not in (None, state.key):
            raise retrying.Refused('the key', trouble.Cause('its key was changed by hand on this host', self.folder / 'key', 'put the file of '
                                                            'another host\'s copy in its place; a new key is given by ezmlm-agent --give'))
        if state.config != self.config or self.configured_at < 0:
            (at, config), *former = await self.past.configurations(self.name, self.place)
            if state.config != config:
                if at != self.place or state.config not in [text for _, text in former]:
                    raise retrying.Refused('the configuration', await self.changed_by_hand(config))
                await self.reading(lambda path: folder.replace(path / 'config', config))
                log.info('%s: it has a new configuration', self.name)
            self.configured_at, self.config = at, config
        self.key = state.key

    async def changed_by_hand(self, config: bytes) -> trouble.Cause:
        """Keeps the configuration that the history has beside this host's notes, and says so."""
        path = self.settings.state / f'{self.folder.name}.config'
        await self.threads.call('notes', folder.replace, path, config, seconds=None)
        return trouble.Cause('its configuration was changed by hand on this host', self.folder / 'config', f'put back the one that all hosts have, '
                             f'{path}, and give the new one to all by ezmlm-agent --configure')
