"""Which lists there are, and which one a recipient names."""

import asyncio
import dataclasses
import logging
import pathlib
import time
from collections.abc import Callable, Iterable, Mapping
from typing import NamedTuple, TypeVar

from . import aside, folder, mailing, notes, settings, wire

log = logging.getLogger('ezmlm-agent')
Thing = TypeVar('Thing')
FRESH = 0.01    # seconds for which what was looked at serves for the address of a list that is known
SOON = 1.0      # seconds for which mail of a list that is known waits until the folders are looked at
AT_ONCE = 16    # folders that are read at once
GONE = 'its folder isn\'t there: mount its disk, or put it back; to be rid of it remove its notes while the agent doesn\'t run'
NONE = {'lost+found'}  # a file system's own, which the agent's user can't even look into


class Unavailable(Exception):
    """The recipient is, or may be, one of a list that can't be served now."""


class Named(NamedTuple):
    """What a recipient names."""
    list: mailing.MailingList
    rest: bytes | None  # of LOCAL-REST@HOST; None for LOCAL@HOST


class ByAddress(dict[notes.Address, Thing]):
    """What stands for each LOCAL and HOST, both in lower case. It doesn't change once it is made."""

    def __init__(self, rows: Mapping[notes.Address, Thing]) -> None:
        super().__init__(rows)
        self.lengths = sorted({len(local) for local, _ in rows}, reverse=True)

    def named_by(self, recipient: bytes) -> tuple[Thing, bytes | None] | None:
        """What a recipient names, and REST or None: LOCAL@HOST, or LOCAL-REST@HOST with the longest LOCAL that there is. Only the lengths that some
        LOCAL has are looked up, so many hyphens of a stranger cost no more than other bytes."""
        local, _, host = recipient.rpartition(b'@')
        host = host.lower()
        for length in self.lengths:
            if length == len(local) or local[length:length + 1] == b'-':
                if (found := self.get((local[:length].lower(), host))) is not None:
                    return found, None if length == len(local) else local[length + 1:]
        return None


Times = tuple[int, ...]


@dataclasses.dataclass(frozen=True)
class Seen:
    """What a folder was when it was read: the list of an address, or none, or why that can't be told. `times` are those of the folder and of
    its configuration, by which it is seen whether it became another, and None if even these couldn't be had."""
    times: Times | None
    address: notes.Address | None = None
    wrong: str | None = None


def times_of(path: pathlib.Path) -> Times:
    """What changes when a folder or its configuration does."""
    times: list[int] = []
    for each in (path, path / 'config'):
        try:
            state = each.stat()
            times += [state.st_mtime_ns, state.st_ctime_ns, state.st_ino]
        except OSError as error:
            times.append(error.errno or 0)
    return tuple(times)


def seen(path: pathlib.Path) -> Seen:
    """Reads a folder."""
    times = times_of(path)
    try:
        return Seen(times, folder.address(path))
    except OSError as error:
        return Seen(times, wrong=str(error))


class Lists:
    """The lists in a folder. Those that are there are served; the addresses of those that were there before are known by their notes."""

    def __init__(self, chosen: settings.Settings, take_up: Callable[[pathlib.Path], mailing.MailingList]) -> None:
        self.settings, self.take_up = chosen, take_up
        self.threads = aside.Aside()
        self.served: dict[pathlib.Path, mailing.MailingList] = {}
        self.addresses: dict[str, notes.Address] = {}  # of lists that are served or have notes, by the folder's name
        self.by_address: ByAddress[mailing.MailingList | str] = ByAddress({})  # a list, or why it can't be served
        self.others: dict[pathlib.Path, Seen] = {}  # folders that have no list, or can't be read
        self.trouble: dict[str, str] = {}  # what is wrong, by the folder's name
        self.off: dict[str, tuple[float, str]] = {}  # lists whose mail is put off: since when, by the monotonic clock, and why
        self.stamp: Times | None = None    # of the folder of lists when it was looked at
        self.looked = float('-inf')        # when it was last seen that nothing has changed
        self.looking: asyncio.Task[None] | None = None
        self.is_unsure = True  # whether a list may be there whose address isn't known

    def live(self) -> list[mailing.MailingList]:
        """The lists that can be served now."""
        return [found for found in self.by_address.values() if not isinstance(found, str)]

    async def find(self, recipient: bytes) -> Named | None:
        """The list that a recipient names, with the rest of its address, or None. It is Unavailable if the list can't be served now."""
        found = self.by_address.named_by(recipient)
        if found is None or isinstance(found[0], str):
            await self.refreshed()
        elif time.monotonic() - self.looked > FRESH:
            await asyncio.wait([self.refreshing()], timeout=SOON)
        found = self.by_address.named_by(recipient)
        if found is None and self.is_unsure:
            raise Unavailable('a list can\'t be read, and it may be the one of this address')
        if found is None:
            return None
        if isinstance(found[0], str):
            raise Unavailable(found[0])
        return Named(found[0], found[1])

    # What changes in the folder of lists.

    def refreshing(self) -> 'asyncio.Task[None]':
        """The look that goes on, or a new one."""
        if self.looking is None or self.looking.done():
            self.looking = asyncio.create_task(self.look_where_changed())
        return self.looking

    async def refreshed(self) -> None:
        """Ends when a look has that begins now or later: what is made before this is called is seen."""
        if self.looking is not None and not self.looking.done():
            await asyncio.wait([self.looking])
        await asyncio.wait([self.refreshing()])

    async def look_where_changed(self) -> None:
        begun = time.monotonic()
        try:
            if await self.is_changed():
                await self.look()
            self.looked = begun
        except Exception as error:  # Whatever it is, the lists that are known are served.
            log.error('the lists can\'t be looked at: %s: %s', type(error).__name__, error)

    async def is_changed(self) -> bool:
        """Whether the folder of lists is another than before, or a folder in it that has no list or couldn't be read."""
        known = {path: other.times for path, other in self.others.items() if other.times is not None}
        try:
            stamp, times = await self.threads.call('lists', self.stamps, list(known))
        except OSError:
            return self.stamp is not None
        return stamp is None or stamp != self.stamp or times != known

    def stamps(self, paths: Iterable[pathlib.Path]) -> tuple[Times | None, dict[pathlib.Path, Times]]:
        try:
            state = self.settings.lists.stat()
        except OSError:
            return None, {}
        return (state.st_mtime_ns, state.st_nlink, state.st_ino, state.st_dev), {path: times_of(path) for path in paths}

    async def look(self, again: bool = False) -> None:
        """Looks which lists are there. One that is served, and a folder that has none, are only read again if that is asked for."""
        trouble: dict[str, str] = {}
        try:
            stamp, _ = await self.threads.call('lists', self.stamps, [])
            paths = await self.threads.call('lists', self.folders)
        except OSError as error:
            stamp, paths, trouble['.'] = None, [], str(error)
        found = await self.found(paths, again, trouble)
        remembered, unknown = await self.threads.call('state', self.remembered, seconds=None)
        trouble |= {name: 'its folder isn\'t there, and its notes don\'t tell its address' for name in unknown - {path.name for path in paths}}
        self.is_unsure = bool(trouble.keys() - remembered.keys())
        by_address: dict[notes.Address, mailing.MailingList | str] = {
            address: f'the list {wire.printable(name)} can\'t be read now' for name, address in remembered.items()}
        for address, folders in found.items():
            by_address[address] = self.one_of(folders, address, trouble)
        self.by_address, self.stamp = ByAddress(by_address), stamp
        gone = {name: GONE for name in remembered.keys() - {path.name for path in paths} if isinstance(by_address[remembered[name]], str)}
        self.off = {name: (self.off.get(name, (time.monotonic(), ''))[0], why) for name, why in (gone | trouble).items()}
        self.tell(trouble)

    def folders(self) -> list[pathlib.Path]:
        """What may be a list's folder. Nothing in it is looked at, as it may be of a disk that is gone."""
        return sorted(path for path in self.settings.lists.iterdir() if path.name not in NONE)

    async def found(self, paths: list[pathlib.Path], again: bool, trouble: dict[str, str]) -> dict[notes.Address, list[pathlib.Path]]:
        """The folders by the addresses of their lists."""
        turns = asyncio.Semaphore(AT_ONCE)

        async def read(path: pathlib.Path) -> Seen:
            if path in self.served and not again:
                return Seen(None, self.addresses[path.name])
            async with turns:
                try:
                    return await self.threads.call(path.name, seen, path)
                except OSError as error:
                    return Seen(None, wrong=str(error))
        found: dict[notes.Address, list[pathlib.Path]] = {}
        others: dict[pathlib.Path, Seen] = {}
        for path, each in zip(paths, await asyncio.gather(*map(read, paths))):
            if each.address is not None:
                found.setdefault(each.address, []).append(path)
                continue
            others[path] = each
            if each.wrong is not None:
                trouble[path.name] = each.wrong
        self.others = others
        return found

    def remembered(self) -> tuple[dict[str, notes.Address], set[str]]:
        """The addresses of the lists that were served, by the folders' names, and the names whose address can't be told. The folder may be
        gone."""
        names = {path.stem for path in self.settings.state.glob('*.sqlite')} | {path.name for path in self.served}
        for name in names - self.addresses.keys():
            if (address := notes.address(self.settings.state / f'{name}.sqlite')) is not None:
                self.addresses[name] = address
        return {name: self.addresses[name] for name in names if name in self.addresses}, names - self.addresses.keys()

    def one_of(self, paths: list[pathlib.Path], address: notes.Address, trouble: dict[str, str]) -> mailing.MailingList | str:
        """The list of an address, or why there is none. Of several folders the list is the one that was served before: the others are copies."""
        known = [path for path in paths if path in self.served or (self.settings.state / f'{path.name}.sqlite').exists()]
        if len(paths) > 1:
            trouble[paths[-1].name] = f'{" and ".join(path.name for path in paths)} have the same address'
            paths = known
        if len(paths) != 1:
            return 'several lists have this address'
        if paths[0] not in self.served:
            self.served[paths[0]] = self.take_up(paths[0])
        self.addresses[paths[0].name] = address
        return self.served[paths[0]]

    def tell(self, trouble: dict[str, str]) -> None:
        """Says what is wrong, once."""
        for name, why in trouble.items():
            if self.trouble.get(name) != why:
                log.error('%s: %s', wire.printable(name), wire.printable(why))
        self.trouble = trouble
