"""How many mails each address has had the lists send. Whoever forges a sender has the lists write to somebody who never asked.

A request counts for its sender and for the address that it names, since the list may answer either. To unsubscribe counts by itself, so that
nobody can keep a member from it by requests in his name: for each list a few times an hour, each of which has sent him the letter that he
needs.
"""

import array
import asyncio
import bisect
import collections
import hashlib
import os
import pathlib
import time
from collections.abc import Sequence
from typing import TYPE_CHECKING

from . import envelope, folder, requests
from .requests import Kind

if TYPE_CHECKING:
    from . import lists

HOUR = 3600
MEMORY = 16 << 20  # bytes for all counts together: beyond them those are forgotten that were used longest ago
EACH, MORE = 400, 4  # bytes that a count takes, and each moment in it
UNSUBSCRIBES = 3  # answers in an hour to one member who wants to leave one set of one list
LOOKING = 2  # seconds in which it must be told whether somebody is a member
# What a list answers with a mail, whoever it seems to come from. Confirmations and moderators' answers carry a cookie, which a stranger hasn't.
ANSWERED = {Kind.HELP, Kind.UNKNOWN, Kind.SUBSCRIBE, Kind.UNSUBSCRIBE, Kind.MEMBERS, Kind.ARCHIVE}
OFTEN = '450 4.7.1 This sender has asked the lists here for too many answers in the last hour; later.'

Keys = Sequence[bytes]  # of the counts that a mail is one more in


class Counts:
    """Moments of the last hour, in seconds, by the hashes of what they are counted for. So a long address takes no more than a short one."""

    def __init__(self) -> None:
        self.secret = os.urandom(16)  # by which nobody knows which addresses share a hash
        self.moments: collections.OrderedDict[bytes, array.array[int]] = collections.OrderedDict()
        self.bytes = 0

    def key(self, *words: bytes) -> bytes:
        """What words are counted by, in any case of their letters."""
        text = b''.join(b'%d:%b,' % (len(word), word.lower()) for word in words)
        return hashlib.blake2b(text, digest_size=16, key=self.secret).digest()

    def many(self, key: bytes) -> int:
        """How many moments of the last hour there are. Older ones are forgotten."""
        times = self.moments.get(key)
        if times is None:
            return 0
        old = bisect.bisect_right(times, int(time.monotonic()) - HOUR)
        del times[:old]
        self.bytes -= MORE * old
        if not times:
            self.forget(key)
        return len(times)

    def add(self, key: bytes) -> None:
        if key not in self.moments:
            self.moments[key] = array.array('I')
            self.bytes += EACH
        self.moments[key].append(int(time.monotonic()))
        self.bytes += MORE
        self.moments.move_to_end(key)
        while self.bytes > MEMORY:
            self.forget(next(iter(self.moments)))

    def take_back(self, key: bytes) -> None:
        """The last moment counts no more."""
        if times := self.moments.get(key):
            times.pop()
            self.bytes -= MORE
            if not times:
                self.forget(key)

    def forget(self, key: bytes) -> None:
        self.bytes -= EACH + MORE * len(self.moments.pop(key))


class Replies:
    """The answers of the last hour, in memory, `most` for each address at most. With 0 nothing is counted."""

    def __init__(self, most: int) -> None:
        self.most = most
        self.counts = Counts()

    async def wanted(self, named: 'lists.Named', sender: bytes) -> Keys | None:
        """What a mail from this sender counts for, and nothing if the list won't answer it; or None if there were too many of these."""
        request = requests.read(named.rest)
        if not self.most or not sender or request.kind not in ANSWERED:
            return ()
        who = request.address or sender
        if request.kind is Kind.UNSUBSCRIBE and who.lower() == sender.lower():
            own = self.counts.key(b'leaves', os.fsencode(named.list.folder), request.set, who)
            every = self.counts.key(b'leaves', who)
            if self.counts.many(every) < self.most or await may_be_member(named, request.set, who):
                return (own, every) if self.counts.many(own) < UNSUBSCRIBES else None
        keys = tuple(dict.fromkeys(self.counts.key(address) for address in (sender, who)))
        return keys if all(self.counts.many(key) < self.most for key in keys) else None

    async def take(self, named: 'lists.Named', sender: bytes) -> Keys | None:
        """As `wanted`, and it is counted."""
        keys = await self.wanted(named, sender)
        for key in keys or ():
            self.counts.add(key)
        return keys

    def give_back(self, keys: Keys) -> None:
        """Takes back what was counted for an answer that wasn't given."""
        for key in keys:
            self.counts.take_back(key)


async def may_be_member(named: 'lists.Named', kind: bytes, address: bytes) -> bool:
    """Whether an address is in a set of a list, or that can't be told soon: the list's files are read under its lock, between two runs."""
    def read(path: pathlib.Path) -> bool:
        return envelope.is_in(path, kind, address)
    try:
        async with asyncio.timeout(LOOKING), named.list.turn:
            return await named.list.aside(folder.settled, named.list.folder, read)
    except (OSError, ValueError, folder.Held, folder.Unsettled):
        return True
