"""What an agent has beside its lists if other hosts have the same."""

import asyncio
import pathlib
from collections.abc import Callable, Iterable

from . import following, history, leading, lines, mailing, mails, servers, settings


class Hosts:
    """The histories of the lists, and for which of them this host hands on."""

    def __init__(self, chosen: settings.Settings, lists: Callable[[], Iterable[mailing.MailingList]]) -> None:
        """`lists` are those that are served. Wrong settings are a ValueError."""
        self.servers = servers.Servers(chosen.history, chosen.host, chosen.standby, chosen.takeover)
        self.past = history.History(lines.Lines(self.servers))
        self.lists = lists
        self.lead = leading.Leading(self.past, self.told)
        self.lead.doubled = self.doubled
        self.why, self.end = '', asyncio.Event()  # why this agent has to end, and what is set then

    def doubled(self, why: str) -> None:
        """Another agent has this host's name, as one that was begun while the servers were away."""
        self.why = why
        self.end.set()

    async def begin(self) -> str:
        """Begins when the servers were asked for the first time. The answer is why they can't keep the history, or nothing; if they aren't
        there yet mail waits."""
        self.lead.start()
        try:
            await self.lead.first
        except servers.Unfit as error:
            return str(error)
        return ''

    def take_up(self, folder: pathlib.Path, shared: mails.Shared) -> mailing.MailingList:
        return following.SharedList(folder, shared, self.past, self.lead)

    def told(self, name: str | None, number: int) -> None:
        """A list's history grew, or this host begins or ends to hand on for it; with None, connections were opened or lost, and each
        list looks at its history anew."""
        for found in self.lists():
            if isinstance(found, following.SharedList) and name in (None, found.name):
                found.is_new = found.is_new or name is None
                found.hear(number)

    def look(self) -> None:
        """Has each list look at its history."""
        for found in self.lists():
            if isinstance(found, following.SharedList):
                found.hear(0)

    async def stop(self) -> None:
        await asyncio.to_thread(self.lead.stop)
        self.past.lines.close()
