"""The copies of a shared list that were handed on, by whichever host."""

from collections.abc import Collection, Sequence

from . import columns, history, leading, servers


class Handed:
    """As `notes.Copies` says, for one term in which this host hands on. What it handed on in a term before and couldn't keep it keeps now."""

    def __init__(self, past: history.History, name: str, term: leading.Term, known: columns.Handed, before: 'Handed | None') -> None:
        self.past, self.name, self.term = past, name, term
        self.unwritten: list[tuple[int, bytes, bytes]] = list(before.unwritten) if before else []
        self.copies: dict[tuple[int, bytes], set[bytes]] = {}
        for entry, mark, recipients in [*known, *self.unwritten]:
            self.copies.setdefault((entry, mark), set()).update(recipients.split(b'\0'))

    def handed_before(self, entry: int, mark: bytes) -> Collection[bytes]:
        return self.copies.get((entry, mark), frozenset())

    async def hand(self, entry: int, mark: bytes, recipients: Sequence[bytes]) -> None:
        if recipients:
            self.copies.setdefault((entry, mark), set()).update(recipients)
            self.unwritten.append((entry, mark, b'\0'.join(recipients)))
        await self.keep()

    async def write(self) -> None:
        await self.keep()
        if not self.term.holds():
            raise servers.Lost('this host hands on no more')

    async def keep(self) -> None:
        """Writes what isn't written yet, and nobody writes now."""
        copies, self.unwritten = self.unwritten, []
        if not copies:
            return
        try:
            await self.past.hand(self.name, copies)
        except BaseException:
            self.unwritten = copies + self.unwritten
            raise

    def forget(self, entries: Collection[int]) -> None:
        """Forgets the copies of entries that left the queue, and of which the history has forgotten them."""
        self.copies = {copies: recipients for copies, recipients in self.copies.items() if copies[0] not in entries}
