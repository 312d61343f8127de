"""Where the lists' mail goes: a transfer agent that counts the copies, and gives some people theirs to read."""

import collections
import hashlib
import queue
from typing import Any

from agent_cases import sink

Copy = tuple[str, str, bytes]  # sender, recipient, and the SHA-256 of the content


def copy_of(sender: str, recipient: str, content: bytes) -> Copy:
    return sender, recipient, hashlib.sha256(content).digest()


class Counting(sink.Sink):
    """Refuses whoever is at `gone.net`. What comes for somebody at `reads.net` is put into `letters`."""

    def __init__(self, where: str | tuple[str, int]) -> None:
        self.seen: collections.Counter[Copy] = collections.Counter()
        self.refused: collections.Counter[str] = collections.Counter()
        self.letters: queue.SimpleQueue[tuple[str, bytes]] = queue.SimpleQueue()
        self.many = 0  # copies so far
        super().__init__(where)
        self.controller.ready_timeout = 60

    async def handle_RCPT(self, server: Any, session: Any, envelope: Any, address: str, options: Any) -> str:
        if address.endswith('@gone.net'):
            self.refused[address] += 1
            return '550 5.1.1 No such user'
        envelope.rcpt_tos.append(address)
        return '250 Ok'

    def keep(self, session: Any, envelope: Any) -> None:
        digest = hashlib.sha256(envelope.content).digest()
        for recipient in envelope.rcpt_tos:
            sender = envelope.mail_from
            if session.is_named:
                local, _, host = sender.rpartition('@')
                sender = f'{local}-{recipient.replace("@", "=")}@{host}'
            self.seen[sender, recipient, digest] += 1
            if recipient.endswith('@reads.net'):
                self.letters.put((recipient, envelope.content))
        self.many += len(envelope.rcpt_tos)
