"""Which copies of an entry go together: with XVERP Postfix names each recipient in the sender of its copy."""

import re
from collections.abc import Collection, Sequence

PLAIN = re.compile(rb'[A-Za-z0-9_+=-]+(?:\.[A-Za-z0-9_+=-]+)*')

Copy = tuple[bytes, bytes]                  # its sender and its recipient
Transaction = tuple[bytes, bool, list[Copy]]  # a sender, whether it is to name the recipients, and the copies


def is_named(entry: Sequence[bytes]) -> bool:
    """Whether each copy's sender names its recipient, as in posts. It doesn't in the list's own answers."""
    return entry[2] == b'v'


def sender_of(base: bytes, host: bytes, recipient: bytes | None = None) -> bytes:
    """The sender of a copy: BASE@HOST, or BASE USER=HOST@HOST, which names its recipient."""
    user, at, there = (recipient or b'').rpartition(b'@')
    return base + user + b'='[:len(at)] + there + b'@' + host


def batches(entry: Sequence[bytes], size: int, verp: bool, before: Collection[bytes]) -> list[Transaction]:
    """The transactions of an entry. Those who were handed theirs before are left out."""
    base, host, _, _, *recipients = entry
    named = is_named(entry)
    together: list[Copy] = []
    alone: list[Copy] = []
    for recipient in recipients:
        if recipient not in before:
            copy = sender_of(base, host, recipient if named else None), recipient
            is_joined = not named or verp and base.endswith(b'-') and PLAIN.fullmatch(recipient.rpartition(b'@')[0])
            (together if is_joined else alone).append(copy)
    sender = sender_of(base.removesuffix(b'-') if named else base, host)
    rows: list[Transaction] = [(sender, named, together[at:at + size]) for at in range(0, len(together), size)]
    return rows + [(copy[0], False, [copy]) for copy in alone]
