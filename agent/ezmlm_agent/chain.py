"""What a history is, in a row of hashes, and what a copy keeps of it: so two histories that give one number to two items are told apart.

The hash of an item is the SHA-256 of the hash before it and the item's text. Each copy keeps the hashes of the items that its list was given
last in a file of its folder, `history`, beside those of the program: it goes with the copy wherever that is taken. A row of the file is the
number in 8 bytes, the highest first, and the hash in 32.
"""

import hashlib
import os
import pathlib
import secrets
from collections.abc import Iterable

from . import folder

FILE = 'history'
NUMBER, HASH = 8, 32
ROW = NUMBER + HASH
KEPT = 4096  # rows that stay when the file has twice as many


def after(before: bytes, text: bytes) -> bytes:
    """The hash of an item, by the hash of the one before it."""
    return hashlib.sha256(before + text).digest()


def all_after(before: bytes, texts: Iterable[bytes]) -> list[bytes]:
    """The hashes of items in a row."""
    found: list[bytes] = []
    for text in texts:
        before = after(before, text)
        found.append(before)
    return found


def begun() -> bytes:
    """What stands before the first item of a new history: no other one begins with it."""
    return secrets.token_bytes(HASH)


class Kept:
    """The hashes that a copy keeps, by the numbers of the items."""

    def __init__(self, path: pathlib.Path, text: bytes | None) -> None:
        self.path, self.is_there = path, text is not None
        rows = [(text or b'')[at:at + ROW] for at in range(0, len(text or b'') - ROW + 1, ROW)]
        self.hashes = {int.from_bytes(row[:NUMBER], 'big'): row[NUMBER:] for row in rows}
        self.rows = len(rows)

    def at(self, place: int) -> bytes | None:
        """The hash of the last item before a place, if it is known."""
        return self.hashes.get(place - 1)

    def lacks(self, rows: Iterable[tuple[int, bytes]]) -> list[tuple[int, bytes]]:
        """Those of these numbers and hashes that it hasn't."""
        return [(number, digest) for number, digest in rows if self.hashes.get(number) != digest]

    def keep(self, rows: Iterable[tuple[int, bytes]]) -> None:
        """Keeps numbers and hashes for good, on the disk."""
        new = list(rows)
        self.hashes.update(new)
        if not self.is_there or self.rows + len(new) > 2 * KEPT:
            last = sorted(self.hashes.items())[-KEPT:] if self.is_there else sorted(self.hashes.items())
            folder.replace(self.path, b''.join(spelled(*row) for row in last))
            self.hashes, self.rows, self.is_there = dict(last), len(last), True
            return
        append(self.path, b''.join(spelled(*row) for row in new), ROW * self.rows)
        self.rows += len(new)


def spelled(number: int, digest: bytes) -> bytes:
    return number.to_bytes(NUMBER, 'big') + digest


def append(path: pathlib.Path, text: bytes, at: int) -> None:
    """Writes at the end of the file's whole rows: what a crash left of a row is written over."""
    file = folder.opened(path, os.O_WRONLY)
    try:
        while text:
            done = os.pwrite(file, text, at)
            text, at = text[done:], at + done
        os.fdatasync(file)
    finally:
        os.close(file)


def read(path: pathlib.Path) -> Kept:
    """What the copy in a list's folder keeps."""
    return Kept(path / FILE, folder.bytes_or_none(path / FILE))


def fork(kept: Kept, theirs: dict[int, bytes]) -> int:
    """The first number from which on a history isn't the one that a copy was given: after the last hash that both have, or 0 if they have none
    in common."""
    return max((number + 1 for number, digest in theirs.items() if kept.hashes.get(number) == digest), default=0)
