"""What this host's copy of a list is, as its history has to know it."""

import dataclasses
import hashlib
import pathlib

from . import folder, notes


@dataclasses.dataclass(frozen=True)
class State:
    """What a copy of a list is: the number of the first item that it hasn't answered, its floor, its configuration, and a hash of its keys."""
    place: int
    floor: int
    config: bytes
    key: bytes


def state_of(path: pathlib.Path) -> State:
    """Reads a list's folder, while nothing else has it."""
    key = hashlib.sha256(folder.bytes_or_none(path / 'key') or b'').digest()
    return State(max(notes.FIRST, folder.after_answers(path)), folder.floor(path), folder.bytes_or_none(path / 'config') or b'', key)
