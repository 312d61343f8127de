"""Entries of a list's queue that are set aside, since the transfer agent hangs up on them again and again. Each stays in the queue, and a file in
the agent's state keeps it from being tried: STATE/LIST.aside/ENTRY. Whoever removes the file has it tried again (`ezmlm-admin FOLDER again`)."""

import dataclasses
import email.utils
import hashlib
import json
import pathlib
import time
from collections.abc import Iterable

from . import folder, program

MOST = 5  # times that the transfer agent hangs up on an entry until it is set aside
LONGEST = 1 << 16  # bytes of a file


@dataclasses.dataclass(frozen=True)
class Parked:
    """One that is set aside: the hash of what it is, since when, by the seconds of Unix, why, and whether the list's owner was told."""
    mark: str
    since: int
    why: str
    is_told: bool = False


def place(state: pathlib.Path, name: str) -> pathlib.Path:
    """Where these files are, for the list whose folder has this name."""
    return state / f'{name}.aside'


Stamp = tuple[int, int] | None


def stamp(path: pathlib.Path) -> Stamp:
    """What changes when one is set aside or given again, or None if none ever was."""
    try:
        state = path.stat()
    except FileNotFoundError:
        return None
    return state.st_mtime_ns, state.st_ino


def read(path: pathlib.Path) -> dict[int, Parked]:
    """What is set aside, by the entries' ids. A file that isn't as it should be keeps its entry aside all the same."""
    found: dict[int, Parked] = {}
    for name in folder.names(path):
        if folder.ENTRY.fullmatch(name):
            try:
                text = folder.bytes_or_none(path / name)
                if text is not None:
                    found[int(name)] = Parked(**json.loads(text[:LONGEST]))
            except (ValueError, TypeError):
                found[int(name)] = Parked('', 0, 'its file can\'t be read', True)
    return found


def still(path: pathlib.Path, list_folder: pathlib.Path) -> dict[int, Parked]:
    """As `read`, without those that left the queue, or whose id another mail has now, as in an old copy of the list: their files are removed."""
    found = read(path)
    for entry, one in list(found.items()):
        text = folder.bytes_or_none(list_folder / 'queue' / str(entry))
        if text is None or one.mark not in ('', hashlib.sha256(text).hexdigest()):
            (path / str(entry)).unlink(missing_ok=True)
            del found[entry]
    return found


def write(path: pathlib.Path, entry: int, one: Parked) -> None:
    """Sets one aside, on the disk."""
    path.mkdir(mode=0o700, exist_ok=True)
    folder.replace(path / str(entry), json.dumps(dataclasses.asdict(one)).encode())


def owner_of(list_folder: pathlib.Path) -> tuple[bytes, bytes]:
    """The list's address and its owner's."""
    lines = folder.configuration(list_folder) or {}
    return lines.get(b'local', b'') + b'@' + lines.get(b'host', b''), lines.get(b'owner', b'')


def mail(address: bytes, owner: bytes, name: str, rows: Iterable[tuple[int, Parked]], now: float) -> bytes:
    """The mail to a list's owner of what was set aside."""
    local, _, host = address.rpartition(b'@')
    told = [f'  {entry}: {one.why}\n' for entry, one in rows]
    made = hashlib.sha256(program.item(b'', address, *(one.mark.encode() for _, one in rows))).hexdigest()[:32]
    return b'From: %b-help@%b\nTo: %b\nSubject: %b: mail is set aside\nDate: %b\nMessage-ID: <%b.aside@%b>\n' \
        b'Auto-Submitted: auto-generated\nPrecedence: bulk\nMIME-Version: 1.0\nContent-Type: text/plain; charset=utf-8\n\n' % (
            local, host, owner, address, email.utils.formatdate(now).encode(), made.encode(), host) + \
        f'''The transfer agent hung up {MOST} times, each time at the same mail of this list, and took others
meanwhile. So that mail is set aside. It stays in the list's queue, and nothing of it is lost.
Who has had a copy isn't sent another one.

The entries of the queue, and what happened:

{''.join(told)}
On the host of the list,
  ezmlm-admin FOLDER aside        shows them,
  ezmlm-admin FOLDER again ENTRY  has one tried again;
FOLDER is the folder of the list, {name}.
'''.encode()


def again(path: pathlib.Path, entry: int) -> bool:
    """Has one tried again. The answer is whether it was set aside."""
    try:
        (path / str(entry)).unlink()
        return True
    except FileNotFoundError:
        return False


def now_parked(text_mark: bytes, why: str) -> Parked:
    """One that is set aside now."""
    return Parked(text_mark.hex(), int(time.time()), why)
