"""What a monitor hears of the agent that runs, whose status socket is asked with a second's patience, and of the disks of its lists."""

import dataclasses
import fcntl
import json
import socket
import time
from collections.abc import Iterable, Iterator, Sequence

from . import room, settings, wire

OK, WARNING, CRITICAL, UNKNOWN = range(4)  # statuses of a plugin (Nagios plugin guidelines)
WORST_LAST = OK, UNKNOWN, WARNING, CRITICAL
NAMES = 'OK', 'WARNING', 'CRITICAL', 'UNKNOWN'
PATIENCE = 1.0  # seconds
LONGEST = 1 << 22  # bytes of an answer
LINE = 4096  # bytes of a line, of which old monitors read no more

Fault = tuple[int, str, str]  # its status, the list's name or nothing, and what is wrong


@dataclasses.dataclass(frozen=True)
class Heard:
    """What the agent said: the queues of its lists, each the number of entries and the oldest one's seconds, or None if it didn't answer; and
    what is wrong."""
    queues: dict[str, tuple[int, int]] | None
    faults: Sequence[Fault] = ()


def ask(chosen: settings.Settings) -> Heard:
    """Asks the agent of these settings, and looks how much room its lists have."""
    heard = heard_from_agent(chosen)
    return dataclasses.replace(heard, faults=[*heard.faults, *of_disks(chosen)])


def of_disks(chosen: settings.Settings) -> Iterator[Fault]:
    """Which lists have less than twice the room below which the agent puts their mail off. A folder that can't be looked at is left out."""
    try:
        paths = [path for path in sorted(chosen.lists.iterdir()) if path.name != 'lost+found' and (path / 'config').exists()]
    except OSError:
        return
    for path in paths:
        if (why := room.warned(path, chosen)) is not None:
            yield WARNING, wire.printable(path.name), why


def heard_from_agent(chosen: settings.Settings) -> Heard:
    """What the agent of these settings says."""
    try:
        return read(answer(chosen.status))
    except PermissionError as error:
        return Heard(None, [(UNKNOWN, '', f'this user can\'t ask the agent: {chosen.status}: {error.strerror}')])
    except TimeoutError:
        return Heard(None, [(CRITICAL, '', f'the agent doesn\'t answer within {PATIENCE:g} s: it is stopped, or hangs')])
    except OSError as error:
        if is_running(chosen):
            return Heard(None, [(CRITICAL, '', f'the agent doesn\'t answer at {chosen.status}: {error.strerror or error}')])
        return Heard(None, [(CRITICAL, '', 'no agent runs here')])
    except (ValueError, TypeError, KeyError) as error:
        return Heard(None, [(CRITICAL, '', f'what the agent answers can\'t be read: {error}')])


def answer(address: str) -> bytes:
    """All that is said at a socket. It is a TimeoutError if that takes longer than the patience, and an OSError if nobody listens."""
    where, end = settings.endpoint(address), time.monotonic() + PATIENCE
    text = bytearray()
    with socket.socket(socket.AF_UNIX if isinstance(where, str) else socket.AF_INET6 if ':' in where[0] else socket.AF_INET) as asked:
        asked.settimeout(PATIENCE)
        try:
            asked.connect(where)
        except BlockingIOError as error:  # More wait there than its queue holds.
            raise TimeoutError from error
        while (left := end - time.monotonic()) > 0:
            asked.settimeout(left)
            if not (more := asked.recv(1 << 16)):
                return bytes(text)
            text += more
            if len(text) > LONGEST:
                raise ValueError('it is too long')
    raise TimeoutError


def read(text: bytes) -> Heard:
    """What an answer says. Another text is a ValueError, TypeError or KeyError."""
    if not text:
        raise TimeoutError  # Too many ask at once.
    said = json.loads(text)
    queues = {str(name): (int(many), int(oldest)) for name, (many, oldest) in said['queues'].items()}
    return Heard(queues, [(int(level), str(name), str(what)) for level, name, what in said['faults'] if level in (OK, WARNING, CRITICAL)])


def is_running(chosen: settings.Settings) -> bool:
    """Whether an agent of these settings runs: it has the lock of its state."""
    try:
        with open(chosen.state / 'lock', encoding='ascii') as lock:
            fcntl.flock(lock, fcntl.LOCK_SH | fcntl.LOCK_NB)
        return False
    except BlockingIOError:
        return True
    except OSError:
        return False


def worst(statuses: Iterable[int]) -> int:
    return max(statuses, key=WORST_LAST.index, default=OK)


def line(name: str, faults: Iterable[Fault], good: str, most: int = LINE) -> str:
    """The first line of a plugin: its name, the worst status, and what is wrong, the worst first, as much as `most` bytes have room for, and then
    how much more there is."""
    rows = sorted(faults, key=lambda row: -WORST_LAST.index(row[0]))
    text = f'{name} {NAMES[worst(level for level, _, _ in rows)]} - '
    if not rows:
        return text + good
    for at, (_, which, what) in enumerate(rows):
        more = ('; ' if at else '') + (f'{which}: ' if which else '') + what
        rest = f'; and {len(rows) - at} more'
        if at and len((text + more).encode(errors='replace')) + len(rest) > most:
            return text + rest
        text += more
    return text if len(text.encode(errors='replace')) <= most else text.encode(errors='replace')[:most].decode(errors='ignore')
