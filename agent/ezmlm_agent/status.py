"""How the lists stand, in lines and with a status as plugins of monitors have them (Nagios plugin guidelines)."""

import contextlib
import dataclasses
import importlib
import os
import pathlib
import pwd
import time
from collections.abc import Iterable, Iterator, Mapping, Sequence
from typing import TYPE_CHECKING, Any

from . import asking, comparing, folder, settings, wire
from .asking import CRITICAL, OK, UNKNOWN, WARNING

if TYPE_CHECKING:
    from . import history

LATE = 60, 3600        # seconds for which the first item that a host hasn't answered may wait: with more it is a warning, or critical
QUEUED = 3600, 86400   # seconds for which an entry may stand in the queue
ODD = 2                # seconds by which a host's clock differs from the server's until it is said


@dataclasses.dataclass(frozen=True)
class Host:
    """Where a host stands: the first item that its list hasn't answered, how many there are from there on, and for how many seconds the first
    of them waits; when its copy was last compared, and with which hosts' it didn't agree; whether an agent of it is connected."""
    name: str
    place: int
    behind: int = 0
    late: int = 0
    compared: int | None = None
    others: Sequence[str] = ()
    is_there: bool = True
    refused: str = ''  # why its copy can't go by the history
    stuck: str = ''    # why it couldn't hand on
    ahead: int = 0     # seconds by which its clock is ahead


@dataclasses.dataclass(frozen=True)
class Queue:
    """The outgoing queue of this host's copy: how many entries there are, and for how many seconds the oldest has been there; or why that can't
    be told."""
    entries: int = 0
    oldest: int = 0
    wrong: str = ''


@dataclasses.dataclass(frozen=True)
class Standing:
    """How a list stands. Without a history there are no hosts."""
    name: str
    queue: Queue | None = None  # None if this host has no copy
    leader: str | None = None   # the host that hands on
    hosts: Sequence[Host] = ()


def above(value: int, limits: tuple[int, int]) -> int:
    """The status of a value with limits for a warning and for more."""
    return CRITICAL if value > limits[1] else WARNING if value > limits[0] else OK


def faults(one: Standing) -> Iterator[tuple[int, str]]:
    """What is to be said of a list, each with the status that it gives."""
    if one.hosts and one.leader is None:
        yield WARNING, 'no host hands on'
    for host in one.hosts:
        if host.refused:
            yield CRITICAL, f'{host.name} can\'t go by the history: {host.refused}'
        if host.stuck:
            yield CRITICAL if one.leader in (None, host.name) else WARNING, f'{host.name} couldn\'t hand on: {host.stuck}'
        if host.others:
            yield CRITICAL, f'the copy of {host.name} differs from the one of {" and ".join(host.others)}'
        if host.behind > 0 and (status := above(host.late, LATE)):
            yield status, f'{host.name} is {host.behind} items and {host.late} seconds behind'
        if not host.is_there:
            yield WARNING, f'{host.name} isn\'t there'
    if one.queue is not None and one.queue.wrong:
        yield CRITICAL, one.queue.wrong
    elif one.queue is not None and (status := above(one.queue.oldest, QUEUED)):
        yield status, f'the oldest entry of the queue is {one.queue.oldest} seconds old'


def told(one: Standing, now: float) -> Iterator[str]:
    """The lines of a list."""
    queue = 'no copy here' if one.queue is None else one.queue.wrong or f'queue {one.queue.entries}' + (
        f', the oldest for {one.queue.oldest} s' if one.queue.entries else '')
    yield f'{one.name}: {queue}' + (f', {one.leader or "nobody"} hands on' if one.hosts else '')
    for host in one.hosts:
        behind = f'{host.behind} items and {host.late} s behind' if host.behind > 0 else f'{-host.behind} items ahead' if host.behind else 'has all'
        compared = 'never compared' if host.compared is None else f'compared {max(0, int(now - host.compared))} s ago'
        clock = f', its clock {abs(host.ahead)} s {"before" if host.ahead > 0 else "after"} the server\'s' if abs(host.ahead) >= ODD else ''
        yield f'{one.name}: {host.name} at item {host.place}, {behind}, {compared}{clock}' + ('' if host.is_there else ', not there')


def report(every: Sequence[Standing], others: Sequence[asking.Fault] = ()) -> int:
    """Prints how the lists stand, after a line with the worst of it. The answer is its status."""
    found = [*others, *((status, one.name, what) for one in every for status, what in faults(one))]
    print(asking.line('EZMLM-AGENT', dict.fromkeys(found), f'{len(every)} list{"s" * (len(every) != 1)}'))
    for one in every:
        for line in told(one, time.time()):
            print(line)
    return asking.worst(level for level, _, _ in found)


def queue_of(path: pathlib.Path, now: float) -> Queue:
    """The outgoing queue of the list in a folder. An entry that is gone meanwhile was sent."""
    try:
        entries = folder.queue(path)
        for entry in entries:
            try:
                return Queue(len(entries), max(0, int(now - os.stat(path / 'queue' / str(entry)).st_mtime)))
            except FileNotFoundError:
                continue
        return Queue()
    except OSError as error:
        return Queue(wrong=f'its queue can\'t be read: {wire.printable(str(error))}')


def here(chosen: settings.Settings, heard: asking.Heard) -> tuple[dict[str, Queue], list[asking.Fault]]:
    """The queues of the lists that this host has, and what is wrong with it. Who may not look into the folders hears what the agent knows."""
    queues: dict[str, Queue] = {}
    wrong = list(heard.faults)
    try:
        for path in sorted(chosen.lists.iterdir()):
            if path.name != 'lost+found' and (path / 'config').exists():
                queues[wire.printable(path.name)] = queue_of(path, time.time())
    except PermissionError as error:
        queues = {name: Queue(*queue) for name, queue in (heard.queues or {}).items()}
        if heard.queues is None:
            wrong.append((UNKNOWN, '', wire.printable(str(error))))
    except OSError as error:
        wrong.append((CRITICAL, '', wire.printable(str(error))))
    return queues, wrong


def of_folders(chosen: settings.Settings, names: Iterable[str]) -> list[asking.Fault]:
    """What `ezmlm-admin watch` says of these lists by their folders. Where it isn't installed nothing is said."""
    try:
        monitoring: Any = importlib.import_module('ezmlm_admin.monitoring')
    except ModuleNotFoundError:
        return []
    paths = [str(path) for path in sorted(chosen.lists.iterdir()) if wire.printable(path.name) in names and os.access(path, os.R_OK | os.X_OK)]
    found: list[asking.Fault] = monitoring.of_folders(paths, chosen.program) if paths else []
    return found


def as_lists_user(chosen: settings.Settings) -> None:
    """Root goes on as the user that the lists belong to: what root makes in a list's folder can't be written by the agent afterwards."""
    if os.geteuid() == 0 and (owner := chosen.lists.stat().st_uid) != 0:
        user = pwd.getpwuid(owner)
        os.initgroups(user.pw_name, user.pw_gid)
        os.setgid(user.pw_gid)
        os.setuid(owner)


def look(chosen: settings.Settings, name: str | None) -> tuple[dict[str, Queue], list[asking.Fault]]:
    """What is seen of this host: the agent is asked, and then the folders are looked at; of them all, or of the list of a name."""
    heard = asking.ask(chosen)
    with contextlib.suppress(OSError, KeyError):
        as_lists_user(chosen)
    queues, wrong = here(chosen, heard)
    try:
        wrong += of_folders(chosen, queues if name is None else {name})
    except PermissionError:
        pass  # The agent has said what it knows.
    except OSError as error:
        wrong.append((CRITICAL, '', wire.printable(str(error))))
    return queues, wrong


async def status(chosen: settings.Settings, past: 'history.History | None', name: str | None, seen: tuple[dict[str, Queue], list[asking.Fault]]) -> int:
    """Prints how the lists stand, or one of them, with what was seen of this host. The answer is 0, or 1 if something should be looked at, 2 if it
    must be, and 3 if it can't be told."""
    queues, wrong = seen
    every = [Standing(each, queue) for each, queue in queues.items()]
    if past is not None:
        every = [dataclasses.replace(one, queue=queues.get(one.name)) for one in await past.standing()]
        wrong += [(WARNING, each, 'it is in no history yet') for each in queues.keys() - {one.name for one in every}]
    if name is not None:
        every = [one for one in every if one.name == name]
        wrong = [fault for fault in wrong if fault[1] in ('', name)]
        wrong += [] if every or any(fault[1] for fault in wrong) else [(CRITICAL, '', f'there is no list {wire.printable(name)}')]
    return report(every, wrong)


def host_of(name: str, place: int, following: int, since: int | None, seen: Sequence[comparing.Seen], is_there: bool,
            trouble: Mapping[str, str], ahead: int) -> Host:
    """Where a host stands in a history whose next item has the number `following`, and whose item at its place waits since `since` seconds. `trouble`
    has what is wrong with it by kind, and `ahead` the seconds by which its clock is."""
    own = max((row for row in seen if row.host == name), default=None)
    return Host(name, place, following - place, max(0, since) if since is not None else 0, own.moment if own else None,
                comparing.others(seen, name, time.time()), is_there, trouble.get('refused', ''), trouble.get('stuck', ''), ahead)
