"""What a monitor asks of lists, in a line and a status as plugins of Nagios have them."""

from __future__ import annotations

import os
import pathlib
import time
from collections.abc import Iterable, Iterator, Sequence
from dataclasses import dataclass, field

from ezmlm_agent import asking, wire
from ezmlm_agent import folder as folders
from ezmlm_agent import settings as agents

from . import files, sums, texts
from .config import configuration
from .lists import DISK, WAIT, WORDS, Busy, MailingList, Refused, Said, content, opened

OK, WARNING, CRITICAL, UNKNOWN = asking.OK, asking.WARNING, asking.CRITICAL, asking.UNKNOWN
AGENT = '/etc/ezmlm-agent.conf'  # the settings of the agent of this host, if it has one
LIMITS = {'queue': (3_600, 86_400), 'held': (172_800, 345_600), 'log': (60, 3_600), 'disk': (10, 5)}  # seconds, and percents that are free
COUNTS = 'posts', 'members of list', 'members of digest', 'members of allow', 'members of deny', 'members of mod', 'held', 'queue'


@dataclass
class Seen:
    """What was seen of one list. Moments are None if there is nothing that has one."""
    folder: pathlib.Path
    address: str = ''
    status: int = 0                # of `check`, or of what kept it from being run
    word: str = ''                 # its word, or why it wasn't run
    is_held: bool = False          # whether another run had the list all the time
    counts: list[int] = field(default_factory=list)
    oldest_queued: float | None = None
    oldest_held: float | None = None
    log_bytes: int = 0
    log_age: float = 0.0           # seconds since the log was written, if it has more than a byte
    space: tuple[int, int, int, int] = (0, 0, 0, 0)  # bytes and inodes that are free and there are


def lists_of(words: Sequence[str]) -> list[pathlib.Path]:
    """The folders of lists: each that is named and has a configuration, or else those in it that have one; or itself, if there are none."""
    found: list[pathlib.Path] = []
    for word in words:
        path = pathlib.Path(word)
        is_list = not path.is_dir() or may_be_list(path)
        found += [path] if is_list else sorted(each for each in path.iterdir() if each.is_dir() and may_be_list(each)) or [path]
    return found


def may_be_list(path: pathlib.Path) -> bool:
    """Whether a folder has a configuration. If that can't be looked at it may be a list, unless it is the one that a disk brings along."""
    try:
        return (path / 'config').exists()
    except PermissionError:
        return path.name != 'lost+found'


def seen(path: pathlib.Path, program: str, until: float) -> Seen:
    """Looks at one list. What another run holds is waited for up to this moment of the monotonic clock."""
    found = Seen(path)
    try:
        chosen, log = MailingList(path, program), path / 'log'
        found.log_bytes = folders.size_or_none(log) or 0
        found.log_age = time.time() - log.stat().st_mtime if found.log_bytes > 1 else 0.0
        state = os.statvfs(path)
        found.space = state.f_bavail * state.f_frsize, state.f_blocks * state.f_frsize, state.f_favail, state.f_files
        chosen.wait = max(0.0, until - time.monotonic())
        look(chosen, found)
    except Busy:
        found.status, found.word, found.is_held = DISK, 'another run, a backup or the agent holds it', True
    except Refused as error:
        found.status, found.word = error.status, str(error)
    except OSError as error:
        found.status, found.word = DISK, str(error)
    return found


def look(chosen: MailingList, found: Seen) -> None:
    if not (found.folder / 'config').is_file():  # A run of the program would wait for whoever writes into a pipe.
        raise Refused(DISK, f'{found.folder / "config"} is no file')
    found.status, line = chosen.check()
    found.word = line.split(' ')[0] if found.status == 0 else line.removeprefix(f'{found.status} ')
    found.counts = [int(number) for number in line.split(' ')[1:]] if found.status == 0 else []
    if found.status != DISK:
        chosen.read(lambda folder: oldest(folder, found))


def oldest(folder: pathlib.Path, found: Seen) -> None:
    """Notes the list's address, when the oldest entry of the queue was written, and when the oldest held post came."""
    found.address = content(folder, 'config', configuration).address.decode('ascii')
    low, after = content(folder, 'ids', files.pair)
    if low < after:
        found.oldest_queued = opened(folder, f'queue/{low}', lambda file: os.fstat(file.fileno()).st_mtime)
    low, after = content(folder, 'tickets', files.pair)
    if low < after:
        found.oldest_held = opened(folder, f'pending/{low}', lambda file: float(files.held(file, 0).moment))


def all_seen(words: Sequence[str], program: str, wait: float) -> list[Seen]:
    until = time.monotonic() + wait
    return [seen(path, program, until) for path in lists_of(words)]


def faults(one: Seen, now: float) -> Iterator[tuple[int, str]]:
    """What is to be said of a list, each with the status that it gives."""
    if one.status:
        yield (UNKNOWN if one.is_held else CRITICAL), f'{one.status} {one.word}'
    for name, moment, what in (('queue', one.oldest_queued, 'entry of the queue'), ('held', one.oldest_held, 'held post')):
        if moment is not None and (status := above(now - moment, LIMITS[name])):
            yield status, f'the oldest {what} is {texts.age(now - moment)} old'
    yield from sums.faults(one.folder, now)
    if one.log_bytes > 1 and (status := above(one.log_age, LIMITS['log'])):
        yield status, f'the log has {one.log_bytes} bytes since {texts.age(one.log_age)}: a run was stopped, or hangs'
    for what, free, size in (('space', *one.space[:2]), ('inodes', *one.space[2:])):
        if size and (status := above(-100 * free / size, tuple(-limit for limit in LIMITS['disk']))):
            yield status, f'{100 * free / size:.0f}% of the disk\'s {what} is free'


def above(value: float, limits: Sequence[float]) -> int:
    """The status of a value with limits for a warning and for more."""
    return CRITICAL if value > limits[1] else WARNING if value > limits[0] else OK


def of_folders(paths: Sequence[str], program: str) -> list[asking.Fault]:
    """What is to be said of the lists in these folders, with their names: what `watch` says beside the agent's own answer."""
    now = time.time()
    return [(status, wire.printable(one.folder.name), what) for one in all_seen(paths, program, WAIT) for status, what in faults(one, now)]


def agent_of(words: Sequence[str]) -> tuple[list[str], agents.Settings | None]:
    """The folders that are asked for, and the settings of the agent that has them: those of a file that is named, whose lists are asked for, or
    those of this host's agent if each of the folders is of its lists. Settings that are wrong are Refused."""
    files = [word for word in words if pathlib.Path(word).is_file()]
    try:
        if files:
            chosen = agents.read(files[0])
            return [word for word in words if word not in files] or [str(chosen.lists)], chosen
        chosen = agents.read(AGENT)
    except ValueError as error:
        if files or pathlib.Path(AGENT).exists() and os.access(AGENT, os.R_OK):
            raise Refused(WORDS, str(error)) from error
        return list(words), None
    here = chosen.lists.resolve()
    is_its_own = all(here in (path := pathlib.Path(word).resolve(), path.parent) for word in words)
    return list(words), chosen if is_its_own else None


def watch(words: Sequence[str], program: str, wait: float) -> Said:
    """What is wrong with which list, and what the agent says that has them, as one line with the worst status, and performance data."""
    folders_asked, chosen = agent_of(words)
    heard = asking.ask(chosen) if chosen is not None else asking.Heard(None)
    now, every = time.time(), all_seen(folders_asked, program, wait)
    own = [(status, one, what) for one in every for status, what in faults(one, now)]
    names = {wire.printable(one.folder.name) for one in every}
    said = [fault for fault in heard.faults if fault[1] in names or not fault[1] or chosen and str(chosen.lists) in folders_asked]
    told = [*said, *((status, wire.printable(one.folder.name), what) for status, one, what in own)]
    status = asking.worst(level for level, _, _ in told)
    good = 'the list is whole' if len(every) == 1 else f'{len(every)} lists are whole'
    measures = [measure for one in every for measure in performance(one, label(one, every), now)]
    data = [{'folder': str(one.folder), 'list': one.address, 'check': one.word,
             'status': asking.NAMES[asking.worst(level for level, which, _ in told if which == wire.printable(one.folder.name))],
             'what': [what for _, which, what in told if which == wire.printable(one.folder.name)]} for one in every]
    data += [{'agent': str(chosen.lists), 'status': asking.NAMES[level], 'what': [what]} for level, which, what in said if chosen and not which]
    return Said(lines_of(plain(asking.line('EZMLM', told, good)), measures), data, status)


def lines_of(text: str, measures: Sequence[str]) -> list[str]:
    """A plugin's lines, none longer than old monitors read. What the first has no room for of the measures follows after the bar of a further
    one (Nagios plugin guidelines, performance data of several lines)."""
    lines, left = [text + ' |'], list(measures)
    while left:
        if len((lines[-1] + ' ' + left[0]).encode(errors='replace')) > asking.LINE:
            lines.append('more |' if len(lines) == 1 else '')
        lines[-1] += (' ' if lines[-1] else '') + left.pop(0)
    return lines


def plain(text: str) -> str:
    """A text as a plugin's line may have it: no control characters, and no bar, as the performance data begins after one."""
    return texts.safe(text).replace('|', '/')


def label(one: Seen, every: Sequence[Seen]) -> str:
    """The list's name among these in a label of performance data, in which quotes are doubled: its folder's, or the path if two have that."""
    name = one.folder.name
    is_one = bool(name) and sum(other.folder.name == name for other in every) == 1
    return plain(name if is_one else str(one.folder)).replace('=', '_').replace("'", "''")


def performance(one: Seen, name: str, now: float) -> Iterator[str]:
    """The measures of a list: 'label'=value[UOM];[warn];[crit];[min];[max] (Nagios plugin guidelines)."""
    for what, moment in (('queue', one.oldest_queued), ('held', one.oldest_held)):
        value = max(0, int(now - moment)) if moment is not None else 0
        yield f"'{name} oldest {what}'={value}s;{LIMITS[what][0]};{LIMITS[what][1]};0;"
    for what, count in zip(COUNTS, one.counts):
        yield f"'{name} {what}'={count};;;0;"
    yield f"'{name} log'={one.log_bytes}B;;;0;"
    free, size = one.space[:2]
    yield f"'{name} free'={free}B;{size * LIMITS['disk'][0] // 100}:;{size * LIMITS['disk'][1] // 100}:;0;{size}"
