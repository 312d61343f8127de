"""scrub: whether a list's files are still what they were, except for what runs of the program wrote."""

from __future__ import annotations

import dataclasses
import pathlib
import time
from collections.abc import Iterator, Sequence

from . import changes, monitoring, sums, texts
from .changes import Change, Scrubbed
from .lists import DISK, NO_LIST, USAGE, MailingList, Refused, Said
from .sums import Ended, Row

HELD = 0.2    # seconds for which the list is held at a time; it may be longer by one file
PAUSE = 0.1   # seconds between two of these: who waits for the list looks every 0.05 seconds
WAIT = 60     # seconds for which a list is waited for


def one(chosen: MailingList, copy: pathlib.Path | None, anew: bool) -> Scrubbed:
    """Looks at all files of a list, holding it for a moment each time, and writes its sums anew."""
    seen, folder = Scrubbed(int(time.time())), chosen.folder
    chosen.wait = float(WAIT)
    try:
        writer = sums.Writer(folder)
    except BlockingIOError as error:
        raise Refused(DISK, f'{folder}: another scrub is at it') from error
    try:
        if not anew and not sums.is_whole(folder):
            seen.changes.append(Change(sums.NAME, None, 'the sums themselves', 'are damaged, and are taken anew'))
            anew = True
        left = changes.merged(folder, iter(()) if anew else sums.rows(folder))
        while chosen.settled(lambda folder: piece(folder, left, seen, copy, writer)):
            time.sleep(PAUSE)
        writer.end(Ended(seen.began, int(time.time()), seen.left()))
    finally:
        writer.close()
    return seen


def piece(folder: pathlib.Path, left: Iterator[tuple[str, Row | None]], seen: Scrubbed, copy: pathlib.Path | None, writer: sums.Writer) -> bool:
    """Looks at files for as long as the list is held at a time. Whether there are more."""
    end = time.monotonic() + HELD
    for path, row in left:
        if (new := changes.look(folder, path, row, seen, copy)) is not None:
            writer.add(new)
        if time.monotonic() >= end:
            return True
    return False


def asked(words: Sequence[str]) -> tuple[list[str], pathlib.Path | None, bool]:
    """The folders, the copy to repair from, and whether all files are to be taken as they are."""
    lists, copy, anew, left = [], None, False, list(words)
    while left:
        match left.pop(0):
            case '--anew':
                anew = True
            case '--repair' if left:
                copy = pathlib.Path(left.pop(0))
            case word if word.startswith('-'):
                raise Refused(USAGE, f'scrub: {texts.safe(word)} is none of its words')
            case word:
                lists.append(word)
    if copy is not None and (anew or len(lists) != 1):
        raise Refused(USAGE, 'scrub: --repair goes with one list, and not with --anew')
    if copy is not None and not (copy / 'config').is_file():
        raise Refused(NO_LIST, f'{copy}: there is no list here, as it has no file config')
    return lists, copy, anew


def told(chosen: MailingList, seen: Scrubbed) -> list[str]:
    """What is said of a list: each file that isn't right, and how many there are."""
    name = texts.safe(chosen.folder.name or str(chosen.folder))
    fresh = f', {seen.fresh} of them too new for a sum' if seen.fresh else ''
    last = f'{texts.many(seen.left(), "file")} changed without a run' if seen.left() else 'nothing changed without a run'
    return [f'{name}: {change.line()}' for change in seen.changes] + \
        [f'{name}: {texts.many(seen.files, "file")} of {seen.bytes} bytes{fresh}: {last}']


def scrub(words: Sequence[str], program: str, wait: float) -> Said:
    """Looks at the files of lists, and tells what changed without a run. A list that can't be looked at keeps none of the others from it."""
    found, copy, anew = asked(words)
    if not found:
        raise Refused(USAGE, 'usage: ezmlm-admin scrub [--anew] [--repair COPY] LISTS ..')
    lines: list[str] = []
    data, statuses, paths = [], [0], monitoring.lists_of(found)
    for path in paths:
        try:
            chosen = MailingList(path, program)
            seen = one(chosen, copy, anew)
        except Refused as error:
            if len(paths) == 1:
                raise
            statuses.append(error.status)
            lines.append(f'{texts.safe(path.name)}: {error}')
            data.append({'folder': str(path), 'status': error.status, 'why': str(error)})
            continue
        statuses.append(NO_LIST if seen.left() else 0)
        lines += told(chosen, seen)
        data.append({'folder': str(path), 'status': statuses[-1], 'files': seen.files, 'bytes': seen.bytes, 'fresh': seen.fresh,
                     'changes': [dataclasses.asdict(change) for change in seen.changes]})
    return Said(lines, data, max(statuses))
