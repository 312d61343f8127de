"""Makes a list anew beside another, from its posts, members, keys and configuration. The program makes all but the configuration and how far
the digests have come."""

from __future__ import annotations

import os
import pathlib
import re
import shutil
import subprocess
import threading
import time
from collections.abc import Iterator
from dataclasses import dataclass
from typing import BinaryIO

from ezmlm_agent import folder as folders
from ezmlm_agent import program as programs

from . import archive, files, texts
from .entries import GROUP, Entry
from .config import Configuration, configuration
from .lists import NO_LIST, REFUSED, SETS, MailingList, Refused, Said, below, content
from .options import sync, write

LARGEST_POST = 16_777_216
RUN = 100_000  # items of one run of the program
ANY = [re.compile(rb'(?:(?<=[\0\n])|\A)T([!-?A-~]+@[a-z0-9._-]+)\0' + rest) for rest in (rb'(0|[1-9][0-9]{0,11})\0', rb'()')]


@dataclass
class Kept:
    """What the new list gets: the configuration and its bytes, the key file's bytes, members as (set, address, moment), entries of the posts
    and the digests' mark; and what is to be said of them."""
    config: Configuration
    config_text: bytes
    key: bytes
    members: list[tuple[str, bytes, int]]
    entries: list[Entry]
    mark: bytes
    said: list[str]


def make(chosen: MailingList, place: pathlib.Path) -> Said:
    """Makes the list anew in a folder that isn't there yet."""
    if place.exists() or place.is_symlink():
        raise Refused(REFUSED, f'{place} is there already: name a folder that isn\'t')
    part = place.with_name(place.name + '.part')
    if part.exists():
        raise Refused(REFUSED, f'{part} is there, as an earlier run was stopped that made it: remove it')
    kept = chosen.read(gather)
    config = kept.config
    words = ['make', '-P', f'--max={LARGEST_POST}', '--key', (kept.key[32:64] or kept.key).hex(), '--',
             *(text.decode('ascii') for text in (config.local, config.host, config.owner))]
    words[2:2] = [f'--prefix={config.prefix.decode("ascii")}'] if config.prefix else []
    part.mkdir(0o700)
    try:
        started(chosen, part, words)
        spool(chosen, part, posts(chosen.folder, kept), kept)
        spool(chosen, part, others(kept), kept)
        status, line = finished(chosen, part, kept)
    except (Refused, OSError):
        shutil.rmtree(part)
        raise
    differ = [number for number in range(1, len(kept.entries) + 1) if not same(chosen.folder, part, number)]
    os.sync()
    os.rename(part, place)
    sync(place.parent)
    lines = [*kept.said, *(f'post {number}: it has other bytes than before' for number in differ),
             'held posts, the queue, bounces and the answers that were kept for numbers stay in the old folder', f'made {place}; check: {line}']
    return Said(lines, {'folder': str(place), 'posts': len(kept.entries), 'members': len(kept.members), 'said': kept.said, 'differ': differ,
                        'check': line}, status)


def gather(folder: pathlib.Path) -> Kept:
    """What is taken of the old list, while it stands still."""
    text = folders.bytes_or_none(folder / 'config') or b''
    config, said = content(folder, 'config', configuration), list[str]()
    key = folders.bytes_or_none(folder / 'key') or b''
    if len(key) not in (32, 72):
        said.append('key is damaged: the new list has a new one, so letters of confirmation that are under way are refused')
        key = os.urandom(32)
    last, now = archive.count(folder), int(time.time())
    entries: list[Entry] = []
    for group in range(last // GROUP + 1) if last else ():
        made = archive.index_of(folder / 'archive', group, last, entries[-1].moment if entries else 0, now)
        said += [f'post {number}: {one.said}' for number, one in enumerate(made, len(entries) + 1) if one.said]
        entries += [one.entry for one in made]
    members = [one for name in SETS for one in members_of(folder, name, said)]
    return Kept(config, text, key, members, entries, mark_of(folder, last, config.has('d'), said), said)


def members_of(folder: pathlib.Path, name: str, said: list[str]) -> Iterator[tuple[str, bytes, int]]:
    """The members of a set; of a bucket that is damaged those that can be told, which is said."""
    for place in files.bucket_names():
        path = f'{below(name)}subscribers/{place}'
        text = folders.bytes_or_none(folder / path) or b''
        try:
            found = files.members(text)
        except ValueError:
            layout = next((layout for layout in ANY if layout.search(text)), ANY[-1])
            there = {one[1].lower(): (one[1], int(one[2] or 0)) for one in layout.finditer(text)
                     if files.is_address(one[1]) and files.bucket(one[1]) == place}
            found = sorted(there.values())
            said.append(f'{path} is damaged: {texts.many(len(found), "member")} could be told: ' + ', '.join(texts.safe(one[0]) for one in found))
        yield from ((name, address, moment) for address, moment in found)


def mark_of(folder: pathlib.Path, last: int, has_digests: bool, said: list[str]) -> bytes:
    """How far the digests have come; if that can't be told, up to the last post."""
    try:
        mark, issue = files.pair(folders.bytes_or_none(folder / 'dig') or b'')
        if mark <= last and issue <= mark:
            return b'%d:%d\n' % (mark, issue)
    except ValueError:
        pass
    if has_digests:
        said.append(f'dig is damaged: the next digest begins after post {last}, and is issue 1')
    return b'%d:0\n' % last


def started(chosen: MailingList, part: pathlib.Path, words: list[str]) -> None:
    status, output = chosen.once(part, *words)
    if status:
        raise Refused(status, f'{part}: make says: {texts.safe(output.strip())}')


def posts(folder: pathlib.Path, kept: Kept) -> Iterator[tuple[bytes, str]]:
    """For each post the item that posts it, and then, as nobody is on the new list yet, the one that reports its entry of the queue; with
    what the answer has to be."""
    for number, entry in enumerate(kept.entries, 1):
        mail = texts.as_it_came((folder / 'archive' / archive.path_of(number)).read_bytes(), kept.config.local, kept.config.host)
        yield programs.item(b'D', 0, entry.moment, entry.sender, kept.config.address, mail), f'0 0 posted {number}'
        yield programs.item(b'S', 0, entry.moment, number), '0 0 dequeued'


def others(kept: Kept) -> Iterator[tuple[bytes, str]]:
    """The items that add the members, and change the key if it was changed."""
    for name, address, moment in kept.members:
        yield programs.item(b'A', 0, moment, name.encode('ascii'), address), '0 0 subscribed'
    if len(kept.key) == 72:
        yield programs.item(b'K', 0, int.from_bytes(kept.key[64:], 'big'), kept.key[:32].hex().encode('ascii')), '0 0 rekeyed'


def spool(chosen: MailingList, part: pathlib.Path, items: Iterator[tuple[bytes, str]], kept: Kept) -> None:
    """Gives the new list items, and looks whether each is answered as it has to be."""
    is_more = True
    while is_more:
        wanted: list[str] = []
        with subprocess.Popen([chosen.program.path, '.', 'spool'], cwd=part, stdin=subprocess.PIPE, stdout=subprocess.PIPE) as run:
            assert run.stdin is not None and run.stdout is not None
            feeding = threading.Thread(target=feed, args=(run.stdin, items, wanted))
            feeding.start()
            answers = [line.rstrip(b'\n').decode('ascii', 'replace') for line in run.stdout]
            feeding.join()
        wrong = next((at for at, (one, answer) in enumerate(zip([*wanted, ''], [*answers, ''])) if one != answer), None)
        if wrong is not None or len(wanted) != len(answers):
            raise Refused(NO_LIST, f'{chosen.folder}: {place_of(wanted, wrong or 0)}, the new list answered {answers[wrong or 0:][:1]}: '
                                   'nothing was made')
        is_more = len(wanted) == RUN


def place_of(wanted: list[str], at: int) -> str:
    return f'in place of {wanted[at]!r}' if at < len(wanted) else 'after the last item'


def feed(to: BinaryIO, items: Iterator[tuple[bytes, str]], wanted: list[str]) -> None:
    """Writes as many items as one run has, and notes what their answers have to be."""
    try:
        with to:
            while len(wanted) < RUN and (one := next(items, None)) is not None:
                wanted.append(one[1])
                to.write(one[0])
    except BrokenPipeError:
        pass  # The run ended, and its last line says why.


def finished(chosen: MailingList, part: pathlib.Path, kept: Kept) -> tuple[int, str]:
    """Lays the configuration and the digests' mark in, and answers what `check` says."""
    write(part / 'config', kept.config_text)
    write(part / 'dig', kept.mark)
    return MailingList(part, chosen.program.path).check()


def same(folder: pathlib.Path, part: pathlib.Path, number: int) -> bool:
    path = pathlib.Path('archive') / archive.path_of(number)
    return (folder / path).read_bytes() == (part / path).read_bytes()
