"""Lays an archive that was written anew in the place of the old one, so that a stop at any moment leaves the old one, the new one, or a list
without `num`, which takes no post, which `check` names, and which the next `rebuild` ends."""

from __future__ import annotations

import os
import pathlib
import shutil
import time

from . import anew, archive, shared, texts
from .archive import Written
from .config import configuration
from .lists import NO_LIST, MailingList, Refused, Said, content
from .options import sync

NEW, NEW_NUM, OLD = 'archive.new', 'num.new', 'archive.old'
PROMISE = 'ezmlm-admin wrote these files, and not the program: from now on what is promised of the list rests on what check says'


def rebuild(chosen: MailingList, *other: str) -> Said:
    """Writes `num`, the indexes and the thread files anew from the posts; or, with a folder, makes the list anew there."""
    if other:
        return anew.make(chosen, pathlib.Path(other[0]))
    shared.refuse(chosen, 'rebuild')
    chosen.settled(recover)
    status, line = chosen.check()
    if status == 0:
        return Said([f'nothing is to be rebuilt: check says {line}'], {'posts': None, 'said': [], 'changed': [], 'old': None, 'check': line})
    if status != NO_LIST:
        raise Refused(status, f'{chosen.folder}: check says: {line}')
    old, written = chosen.read(lambda folder: lay(folder, time.time()))
    status, line = chosen.check()
    data = {'posts': written.posts, 'said': [{'post': number, 'what': what} for number, what in written.said], 'changed': written.changed,
            'old': old, 'check': line}
    return Said([*told(written, old), f'check: {line}'], data, status)


def told(written: Written, old: str | None) -> list[str]:
    """What was done."""
    if old is None:
        return [f'num, the indexes and the thread files are as {texts.many(written.posts, "post")} have them: nothing was written']
    lines = [f'post {number}: {texts.safe(what)}' for number, what in written.said]
    lines += [f'written anew: {name}' for name in written.changed]
    return [*lines, f'{texts.many(written.posts, "post")}; what was there before is in {old}', PROMISE]


def lay(folder: pathlib.Path, moment: float) -> tuple[str | None, Written]:
    """Writes the archive anew and lays it in, while the list stands still. The name is that of the folder with the old one, or None if
    nothing was to be changed."""
    config = content(folder, 'config', configuration)
    last = archive.count(folder)
    try:
        written = archive.write(folder, last, config.prefix, folder / NEW, int(moment))
        (folder / NEW_NUM).write_bytes(b'%d\n' % last)
    except OSError:  # As on a full disk: then nothing was changed, and the room is given back.
        clear(folder)
        raise
    if not (folder / 'num').is_file() or (folder / 'num').read_bytes() != b'%d\n' % last:
        written.changed.append('num')
    if not written.changed:
        clear(folder)
        return None, written
    os.sync()
    take_away(folder)
    return put_in(folder), written


def take_away(folder: pathlib.Path) -> None:
    """Moves `num` and the archive into a folder beside them. `num` goes first and comes last, as no post is taken without it."""
    old = folder / OLD
    old.mkdir()
    sync(folder)
    for name in ('num', 'archive'):
        if (folder / name).exists():
            move(folder / name, old / name)
    move(folder / NEW, folder / 'archive')


def put_in(folder: pathlib.Path) -> str:
    """Gives the new archive its `num`, and the folder with the old one the name that it keeps, which is answered."""
    if (folder / NEW_NUM).exists():
        move(folder / NEW_NUM, folder / 'num')
    moment = time.time()
    while (kept := folder / time.strftime(f'{OLD}-%Y-%m-%d-%H%M%S', time.gmtime(moment))).exists():
        moment += 1
    move(folder / OLD, kept)
    return kept.name


def move(path: pathlib.Path, to: pathlib.Path) -> None:
    """Renames a file or a folder, and brings that to the disk."""
    os.rename(path, to)
    sync(to.parent)
    sync(path.parent)


def recover(folder: pathlib.Path) -> None:
    """Ends what a stopped `rebuild` began: the old archive comes back, unless the new one was in its place already."""
    old = folder / OLD
    if old.exists() and (folder / 'archive').exists() and not (folder / NEW).exists():
        put_in(folder)
    elif old.exists():
        for name in ('archive', 'num'):
            if (old / name).exists():
                move(old / name, folder / name)
        old.rmdir()
    clear(folder)


def clear(folder: pathlib.Path) -> None:
    """Removes what was written and not laid in."""
    (folder / NEW_NUM).unlink(missing_ok=True)
    if (folder / NEW).exists():
        shutil.rmtree(folder / NEW)
    sync(folder)
