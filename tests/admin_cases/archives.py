"""A list with an archive, what the program tells of it, and damages."""

import os
import pathlib
import shutil

from ezmlm_agent.program import netstrings

from .world import BEGIN, check, post

STEP = 90_000  # seconds between two posts: the archive has some months
SUBJECTS = b'topic one', b'Re: topic one', b'other', b'[cats] Topic  ONE', b'=?utf-8?q?h=C3=A9llo?=', b'Re[2]: other', b'fwd:', \
    b'a long subject,\n that is folded', b'caf\xc3\xa9 \xff'


def archive(world, name, posts, *letters):
    """A list of so many posts, whose files have the times at which the posts came, as on a list that was never copied."""
    local = name.rpartition('/')[2]
    folder = world.list_at(name, local, *letters)
    world.spool(name, *(post(number, b'u%d@b.net' % (number % 5), local.encode(), BEGIN + number * STEP, SUBJECTS[number % len(SUBJECTS)])
                        for number in range(1, posts + 1)))
    for number in range(1, posts + 1):
        os.utime(post_path(folder, number), (BEGIN + number * STEP,) * 2)
    return folder


def post_path(folder, number):
    return folder / f'archive/{number // 100}/{number % 100:02}'


def tree(folder):
    """The bytes of all files of the archive, and `num`. What an empty file says, an absent one says too."""
    files = [path for path in (folder / 'archive').rglob('*') if path.is_file()] + [folder / 'num']
    return {str(path.relative_to(folder)): path.read_bytes() for path in files if path.exists() and path.stat().st_size}


def told(world, name, posts):
    """What the program answers about the archive, by commands and by mail: its pages and mailbox, each post, thread and index."""
    copy = f'{name}.asked'
    shutil.copytree(world.place / name, world.place / copy, ignore=lambda folder, names: [n for n in names if n.startswith('archive.')])
    pages = world.answers(copy, 'pages', 'list')
    found = [pages, world.answers(copy, 'mbox', '1', '99999999')]
    for line in pages.splitlines():
        kind, which, _ = line.split(' ')
        found.append(world.answers(copy, 'pages', kind, which, '1'))
    asked = [f'get.1_{min(100, posts)}', f'get.{posts}', 'index.1', f'index.{posts}', *(f'thread.{n}' for n in range(1, min(posts, 12) + 1))]
    before = set(world.answers(copy, 'queue').splitlines())
    world.spool(copy, *((b'D', 0, BEGIN + 10**8, b'a@b', f'cats-{rest}@ex.org'.replace('cats', name).encode(), b'\n') for rest in asked))
    queued = [line.split(' ')[0] for line in world.answers(copy, 'queue').splitlines() if line not in before]
    check(len(queued) == len(asked), f'{len(queued)} answers to {len(asked)} questions')
    found += [netstrings(world.run(copy, 'out', entry)[1])[0] for entry in queued]
    shutil.rmtree(world.place / copy)
    return found


def turned(path: pathlib.Path, at, by=1):
    """Turns a byte of a file."""
    text = bytearray(path.read_bytes())
    text[at] ^= by
    path.write_bytes(text)


def cut(path: pathlib.Path, size):
    path.write_bytes(path.read_bytes()[:size])
