"""Runs that are killed before any one of their writes: the next run goes on, and a reader never meets half a page."""

from __future__ import annotations

import builtins
import functools
import os
import pathlib
import shutil
import signal
import sqlite3
import subprocess
import sys
from collections.abc import Callable
from typing import Any

from ezmlm_site import files, store

from .world import World, equal, holds, mail, tree

FILE = 'Content-Type: multipart/mixed; boundary=b\n'
BODY = '--b\n\ntext\n--b\nContent-Type: application/x-y; name=f.bin\n\nbytes\n--b--\n'


class Kill:
    """Kills this process before its k-th write."""

    def __init__(self, k: int) -> None:
        self.left = k

    def now(self) -> None:
        self.left -= 1
        if self.left <= 0:
            sys.stdout.flush()
            os.kill(os.getpid(), signal.SIGKILL)

    def before(self, call: Callable[..., Any]) -> Callable[..., Any]:
        def killing(*words: Any, **more: Any) -> Any:
            self.now()
            return call(*words, **more)
        return killing

    def opened(self, path: Any, mode: str = 'r', **more: Any) -> Any:
        """A file; one that is written is killed over when it is empty, and when it has half of its bytes."""
        file = builtins.open(path, mode, **more)
        if 'w' in mode:
            self.now()
            write = file.write

            class Half:
                def __enter__(half) -> Any:
                    return half

                def __exit__(half, *_: object) -> None:
                    file.close()

                def write(half, content: bytes) -> None:
                    write(content[:len(content) // 2])
                    file.flush()
                    self.now()
                    write(content[len(content) // 2:])
            return Half()
        return file

    def install(self) -> None:
        """Puts itself before each call that changes a file."""
        kill = self

        class Connection(sqlite3.Connection):
            def execute(self, words: str, *values: Any) -> Any:
                if words in ('COMMIT', 'BEGIN IMMEDIATE'):
                    kill.now()
                return super().execute(words, *values)
        for name in ('replace', 'unlink', 'mkdir', 'rmdir', 'chmod'):
            setattr(os, name, self.before(getattr(os, name)))
        setattr(files, 'open', self.opened)
        setattr(subprocess, 'run', self.before(subprocess.run))
        setattr(sqlite3, 'connect', functools.partial(sqlite3.connect, factory=Connection))


def killed(world: World, k: int) -> bool:
    """Whether a run in a process of its own was killed before its k-th write. A run of fewer writes ends by itself."""
    child = os.fork()
    if child == 0:
        status = 1
        try:
            Kill(k).install()
            world.make()
            status = 0
        finally:
            os._exit(status)
    _, status = os.waitpid(child, 0)
    holds(f'the run that was to be killed before write {k} ended with {status}', status == 0 or os.WIFSIGNALED(status))
    return status != 0


def whole(web: pathlib.Path, about: str) -> None:
    """Each page that a reader may ask for is whole."""
    for name, content in tree(web).items():
        if not name.startswith('.'):
            end = {'.html': b'</html>\n', '.xml': b'</feed>\n', '.css': b'}\n'}.get(pathlib.Path(name).suffix)
            holds(f'{about}: {name} is not whole', end is None or content.endswith(end))


def at_each_write(world: World, begin: pathlib.Path, wanted: dict[str, bytes], least: int) -> None:
    """Kills a run before each of its writes in turn, from one beginning, and lets the next run do the rest."""
    k = 0
    while True:
        k += 1
        shutil.rmtree(world.site.state, ignore_errors=True)
        shutil.rmtree(world.web, ignore_errors=True)
        if begin.exists():
            shutil.copytree(begin / 'web', world.web)
            shutil.copytree(begin / 'state', world.site.state)
        if not killed(world, k):
            break
        whole(world.web, f'killed before write {k}')
        world.make()
        after = tree(world.web)
        holds(f'killed before write {k}: {sorted(wanted.keys() ^ after.keys())} are other files', wanted.keys() == after.keys())
        for name, content in wanted.items():
            holds(f'killed before write {k}: {name} is another', after[name] == content)
        equal(f'killed before write {k}: what is still to be written', store.Store(world.site.state / 'cats.sqlite').marked(1), [])
        holds('a half file is left', not (world.web / files.NEW).exists())
    holds(f'there were {k} writes', k > least)


def case_killed_first(world: World) -> None:
    """The first run of a list, killed before each of its writes, twenty at least; the next run does the rest."""
    world.make_list()
    world.post(mail('one'), mail('file', BODY, more=FILE))
    world.make()
    at_each_write(world, world.place / 'none', tree(world.web), 20)


def case_killed_later(world: World) -> None:
    """A later run, over a new post, one that is left out and one that was, killed before each of its writes."""
    world.make_list()
    world.post(mail('one'), mail('file', BODY, more=FILE), mail('three'))
    world.set(left_out=frozenset({3}))
    world.make()
    begin = world.place / 'begin'
    begin.mkdir()
    shutil.copytree(world.web, begin / 'web')
    shutil.copytree(world.site.state, begin / 'state')
    world.post(mail('Re: one', BODY, more=FILE))
    world.set(left_out=frozenset({2}))
    at_each_write(world, begin, world.anew(), 20)


def case_killed_anew(world: World) -> None:
    """A run that makes all anew, since the settings are others, killed before each of its writes."""
    world.make_list()
    world.post(mail('one'), mail('file', BODY, more=FILE))
    world.make()
    begin = world.place / 'begin'
    begin.mkdir()
    shutil.copytree(world.web, begin / 'web')
    shutil.copytree(world.site.state, begin / 'state')
    (begin / 'web/9.html').write_bytes(b'stray</html>\n')
    world.set(title='Cats', addresses='hidden')
    at_each_write(world, begin, world.anew(), 20)
