"""A list, the site that is made of it, and what is looked at in both."""

from __future__ import annotations

import contextlib
import dataclasses
import os
import pathlib
import shutil
import subprocess
import tempfile
from collections.abc import Iterator
from typing import Any

from ezmlm_site import making, settings

TOP = pathlib.Path(__file__).resolve().parent.parent.parent
LOCAL, HOST = 'cats', 'ex.org'
BEGAN = 1_000_000_000  # Sun, 09 Sep 2001 01:46:40 UTC
DAY = 86_400


class Wrong(Exception):
    """What is wrong with a case."""


class Skipped(Exception):
    """What a case lacks on this machine."""


def netstring(content: bytes) -> bytes:
    return b'%d:%b,' % (len(content), content)


def equal(what: str, found: object, wanted: object) -> None:
    """Wrong, unless two things are the same."""
    if found != wanted:
        raise Wrong(f'{what} is {shown(found)} and not {shown(wanted)}')


def holds(what: str, right: object) -> None:
    if not right:
        raise Wrong(what)


def shown(what: object) -> str:
    text = ascii(what)
    return text if len(text) < 600 else f'{text[:400]} .. {text[-150:]} ({len(text)} characters)'


def mail(subject: str = 'hello', body: str = 'hi\n', author: str = 'A B <a@b.net>', more: str = '') -> bytes:
    """A mail for the list."""
    return f'From: {author}\nTo: {LOCAL}@{HOST}\nSubject: {subject}\n{more}\n{body}'.encode()


def tree(folder: pathlib.Path) -> dict[str, bytes]:
    """All files below a folder, by their names."""
    return {str(path.relative_to(folder)): path.read_bytes() for path in sorted(folder.rglob('*')) if path.is_file()}


class World:
    """A list in a folder of its own, and a site of it."""

    def __init__(self, program: pathlib.Path) -> None:
        self.program = str(program)
        self.place = pathlib.Path(tempfile.mkdtemp(prefix='ezmlm-site.', dir='/dev/shm' if os.access('/dev/shm', os.W_OK) else None))
        self.list = self.place / 'list'
        self.web = self.place / 'web'
        self.count = 0
        self.site = settings.Site('cats', self.list, self.web, self.place / 'state', source=True)

    def close(self) -> None:
        shutil.rmtree(self.place, ignore_errors=True)

    def ask(self, *words: str, given: bytes = b'') -> bytes:
        done = subprocess.run([self.program, self.list, *words], input=given, stdout=subprocess.PIPE, check=False)
        holds(f'{words} ended with {done.returncode}: {done.stdout[-200:]!a}', done.returncode == 0)
        return done.stdout

    def make_list(self, *letters: str) -> None:
        self.ask('make', *letters, '--max', '16777216', '--key', '0' * 64, LOCAL, HOST, 'o@own.org')

    def post(self, *mails: bytes, moment: int | None = None, step: int = 60, sender: bytes = b'a@b.net') -> None:
        """Posts mails, each some seconds after the one before. Without a moment they go on after the last one."""
        stream = b''
        for place, raw in enumerate(mails):
            at = BEGAN + (self.count + place) * step if moment is None else moment + place * step
            stream += b'D' + b''.join(map(netstring, (b'0', b'%d' % at, sender, f'{LOCAL}@{HOST}'.encode(), raw)))
        answers = self.ask('spool', given=stream)
        holds(f'posts were answered {answers[-200:]!a}', answers.count(b' 0 posted ') == len(mails))
        self.count += len(mails)

    def set(self, **values: Any) -> None:
        self.site = dataclasses.replace(self.site, **values)

    def make(self, is_anew: bool = False) -> str:
        """A run of the site."""
        return making.Maker(self.program, self.site, is_anew, patience=30.0).run()

    def anew(self) -> dict[str, bytes]:
        """What a run over the list alone makes, elsewhere."""
        with self.elsewhere():
            self.make()
            return tree(self.web)

    @contextlib.contextmanager
    def elsewhere(self) -> Iterator[None]:
        """Another web folder and another state for a while."""
        kept = self.site, self.web
        place = pathlib.Path(tempfile.mkdtemp(prefix='else.', dir=self.place))
        self.web = place / 'web'
        self.set(web=self.web, state=place / 'state')
        try:
            yield
        finally:
            self.site, self.web = kept
            shutil.rmtree(place)

    def page(self, name: str) -> str:
        return (self.web / name).read_text(encoding='utf-8')
