"""A folder with lists, the program, and ezmlm-admin run as a command."""

import contextlib
import email.utils
import fcntl
import os
import pathlib
import shutil
import subprocess
import tempfile

from ezmlm_agent.program import item

TOP = pathlib.Path(__file__).resolve().parent.parent.parent
TOOL = TOP / 'admin/ezmlm-admin'
KEY = '07' * 32
BEGIN = 1_700_000_000  # 2023-11-14 22:13:20 UTC
IS_UNPROVED = bool(os.environ.get('UNPROVED'))  # tests/quick says so: then a run of the program takes much longer


class Wrong(Exception):
    """What is asked of a case doesn't hold."""


class Skipped(Exception):
    """Why a case can't be tried here."""


def check(holds, what):
    if not holds:
        raise Wrong(what)


def same(found, wanted, what):
    check(found == wanted, f'{what}: {found!r}, and not {wanted!r}')


def holds(text, part, what):
    check(part in text, f'{what}: {text[:600]!r} has no {part!r}')


def some(places, seldom):
    """All of these places, or over a program that was built without proof one of so many."""
    return places[::seldom] if IS_UNPROVED else places


class World:
    """A scratch folder. `note` is said beside the case's name."""

    def __init__(self, program):
        self.program, self.note = program, ''
        self.place = pathlib.Path(tempfile.mkdtemp(prefix='ezmlm-admin.', dir='/dev/shm' if os.access('/dev/shm', os.W_OK) else None))

    def close(self):
        shutil.rmtree(self.place)

    def run(self, name, *words, given=b''):
        """The status and the output of the program on a list."""
        done = subprocess.run([self.program, self.place / name, *words], input=given, stdout=subprocess.PIPE)
        return done.returncode, done.stdout

    def answers(self, name, *words, given=b''):
        """The output of the program, which has to end with 0."""
        status, output = self.run(name, *words, given=given)
        same(status, 0, f'{name} {words}: {output[-200:]!r}')
        return output.decode('utf-8', 'surrogateescape')

    def list(self, name='cats', *letters):
        """Makes the list NAME@ex.org."""
        return self.list_at(name, name, *letters)

    def list_at(self, folder, local, *letters):
        """Makes the list LOCAL@ex.org in a folder, and answers its path."""
        self.answers(folder, 'make', *letters, '--key', KEY, local, 'ex.org', 'o@own.org')
        return self.place / folder

    def spool(self, name, *items):
        """Gives a list items, each as its letter and elements, and answers the lines."""
        return self.answers(name, 'spool', given=b''.join(item(*one) for one in items)).splitlines()

    def whole(self, name='cats'):
        """The line of `check`, which has to be `ok`."""
        line = self.answers(name, 'check').rstrip('\n')
        check(line.startswith('ok '), f'check: {line}')
        return line

    def admin(self, *words, status=0, given=b'', **more):
        """What ezmlm-admin prints, which has to end with this status, and what it writes to standard error if that isn't 0."""
        done = self.admin_run(*words, given=given, **more)
        out, err = done.stdout.decode(), done.stderr.decode()
        same(done.returncode, status, f'ezmlm-admin {words}: {out[-300:]!r} {err[-300:]!r}')
        check('Traceback' not in err, err)
        return err if err else out

    def admin_run(self, *words, given=b'', user=None):
        return subprocess.run([TOOL, '--program', self.program, *words], cwd=self.place, input=given, stdout=subprocess.PIPE,
                              stderr=subprocess.PIPE, user=user)


@contextlib.contextmanager
def held(folder):
    """Has a list as a run of the program has it."""
    with open(folder / 'lock', 'a', encoding='ascii') as lock:
        fcntl.flock(lock, fcntl.LOCK_EX)
        yield lock


def post(number, sender=b'u@b.net', to=b'cats', moment=BEGIN, subject=b'topic', more=b''):
    """The item of a post, whose Date and From are the item's moment and sender."""
    date = email.utils.formatdate(moment).encode()
    mail = b'From: <%b>\nTo: %b@ex.org\nDate: %b\nSubject: %b\n%b\npost %d\n' % (sender, to, date, subject, more, number)
    return b'D', 0, moment, sender, to + b'@ex.org', mail
