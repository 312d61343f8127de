"""A list that several hosts have is changed by its history alone, which each host's agent follows: what would change one copy goes there, or is
refused."""

from __future__ import annotations

import os
import pathlib
import subprocess
import sys
import tempfile

import ezmlm_agent
from ezmlm_agent import program as programs
from ezmlm_agent import settings

from . import texts
from .lists import MEMORY, REFUSED, MailingList, Refused

MARK = 'history'  # the file of a list's folder in which the agent keeps the hashes of what its copy was given


def settings_of(chosen: MailingList) -> pathlib.Path | None:
    """The agent's settings by which a list has a history, or None if it has none. It is Refused if the list has one, and they don't name it."""
    try:
        found = settings.read(str(chosen.settings)) if chosen.settings.exists() else None
    except ValueError as error:
        raise Refused(MEMORY, f'{error}; by these settings it is told whether other hosts have the list too') from error
    if found is not None and found.history and found.lists.resolve() == chosen.folder.resolve().parent:
        return chosen.settings
    if (chosen.folder / MARK).exists():
        raise Refused(REFUSED, f'{chosen.folder}: other hosts have this list too, as its file {MARK} says, and a change of one copy would put this host '
                               f'out of service: name the settings of its agent by --agent (not {chosen.settings}); or, if it is this host\'s '
                               f'alone now, remove the file {MARK}')
    return None


def agent(word: str, path: pathlib.Path, *words: str, given: bytes = b'') -> tuple[int, str]:
    """The status of what the agent is asked, and what it prints."""
    top = pathlib.Path(ezmlm_agent.__file__).resolve().parent.parent
    done = subprocess.run([sys.executable, '-P', '-m', 'ezmlm_agent', word, str(path), *words], input=given, stdout=subprocess.PIPE,
                          stderr=subprocess.PIPE, env={**os.environ, 'PYTHONPATH': str(top)}, check=False)
    return done.returncode, (done.stdout or done.stderr).decode('utf-8', 'backslashreplace').strip('\n')


def deliver(chosen: MailingList, moment: int, sender: str, recipient: str, mail: bytes) -> tuple[int, str]:
    """The status and the line by which a list answers a mail: its own, or that of all hosts that have it."""
    path = settings_of(chosen)
    if path is None:
        return chosen.run('deliver', '0', sender, recipient, given=mail)
    item = programs.item(b'D', 0, moment, sender.encode(), recipient.encode(), mail)
    status, text = agent('--give', path, chosen.folder.resolve().name, given=item)
    if status:
        raise Refused(status, f'{chosen.folder}: {texts.safe(text)}')
    line = text.split('\n')[-1]
    return int(line.split(' ', 2)[1]), line


def configure(chosen: MailingList, path: pathlib.Path, config: bytes) -> None:
    """Gives all hosts a configuration."""
    with tempfile.NamedTemporaryFile(prefix='ezmlm-admin.') as file:
        file.write(config)
        file.flush()
        status, text = agent('--configure', path, chosen.folder.resolve().name, file.name)
    if status:
        raise Refused(status, f'{chosen.folder}: {texts.safe(text)}')


def refuse(chosen: MailingList, what: str) -> None:
    """What changes one copy by its files alone is Refused if several hosts have the list."""
    if settings_of(chosen) is not None:
        raise Refused(REFUSED, f'{chosen.folder}: other hosts have this list too, and {what} would change this host\'s copy alone: give this host the '
                               'copy of another one by ezmlm-agent --take-copy')
