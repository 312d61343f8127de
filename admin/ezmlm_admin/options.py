"""Options of a list, and their change."""

from __future__ import annotations

import os
import pathlib
import shlex
import tempfile

from . import files, shared, texts
from .config import LETTERS, Configuration, configuration
from .lists import NO_LIST, REFUSED, MailingList, Refused, Said, content
from .wanted import Asked, asked, unnamed, words_of

MEANINGS = {
    'b': 'the archive is for moderators alone',
    'd': 'there are digests',
    'f': 'subjects are marked with the prefix',
    'g': 'the archive is for subscribers alone',
    'h': 'whoever subscribes himself need not confirm it',
    'j': 'whoever unsubscribes himself need not confirm it',
    'k': 'whoever is in the set deny may not post',
    'l': 'moderators may list the subscribers',
    'm': 'posts are moderated',
    'p': 'the list is public',
    'r': 'moderators may administer the list by mail',
    's': 'subscriptions are moderated',
    't': 'posts get a trailer',
    'u': 'only those who are known to the list may post',
}
# All that `check` reads except the configuration and the log.
PARTS = 'key', 'subscribers', 'digest', 'allow', 'deny', 'mod', 'counts', 'archive', 'num', 'dig', 'pending', 'tickets', 'bounce', 'queue', \
    'ids', 'done', 'floor'


def told(config: Configuration) -> Said:
    """The options in words."""
    lines = [f'list    {texts.safe(config.address)}', f'owner   {texts.safe(config.owner)}', f'prefix  {texts.safe(config.prefix)}'.rstrip(),
             f'max     {config.most} bytes a post']
    lines += [f'{letter} {"yes" if config.has(letter) else "no ":<3}   {MEANINGS[letter]}' for letter in LETTERS]
    lines.append(f'words   {shlex.join(words_of(config))}')
    return Said(lines, data(config))


def data(config: Configuration) -> dict[str, object]:
    return {'list': texts.exact(config.address), 'owner': texts.exact(config.owner), 'prefix': texts.exact(config.prefix),
            'max': config.most, 'options': {letter: config.has(letter) for letter in LETTERS}, 'words': words_of(config)}


def options(chosen: MailingList, *words: str) -> Said:
    """Tells the options, or changes single ones, or all to what `make` would write of these words."""
    if not words:
        return told(chosen.configuration())
    wanted = asked(list(words))
    status, before = chosen.check()
    if status:
        raise Refused(status, f'{chosen.folder}: the options of a list that isn\'t whole stay: check says: {before}')
    if (path := shared.settings_of(chosen)) is not None:
        with tempfile.TemporaryDirectory(prefix='ezmlm-admin.') as scratch:
            old = chosen.configuration()
            text, new = chosen.read(lambda folder: tried(folder, pathlib.Path(scratch), chosen, wanted))
        shared.configure(chosen, path, text)
        return changed(old, new, f'{before}; each host lays the options in before the next item')
    former, old, new = chosen.read(lambda folder: change(folder, chosen, wanted))
    status, after = chosen.check()
    if status == NO_LIST:  # It was tried before, so this can't be, unless somebody else wrote into the folder.
        chosen.settled(lambda folder: write(folder / 'config', former))
        raise Refused(status, f'{chosen.folder}: check says {after}, so the former options are back')
    return changed(old, new, after)


def change(folder: pathlib.Path, chosen: MailingList, wanted: Asked) -> tuple[bytes, Configuration, Configuration]:
    """Lays the new configuration in, while the list stands still, if `check` takes it and nobody is shut out by it. The former one's bytes,
    and both."""
    old_text, old = (folder / 'config').read_bytes(), content(folder, 'config', configuration)
    with tempfile.TemporaryDirectory(prefix='ezmlm-admin.') as scratch:
        made_text, new = tried(folder, pathlib.Path(scratch), chosen, wanted)
    if made_text != old_text:
        write(folder / 'config.old', old_text)
        write(folder / 'config', made_text)
    return old_text, old, new


def tried(folder: pathlib.Path, place: pathlib.Path, chosen: MailingList, wanted: Asked) -> tuple[bytes, Configuration]:
    """The new configuration, if `check` takes it and nobody is shut out by it. `place` is an empty folder."""
    old = content(folder, 'config', configuration)
    made_text = made(place / 'made', chosen, old, wanted)
    new = configuration(made_text)
    if not wanted.anyway and (lost := unnamed(old, new, wanted)):
        raise Refused(REFUSED, f'{", ".join(lost)} would be lost, as {"it isn" if len(lost) == 1 else "they aren"}\'t named: +LETTERS changes single '
                               'ones and leaves all others (+d sets d, +D clears it); --anyway does it')
    moderators = content(folder, 'counts/mod', files.count)
    if turned_on := [letter for letter in 'ms' if new.has(letter) and not old.has(letter)]:
        if not moderators and not wanted.anyway:
            raise Refused(REFUSED, f'-{turned_on[0]} asks the moderators, and the list has none: first ezmlm {folder} sub 0 mod ADDRESS '
                                   '(or say --anyway)')
    status, line = checked(place / 'tried', folder, made_text, chosen)
    if status:
        raise Refused(REFUSED, reason(old, new, line))
    return made_text, new


def made(scratch: pathlib.Path, chosen: MailingList, old: Configuration, wanted: Asked) -> bytes:
    """The configuration that the program's `make` writes of these words, in a folder of its own."""
    scratch.mkdir()
    local, host, owner = (text.decode('ascii') for text in (old.local, old.host, old.owner))
    values = local, host, wanted.values.get('--owner', owner)
    status, output = chosen.once(scratch, 'make', *wanted.words(old), '--key', '0' * 64, '--', *values)
    if status:
        line = texts.safe(output.strip(b'\n'))
        raise Refused(status, f'make refuses these words: {line} (each letter once; 1 to 62 bytes of --prefix; 1 to 16777216 for --max; an '
                              'address for --owner, and none of the list\'s own)')
    return (scratch / 'config').read_bytes()


def checked(scratch: pathlib.Path, folder: pathlib.Path, config: bytes, chosen: MailingList) -> tuple[int, str]:
    """What `check` says of the list's files under another configuration. It reads them by links, and changes nothing: its log and its lock
    are new."""
    scratch.mkdir()
    (scratch / 'config').write_bytes(config)
    for name in PARTS:
        if (folder / name).exists():
            (scratch / name).symlink_to((folder / name).resolve())
    status, output = chosen.once(scratch, 'check')
    return status, texts.safe(output.strip(b'\n')).removeprefix('- ')


def reason(old: Configuration, new: Configuration, line: str) -> str:
    """Why a configuration that `check` doesn't take is refused."""
    if old.prefix != new.prefix and 'archive/threads' in line:
        by = f'by {texts.safe(old.prefix)}' if old.prefix else 'without one'
        keep = '; keep it by ' + shlex.join(['--prefix=' + old.prefix.decode('ascii')]) if old.prefix else ''
        return (f'the prefix would become {texts.safe(new.prefix) or "empty"}, and the threads of the posts that are there are made {by} '
                f'(check would say: {line}){keep}')
    return f'check would say: {line}'


def write(path: pathlib.Path, text: bytes) -> None:
    """Replaces a file, or makes a new one, in one step, and on the disk."""
    new = path.with_name(path.name + '.new')
    with open(os.open(new, os.O_WRONLY | os.O_CREAT | os.O_TRUNC, 0o600), 'wb') as file:
        file.write(text)
        file.flush()
        os.fsync(file.fileno())
    os.replace(new, path)
    sync(path.parent)


def sync(folder: pathlib.Path) -> None:
    """Brings the names in a folder to the disk."""
    opened = os.open(folder, os.O_RDONLY | os.O_DIRECTORY)
    try:
        os.fsync(opened)
    finally:
        os.close(opened)


def changed(old: Configuration, new: Configuration, line: str) -> Said:
    """What was changed, and what the list's keeper may not expect of it."""
    before, after = data(old), data(new)
    lines = [f'{name}: {texts.safe(str(before[name]))} -> {texts.safe(str(after[name]))}' for name in ('owner', 'prefix', 'max')
             if before[name] != after[name]]
    lines += [f'{letter}: {"now" if new.has(letter) else "no longer"} {MEANINGS[letter]}' for letter in LETTERS
              if new.has(letter) != old.has(letter)]
    if lines:
        lines.append('the former ones are in config.old')
    posts = line.split(' ')[1] if line.startswith('ok ') else '0'
    if new.has('d') and not old.has('d') and posts != '0':
        lines.append('the digests begin where they were left: see ezmlm-admin digest. Each timed run makes one of at most 100 posts')
    lines = lines or ['the options are as they were']
    return Said([*lines, f'check: {line}'], {'was': before, 'is': after, 'check': line})


