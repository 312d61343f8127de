"""Mail of other projects' tests, which Debian has: bounces, notices of delay and automatic answers as real systems send them."""

import os
import pathlib
import shutil
import subprocess
import tempfile

import needed

PACKAGE = 'python3-flufl.bounce'                     # has its test data
SOURCE = 'libmail-deliverystatus-bounceparser-perl'  # has them in its source alone
LONGEST = 120  # seconds for one of apt's commands
DATA = 'usr/lib/python3/dist-packages/flufl/bounce/tests/data'


class Absent(Exception):
    """Why a corpus can't be had."""


def asked(folder, *words):
    try:
        subprocess.run(words, cwd=folder, capture_output=True, text=True, timeout=LONGEST, check=True)
    except (OSError, subprocess.SubprocessError) as error:
        why = (getattr(error, 'stderr', None) or str(error)).strip().splitlines()
        raise Absent(f'{" ".join(words[:2])}: {why[-1] if why else error}') from error


def flufl(folder):
    """The mails of flufl.bounce, by their files' names. If it isn't installed it is fetched."""
    if needed.is_here(PACKAGE):
        return pathlib.Path('/', DATA).glob('*.txt')
    asked(folder, 'apt-get', 'download', PACKAGE)
    asked(folder, 'dpkg-deb', '-x', next(folder.glob('*.deb')), 'flufl')
    return (folder / 'flufl' / DATA).glob('*.txt')


def bounceparser(folder):
    """The mails of Mail::DeliveryStatus::BounceParser. If apt knows no sources it is asked for Debian's in a folder of its own."""
    release = dict(line.split('=', 1) for line in pathlib.Path('/etc/os-release').read_text().splitlines() if '=' in line)
    keys = pathlib.Path('/usr/share/keyrings/debian-archive-keyring.gpg')
    if 'VERSION_CODENAME' not in release or not keys.exists():
        raise Absent('this is no Debian')
    (folder / 'lists/partial').mkdir(parents=True)
    (folder / 'debian.sources').write_text('Types: deb-src\nURIs: http://deb.debian.org/debian\nComponents: main\n'
                                           f'Suites: {release["VERSION_CODENAME"]}\nSigned-By: {keys}\n')
    apt = ['apt-get', '-q', '-o', f'Dir::Etc::sourcelist={folder}/debian.sources', '-o', 'Dir::Etc::sourceparts=/dev/null',
           '-o', f'Dir::State::lists={folder}/lists']
    asked(folder, *apt, 'update')
    asked(folder, *apt, 'source', '--download-only', '--tar-only', SOURCE)
    asked(folder, 'tar', '-xf', next(folder.glob(f'{SOURCE}_*.orig.tar.*')))
    return folder.glob('*/t/corpus/*.msg')


def mails(name, fetch):
    """The mails of a corpus by their names. What was fetched once is kept in the user's cache."""
    cache = pathlib.Path(os.environ.get('XDG_CACHE_HOME') or pathlib.Path.home() / '.cache') / 'ezmlm-corpora' / name
    if not cache.is_dir():
        with tempfile.TemporaryDirectory(prefix='ezmlm-corpora.') as place:
            found = list(fetch(pathlib.Path(place)))
            kept = cache.with_name(f'{name}.{os.getpid()}')
            kept.mkdir(parents=True)
            for path in found:
                shutil.copy(path, kept)
            kept.rename(cache)
    return {path.name: path.read_bytes() for path in cache.iterdir()}
