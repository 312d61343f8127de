"""Files of the web folder: each is whole at every moment, and one that would stay the same isn't touched."""

from __future__ import annotations

import contextlib
import os
import pathlib
import re
import subprocess

from . import message

NEW = '.ezmlm-site.new'
# The endings that a file of a stranger's may have: no server runs these kinds, and no browser shows them as a page. Any other becomes `bin`.
KINDS = frozenset('png jpg jpeg gif webp pdf txt log patch diff csv zip gz bz2 xz zst tar ics vcf asc sig odt ods odp mp3 ogg mp4 bin'.split())
SAFE_NAME = re.compile(r'[1-9][0-9]{0,2}-[A-Za-z0-9_-]{1,60}\.[a-z0-9]{2,5}', re.ASCII)
POST = re.compile(r'([1-9][0-9]{0,7})\.(html|eml)', re.ASCII)
MONTH = re.compile(r'([0-9]{4}-[0-9]{2})(?:-([1-9][0-9]{0,6}))?\.html', re.ASCII)
THREAD = re.compile(r'([1-9][0-9]{0,7})(?:-([1-9][0-9]{0,6}))?\.html', re.ASCII)
FOLDER = re.compile('[1-9][0-9]{0,7}', re.ASCII)


class Web:
    """The folder that a web server serves."""

    def __init__(self, folder: pathlib.Path, within: tuple[str, ...] = ('thread',)) -> None:
        """Makes the folder, and those within it."""
        self.folder = folder
        self.root = str(folder)
        self.new = os.path.join(self.root, NEW)
        folder.mkdir(parents=True, exist_ok=True)
        for name in within:
            (folder / name).mkdir(exist_ok=True)

    def put(self, name: str, content: bytes) -> bool:
        """Gives a file bytes, by rename, unless it has them. The answer is whether it hadn't."""
        path = os.path.join(self.root, name)
        try:
            with open(path, 'rb') as file:
                if os.fstat(file.fileno()).st_size == len(content) and file.read() == content:
                    return False
        except FileNotFoundError:
            pass
        with open(self.new, 'wb') as file:
            file.write(content)
        os.replace(self.new, path)
        return True

    def remove(self, name: str) -> None:
        with contextlib.suppress(FileNotFoundError):
            os.unlink(os.path.join(self.root, name))

    def put_attachments(self, n: int, attachments: dict[str, bytes]) -> None:
        """Makes the folder of a post have these files and no other. Without any there is none."""
        folder = os.path.join(self.root, str(n))
        found = os.listdir(folder) if os.path.isdir(folder) else None
        if attachments and found is None:
            os.mkdir(folder)
        for name in set(found or ()) - attachments.keys():
            self.remove(f'{n}/{name}')
        for name, content in attachments.items():
            self.put(f'{n}/{name}', content)
        if found is not None and not attachments:
            os.rmdir(folder)

    def clear(self) -> None:
        """Removes what a run that was killed left half written."""
        self.remove(NEW)


def is_site(folder: pathlib.Path) -> bool:
    """Whether a folder has what each site has, so that nobody else's pages are removed. The style goes last of all when a site is removed."""
    return (folder / 'style.css').is_file() and (folder / 'thread').is_dir()


def settle(folder: pathlib.Path) -> None:
    """Brings to the disk what was written to the file system of a folder."""
    subprocess.run(['sync', '-f', str(folder)], check=True)


def safe_names(attachments: list[message.Attachment]) -> list[str]:
    """Names of files for attachments: K-STEM.KIND, so that none is run or shown by its name, whatever the sender called it."""
    return [safe_name(k, attachment.name) for k, attachment in enumerate(attachments, 1)]


def safe_name(k: int, name: str) -> str:
    """The name of the file of the k-th attachment. It has one dot, since some servers look at each ending of a name with several."""
    stem, _, kind = last_part(name).rstrip('. ').rpartition('.')
    if not stem or kind.lower() not in KINDS:
        stem, kind = last_part(name), 'bin'
    stem = re.sub('[^A-Za-z0-9-]+', '_', stem)[:60].strip('_') or 'file'
    name = f'{k}-{stem}.{kind.lower()}'
    if not SAFE_NAME.fullmatch(name):
        raise ValueError(f'{name!a} is no name of a file')
    return name


def last_part(name: str) -> str:
    """A name without the folders that stand before it."""
    return re.split(r'[/\\]', name)[-1]


def kept_name(name: str) -> str:
    """The name under which a browser is told to keep a file: the sender's, without folders, and without dots at its beginning."""
    return last_part(name).strip().lstrip('.') or 'file'
