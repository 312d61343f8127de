"""The settings: one file with a section for each list."""

from __future__ import annotations

import configparser
import dataclasses
import pathlib
import re
import urllib.parse
import zoneinfo
from collections.abc import Callable

PROGRAM = '/usr/local/bin/ezmlm'
SECTION = re.compile('[A-Za-z0-9][A-Za-z0-9._-]{0,99}', re.ASCII)
LANGUAGE = re.compile('[A-Za-z]{2,8}(-[A-Za-z0-9]{1,8})*', re.ASCII)
RANGE = re.compile('([1-9][0-9]{0,7})(?:-([1-9][0-9]{0,7}))?', re.ASCII)
MOST_LEFT_OUT = 100_000  # posts
ADDRESSES = 'shown', 'shortened', 'hidden'
ARCHIVES = 'list', 'open', 'closed'
FLAGS = {'yes': True, 'no': False}


@dataclasses.dataclass(frozen=True)
class Site:
    """What a section says of a list's site."""
    name: str                                # the section's
    folder: pathlib.Path                     # the list's
    web: pathlib.Path                        # where the pages are written
    state: pathlib.Path                      # the folder of what is remembered between runs
    title: str = ''                          # the list's address without it
    description: str = ''
    url: str = ''                            # of the index, with a slash at its end
    language: str = 'en'                     # a BCP 47 tag
    timezone: str = 'UTC'                    # a name of the IANA's
    addresses: str = 'shortened'             # one of ADDRESSES
    archive: str = 'list'                    # one of ARCHIVES: as the list's options say, or whatever they say
    noindex: bool = False                    # whether robots are told not to index
    search: bool = False                     # whether the pages have a form for it
    source: bool = False                     # whether each post's bytes are given, with all addresses that stand in them
    first: int = 1                           # posts before this one aren't shown
    left_out: frozenset[int] = frozenset()   # the numbers of posts that are neither shown nor searched
    templates: pathlib.Path | None = None    # looked in before the site's own

    @property
    def gives_source(self) -> bool:
        """The same as `source`, by the name that templates have."""
        return self.source


@dataclasses.dataclass(frozen=True)
class Settings:
    """What the file says: the program's path, the lists in the order of their sections, and the page of all of them, if there is one."""
    program: str
    sites: tuple[Site, ...]
    host: Site | None = None


def read(path: str) -> Settings:
    """Reads a file of settings. A wrong one is a ValueError that tells the section and the setting."""
    parser = configparser.ConfigParser(interpolation=None, default_section='\0none')
    try:
        with open(path, encoding='utf-8') as file:
            parser.read_file(file)
        general = dict(parser['site']) if parser.has_section('site') else {}
        if unknown := general.keys() - {'program', 'state', *OF_HOST}:
            raise ValueError(f'[site] has unknown settings: {", ".join(sorted(unknown))}')
        names = [name for name in parser.sections() if name != 'site']
        if not names:
            raise ValueError('there is no section of a list')
        sites = tuple(site_of(name, dict(parser[name]), general.get('state')) for name in names)
        host = host_of(general)
        check_apart(sites, host)
    except (OSError, configparser.Error, ValueError) as error:
        raise ValueError(f'{path}: {error}') from error
    return Settings(general.get('program', PROGRAM), sites, host)


def host_of(general: dict[str, str]) -> Site | None:
    """The page of all lists, by what [site] says of it. Its `folder` is that of the state, since it has no list."""
    given = {key: text for key, text in general.items() if key in OF_HOST}
    if 'web' not in given:
        if given:
            raise ValueError(f'[site] has {", ".join(sorted(given))}, and no web, the folder of the page of all lists')
        return None
    return site_of('site', given | {'folder': general.get('state', '')}, general.get('state'))


def site_of(name: str, given: dict[str, str], state: str | None) -> Site:
    """The site that a section's settings say."""
    if not SECTION.fullmatch(name):
        raise ValueError(f'[{name}] is no name of a list: letters, digits, dots, hyphens and underscores')
    if state is not None:
        given = {'state': state} | given
    unknown = given.keys() - READERS.keys()
    missing = {'folder', 'web', 'state'} - given.keys()
    if unknown:
        raise ValueError(f'[{name}] has unknown settings: {", ".join(sorted(unknown))}')
    if missing:
        raise ValueError(f'[{name}] wants the settings {", ".join(sorted(missing))}')
    values = {}
    for key, text in given.items():
        try:
            values[key] = READERS[key](text)
        except ValueError as error:
            raise ValueError(f'[{name}] {key}: {error}') from error
    return Site(name=name, **values)  # type: ignore[arg-type]


def check_apart(sites: tuple[Site, ...], host: Site | None) -> None:
    """A ValueError if two lists would be written into one folder, or a list's folder would be written into. The page of all lists may stand above
    the folders of lists."""
    taken: dict[pathlib.Path, str] = {}
    for site in [*sites, *([host] if host else [])]:
        web = site.web.resolve()
        if web in taken:
            raise ValueError(f'[{site.name}] and [{taken[web]}] have one web folder')
        taken[web] = site.name
        for folder in (site.folder.resolve(), site.state.resolve()):
            if folder == web or web in folder.parents or folder in web.parents:
                raise ValueError(f'[{site.name}] has its web folder above or below {folder}')


def absolute(text: str) -> pathlib.Path:
    path = pathlib.Path(text)
    if not path.is_absolute():
        raise ValueError(f'{text} is no absolute path')
    return path


def one_of(*words: str) -> Callable[[str], str]:
    def reader(text: str) -> str:
        if text not in words:
            raise ValueError(f'{text} is none of {", ".join(words)}')
        return text
    return reader


def flag(text: str) -> bool:
    if text not in FLAGS:
        raise ValueError(f'{text} is neither yes nor no')
    return FLAGS[text]


def url(text: str) -> str:
    """A URL of http or https, with a slash at its end."""
    parts = urllib.parse.urlsplit(text)
    if parts.scheme not in ('http', 'https') or not parts.hostname or parts.query or parts.fragment or re.search(r'[\s"<>\\]', text):
        raise ValueError(f'{text} is no URL of http or https')
    return text.rstrip('/') + '/'


def language(text: str) -> str:
    if not LANGUAGE.fullmatch(text):
        raise ValueError(f'{text} is no tag of a language')
    return text


def timezone(text: str) -> str:
    try:
        zoneinfo.ZoneInfo(text)
    except (ValueError, OSError, zoneinfo.ZoneInfoNotFoundError) as error:
        raise ValueError(f'{text} is no time zone that this machine knows') from error
    return text


def number(text: str) -> int:
    if not re.fullmatch('[1-9][0-9]{0,7}', text, re.ASCII):
        raise ValueError(f'{text} is no number of a post')
    return int(text)


def numbers(text: str) -> frozenset[int]:
    """Numbers and ranges of them (`3 17-19`), with spaces or commas between."""
    found: set[int] = set()
    for word in text.replace(',', ' ').split():
        match = RANGE.fullmatch(word)
        if not match:
            raise ValueError(f'{word} is neither a number of a post nor a range')
        low, high = int(match[1]), int(match[2] or match[1])
        if high < low or high - low + len(found) >= MOST_LEFT_OUT:
            raise ValueError(f'{word} begins after its end, or has too many posts')
        found.update(range(low, high + 1))
    return frozenset(found)


READERS: dict[str, Callable[[str], object]] = {
    'folder': absolute, 'web': absolute, 'state': absolute, 'templates': absolute, 'title': str, 'description': str, 'url': url,
    'language': language, 'timezone': timezone, 'addresses': one_of(*ADDRESSES), 'archive': one_of(*ARCHIVES), 'noindex': flag,
    'search': flag, 'source': flag, 'first': number, 'left_out': numbers,
}
OF_HOST = 'web', 'title', 'description', 'url', 'language', 'timezone', 'noindex', 'search', 'templates'  # what [site] says of the page of all lists
