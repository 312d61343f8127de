"""Settings of single lists: the sections `[list NAME]` of the agent's file."""

import configparser
import dataclasses
import re
from collections.abc import Mapping

LONGEST = 500  # bytes of a value
LONGEST_ID = 255  # RFC 2919 3
ATOM = r"[A-Za-z0-9!#$%&'*+/=?^_`{|}~-]+"
ID = re.compile(rf'{ATOM}(?:\.{ATOM})+', re.ASCII)  # RFC 2919 2: a label, a dot and a namespace
URL = re.compile(r'[A-Za-z][A-Za-z0-9+.-]*:[!#-;=?-Z\[\]_a-z~]+', re.ASCII)  # RFC 3986 2, without angle brackets and quotes
WITH_ID = re.compile(r'(.*?)\s*<([^<>]*)>', re.DOTALL)
REWRITES = 'yes', 'no', 'always'


@dataclasses.dataclass(frozen=True)
class ListId:
    """What `List-Id` says (RFC 2919): a text, which may be empty, and an id; without an id it is LOCAL.HOST."""
    text: str
    id: str

    def of(self, local: str, host: str) -> str | None:
        """The id for the list LOCAL@HOST, or None if LOCAL.HOST can't be one."""
        made = self.id or f'{local}.{host}'
        return made if is_id(made) else None


@dataclasses.dataclass(frozen=True)
class Section:
    """What one list's section says. A list without a section has None in its place, and its mail goes out as the program wrote it."""
    list_id: ListId | None = None
    archive: str = ''
    owner: bool = False
    rewrite_from: str = ''  # one of REWRITES, or empty without a line

    def rewrites(self, flags: bytes) -> bool:
        """Whether posts of a list with these option letters are sent in the list's name."""
        return self.rewrite_from == 'always' or self.rewrite_from == 'yes' and changes_posts(flags)


    def told(self, address: tuple[str, str], flags: bytes) -> str:
        """What it does for the list LOCAL@HOST with these option letters, as `--check` says it."""
        local, host = address
        does = [f'List-Id <{self.list_id.of(local, host)}>'] if self.list_id and self.list_id.of(local, host) else []
        does += [f'List-Archive <{self.archive}>'] if self.archive else []
        does += [f'List-Owner <mailto:{local}-owner@{host}>'] if self.owner else []
        return ', '.join([*does, f'posts come from {"the list" if self.rewrites(flags) else "their writers"}',
                          'answers have Auto-Submitted, Message-ID and Content-Type'])


def changes_posts(flags: bytes) -> bool:
    """Whether a list with these option letters marks subjects or adds a trailer, so that a writer's signature breaks."""
    return b'f' in flags or b't' in flags


def is_id(text: str) -> bool:
    return len(text) <= LONGEST_ID and ID.fullmatch(text) is not None


def read_list_id(text: str) -> ListId:
    """`TEXT <ID>`, TEXT or `<ID>`. A wrong ID is a ValueError."""
    split = WITH_ID.fullmatch(text)
    words, named = (split[1], split[2]) if split else (text, '')
    if split and not is_id(named):
        raise ValueError(f'list_id: <{named}> is no id as RFC 2919 has it: letters, digits and the like, with a dot, {LONGEST_ID} bytes at most')
    if '<' in words or '>' in words:
        raise ValueError('list_id is neither TEXT nor TEXT <ID>')
    if len(words) > 1 and words[0] == words[-1] == '"':
        words = words[1:-1]
    return ListId(words, named)


def read_archive(text: str) -> str:
    """A URL (RFC 3986). Another text is a ValueError."""
    if not URL.fullmatch(text):
        raise ValueError(f'archive: {ascii(text)} is no URL')
    return text


def read_owner(text: str) -> bool:
    if text not in ('yes', 'no'):
        raise ValueError(f'owner: {text} is neither yes nor no')
    return text == 'yes'


def read_rewrite_from(text: str) -> str:
    if text not in REWRITES:
        raise ValueError(f'rewrite_from: {text} is neither yes nor no nor always')
    return text


READERS = {'list_id': read_list_id, 'archive': read_archive, 'owner': read_owner, 'rewrite_from': read_rewrite_from}


def read_one(given: Mapping[str, str]) -> Section:
    """What one section says. A wrong line is a ValueError."""
    if unknown := given.keys() - READERS.keys():
        raise ValueError(f'unknown {", ".join(sorted(unknown))}')
    for name, text in given.items():
        if len(text.encode()) > LONGEST:
            raise ValueError(f'{name} is longer than {LONGEST} bytes')
        if not text.isprintable():
            raise ValueError(f'{name} has a line\'s end or a control character')
    return Section(**{name: READERS[name](text) for name, text in given.items()})  # type: ignore[arg-type]


def read(parser: configparser.ConfigParser) -> dict[str, Section]:
    """The sections of single lists by the names of their folders. A wrong one is a ValueError that names it, and so is any section beside
    these and `[agent]`."""
    found: dict[str, Section] = {}
    for title in parser.sections():
        kind, _, name = title.partition(' ')
        name = name.strip()
        if title == 'agent':
            continue
        if kind != 'list' or not name or '/' in name:
            raise ValueError(f'[{title}] is neither [agent] nor [list NAME]')
        if name in found:
            raise ValueError(f'[{title}] is there twice')
        try:
            found[name] = read_one(parser[title])
        except ValueError as error:
            raise ValueError(f'[{title}]: {error}') from error
    return found
