"""The index of the archive: its entries, and what of a damaged one is whole."""

from __future__ import annotations

import difflib
import email.utils
import pathlib
from collections.abc import Sequence
from dataclasses import dataclass, replace

from ezmlm_agent import program as programs

from . import files, texts
from .lists import Damaged, content

GROUP = 100         # numbers of posts in one index
LARGEST = 1 << 32
SLACK = 5 * 86_400  # seconds: a held post waits so long at most
UNKNOWN = b'unknown@unknown.invalid'  # RFC 2606: nobody has it


@dataclass(frozen=True)
class Entry:
    """What an index has of a post: the moment, the envelope's sender, the size in bytes, the subject."""
    moment: int
    sender: bytes
    size: int
    subject: bytes

    def text(self) -> bytes:
        """As the index has it."""
        parts = b'%d' % self.moment, self.sender, b'%d' % self.size, self.subject
        return b''.join(b'%d:%b,' % (len(part), part) for part in parts) + b'\n'


def entry(line: bytes) -> Entry:
    """The entry that a line without its LF spells. Another line is a ValueError."""
    moment, sender, size, subject = programs.netstrings(line)
    found = Entry(files.number(moment), sender, files.number(size), subject)
    is_sound = files.is_address(sender) and files.kept(sender) == sender
    if found.text() != line + b'\n' or not is_sound or found.size >= LARGEST or found.moment >= 253_402_300_800 or len(subject) > 1000:
        raise ValueError('no entry')
    return found


def index(text: bytes) -> list[Entry]:
    """The entries of a whole index. Other bytes are a ValueError."""
    if text and text[-1:] != b'\n':
        raise ValueError('no LF at its end')
    return [entry(line) for line in text.split(b'\n')[:-1]]


def pieces(text: bytes) -> list[Entry | None]:
    """The entries of an index that may be damaged, and None for each line that is none. No entry has an LF except at its end."""
    found: list[Entry | None] = []
    for line in text.removesuffix(b'\n').split(b'\n') if text else []:
        try:
            found.append(entry(line))
        except ValueError:
            found.append(None)
    return found


def some(folder: pathlib.Path, first: int, last: int) -> list[Entry]:
    """The entries of these posts. An index that doesn't have them is Damaged."""
    found: list[Entry] = []
    for group in range(first // GROUP, last // GROUP + 1) if first <= last else ():
        at, name = max(1, group * GROUP), f'archive/{group}/index'
        of_group = content(folder, name, index)
        wanted = of_group[max(first, at) - at:last - at + 1]
        if len(wanted) != min(last, group * GROUP + GROUP - 1) - max(first, at) + 1:
            raise Damaged(name)
        found += wanted
    return found


@dataclass(frozen=True)
class Facts:
    """What a post itself tells: its size, its subject, the sender by its header, the moment by its Date, and the moment of its file."""
    size: int
    subject: bytes
    sender: bytes | None
    date: int | None
    written: int


def facts(size: int, header: bytes, written: int) -> Facts:
    return Facts(size, texts.subject(header), sender(header), dated(texts.field(header, b'date')), written)


def sender(header: bytes) -> bytes | None:
    """The first address of From that a list can have, or None."""
    value = texts.field(header, b'from').decode('latin-1')
    try:
        found = [address.encode('latin-1') for _, address in email.utils.getaddresses([value])]
    except Exception:  # Hostile addresses may make anything of the library.
        return None
    return next((files.kept(address) for address in found if files.is_address(address)), None)


def dated(value: bytes) -> int | None:
    """The moment of a Date field (RFC 822 5.1), or None."""
    try:
        found = int(email.utils.parsedate_to_datetime(value.decode('latin-1')).timestamp())
    except Exception:  # A ValueError, a TypeError, an OverflowError, by version and by what stands there.
        return None
    return found if 0 <= found < 253_402_300_800 else None


def placed(found: Sequence[Entry | None], posts: Sequence[Facts]) -> list[Entry | None]:
    """For each post of a group its entry, or None, of the pieces of an index. If there are as many of these as posts their places tell;
    else those at both ends that agree with their posts do, and between them the longest runs that agree."""
    if len(found) == len(posts):
        return list(found)
    theirs = [(one.size, one.subject) if one else None for one in found]
    ours = [(post.size, post.subject) for post in posts]
    shorter, front, back = min(len(ours), len(theirs)), 0, 0
    while front < shorter and theirs[front] == ours[front]:
        front += 1
    while back < shorter - front and theirs[-1 - back] == ours[-1 - back]:
        back += 1
    here: list[Entry | None] = [*found[:front], *[None] * (len(ours) - front - back), *found[len(found) - back:]]
    middle = difflib.SequenceMatcher(None, theirs[front:len(theirs) - back], ours[front:len(ours) - back], autojunk=False)
    for theirs_at, ours_at, many in middle.get_matching_blocks():
        here[front + ours_at:front + ours_at + many] = found[front + theirs_at:front + theirs_at + many]
    return here


@dataclass(frozen=True)
class Made:
    """An entry as it is to be, and what is to be said of it, unless it was whole."""
    entry: Entry
    said: str = ''


def made(found: Entry | None, post: Facts, before: int, after: int) -> Made:
    """The entry of a post of which this entry was found, between entries of these moments."""
    if found is not None:
        what = [f'its entry said {found.size} bytes, and it has {post.size}: it may be cut'] if found.size != post.size else []
        what += ['its entry had another subject'] if found.subject != post.subject else []
        return Made(replace(found, size=post.size, subject=post.subject), '; '.join(what))
    moment, by = moment_of(post, before, after)
    named = 'From' if post.sender else 'nothing, as its From has no address'
    new = Entry(moment, post.sender or UNKNOWN, post.size, post.subject)
    return Made(new, f'its entry was gone: sender {texts.safe(new.sender)} by {named}, moment {texts.date(moment)} by {by}')


def moment_of(post: Facts, before: int, after: int) -> tuple[int, str]:
    """The moment of a post whose entry is gone, and by what. The file's time is right unless it was copied or imported, which shows by a
    Date that is days away. Then the one is taken that stands between the moments of the entries around it, and of two the Date."""
    if post.date is None or abs(post.date - post.written) <= SLACK:
        return post.written, "its file's time"
    if not before - SLACK <= post.date <= after + SLACK and before <= post.written <= after:
        return post.written, "its file's time"
    return post.date, 'its Date'
