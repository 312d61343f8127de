"""The mails of an archive of another mailing list manager, and when each of them came."""

import dataclasses
import email.message
import email.parser
import email.utils
import gzip
import hashlib
import pathlib
import re
from collections.abc import Iterator
from typing import BinaryIO

LONGEST = 33_554_432     # bytes of a mail that the program takes
DAY = rb'(?:Mon|Tue|Wed|Thu|Fri|Sat|Sun)[a-z]*'
MONTHS = 'January February March April May June July August September October November December'.split()
TIME = re.compile(rb'(?:^| )(' + '|'.join(name[:3] for name in MONTHS).encode() + rb') +(\d{1,2}),? +(\d{1,2}:\d\d(?::\d\d)?) +'
                  rb'(?:([A-Z]{1,5}|[+-]\d{4}) +)?(\d{4})(?: +([+-]\d{4}))?')
SEPARATOR = re.compile(rb'From (\S*(?: at \S+)?) +(' + DAY + rb',? +.*\d{4}.*)')
QUOTED = re.compile(rb'^(>*From )', re.MULTILINE)
ADDRESS = re.compile(rb'[!-?A-~]+@[A-Za-z0-9._-]+')
POST = re.compile(r'[1-9][0-9]*|[0-9]+/[0-9][0-9]')
PIPERMAIL = re.compile(r'(\d{4})-(' + '|'.join(MONTHS) + r')\.txt(?:\.gz)?')


class Failure(Exception):
    """What can't be done, in words for the operator."""


@dataclasses.dataclass
class Mail:
    """A mail of a source: its bytes as they stand in a mailbox, its envelope sender or b'', and the candidates for when it came."""
    place: str
    quoted: bytes
    size: int
    key: bytes
    sender: bytes
    moments: list[float | None]

    def header(self) -> email.message.Message:
        """The fields of its header (RFC 5322 2.2)."""
        head = re.split(rb'\r?\n\r?\n', self.quoted[:1 << 17], maxsplit=1)[0]
        return email.parser.BytesHeaderParser().parsebytes(head + b'\n\n')


# When a mail came, and who sent it.

def stated(text: str) -> float | None:
    """The moment of a date and time (RFC 5322 3.3), in seconds since 1970, or None."""
    try:
        parsed = email.utils.parsedate_tz(text)
        return email.utils.mktime_tz(parsed) if parsed else None
    except (ValueError, OverflowError, IndexError, TypeError):
        return None


def separated(line: bytes) -> float | None:
    """The moment of a mailbox's line `From SENDER ASCTIME`. Without a zone it is in UTC."""
    found = TIME.search(line)
    if found is None:
        return None
    month, day, clock, zone, year, offset = (part.decode() if part else '' for part in found.groups())
    return stated(f'{day} {month} {year} {clock} {offset or zone or "+0000"}')


def moment(mail: Mail, header: email.message.Message, now: float) -> int | None:
    """When a mail came: what its source says, the newest Received field, the Date; the first of them that isn't in the future."""
    received = header.get_all('Received') or ['']
    candidates = [*mail.moments[:1], stated(str(received[0]).rpartition(';')[2]), stated(str(header.get('Date', ''))), *mail.moments[1:]]
    return next((int(found) for found in candidates if found is not None and 0 < found <= now), None)


def sender(mail: Mail, header: email.message.Message) -> bytes:
    """The envelope sender of a mail: its source's, the one of Return-Path, or who stands in From; else b''. pipermail spells @ as ` at `."""
    for text in (mail.sender.decode('latin-1'), str(header.get('Return-Path', '')), str(header.get('From', ''))):
        plain = re.sub(r'(\S) at (\S)', r'\1@\2', text.replace('\n', ' '))
        address = email.utils.parseaddr(plain)[1].encode('utf-8', 'replace')
        if ADDRESS.fullmatch(address) and len(address) <= 400:
            return address
    return b''


def shown(text: str) -> bytes:
    """A text in one line, with ? for each control character."""
    return re.sub(r'[\x00-\x1f\x7f-\x9f]', '?', ' '.join(text.split())).encode(errors='replace')


def subject(mail: Mail) -> bytes:
    """The subject of a mail as it is written, to be shown."""
    return shown(str(mail.header().get('Subject', ''))[:200])


# Sources.

class Growing:
    """The bytes of a mail as it is read. Beyond what the program takes they are only counted. Empty lines at its end aren't in its key.

    A mail whose first line ends in CR LF has LF for each of them, as mail has on the disk.
    """

    def __init__(self, line: bytes = b'') -> None:
        self.pieces: list[bytes] = []
        self.size, self.hash, self.empty = 0, hashlib.sha256(), b''
        self.end = b'\r\n' if line.endswith(b'\r\n') else b'\n'

    def add(self, line: bytes) -> None:
        if self.end == b'\r\n' and line.endswith(self.end):
            line = line[:-2] + b'\n'
        if not line.strip(b'\r\n') and len(self.empty) < LONGEST:
            self.empty += line
            return
        for piece in (self.empty, line):
            self.size += len(piece)
            self.hash.update(piece)
            if self.size <= LONGEST:
                self.pieces.append(piece)
        self.empty = b''

    def mail(self, place: str, sender_: bytes, moments: list[float | None]) -> Mail:
        quoted = b''.join(self.pieces) + self.empty
        return Mail(place, quoted, self.size + len(self.empty), self.hash.digest(), sender_, moments)

    def separated(self, place: str, sender_: bytes, came: float | None) -> Mail:
        """The mail in a mailbox, whose last empty line isn't the mail's."""
        self.empty = re.sub(rb'\r?\n\Z', b'', self.empty)
        return self.mail(place, sender_, [came])


def opened(path: pathlib.Path) -> BinaryIO:
    """A file, and what gzip made of it if it did."""
    with open(path, 'rb') as file:
        packed = file.read(2) == b'\x1f\x8b'
    return gzip.open(path, 'rb') if packed else open(path, 'rb')  # type: ignore[return-value]


def of_mailbox(path: pathlib.Path) -> Iterator[Mail]:
    """The mails of a mailbox. A line `From ` begins one if a sender and a date follow; any other one belongs to its mail."""
    growing, line_number, place, who, came = Growing(), 0, '', b'', None
    with opened(path) as file:
        for line in file:
            line_number += 1
            found = SEPARATOR.match(line) if line.startswith(b'From ') else None
            if found:
                if place:
                    yield growing.separated(place, who, came)
                growing, place, who, came = Growing(line), f'{path}:{line_number}', found[1], separated(found[2])
                growing.hash.update(line.rstrip())
            elif place:
                growing.add(b'>' + line if line.startswith(b'From ') else line)
            elif line.strip():
                raise Failure(f'{path} is no mailbox: it begins with no line of `From `, a sender and a date')
    if place:
        yield growing.separated(place, who, came)


def of_file(path: pathlib.Path, came: float | None) -> Mail:
    """A mail that stands in a file of its own; `came` is when, if its name tells that."""
    with open(path, 'rb') as file:
        growing = Growing(file.readline())
        file.seek(0)
        for line in file:
            growing.add(QUOTED.sub(rb'>\1', line))
    return growing.mail(str(path), b'', [came, path.stat().st_mtime])


def posts_of(folder: pathlib.Path) -> list[pathlib.Path]:
    """The posts of mlmmj (`1`, `2`, ..) or of ezmlm-idx (`0/01`, .. `12/34`), in order."""
    names = [(str(path.relative_to(folder)), path) for pattern in ('[0-9]*', '[0-9]*/[0-9][0-9]') for path in folder.glob(pattern)]
    return [path for _, path in sorted((int(name.replace('/', '')), path) for name, path in names if POST.fullmatch(name) and path.is_file())]


def files_of(source: pathlib.Path) -> tuple[str, list[pathlib.Path]]:
    """What a source is, and its files in the order in which their mails are posted."""
    if source.is_file():
        return 'mailbox', [source]
    if (source / 'cur').is_dir() and (source / 'new').is_dir():
        found = [*(source / 'cur').iterdir(), *(source / 'new').iterdir()]
        return 'Maildir', sorted(found, key=lambda path: (int(re.match('[0-9]*', path.name)[0] or 0), path.name))  # type: ignore[index]
    if months := [(name[1], MONTHS.index(name[2]), path) for path in source.glob('*') if (name := PIPERMAIL.fullmatch(path.name))]:
        return 'mailbox', [path for *_, path in sorted(months)]
    if posts := posts_of(source / 'archive' if (source / 'archive').is_dir() else source):
        return 'posts', posts
    raise Failure(f'{source} is neither a mailbox nor an archive of a form that is known here')


def mails(kind: str, path: pathlib.Path) -> Iterator[Mail]:
    """The mails of one file of a source."""
    if kind == 'mailbox':
        yield from of_mailbox(path)
    else:
        came = re.match('[0-9]+', path.name) if kind == 'Maildir' else None
        yield of_file(path, float(came[0]) if came else None)
