"""Messages, subjects and moments, and how what came from mail is shown."""

from __future__ import annotations

import datetime
import email.header
import re
from collections.abc import Iterable, Sequence

FIELD = re.compile(rb'([!-9;-~]+):([^\n]*(?:\n[ \t][^\n]*)*\n?)')
SPACES = re.compile(rb'[ \t\r\n]+')
MARK = re.compile(rb're:|fwd?:|aw:|re\[[0-9]+\]:')
LONGEST_SUBJECT = 1000


def fields(message: bytes) -> Iterable[tuple[bytes, bytes]]:
    """The fields of a message, their names in lower case, their values as they stand there (RFC 822 3.1.2, 3.2)."""
    at = 0
    while (found := FIELD.match(message, at)) is not None:
        yield found[1].lower(), found[2]
        at = found.end()


def unfolded(value: bytes) -> bytes:
    """A field's value without its line breaks, and without spaces and tabs at both ends (RFC 822 3.1.1)."""
    return value.replace(b'\r\n', b'').replace(b'\n', b'').strip(b' \t')


def field(message: bytes, name: bytes) -> bytes:
    """The unfolded value of the first field of this name, in lower case, or nothing."""
    return next((unfolded(value) for found, value in fields(message) if found == name), b'')


def subject(message: bytes) -> bytes:
    """The subject as an index has it: at most 1,000 bytes of the first Subject field, unfolded."""
    return field(message, b'subject')[:LONGEST_SUBJECT]


def subject_key(prefix: bytes, text: bytes) -> bytes:
    """The key of a subject, by which posts make a thread, on a list with this prefix."""
    left, marks = SPACES.sub(b' ', text).strip(b' ').lower(), prefix.lower()
    while True:
        if marks and left.startswith(marks):
            left = left[len(marks):].lstrip(b' ')
        elif (mark := MARK.match(left)) is not None:
            left = left[mark.end():].lstrip(b' ')
        else:
            return left


def head(local: bytes, host: bytes) -> bytes:
    """The lines that the list LOCAL@HOST puts before a post (docs/FORMATS.md, The sent text)."""
    def to(rest: bytes) -> bytes:
        return local + rest + b'@' + host

    return b''.join((b'Mailing-List: contact %b; run by ezmlm\n' % to(b'-help'), b'Precedence: bulk\n', b'List-Post: <mailto:%b>\n' % to(b''),
                     b'List-Help: <mailto:%b>\n' % to(b'-help'), b'List-Unsubscribe: <mailto:%b>\n' % to(b'-unsubscribe'),
                     b'List-Subscribe: <mailto:%b>\n' % to(b'-subscribe'), b'Delivered-To: mailing list %b\n' % to(b'')))


def as_it_came(text: bytes, local: bytes, host: bytes) -> bytes:
    """A post without what the list put before it. One that doesn't begin so loses its fields Mailing-List and Delivered-To, as `import` does."""
    lines = head(local, host)
    if text.startswith(lines):
        return text[len(lines):]
    at, left = 0, b''
    while (found := FIELD.match(text, at)) is not None:
        left += b'' if found[1].lower() in (b'mailing-list', b'delivered-to') else found[0]
        at = found.end()
    return left + text[at:]


def exact(text: bytes) -> str:
    """Bytes as a string of JSON. Those that are no UTF-8 stand as U+DC80 to U+DCFF, as Python's surrogateescape has them."""
    return text.decode('utf-8', 'surrogateescape')


def safe(text: bytes | str) -> str:
    """A text as a terminal may have it: control characters, and bytes that are no UTF-8, are escaped as Python writes them."""
    if isinstance(text, bytes):
        text = text.decode('utf-8', 'backslashreplace')
    return ''.join(c if c.isprintable() else c.encode('unicode_escape', 'backslashreplace').decode('ascii') for c in text)


def safe_lines(text: bytes) -> str:
    """A message as a terminal may have it: so too, but line ends and tabs stay."""
    lines = text.replace(b'\r\n', b'\n').split(b'\n')
    return '\n'.join('\t'.join(safe(part) for part in line.split(b'\t')) for line in lines)


def decoded(text: bytes) -> str:
    """A subject with its encoded words read (RFC 2047). What can't be read stays as it is."""
    raw = text.decode('utf-8', 'backslashreplace')
    if '=?' not in raw:
        return raw
    try:
        parts = email.header.decode_header(raw)
        return ''.join(part if isinstance(part, str) else word(part, charset) for part, charset in parts)
    except Exception:  # Whatever hostile words make of the library, the subject is shown as it came.
        return raw


def word(part: bytes, charset: str | None) -> str:
    try:
        return part.decode(charset or 'utf-8', 'backslashreplace')
    except LookupError:
        return part.decode('utf-8', 'backslashreplace')


def date(moment: int | None) -> str:
    """A moment in UTC as ISO 8601 has it, or `-` for none."""
    if not moment:
        return '-'
    return datetime.datetime.fromtimestamp(moment, datetime.timezone.utc).strftime('%Y-%m-%dT%H:%M:%SZ')


def age(seconds: float) -> str:
    """A span of time in its greatest unit and the next one, as `2d 3h`."""
    left = max(0, int(seconds))
    for unit, size, lower, part in (('d', 86400, 'h', 3600), ('h', 3600, 'm', 60), ('m', 60, 's', 1)):
        if left >= size:
            return f'{left // size}{unit} {left % size // part}{lower}'
    return f'{left}s'


def many(number: int, word: str) -> str:
    """A number of things, as `1 post` and `2 posts`."""
    return f'{number} {word}' if number == 1 else f'{number} {word}s'


def table(heads: Sequence[str], rows: Sequence[Sequence[object]]) -> list[str]:
    """Lines of columns with their names above them, and nothing if there are no rows."""
    texts = [list(heads), *[[str(value) for value in row] for row in rows]]
    widths = [max(len(text[column]) for text in texts) for column in range(len(heads))]
    lines = ['  '.join(value.ljust(width) for value, width in zip(text, widths)).rstrip() for text in texts]
    return lines if rows else []
