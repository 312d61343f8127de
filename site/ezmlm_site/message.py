"""A mail as a reader sees it: who wrote it, its subject, its texts, its attachments, and what else is to be said of it.

A mail is hostile input. What `email` is given is bounded before (bytes, lines, and lines times boundaries, since each line is compared to each
boundary), what it raises is caught, and a mail that can't be taken apart is shown as its source.
"""

from __future__ import annotations

import dataclasses
import email
import email.feedparser
import email.message
import email.policy
import email.utils
import re
from collections.abc import Iterator

import html2text

from . import words

FED = 8192                   # bytes that `email` is given at once
LONGEST_LINE = 1_000_000     # bytes
MOST_HELD = 45_000_000       # bytes that `email` holds of a mail: twice those past ASCII, and 60 for each line
MOST_COMPARED = 8_000_000    # lines times boundaries
MOST_HEADER = 200_000        # bytes
MOST_PARTS = 10_000          # parts that are looked at
MOST_FILES = 100             # attachments that are written
MOST_TEXT = 100_000          # characters of a mail's texts that are shown
MOST_SOURCE = 20_000         # characters of a source that is shown for lack of a text
MOST_FIELDS = 100            # fields of a header that are shown
MOST_HTML = 200_000          # characters of HTML that are read
MOST_TAGS = 10_000           # in these
MOST_DEPTH = 200             # lists and quotes, each of which may be in another one
INDENTS = re.compile('<(?:blockquote|[uod]l)', re.IGNORECASE)
BOUNDARY = re.compile(rb'boundary', re.IGNORECASE)
MESSAGE_ID = re.compile(r'<([^<>\s]{1,500})>')
SIGNED_TEXT = '-----BEGIN PGP SIGNED MESSAGE-----'
ENCRYPTED_TEXT = '-----BEGIN PGP MESSAGE-----'


class Raw(email.policy.Compat32):
    """Fields as they stand in the mail, and never as an object that may raise when it is looked at."""

    def header_fetch_parse(self, name: str, value: str) -> str:
        return value[:words.LONGEST_FIELD]


POLICY = Raw(max_line_length=None, mangle_from_=False)  # so that a mail within a mail keeps its lines


class Unreadable(Exception):
    """Why a mail is shown as its source."""


@dataclasses.dataclass(frozen=True)
class Attachment:
    """A part that is a file: its name as it was given, its kind (type/subtype), and its bytes."""
    name: str
    kind: str
    content: bytes


@dataclasses.dataclass
class Shown:
    """What is shown of a mail. Addresses are as they were written."""
    author: str = ''
    subject: str = ''
    message_id: str = ''                     # without its angle brackets, or empty
    text: str = ''
    is_source: bool = False                  # whether the text is the mail's source, since it can't be taken apart
    notes: list[str] = dataclasses.field(default_factory=list)
    fields: list[tuple[str, str]] = dataclasses.field(default_factory=list)
    attachments: list[Attachment] = dataclasses.field(default_factory=list)


def read(raw: bytes) -> Shown:
    """What is shown of a mail, which may be any bytes. It never raises, unless memory runs out."""
    shown = with_fields(raw)
    try:
        bound(raw)
        look_at_parts(parsed(raw), shown)
    except Exception as error:  # The same, and RecursionError and MemoryError among it.
        shown.notes.append(why_source(str(error) if isinstance(error, Unreadable) else 'it isn\'t in the form that mails have'))
        show_source(raw, shown)
    return shown


def parsed(raw: bytes) -> email.message.Message:
    """A mail by `email`, which gets it in pieces: `message_from_bytes` would hold all of it three times more, once with four bytes a character."""
    parser = email.feedparser.BytesFeedParser(policy=POLICY)
    for at in range(0, len(raw), FED):
        parser.feed(raw[at:at + FED])
    return parser.close()


def read_as_source(raw: bytes) -> Shown:
    """What is shown of a mail that isn't taken apart: its fields and its source."""
    shown = with_fields(raw)
    show_source(raw, shown)
    return shown


def with_fields(raw: bytes) -> Shown:
    """What the fields of a mail say."""
    shown = Shown()
    header = raw[:MOST_HEADER].replace(b'\r\n', b'\n').partition(b'\n\n')[0]
    try:
        look_at_fields(email.message_from_bytes(header + b'\n\n', policy=POLICY), shown)
    except Exception:  # Whatever `email` raises, for which there is no list.
        shown.notes.append('The fields of this mail can\'t be read.')
    return shown


def why_source(why: str) -> str:
    """The note of a mail that is shown as its source."""
    return f'This mail can\'t be taken apart ({why}), so its source is shown.'


def show_source(raw: bytes, shown: Shown) -> None:
    shown.is_source = True
    shown.attachments = []
    shown.text = words.clean(words.decoded(raw[:4 * MOST_SOURCE], None))[:MOST_SOURCE]


def bound(raw: bytes) -> None:
    """Refuses what `email` would take too much memory or time for."""
    lines = raw.count(b'\n') + raw.count(b'\r')
    if len(raw) * (1 if raw.isascii() else 2) + lines * 60 > MOST_HELD:
        raise Unreadable('it is too long, or has too many lines')
    if lines * sum(1 for _ in BOUNDARY.finditer(raw)) > MOST_COMPARED:
        raise Unreadable('it has too many parts within each other')
    ends = [end for end in (raw.find(b'\n\n'), raw.find(b'\r\n\r\n')) if end >= 0]
    if min(ends, default=len(raw)) > LONGEST_LINE:
        raise Unreadable('its header has more than a million bytes')
    at = 0
    while len(raw) - at > LONGEST_LINE:
        end = raw.rfind(b'\n', at, at + LONGEST_LINE)
        if end < 0:
            raise Unreadable('it has a line of more than a million bytes')
        at = end + 1


def look_at_fields(mail: email.message.Message, shown: Shown) -> None:
    shown.subject = words.one_line(str(mail.get('Subject', '')), 500)
    shown.author = author_of(str(mail.get('From', '')))
    found = MESSAGE_ID.search(str(mail.get('Message-ID', ''))[:1000])
    shown.message_id = words.clean(found[1]) if found else ''
    for name, value in list(mail.items())[:MOST_FIELDS]:
        if name.lower() not in ('from', 'subject'):
            shown.fields.append((words.one_line(name, 100), words.one_line(str(value))))


def author_of(value: str) -> str:
    """The name that a From field gives, or the address if it gives none."""
    value = ' '.join(value[:words.LONGEST_FIELD].split())  # The patterns are linear only if no two spaces stand together.
    found = re.fullmatch(r'("(?:[^"\\]|\\.)*"|[^"<]*) ?<([^>]*)>.*', value, re.DOTALL)
    if not found:
        comment = re.fullmatch(r'([^()]*)\(([^()]+)\)', value)  # as `jo@b.org (Jo)`, and `jo at b.org (Jo)`, which archives have
        return words.one_line(comment[2] if comment and re.search('@| at ', comment[1]) else value, 200)
    name = re.sub(r'\\(.)', r'\1', found[1].strip().removeprefix('"').removesuffix('"'), flags=re.DOTALL)
    return words.one_line(name, 200).strip('"\' ') or words.one_line(found[2], 200)


def look_at_parts(mail: email.message.Message, shown: Shown) -> None:
    texts: list[str] = []
    left = MOST_TEXT
    dropped = 0
    for part in parts_of(mail, shown.notes):
        if is_text(part, mail):
            if left > 0:
                texts.append(text_of(part)[:left])
                left -= len(texts[-1])
        elif len(shown.attachments) < MOST_FILES:
            attach(part, shown)
        else:
            dropped += 1
    shown.text = '\n\n'.join(text.strip('\n') for text in texts if text.strip())
    if left <= 0:
        shown.notes.append(f'Only the first {MOST_TEXT:,} characters of its text are shown.')
    if dropped:
        shown.notes.append(f'{dropped:,} further parts stand in its source alone.')
    if SIGNED_TEXT in shown.text:
        shown.notes.append('Its text is signed (OpenPGP); the signature was not checked.')
    if ENCRYPTED_TEXT in shown.text:
        shown.notes.append('Its text is encrypted (OpenPGP).')


def is_text(part: email.message.Message, mail: email.message.Message) -> bool:
    """Whether a part is text to read, and no file. So is one that says that it has parts, and has none."""
    if part.get_content_maintype() == 'multipart':
        return True
    if part.get_content_type() not in ('text/plain', 'text/html') or part.get_content_disposition() == 'attachment':
        return False
    return part is mail or not part.get_filename()


def parts_of(mail: email.message.Message, notes: list[str]) -> Iterator[email.message.Message]:
    """The parts to look at, in their order, without those that another one stands for."""
    left = [mail]
    looked = 0
    while left:
        part = left.pop()
        looked += 1
        if looked > MOST_PARTS:
            raise Unreadable('it has too many parts')
        payload = part.get_payload()
        kind = part.get_content_type()
        if note := note_of(part, kind):
            notes.append(note)
        if kind == 'message/rfc822' or not isinstance(payload, list):
            yield part
        elif kind == 'multipart/alternative':
            left.append(chosen(payload))
        else:
            left.extend(reversed(payload))


def chosen(parts: list[email.message.Message]) -> email.message.Message:
    """Of alternatives the plain one, or the one that has it, or the last."""
    for wanted in ('text/plain',), ('multipart/mixed', 'multipart/related', 'multipart/alternative'), ('text/html',):
        for part in parts:
            if part.get_content_type() in wanted:
                return part
    return parts[-1]


def note_of(part: email.message.Message, kind: str) -> str:
    """What is said of signed and encrypted mail."""
    if kind == 'multipart/signed':
        return 'This mail is signed; the signature was not checked.'
    if kind == 'multipart/encrypted':
        return 'This mail is encrypted.'
    if kind in ('application/pkcs7-mime', 'application/x-pkcs7-mime'):
        is_signed = str(part.get_param('smime-type', '')).lower() == 'signed-data'
        return f'This mail is {"signed" if is_signed else "encrypted"} (S/MIME), and its content is an attachment.'
    return ''


def text_of(part: email.message.Message) -> str:
    """The text of a part, plain or HTML."""
    text = words.decoded(content_of(part), part.get_content_charset())
    if part.get_content_type() == 'text/html':
        return words.clean(plain_of(text[:MOST_HTML]))
    text = words.clean(text[:2 * MOST_TEXT])
    if str(part.get_param('format', '')).lower() == 'flowed':
        return unflowed(text, str(part.get_param('delsp', '')).lower() == 'yes')
    return text


def content_of(part: email.message.Message) -> bytes:
    """The decoded bytes of a part; of a mail within a mail its source."""
    payload = part.get_payload()
    if isinstance(payload, list):
        return b'\n'.join(inner.as_bytes() for inner in payload[:1] if isinstance(inner, email.message.Message))
    content = part.get_payload(decode=True)
    return content if isinstance(content, bytes) else b''


def plain_of(html: str) -> str:
    """HTML as text. What has more tags than a page, or makes html2text raise, is the text between its tags."""
    reader = html2text.HTML2Text(bodywidth=0)
    reader.ignore_images = True
    reader.ignore_tables = True
    try:
        if html.count('<') <= MOST_TAGS and len(INDENTS.findall(html)) <= MOST_DEPTH:
            return str(reader.handle(html))
    except Exception:  # It reads what a stranger wrote, and tells nobody what it raises.
        pass
    return re.sub('<[^<>]*>', ' ', html)


def unflowed(text: str, drops_space: bool) -> str:
    """Text of the form format=flowed (RFC 3676): lines with a soft end are joined, each depth of quotes by itself."""
    paragraphs: list[tuple[str, list[str]]] = []
    is_open = False
    for line in text.split('\n'):
        body = line.lstrip('>')
        marks = line[:len(line) - len(body)]
        body = body.removeprefix(' ')
        is_soft = body.endswith(' ') and body != '-- '
        if not is_open or paragraphs[-1][0] != marks or body == '-- ':
            paragraphs.append((marks, []))
        paragraphs[-1][1].append(body[:-1] if is_soft and drops_space else body)
        is_open = is_soft
    return '\n'.join(quoted(marks, ''.join(lines)) for marks, lines in paragraphs)


def quoted(marks: str, text: str) -> str:
    return f'{marks} {text}' if marks and text else marks + text


def attach(part: email.message.Message, shown: Shown) -> None:
    """Adds a part to the attachments, or says that it can't be read."""
    kind = words.one_line(part.get_content_type(), 100)
    try:
        name = part.get_filename() or ('message.eml' if kind == 'message/rfc822' else '')
        name = words.one_line(str(name), 200) or kind.replace('/', '-')
        shown.attachments.append(Attachment(name, kind, content_of(part)))
    except Exception:  # Whatever `email` raises of one part; the others are shown.
        shown.notes.append(f'A part of the kind {kind} can\'t be read, and stands in its source alone.')
