"""The fields that receivers look for in a list's mail, put before what the program wrote: RFC 2369 and 2919 for a list, RFC 3834 and 2045 for
what answers by itself; and the writer's `From`, replaced by the list's if his signature wouldn't hold."""

import email.errors
import email.header
import email.policy
import email.utils
import hashlib
import re
import unicodedata
from collections.abc import Iterable, Sequence
from typing import Any

from . import sections, wire

LONGEST_HEADER = 1 << 18  # bytes of a header that is looked at
LONGEST_FIELD = 4096      # bytes of all From fields, and of all Reply-To fields
LONGEST_NAME = 100        # letters of the writers' names
LONGEST_ADDRESS = 320     # bytes: 64, an @ and 255
SLOW = 1024               # bytes above which the parser of email.policy isn't asked, as its time grows with the square
FRONT = re.compile(rb'Mailing-List: contact ([^\n]*)-help@([^\n@]*); run by ezmlm\nPrecedence: bulk\n')
FIELD = re.compile(rb'^(From|Reply-To|List-Id|List-Archive|List-Owner):([^\n]*(?:\n[ \t][^\n]*)*)\n', re.IGNORECASE | re.MULTILINE)
TURNS = '\u200e\u200f\u202a\u202b\u202c\u202d\u202e\u2066\u2067\u2068\u2069'  # they change the direction in which a line is read
PLAIN = r"[^\s\x00-\x1f\x7f-\x9f<>()\[\]:;@\\,\"]+"
ADDRESS = re.compile(rf'(?:{PLAIN}|"(?:[^"\\\x00-\x1f\x7f-\x9f]|\\[ -~])*")@(?:{PLAIN}|\[[!-Z^-~]*\])')
LINE = 75                 # letters of a line, if it can be folded
JOINED = ',\n '           # between two addresses
ATOMS = re.compile(r"[A-Za-z0-9!#$%&'*+/=?^_`{|}~ -]+")
ESCAPE = b'\x1b'  # by which the charsets of ISO 2022 change what 7-bit bytes mean (RFC 1468)

Mailbox = tuple[str, str]  # a name, which may be empty, and an address
Fields = list[re.Match[bytes]]


class Unreadable(ValueError):
    """A mail in which what is to be changed can't be read. It goes out as it is."""


def as_handed_on(entry: Sequence[bytes], section: sections.Section | None, flags: bytes) -> bytes:
    """The mail of an entry of the outgoing queue with its list's fields in front, LF at its lines' ends. The flags are the list's option
    letters. Without a section it is the same mail, and so is one that a list only passes on, as one for its owner. Of a post the header alone
    is read. If that can't be read it is Unreadable."""
    mail = entry[3]
    front = FRONT.match(mail) if section is not None else None
    if section is None or front is None:
        return mail
    local, host = front.groups()
    if not (local + host).isascii():
        raise Unreadable('its list\'s address isn\'t ASCII')
    is_post = mail.startswith(b'List-Post: <mailto:%b@%b>\n' % (local, host), front.end())
    if not is_post and not mail.startswith(b'From: %b-help@%b\n' % (local, host), front.end()):
        return mail
    end = mail.find(b'\n\n', 0, LONGEST_HEADER)
    if end < 0:
        raise Unreadable(f'its header is longer than {LONGEST_HEADER} bytes')
    fields = list(FIELD.finditer(mail, 0, end + 1))
    added = of_list(section, local.decode(), host.decode(), fields)
    if not is_post:
        return b''.join([*added, *of_answer(mail, host, is_asked=entry[2] != b'v'), mail])
    if section.rewrites(flags):
        return rewritten(mail, fields, added, local.decode(), wire.quoted(local + b'@' + host).decode())
    return b''.join([*added, mail])


# What a list is.

def of_list(section: sections.Section, local: str, host: str, fields: Fields) -> list[bytes]:
    """List-Id, List-Archive and List-Owner (RFC 2919 3, RFC 2369 3.5 and 3.6), each unless the mail has the same."""
    there = {(match[1].lower(), word.lower()) for match in fields for word in re.findall(rb'<([^<>]*)>', match[2])}
    rows = []
    listed = section.list_id.of(local, host) if section.list_id else None
    if section.list_id and listed:
        rows.append(('List-Id', section.list_id.text, listed))
    if section.archive:
        rows.append(('List-Archive', '', section.archive))
    if section.owner:
        rows.append(('List-Owner', '', f'mailto:{local}-owner@{host}'))
    return [field(*row) for row in rows if (row[0].lower().encode(), row[2].lower().encode()) not in there]


def field(name: str, text: str, value: str) -> bytes:
    """A field of a text, which may be empty, and of a value in angle brackets, folded before that if the line gets long."""
    words = phrase(text, name) if text else ''
    is_long = len(f'{name}: {words}'.rpartition('\n')[2]) + len(value) > LINE
    return f'{name}: {words}{chr(10) * (is_long and bool(words))}{" " * bool(words)}<{value}>\n'.encode()


# What a list answers by itself.

def of_answer(mail: bytes, host: bytes, is_asked: bool) -> list[bytes]:
    """The fields of a mail that is the list's own. Its Message-ID is made of its bytes, so it is the same whenever it is sent. Warnings,
    probes and digests aren't asked for (RFC 3834 5)."""
    is_plain = mail.isascii()
    rows = [b'Auto-Submitted: auto-%b' % (b'replied' if is_asked else b'generated'),
            b'Message-ID: <%b@%b>' % (hashlib.sha256(mail).hexdigest()[:32].encode(), host),
            b'MIME-Version: 1.0',
            b'Content-Type: text/plain; charset=%b' % (b'utf-8' if ESCAPE not in mail and (is_plain or is_utf_8(mail)) else b'unknown-8bit')]
    return [row + b'\n' for row in rows + ([] if is_plain else [b'Content-Transfer-Encoding: 8bit'])]


def is_utf_8(text: bytes) -> bool:
    try:
        text.decode()
        return True
    except UnicodeDecodeError:
        return False


# Whose a post is.

def rewritten(mail: bytes, fields: Fields, added: list[bytes], local: str, address: str) -> bytes:
    """A post that comes from the list's address. Its own From is X-Original-From, and its Reply-To, if it has one, X-Original-Reply-To; both
    keep their bytes. The writers are first in a new Reply-To."""
    writers = mailboxes(fields, b'from')
    if [each.lower() for _, each in writers] == [address.lower()]:
        return b''.join([*added, mail])
    named = [name or each.rpartition('@')[0].strip('"') for name, each in writers]
    words = ', '.join(clean(name) for name in named)[:LONGEST_NAME].strip()
    added = [*added, field('From', f'{words} via {clean(local)}' if words else clean(local), address)]
    renamed = [b'from']
    if writers:
        renamed.append(b'reply-to')
        added.append(reply_to([*writers, *mailboxes(fields, b'reply-to')]))
    pieces, at = [], 0
    for match in fields:
        if match[1].lower() in renamed:
            pieces += [mail[at:match.start()], b'X-Original-']
            at = match.start()
    return b''.join([*added, *pieces, mail[at:]])


def reply_to(people: Iterable[Mailbox]) -> bytes:
    """A Reply-To field of these, each address once, one a line."""
    rows: dict[str, str] = {}
    for name, address in people:
        words = clean(name)[:LONGEST_NAME].strip()
        rows.setdefault(address.lower(), f'{phrase(words, "Reply-To")} <{address}>' if words else address)
    return f'Reply-To: {JOINED.join(rows.values())}\n'.encode()


def mailboxes(fields: Fields, name: bytes) -> list[Mailbox]:
    """The names and addresses in all fields of a name, in their order, without those that are none. Fields that are too long are Unreadable."""
    values = [match[2] for match in fields if match[1].lower() == name]
    if sum(map(len, values)) > LONGEST_FIELD:
        raise Unreadable(f'its {name.decode().title()} is longer than {LONGEST_FIELD} bytes')
    found: list[Mailbox] = []
    for value in values:
        text = re.sub(r'[\r\n]', '', value.decode('utf-8', 'replace')).strip()
        found += parsed(text)
    return found


def parsed(text: str) -> list[Mailbox]:
    """The mailboxes of an unfolded field (RFC 5322 3.4). If `email.utils` reads none, as in `A@B.C <a@b.c>`, what stands in angle brackets is
    taken, and then what the parser of `email.policy` finds."""
    try:
        rows = [(decoded(name), address) for name, address in email.utils.getaddresses([text])]
        if not any(map(is_mailbox, rows)):
            rows = [('', address.strip()) for address in re.findall('<([^<>]*)>', text)]
        if not any(map(is_mailbox, rows)) and len(text) <= SLOW:
            header: Any = email.policy.default.header_factory('from', text)
            rows = [(each.display_name, each.addr_spec) for each in header.addresses]
    except (ValueError, LookupError, AttributeError, TypeError, RecursionError, email.errors.MessageError) as error:
        raise Unreadable(f'its From or Reply-To: {type(error).__name__}') from error
    return list(filter(is_mailbox, rows))


def is_mailbox(row: Mailbox) -> bool:
    """Whether the address is one (RFC 5322 3.4.1; RFC 5321 4.5.3.1 for its length) that can be shown."""
    return ADDRESS.fullmatch(row[1]) is not None and row[1].isprintable() and len(row[1].encode()) <= LONGEST_ADDRESS


def decoded(text: str) -> str:
    """A name with its encoded words as letters (RFC 2047). What can't be read of one stays as it is, or becomes U+FFFD."""
    try:
        pieces = email.header.decode_header(text)
    except email.errors.HeaderParseError:
        return text
    return ''.join(piece if isinstance(piece, str) else letters(piece, charset) for piece, charset in pieces)


def letters(piece: bytes, charset: str | None) -> str:
    if charset is None:  # It stands beside encoded words, and `email.header` spells it so.
        return piece.decode('raw-unicode-escape', 'replace')
    try:
        return piece.decode(charset, 'replace')
    except (LookupError, ValueError):
        return piece.decode('ascii', 'replace')


def clean(name: str) -> str:
    """A name on one line: nothing in it ends a line, changes its direction or can't be spelled, and spaces are single ones."""
    shown = (' ' if unicodedata.category(char) in ('Cc', 'Cs', 'Co', 'Zl', 'Zp') else char for char in name if char not in TURNS)
    return ' '.join(''.join(shown).split())


def phrase(text: str, name: str) -> str:
    """A text as it stands before an address: quoted (RFC 5322 3.2.4) or as encoded words (RFC 2047 5), folded. In `List-Id` a plain one is
    left plain."""
    if not text.isascii() or '=?' in text:
        return email.header.Header(text, 'utf-8', maxlinelen=LINE, header_name=name).encode(linesep='\n')
    if name == 'List-Id' and ATOMS.fullmatch(text):
        return text
    return '"' + re.sub(r'(["\\])', r'\\\1', text) + '"'
