"""Words of a mail as text that can be shown: charsets, encoded words (RFC 2047), characters that aren't shown, and addresses cut short."""

from __future__ import annotations

import base64
import codecs
import quopri
import re
from collections.abc import Callable

LONGEST_FIELD = 20_000   # characters of a field that are looked at
REPLACED = '\ufffd'
# What HTML and XML forbid (C0 and C1 controls except tab and line feed, lone surrogates, noncharacters), and what turns the direction of the text
# around it (embeddings, overrides and isolates).
UNSHOWN = re.compile('[\0-\x08\x0b-\x1f\x7f-\x9f\u202a-\u202e\u2066-\u2069\ud800-\udfff\ufdd0-\ufdef\ufffe\uffff'
                     + ''.join(chr(plane + 0xfffe) + chr(plane + 0xffff) for plane in range(0x10000, 0x110000, 0x10000)) + ']')
UNSHOWN_ASCII = re.compile('[\0-\x08\x0b-\x1f\x7f]')
ENCODED = re.compile(r'=\?([^?\s]{1,60})\?([bBqQ])\?([^?]*)\?=')
# Encoded words with nothing but spaces between, which are no text then (RFC 2047 6.2).
ENCODED_WORDS = re.compile(r'=\?[^?\s]{1,60}\?[bBqQ]\?[^?]*\?=(?:\s*=\?[^?\s]{1,60}\?[bBqQ]\?[^?]*\?=)*')
LOCAL_AND_HOST = (r'([\w.%+=\'"~-]{1,64})@(?:\[[\w.:]{1,60}\]|(?:\w[\w-]{0,62}\.){0,30}\w[\w-]{0,62})')
ADDRESS = re.compile(LOCAL_AND_HOST)
# A URL is left as it is up to its query: what has an @ there is most often a Message-ID.
URL_OR_ADDRESS = re.compile(r'(?:https?|ftp)://[^\s<>"?#]+|' + LOCAL_AND_HOST, re.IGNORECASE)
FALLBACKS = 'utf-8', 'windows-1252'
# Codecs of Python's that are no charset of mail; the first two take time by the square of the length.
NO_CHARSETS = {'punycode', 'idna', 'unicode_escape', 'raw-unicode-escape', 'raw_unicode_escape', 'unicode-escape', 'undefined'}


def clean(text: str) -> str:
    """The text without what can't be shown: each such character becomes U+FFFD, and line ends become LF."""
    if '\r' in text:
        text = text.replace('\r\n', '\n').replace('\r', '\n')
    return (UNSHOWN_ASCII if text.isascii() else UNSHOWN).sub(REPLACED, text)


def decoded(content: bytes, charset: str | None) -> str:
    """Bytes by their charset. If that isn't known or lies, they are read as UTF-8, else as windows-1252."""
    for name in (charset, *FALLBACKS):
        try:
            if name and codecs.lookup(name).name not in NO_CHARSETS:
                return content.decode(name)
        except (LookupError, ValueError, AssertionError):
            continue
    return content.decode('latin-1')


def unescaped(text: str) -> str:
    """A text that `email` read from bytes, in which bytes past ASCII are surrogates, as what these bytes say."""
    try:
        return decoded(text.encode('ascii', 'surrogateescape'), None)
    except UnicodeEncodeError:
        return text


def encoded_words(match: re.Match[str]) -> str:
    """What a row of encoded words says. Neighbours of one charset are decoded together, as some writers split a character between them."""
    found: list[tuple[str, bytes]] = []
    for word in ENCODED.finditer(match[0]):
        charset = word[1].split('*')[0].lower()
        try:
            content = encoded_bytes(word[2], word[3])
        except ValueError:
            return match[0]
        if found and found[-1][0] == charset:
            content = found.pop()[1] + content
        found.append((charset, content))
    return ''.join(decoded(content, charset) for charset, content in found)


def encoded_bytes(kind: str, text: str) -> bytes:
    """The bytes that the text of an encoded word stands for. A text that is none is a ValueError."""
    raw = text.encode('ascii')
    if kind in 'bB':
        return base64.b64decode(raw + b'=' * (-len(raw) % 4))
    return quopri.decodestring(raw.replace(b'_', b' '), header=True)


def one_line(value: str, most: int = 1000) -> str:
    """A field's value to be shown: unfolded, its encoded words decoded, each run of spaces one space, cut after `most` characters."""
    text = unescaped(value[:LONGEST_FIELD])
    text = ENCODED_WORDS.sub(encoded_words, text)
    text = re.sub(r'\s+', ' ', clean(text)).strip()
    return text if len(text) <= most else text[:most - 1].rstrip() + '…'


def shortener(kind: str, local: str, host: str) -> Callable[[str], str]:
    """What a text becomes by the setting `addresses`. The list's own addresses stay, and so do URLs up to their query, unless all are hidden."""
    own = f'{local}@{host}'.lower(), f'{local}-'.lower(), f'@{host}'.lower()

    def cut(match: re.Match[str]) -> str:
        whole = match[0].lower()
        if match[1] is None or whole == own[0] or whole.startswith(own[1]) and whole.endswith(own[2]):
            return match[0]
        return f'{match[1]}@…' if kind == 'shortened' else '…@…'

    def shorten(text: str) -> str:
        if kind == 'shown' or '@' not in text:
            return text
        return (URL_OR_ADDRESS if kind == 'shortened' else ADDRESS).sub(cut, text)
    return shorten
