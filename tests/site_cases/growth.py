"""How the work over a stranger's bytes grows: twice the bytes of any kind of mail take at most 2.5 times the processor's time, up to the limits."""

from __future__ import annotations

import base64
import datetime
import functools
import random
import resource
import time
from collections.abc import Callable

from ezmlm_site import cuts, files, markup, message, query, reading, scripts, words

from .world import World, holds

MOST = 2.5
LEAST = 0.01                           # seconds: less isn't measured well
SMALLEST, BIGGEST = 8_000, 128_000     # bytes
LONGEST = 1.0                          # seconds: what takes longer for one mail is long enough to be seen
MIXES = 4
# What `email` and the reader of HTML may take longer for, and the worker ends: `email` compares each line to each boundary around it.
ENDED = 'html of ', 'parts of HTML', 'parts within parts'
FIELDS = 'From: A B <a@b>\nTo: cats@ex.org\nSubject: x\n'


def mime(kind: str, body: str, more: str = '') -> bytes:
    return f'{FIELDS}Content-Type: {kind}\n{more}\n{body}'.encode('utf-8', 'surrogateescape')


def within(depth: int) -> bytes:
    inner = ''.join(f'Content-Type: multipart/mixed; boundary="b{level}"\n\n--b{level}\n' for level in range(depth))
    return f'{FIELDS}{inner}\nat the bottom\n'.encode()


# Of each kind of part a mail of about so many bytes. The pieces are those over which patterns and parsers try anew.
PLAIN = ['word ', 'a\n', '\n', ' ', '\t', '> ', '>\n', '>', '> x\n> ', 'http://a.b/', 'http://a.b/)', 'http://', 'mailto:a@b ', 'a@', 'a.', 'a@b.c ', '@', '-- \n', '--- a\n+++ b\n',
         'diff -\n', '@@ -1 +1 @@\n', 'Index: \n', '+', '|', '| a | b |\n', '+---+\n', 'a   b\n', '     ', '(((', ')))', '…', '猫', 'é', '\u0301', '\u202e', '\0', '&', '<', '"', '\r', '\r\n',
         'begin 644 x\n', '-----BEGIN PGP SIGNED MESSAGE-----\n', '-----BEGIN PGP MESSAGE-----\n', '0.', 'x' * 60 + '@', 'https://a@b:c@d/?', '=?', '_', '\x0c', '\u2028']
HTML = ['<p>\n', '\n', '<br>', '<div>', '<b>', '</b>', '<table><tr><td>', '<td>', '<ul><li>', '<blockquote>', '<a href="http://a.b/">x</a> ', '<a href="', '<!--', '<![CDATA[', '<', '>', '&',
        '&amp;', '&#', '&#x41;', '&lt', '<pre>\n', '<style>', '<script>', '<img src=x alt=y>', '<p class="', 'word ', '<h1>x</h1>', '<font><i><u>', '</div>', '<?', '<!DOCTYPE ', '<p\n', "<a b='",
        '<ol><li>x</li></ol>', '<hr>', '<span style="x">', '&nbsp;', '<svg><math>', '<select><option>', '<textarea>', '<frameset>', '<table><a>', '</p>', '<dl><dt><dd>', '<title>', '<nobr>']
SPECIAL: dict[str, Callable[[int], bytes]] = {
    'parts': lambda size: mime('multipart/mixed; boundary=b', '--b\n\nx\n' * (size // 7) + '--b--\n'),
    'parts of files': lambda size: mime('multipart/mixed; boundary=b', '--b\nContent-Type: a/b; name=c.d\n\nx\n' * (size // 34) + '--b--\n'),
    'parts of HTML': lambda size: mime('multipart/mixed; boundary=b', '--b\nContent-Type: text/html\n\n<p>x\n' * (size // 34) + '--b--\n'),
    'parts within parts': lambda size: within(size // 60),
    'mails within mails': lambda size: (FIELDS + 'Content-Type: message/rfc822\n\n' * (size // 30)).encode(),
    'alternatives': lambda size: mime('multipart/alternative; boundary=b', '--b\nContent-Type: text/html\n\nx\n' * (size // 31) + '--b--\n'),
    'fields': lambda size: (FIELDS + 'X: y\n' * (size // 5) + '\nhi\n').encode(),
    'a long field': lambda size: (FIELDS + 'X: ' + 'y ' * (size // 2) + '\n\nhi\n').encode(),
    'a folded field': lambda size: (FIELDS + 'X: y\n' + ' z\n' * (size // 3) + '\nhi\n').encode(),
    'brackets in From': lambda size: f'From: {"(" * size}\nSubject: x\n\nhi\n'.encode(),
    'pairs of brackets in From': lambda size: f'From: {"() " * (size // 3)}\nSubject: x\n\nhi\n'.encode(),
    'ats in From': lambda size: f'From: {"a at " * (size // 5)}\nSubject: x\n\nhi\n'.encode(),
    'quotes in From': lambda size: 'From: {}\nSubject: x\n\nhi\n'.format('" \\' * (size // 3)).encode(),
    'spaces in From': lambda size: f'From: {" " * size}x\nSubject: x\n\nhi\n'.encode(),
    'encoded words in the subject': lambda size: f'From: a@b\nSubject: {"=?utf-8?q?x?= " * (size // 14)}\n\nhi\n'.encode(),
    'beginnings of encoded words': lambda size: f'From: a@b\nSubject: {"=?utf-8?q?" * (size // 10)}\n\nhi\n'.encode(),
    'encoded words in base64': lambda size: f'From: a@b\nSubject: {"=?utf-8?b?YQ==?= " * (size // 17)}\n\nhi\n'.encode(),
    'a Message-ID of brackets': lambda size: f'From: a@b\nSubject: x\nMessage-ID: {"<" * size}\n\nhi\n'.encode(),
    'references': lambda size: f'From: a@b\nSubject: x\nReferences: {"<a@b> " * (size // 6)}\n\nhi\n'.encode(),
    'parameters': lambda size: mime('text/plain; ' + 'a=b; ' * (size // 5), 'hi\n'),
    'parameters in pieces': lambda size: mime('text/plain; ' + ''.join(f'name*{n}=x; ' for n in range(size // 12)), 'hi\n'),
    'semicolons': lambda size: mime('text/plain' + ';' * size, 'hi\n'),
    'base64': lambda size: mime('text/plain', base64.encodebytes(b'hi ' * (size // 4)).decode(), 'Content-Transfer-Encoding: base64\n'),
    'base64 that isn\'t': lambda size: mime('text/plain', '=\n' * (size // 2), 'Content-Transfer-Encoding: base64\n'),
    'quoted-printable': lambda size: mime('text/plain', '=3D=\n' * (size // 5), 'Content-Transfer-Encoding: quoted-printable\n'),
    'quoted-printable that isn\'t': lambda size: mime('text/plain', '=' * size, 'Content-Transfer-Encoding: quoted-printable\n'),
    'uuencode': lambda size: mime('text/plain', 'begin 644 x\n' + '#86)C\n' * (size // 6) + '`\nend\n', 'Content-Transfer-Encoding: x-uuencode\n'),
    'flowed': lambda size: mime('text/plain; format=flowed', 'a \n' * (size // 3)),
    'flowed quotes': lambda size: mime('text/plain; format=flowed', '>' * (size // 2) + '\n' + '> \n' * (size // 6)),
    'flowed spaces': lambda size: mime('text/plain; format=flowed; delsp=yes', ' \n' * (size // 2)),
    'a patch': lambda size: mime('text/x-patch', 'diff -u a b\n--- a\n+++ b\n' + '@@ -1 +1 @@\n-a\n+b\n' * (size // 18)),
    'a patch in the text': lambda size: mime('text/plain', 'diff -u a b\n--- a\n+++ b\n' + '@@ -1 +1 @@\n-a\n+b\n' * (size // 18)),
    'punycode': lambda size: mime('text/plain; charset=punycode', 'a' * (size // 2) + '-' + '9' * (size // 2)),
    'UTF-7': lambda size: mime('text/plain; charset=utf-7', '+' * size),
    'ISO-2022-JP': lambda size: mime('text/plain; charset=iso-2022-jp', '\x1b$B' * (size // 3)),
    'UTF-16': lambda size: mime('text/plain; charset=utf-16', 'ab' * (size // 2)),
}


PATTERN = cuts.pattern_of(query.read('cat "big dog" pre* 猫', datetime.timezone.utc).terms)
SHORTEN = words.shortener('shortened', 'cats', 'ex.org'), words.shortener('hidden', 'cats', 'ex.org')


def kinds() -> dict[str, Callable[[int], bytes]]:
    """A mail of each kind by its size in bytes: of each piece, and of some that are drawn together."""
    def of(kind: str, piece: str) -> Callable[[int], bytes]:
        return lambda size: mime(kind, piece * (size // max(1, len(piece.encode('utf-8', 'surrogateescape'))) + 1))
    found = dict(SPECIAL)
    drawn = random.Random(1)
    for kind, pieces in (('plain', PLAIN), ('html', HTML)):
        for piece in [*pieces, *(''.join(drawn.choices(pieces, k=drawn.randint(2, 4))) for _ in range(MIXES))]:
            found[f'{kind} of {piece[:40]!a}'] = of(f'text/{kind}; charset=utf-8', piece)
    return found


def rest(found: message.Shown) -> None:
    """What the run itself does with what is seen of a mail: addresses are cut, the text becomes markup, is indexed, and is shown as a hit."""
    for shorten in SHORTEN:
        text = shorten(found.text)
        for _name, value in found.fields:
            shorten(value)
    markup.marked_up(text)
    scripts.spaced(text)
    cuts.cut(text, PATTERN)
    for attachment in found.attachments:
        files.safe_name(1, attachment.name)


def taken(do: Callable[[], object]) -> float:
    """The processor's seconds of something, the least of two rounds."""
    least = float('inf')
    for _round in range(2):
        begun = time.process_time()
        do()
        least = min(least, time.process_time() - begun)
        if least > 0.5:
            break
    return least


def growth(make: Callable[[int], Callable[[], object]]) -> tuple[float, int]:
    """How many times longer twice the bytes take, and at which size, if it is too long at two sizes one after the other, or one takes a second; else 0. What other
    processes do to the measure, they do to one size and not to both, each of which is measured again."""
    size, before, suspected = SMALLEST, taken(make(SMALLEST)), 0.0
    while (size < BIGGEST or suspected and size < 2 * BIGGEST) and before < LONGEST:
        size *= 2
        now = taken(make(size))
        for _round in range(3):
            if before < LEAST or now <= before * MOST:
                break
            before, now = max(before, taken(make(size // 2))), min(now, taken(make(size)))
        ratio = now / before if before >= LEAST else 0.0
        if suspected and ratio > MOST:
            return min(suspected, ratio), size
        suspected = ratio if ratio > MOST else 0.0
        before = now
    return (before / LONGEST * MOST, size) if before > LONGEST else (0.0, 0)


def case_growth(_: World) -> None:
    """Twice the bytes of each kind of mail take at most 2.5 times the work: what a run does, and what its worker does unless it ends it."""
    ended = []
    for name, make in kinds().items():
        worst, at = growth(lambda size: functools.partial(message.read, make(size)))
        if worst > MOST:
            holds(f'{name}: {at} bytes are read {worst:.1f} times as long as half of them', name.startswith(ENDED))
            ended.append(name)
        worst, at = growth(lambda size: functools.partial(rest, message.read(make(min(size, 2_000) if name in ended else size))))
        holds(f'{name}: {at} bytes take {worst:.1f} times as long as half of them', worst <= MOST)
    reader = reading.Reader(seconds=0.5)
    try:
        for name in [name for name in ended if name.startswith('html')][:5]:
            begun = resource.getrusage(resource.RUSAGE_CHILDREN).ru_utime
            found = reader.read(kinds()[name](BIGGEST))
            reader.close()
            took = resource.getrusage(resource.RUSAGE_CHILDREN).ru_utime - begun
            holds(f'{name} is not ended, after {took:.1f} seconds', found.is_source and found.notes and took < 3)
    finally:
        reader.close()


def case_growth_is_seen(_: World) -> None:
    """Work by the square of the bytes is seen by the measure, and work that is linear isn't taken for it."""
    def square(size: int) -> Callable[[], object]:
        return lambda: [None for _ in range(size // 16) for _ in range(size // 16)]
    holds('work by the square isn\'t seen', growth(square)[0] > MOST)
    holds('linear work is taken for it', growth(lambda size: lambda: sum(range(size * 20)))[0] <= MOST)
