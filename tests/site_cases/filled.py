"""An archive written as docs/FORMATS.md has its files: in seconds, while a stream of large posts or of many takes minutes."""

from __future__ import annotations

import collections
import pathlib
from collections.abc import Iterable

SENT = (b'Mailing-List: contact cats-help@ex.org; run by ezmlm\nPrecedence: bulk\nList-Post: <mailto:cats@ex.org>\nList-Help: <mailto:cats-help@ex.org>\n'
        b'List-Unsubscribe: <mailto:cats-unsubscribe@ex.org>\nList-Subscribe: <mailto:cats-subscribe@ex.org>\nDelivered-To: mailing list cats@ex.org\n')


def netstring(content: bytes) -> bytes:
    return b'%d:%b,' % (len(content), content)


def place_of(key: bytes) -> int:
    """The file of threads that a subject's key stands in."""
    hashed = 5381
    for byte in key:
        hashed = hashed * 33 % 2**32 ^ byte
    return hashed % 256


def fill(folder: pathlib.Path, posts: Iterable[tuple[int, bytes, bytes]]) -> int:
    """Writes the archive of a list that has no posts: each a moment, a subject of lower case without spaces around, and a mail. The answer is how
    many there are. The subject goes into the index and the threads; the mail's own may be another one, as nothing compares them."""
    index: dict[int, list[bytes]] = collections.defaultdict(list)
    threads: dict[bytes, list[bytes]] = collections.defaultdict(list)
    number = 0
    for number, (moment, subject, mail) in enumerate(posts, 1):
        group = folder / f'archive/{number // 100}'
        if not index[number // 100]:
            group.mkdir(parents=True, exist_ok=True)
        content = SENT + mail
        (group / f'{number % 100:02}').write_bytes(content)
        index[number // 100].append(netstring(b'%d' % moment) + netstring(b'a@b.net') + netstring(b'%d' % len(content)) + netstring(subject) + b'\n')
        threads[subject].append(b'%d' % number)
    for group_number, lines in index.items():
        (folder / f'archive/{group_number}/index').write_bytes(b''.join(lines))
    (folder / 'archive/threads').mkdir(parents=True, exist_ok=True)
    files: dict[int, list[bytes]] = collections.defaultdict(list)
    for key in sorted(threads):
        files[place_of(key)].append(netstring(key) + netstring(b','.join(threads[key])))
    for place, rows in files.items():
        (folder / f'archive/threads/{place:03}').write_bytes(b''.join(rows))
    (folder / 'num').write_bytes(b'%d\n' % number)
    return number
