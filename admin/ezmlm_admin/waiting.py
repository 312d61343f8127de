"""What waits: held posts, the queue, the digest that is due."""

from __future__ import annotations

import os
import pathlib
import re
import time
from collections.abc import Iterator
from typing import BinaryIO

from . import entries, files, texts
from .lists import REFUSED, WORDS, MailingList, Refused, Said, content, names, opened

HEAD = 65536  # bytes of a message in which its subject is looked for
DUE_POSTS, DUE_BYTES, DUE_AGE, ISSUE = 30, 65_536, 172_800, 100  # when a digest is due, and the most posts of one
PATHS = (re.compile(rb'-digest-return-([0-9]+)-'), 'digest '), (re.compile(rb'-return-([0-9]+)-'), 'post '), \
    (re.compile(rb'-(?:digest-)?return-(warn|probe)-.*', re.DOTALL), ''), (re.compile(rb'-(?:digest-)?return-'), 'mail')
KINDS = {'warn': 'warning'}


def each_held(folder: pathlib.Path, at_most: int) -> Iterator[tuple[int, files.Held]]:
    """The tickets of the held posts with these."""
    low, after = content(folder, 'tickets', files.pair)
    for ticket in names(folder / 'pending'):
        if low <= ticket < after:
            found = opened(folder, f'pending/{ticket}', lambda file: files.held(file, at_most))
            if found is not None:
                yield ticket, found


def ticket_of(word: str) -> int:
    """The ticket that a word of the command line is. Another word is Refused."""
    if not (word.isascii() and word.isdecimal() and word[0] != '0' and len(word) <= 16):
        raise Refused(WORDS, f'{texts.safe(word)} is no ticket: it is a number from 1 on')
    return int(word)


def one_held(chosen: MailingList, ticket: int, at_most: int) -> files.Held:
    """A held post. One that isn't there is Refused."""
    def look(folder: pathlib.Path) -> files.Held | None:
        low, after = content(folder, 'tickets', files.pair)
        return opened(folder, f'pending/{ticket}', lambda file: files.held(file, at_most)) if low <= ticket < after else None

    found = chosen.read(look)
    if found is None:
        raise Refused(REFUSED, f'no post is held under the ticket {ticket}: it was answered, or went back to its author')
    return found


def held(chosen: MailingList, *ticket: str) -> Said:
    """The held posts with ticket, age, sender and subject, or the one of a ticket."""
    now = time.time()
    if ticket:
        found = one_held(chosen, ticket_of(ticket[0]), 1 << 26)
        first = f'held since {texts.date(found.moment)}, from {texts.safe(found.sender)}, {found.size} bytes'
        of_post = {'ticket': int(ticket[0]), 'moment': found.moment, 'sender': texts.exact(found.sender), 'message': texts.exact(found.message)}
        return Said([first, '', texts.safe_lines(found.message)], of_post)
    rows, data = [], []
    for number, one in chosen.read(lambda folder: list(each_held(folder, HEAD))):
        subject = texts.subject(one.message)
        rows.append((number, texts.age(now - one.moment), one.size, texts.safe(one.sender), texts.safe(texts.decoded(subject))))
        data.append({'ticket': number, 'moment': one.moment, 'age': int(now) - one.moment, 'bytes': one.size,
                     'sender': texts.exact(one.sender), 'subject': texts.decoded(subject), 'subject_as_sent': texts.exact(subject)})
    return Said(texts.table(('TICKET', 'AGE', 'BYTES', 'SENDER', 'SUBJECT'), rows), data)


def kind(local: bytes, base: bytes) -> str:
    """What an entry of the queue is, by the base of its envelope senders: a post or a digest with its number, a warning, a probe, or another
    mail of the list."""
    for pattern, word in PATHS:
        if base.startswith(local) and (found := pattern.fullmatch(base[len(local):])) is not None:
            rest = found[1].decode('ascii') if pattern.groups else ''
            return word + KINDS.get(rest, rest)
    return 'mail'


def queue(chosen: MailingList) -> Said:
    """The entries of the queue: id, age by the file's time, kind, recipients, bytes and subject."""
    status, text = chosen.run('queue')
    if status != 0:
        raise Refused(status, f'{chosen.folder}: the program says: {text}')
    sizes = [tuple(map(int, line.split(' '))) for line in text.splitlines()]
    local, now = chosen.configuration().local, time.time()

    def look(folder: pathlib.Path) -> list[tuple[float, bytes, bytes] | None]:
        return [opened(folder, f'queue/{row[0]}', entry) for row in sizes]

    rows, data = [], []
    for (number, recipients, size), found in zip(sizes, chosen.read(look)):
        if found is not None:  # It may have gone out meanwhile.
            moment, base, body = found
            subject = texts.decoded(texts.subject(body))
            rows.append((number, texts.age(now - moment), kind(local, base), recipients, size, texts.safe(subject)))
            data.append({'id': number, 'moment': int(moment), 'age': int(now - moment), 'kind': kind(local, base), 'recipients': recipients,
                         'bytes': size, 'subject': subject, 'subject_as_sent': texts.exact(texts.subject(body))})
    return Said(texts.table(('ID', 'AGE', 'KIND', 'RECIPIENTS', 'BYTES', 'SUBJECT'), rows), data)


def entry(file: BinaryIO) -> tuple[float, bytes, bytes]:
    """When an entry of the queue was written, the base of its envelope senders, and the front of its body."""
    base, _, body = files.entry_head(file, HEAD)
    return os.fstat(file.fileno()).st_mtime, base, body


def digest(chosen: MailingList) -> Said:
    """What the next digest would have, and whether it is due."""
    config, now = chosen.configuration(), int(time.time())

    def look(folder: pathlib.Path) -> tuple[int, int, int, list[entries.Entry]]:
        last, issue = content(folder, 'dig', files.pair)
        posts = content(folder, 'num', files.count)
        return last, issue, posts, entries.some(folder, last + 1, min(posts, last + ISSUE))

    last, issue, posts, waiting = chosen.read(look)
    size, first = sum(one.size for one in waiting), waiting[0].moment if waiting else None
    by_age = first + DUE_AGE if first is not None else None
    is_due = posts - last >= DUE_POSTS or size >= DUE_BYTES or (by_age is not None and by_age <= now)
    when = 'due now' if is_due else f'due at {texts.date(by_age)}, or with {DUE_POSTS} posts or {DUE_BYTES} bytes' if by_age else 'none is due'
    if not config.has('d'):
        is_due, when = False, 'the list has no digests: option d is clear'
    of_next = f', the first since {texts.date(first)}; {size} bytes in the next issue' if waiting else ''
    lines = [f'issue {issue} was the last, up to post {last}', f'{texts.many(posts - last, "post")} in none yet{of_next}', when]
    return Said(lines, {'digests': config.has('d'), 'issue': issue, 'last': last, 'waiting': posts - last, 'bytes': size,
                        'first': first, 'is_due': is_due, 'due': by_age if config.has('d') else None})
