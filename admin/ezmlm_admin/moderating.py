"""A moderator's answer to a held post, without the mail that has the cookie."""

from __future__ import annotations

import hashlib
import hmac
import pathlib
import time

from ezmlm_agent import program as programs

from . import shared, texts
from .lists import REFUSED, MailingList, Refused, Said, content
from .waiting import one_held, ticket_of

COOKIE_BYTES = 10


def key_now(text: bytes) -> bytes:
    """The key of the file `key`, which may have a former one after it. Other bytes are a ValueError."""
    if len(text) not in (32, 72):
        raise ValueError('no key')
    return text[:32]


def cookie(key: bytes, kind: bytes, name: bytes, moment: int, what: bytes) -> bytes:
    """A cookie of this kind, set and moment: the front of an HMAC-SHA-256 (RFC 2104), each byte as two letters from `a` to `p`."""
    text = b''.join(map(programs.netstring, (kind, name, b'%d' % moment, what)))
    digest = hmac.new(key, text, hashlib.sha256).digest()[:COOKIE_BYTES]
    return b''.join(bytes((97 + (byte >> 4), 97 + (byte & 15))) for byte in digest)


def answer(chosen: MailingList, word: str, verdict: bytes) -> Said:
    """Gives the list the mail by which a moderator accepts or rejects a held post, from the list's owner, and says what the list answers."""
    ticket, config = ticket_of(word), chosen.configuration()
    moment = one_held(chosen, ticket, 0).moment

    def read_key(folder: pathlib.Path) -> bytes:
        return content(folder, 'key', key_now)

    letters = cookie(chosen.read(read_key), b'hold', b'mod', moment, b'%d' % ticket)
    recipient = b'%b-%b-%d.%b@%b' % (config.local, verdict, ticket, letters, config.host)
    mail = b'From: %b\nTo: %b\nSubject: %b\n\n' % (config.owner, recipient, verdict)
    status, line = shared.deliver(chosen, int(time.time()), config.owner.decode('ascii'), recipient.decode('ascii'), mail)
    if status not in (0, REFUSED):
        raise Refused(status, f'{chosen.folder}: the program says: {texts.safe(line)}')
    words = line.split(' ', 2)[2]
    return Said([words], {'ticket': ticket, 'status': status, 'answer': words}, status)


def accept(chosen: MailingList, ticket: str) -> Said:
    """Posts a held post."""
    return answer(chosen, ticket, b'accept')


def reject(chosen: MailingList, ticket: str) -> Said:
    """Gives a held post back to its author."""
    return answer(chosen, ticket, b'reject')
