"""Who is on a list, and whose mail bounces."""

from __future__ import annotations

import os
import pathlib

from . import files, texts
from .lists import REFUSED, SETS, WORDS, MailingList, Refused, Said, below, content


def address_of(word: str) -> bytes:
    """The address that a word of the command line is. Another word is Refused."""
    found = os.fsencode(word)
    if not files.is_address(found):
        raise Refused(WORDS, f'{texts.safe(found)} is no address: it has one @, no spaces, quotes or bytes past ASCII, and at most 400 bytes')
    return files.kept(found)


def member(chosen: MailingList, word: str) -> Said:
    """In which sets an address is, since when, and what is noted of its bounces. The status is 100 if it is in none."""
    key = address_of(word).lower()

    def look(folder: pathlib.Path) -> list[dict[str, object]]:
        found: list[dict[str, object]] = []
        for name in SETS:
            for address, since in content(folder, f'{below(name)}subscribers/{files.bucket(key)}', files.members):
                if address.lower() == key:
                    found.append({'set': name, 'address': texts.exact(address), 'since': since or None,
                                  'bounces': noted(folder, name, key)})
        return found

    found = chosen.read(look)
    lines = []
    for one in found:
        lines.append(f'{one["set"]}: {texts.safe(str(one["address"]))}, since {texts.date(since_of(one))}')
        if isinstance(bounces := one['bounces'], dict):
            missed = texts.many(len(bounces['missed']), 'mail')
            lines.append(f'    bounces: {bounces["stage"]}, since {texts.date(bounces["since"])}, {missed} missed')
    return Said(lines or [f'{texts.safe(word)} is in no set'], found, 0 if found else REFUSED)


def since_of(one: dict[str, object]) -> int | None:
    return one['since'] if isinstance(one['since'], int) else None


def noted(folder: pathlib.Path, name: str, key: bytes) -> dict[str, object] | None:
    """What the ledger of a set has of a member."""
    if name not in ('list', 'digest'):
        return None
    ledger = content(folder, f'{below(name)}bounce/{files.bucket(key)}', files.ledger)
    return next((bounces_data(name, one) for one in ledger if one.key == key), None)


def bounces_data(name: str, one: files.Bounces) -> dict[str, object]:
    since = one.moment if one.moment is not None else one.first
    return {'set': name, 'address': texts.exact(one.key), 'stage': one.stage, 'since': since, 'first': one.first or None, 'missed': one.missed}


def bounces(chosen: MailingList, *chosen_set: str) -> Said:
    """Whose mail bounces: the stage, since when, and how many mails were missed."""
    if chosen_set and chosen_set[0] not in ('list', 'digest'):
        raise Refused(WORDS, f'{texts.safe(chosen_set[0])} is no set with bounces: these are list and digest')

    def look(folder: pathlib.Path) -> list[tuple[str, files.Bounces]]:
        return [(name, one) for name in chosen_set or ('list', 'digest') for place in files.bucket_names()
                for one in content(folder, f'{below(name)}bounce/{place}', files.ledger)]

    found = sorted(chosen.read(look), key=lambda row: (row[0] != 'list', row[1].key))
    rows = [(name, one.stage, texts.date(one.moment if one.moment is not None else one.first), len(one.missed), texts.safe(one.key))
            for name, one in found]
    return Said(texts.table(('SET', 'STAGE', 'SINCE', 'MISSED', 'ADDRESS'), rows), [bounces_data(name, one) for name, one in found])
