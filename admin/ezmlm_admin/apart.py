"""Entries of the queue that the agent has set aside, since the transfer agent hangs up on them: which they are, and how one is tried again."""

from __future__ import annotations

import pathlib
import time

from ezmlm_agent import parked
from ezmlm_agent import settings as agents

from . import monitoring, texts
from .lists import NO_LIST, REFUSED, WORDS, MailingList, Refused, Said, opened
from .waiting import entry as entry_of


def place(chosen: MailingList) -> pathlib.Path:
    """Where the agent of this host has what it sets aside of a list. It is Refused if it hasn't the list."""
    try:
        agent = agents.read(monitoring.AGENT)
    except ValueError as error:
        raise Refused(WORDS, f'{error}; --agent names the settings of the agent') from error
    if agent.lists.resolve() != chosen.folder.resolve().parent:
        raise Refused(NO_LIST, f'{chosen.folder} is no list of the agent of {monitoring.AGENT}: its lists are in {agent.lists}')
    return parked.place(agent.state, chosen.folder.resolve().name)


def aside(chosen: MailingList) -> Said:
    """The entries that are set aside: id, for how long, what happened, and the subject."""
    rows, data, now = [], [], time.time()
    for number, one in sorted(parked.read(place(chosen)).items()):
        found = chosen.read(lambda folder, number=number: opened(folder, f'queue/{number}', entry_of))  # type: ignore[misc]
        if found is not None:
            subject = texts.subject(found[2])
            rows.append((number, texts.age(now - one.since), texts.safe(one.why), texts.safe(texts.decoded(subject))))
            data.append({'id': number, 'since': one.since, 'why': one.why, 'subject': texts.decoded(subject)})
    return Said(texts.table(('ID', 'AGE', 'WHY', 'SUBJECT'), rows), data)


def again(chosen: MailingList, word: str) -> Said:
    """Has the agent try an entry again, which it does within a minute. Who had a copy of it gets no other one."""
    if not (word.isascii() and word.isdecimal() and word[0] != '0' and len(word) <= 16):
        raise Refused(WORDS, f'{texts.safe(word)} is no entry: it is a number from 1 on')
    if not parked.again(place(chosen), int(word)):
        raise Refused(REFUSED, f'entry {word} isn\'t set aside')
    return Said([f'entry {word} is tried again within a minute'], {'id': int(word)})
