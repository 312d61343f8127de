"""What has to hold in the end, when all that was cut off, stopped or killed is there again."""

import collections
import filecmp
import os
import pathlib
import re
import shutil
import subprocess
import time
from collections.abc import Iterable
from typing import Any, NamedTuple

from .people import LISTS, People
from .setting import Setting
from .sink import Copy, copy_of

NOT_COMPARED = {'lock', 'log'}
COMPARING = 60  # seconds in which the hosts have compared their copies, which they do after each timed run
LATER = 75, 124  # the statuses of a command that is to be given again, and of one that took too long and was killed
IDENT = re.compile(rb'(?m)^Received: by mx\.ex\.org id (\S+)\r?$')


def netstrings(text: bytes) -> list[bytes]:
    """The contents of a row of netstrings."""
    at, contents = 0, []
    while at < len(text):
        colon = text.index(b':', at)
        end = colon + 1 + int(text[at:colon])
        contents.append(text[colon + 1:end])
        at = end + 1
    return contents


def files(folder: pathlib.Path) -> dict[str, pathlib.Path]:
    """The files of a list by their names in its folder, except those that aren't the list's."""
    found = {}
    for at, _, names in os.walk(folder):
        for name in names:
            path = pathlib.Path(at, name)
            if str(path.relative_to(folder)) not in NOT_COMPARED:
                found[str(path.relative_to(folder))] = path
    return found


def different(one: pathlib.Path, other: pathlib.Path) -> list[str]:
    """The names of files that are in one folder alone or differ by a byte."""
    first, second = files(one), files(other)
    return sorted({*(first.keys() ^ second.keys()), *(name for name in first.keys() & second.keys()
                                                     if not filecmp.cmp(first[name], second[name], shallow=False))})


class Row(NamedTuple):
    """An item of a history."""
    number: int
    text: bytes


class Ending:
    """Looks at what is left. `wrong` has what doesn't hold, in words."""

    def __init__(self, setting: Setting, people: People, settled: float | None) -> None:
        self.setting, self.people, self.settled = setting, people, settled
        self.program, self.place = setting.program, setting.place
        self.wrong: list[str] = []
        self.expected: collections.Counter[Copy] = collections.Counter()
        self.gone: collections.Counter[str] = collections.Counter()
        self.posts = 0

    def note(self, what: str, found: Iterable[object]) -> None:
        """Notes that something is wrong, if anything was found, with the first few."""
        shown = list(found)
        if shown:
            self.wrong.append(f'{what}: {len(shown)}, as {", ".join(str(one) for one in shown[:5])}')

    def watch(self) -> None:
        """Each host says that all is well, and the hosts compare their copies, while the agents run."""
        for host in self.setting.hosts:
            status, said = host.command('--status')
            if status != 0:
                self.wrong.append(f'--status on {host.name} ends with {status}: {said!r}')
        end = time.monotonic() + COMPARING
        for name in LISTS:
            while not any(hosts > 1 for _, hosts, _ in self.seen(name)):
                if time.monotonic() > end:
                    self.wrong.append(f'{name}: no two hosts compared their copies')
                    break
                time.sleep(0.2)

    def look(self) -> None:
        if self.settled is None:
            self.wrong.append('the hosts did not all come to the end of the history, or something waits to be sent')
        self.note('ended with a fault', self.people.wrong)
        self.note('commands of operators failed with another status than 75', [why for why in self.people.failed if why[1] not in LATER])
        for host in self.setting.hosts:
            self.note(f'the agent of {host.name} ended by itself', host.ended)
            if b'Traceback' in host.log.read_bytes():
                self.note(f'the agent of {host.name} tells a fault', [host.log])
        for name in LISTS:
            self.look_at(name)
        self.copies()

    def look_at(self, name: str) -> None:
        """The copies of one list are what one list becomes that gets the items of its history in one run."""
        rows = self.rows(name)
        first, last = rows[0].number, rows[-1].number
        self.note(f'{name}: the numbers of items have gaps', {row.number for row in rows} ^ set(range(first, last + 1)))
        replayed: dict[int, pathlib.Path] = {}
        for host in self.setting.hosts:
            said = host.run(name, 'check')
            if not said.startswith('ok '):
                self.wrong.append(f'{name}: check on {host.name} says {said!r}')
            # The hosts were ended one after another, so timed runs may have come meanwhile that not each of them has.
            place = host.place_of(name)
            if place not in replayed:
                replayed[place], _ = self.replay(name, [row for row in rows if row.number < place], f'replayed.{place}')
            self.note(f'{name}: files of {host.name} and of one list that got all items differ', different(host.lists / name, replayed[place]))
        unsent, answers = self.replay(name, [row for row in rows if row.text[:1] != b'S'], 'unsent')
        self.note(f'{name}: hosts saw that their copies differ', [place for place, _, digests in self.seen(name) if digests > 1])
        self.told(name, rows, answers)
        self.given(name, answers)
        self.archived(name, max(replayed), answers)
        self.entries(unsent)

    def rows(self, name: str) -> list[Row]:
        """The items of a list's history, in their order."""
        rows = self.setting.servers.sql('SELECT number, text FROM ezmlm.item WHERE list = %s ORDER BY number', name)
        return [Row(number, bytes(text)) for number, text in rows]

    def replay(self, name: str, rows: list[Row], to: str) -> tuple[pathlib.Path, dict[int, str]]:
        """Gives items to a copy of the list as it was at the beginning. The answer is its folder, and what it answered by the items' numbers."""
        folder = self.place / to / name
        shutil.copytree(self.place / 'origin' / name, folder)
        configurations = self.setting.servers.sql('SELECT number, text FROM ezmlm.configuration WHERE list = %s ORDER BY number', name)
        answers: dict[int, str] = {}
        for at, (number, text) in enumerate(configurations):
            (folder / 'config').write_bytes(text)
            end = configurations[at + 1][0] if at + 1 < len(configurations) else rows[-1].number + 1
            if given := b''.join(row.text for row in rows if number <= row.number < end):
                done = subprocess.run([self.program, folder, 'spool'], input=given, stdout=subprocess.PIPE, check=False)
                for line in done.stdout.decode('ascii', 'replace').splitlines():
                    told, _, answer = line.partition(' ')
                    answers[int(told) if told.isdigit() else -1] = answer
        unanswered = [row.number for row in rows if answers.get(row.number, '').split(' ')[0] not in ('0', '100')]
        self.note(f'{name}: items that one list does not answer', unanswered)
        return folder, answers

    def seen(self, name: str) -> list[tuple[Any, ...]]:
        """Where hosts looked at their copies, how many did, and how many digests they saw there. Of what was before a later timed run nothing is
        kept."""
        return self.setting.servers.sql('SELECT place, count(*), count(DISTINCT digest) FROM ezmlm.digest WHERE list = %s '
                                        'GROUP BY place, back', name)

    def told(self, name: str, rows: list[Row], answers: dict[int, str]) -> None:
        """Each mail that was taken or refused is in the history once, and was told what the list answers."""
        numbers = collections.defaultdict(list)
        for row in rows:
            if row.text[:1] == b'D' and (found := IDENT.search(netstrings(row.text[1:])[4])):
                numbers[found[1].decode()].append(row.number)
        lost, otherwise = [], []
        for sent in self.people.post.mails:
            if sent.to == name and sent.reply[:1] in ('2', '5'):
                status, _, words = answers.get(numbers[sent.ident][0], '').partition(' ') if numbers[sent.ident] else ('', '', '')
                if not status:
                    lost.append(sent.ident)
                elif sent.is_taken() != (status == '0') or sent.is_taken() and sent.reply != f'250 2.0.0 {words}':
                    otherwise.append(f'{sent.ident} {sent.reply!r} and not {status} {words}')
        self.note(f'{name}: mails were answered, and are not in the history', lost)
        self.note(f'{name}: mails are in the history twice', [ident for ident, those in numbers.items() if len(those) > 1])
        self.note(f'{name}: mails were told something else than the list answers', otherwise)

    def given(self, name: str, answers: dict[int, str]) -> None:
        """What operators were told is what the list answers."""
        pairs = self.setting.servers.sql('SELECT theirs, number FROM ezmlm.given WHERE list = %s', name)
        known = {int(theirs): int(number) for theirs, number in pairs}
        for given in self.people.given:
            if given.to == name and given.said:
                wanted = [f'{theirs} {answers.get(known.get(theirs, 0))}' for theirs in given.numbers()]
                self.note(f'{name}: an operator was told something else than the list answers', set(given.said.splitlines()) ^ set(wanted))

    def archived(self, name: str, place: int, answers: dict[int, str]) -> None:
        """The archive has each post that was told to be there, once, and as many as the list answered so."""
        host = next(host for host in self.setting.hosts if host.place_of(name) == place)
        found = collections.Counter(ident.decode() for ident in IDENT.findall(host.run(name, 'mbox', '1', '99999999').encode()))
        self.note(f'{name}: posts are in the archive more than once', [ident for ident, many in found.items() if many > 1])
        posts = (sent for sent in self.people.post.mails if sent.recipient == f'{name}@ex.org')
        told = {sent.ident for sent in posts if sent.reply.startswith('250 2.0.0 posted')}
        self.note(f'{name}: posts were taken and are not in the archive', sorted(told - set(found)))
        self.posts += (many := sum(answer.startswith('0 posted') for answer in answers.values()))
        if many != len(found):
            self.wrong.append(f'{name}: {many} posts were answered, and the archive has {len(found)}')

    def entries(self, folder: pathlib.Path) -> None:
        """Counts the copies of all that a list ever sent. Its folder got no report of sent mail, so its queue has all of it."""
        done = subprocess.run([self.program, folder, 'queue'], stdout=subprocess.PIPE, check=True)
        for line in done.stdout.split(b'\n')[:-1]:
            entry = subprocess.run([self.program, folder, 'out', line.split()[0]], stdout=subprocess.PIPE, check=True).stdout
            body, *envelopes = netstrings(entry)
            content = body.replace(b'\n', b'\r\n')
            for envelope in envelopes:
                sender, recipient = (part[1:].decode() for part in envelope.split(b'\0')[:2])
                if recipient.endswith('@gone.net'):
                    self.gone[recipient] += 1
                else:
                    self.expected[copy_of(sender, recipient, content)] += 1

    def copies(self) -> None:
        seen = self.setting.sink.seen
        self.note('copies were not handed on', (copy[:2] for copy in self.expected - seen))
        self.note('copies were handed on that no list has', (copy[:2] for copy in seen if copy not in self.expected))
        self.note('recipients were not tried', self.gone - self.setting.sink.refused)

    def summary(self, counts: collections.Counter[str]) -> str:
        """What was done, in one line."""
        seen, mails = self.setting.sink.seen, self.people.post.mails
        taken = sorted(sent.took for sent in mails if sent.is_taken())
        twice = sum((seen - self.expected).values())
        by_hand = f'{len(self.people.given)} streams and {len(self.people.configured)} configurations of operators'
        happened = ', '.join(f'{what} {many}' for what, many in sorted(counts.items()))
        tries, copies, median = sum(sent.tries for sent in mails), sum(self.expected.values()), 1000 * taken[len(taken) // 2]
        return (f'{len(taken)} of {len(mails)} mails taken ({tries} tries; median {median:.0f} ms, longest {taken[-1]:.1f} s), '
                f'{self.posts} posts, {copies} copies, {twice} of them twice; {by_hand}; {happened}; settled in {self.settled or 0:.0f} s')
