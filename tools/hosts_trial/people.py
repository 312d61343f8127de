"""What people do with the lists while hosts come and go: they post, subscribe, leave, bounce, moderate, and an operator gives streams."""

import collections
import dataclasses
import itertools
import pathlib
import queue
import random
import re
import threading
import time
from collections.abc import Callable

from .host import Host
from .mail import Mail, Post, mail
from .sink import Counting

# Each list and its options: dogs is moderated, and to birds its members alone may post.
LISTS: dict[str, list[str]] = {'cats': [], 'dogs': ['-m'], 'birds': ['-u']}
MEMBERS = [*(f'm{n}@m.net' for n in range(5)), 'm5@gone.net']
MODERATOR = 'mod@reads.net'
WRITERS = 6
ASKED = re.compile(rb'(?mi)^Reply-To: (\w+)-((?:[su]c|accept)[.-]\S+)@ex\.org\r?$')
MOVES = 500_000_000_000  # numbers from here on are an operator's


@dataclasses.dataclass
class Given:
    """A stream of an operator's: its items and what was printed when it was done."""
    to: str
    items: list[bytes]
    said: str = ''

    def numbers(self) -> list[int]:
        """The operator's numbers of the items."""
        return [int(item[1:].split(b':', 1)[1].split(b',', 1)[0]) for item in self.items]


def netstrings(*contents: bytes) -> bytes:
    return b''.join(b'%d:%b,' % (len(content), content) for content in contents)


class People:
    """All who give something to the hosts. Each of them draws random numbers of his own."""

    def __init__(self, post: Post, sink: Counting, origin: pathlib.Path, seed: int) -> None:
        """`origin` has the lists as they were at the beginning."""
        self.post, self.sink, self.hosts, self.origin, self.seed = post, sink, post.hosts, origin, seed
        self.stop = threading.Event()      # nobody begins anything new
        self.idents = itertools.count(1)
        self.members = {name: list(MEMBERS) for name in LISTS}  # who was told that he is on a list
        self.posted = {name: 1 for name in LISTS}  # the last post's number
        self.given: list[Given] = []
        self.configured: list[pathlib.Path] = []
        self.failed: collections.Counter[tuple[str, int, str]] = collections.Counter()  # what operators were told when a command failed
        self.threads: list[threading.Thread] = []
        self.wrong: list[str] = []

    def begin(self) -> None:
        calls: list[Callable[[random.Random], None]] = [*[self.writes] * WRITERS, self.reads, self.operates]
        for number, call in enumerate(calls):
            self.threads.append(threading.Thread(target=self.lives, args=[call, random.Random(1000 * self.seed + number)]))
            self.threads[-1].start()

    def lives(self, call: Callable[[random.Random], None], rng: random.Random) -> None:
        """Does something again and again. A fault of the trial's own is a wrong too."""
        try:
            while not self.stop.is_set():
                call(rng)
        except Exception as error:
            self.wrong.append(f'{call.__name__} ended with {error!r}')
            raise

    def are_busy(self) -> bool:
        """Whether somebody still does what he began."""
        return any(thread.is_alive() for thread in self.threads)

    def end(self) -> None:
        for thread in self.threads:
            thread.join()

    def ident(self) -> str:
        return f'{self.seed}.{next(self.idents)}.'

    def send(self, rng: random.Random, to: str, rest: str, sender: str, **more: str) -> Mail:
        sent = mail(self.ident(), to, rest, sender, **more)
        self.post.give(sent, rng)
        return sent

    def writes(self, rng: random.Random) -> None:
        """One mail of somebody's."""
        to = rng.choices(list(LISTS), [6, 1, 2])[0]
        what = rng.random()
        if what < 0.04:
            self.send(rng, to, 'subscribe', f'new{next(self.idents)}@reads.net')
        elif what < 0.06:
            self.send(rng, to, 'unsubscribe', rng.choice(list(self.members[to])))
        elif what < 0.10:
            member = rng.choice(list(self.members[to])).replace('@', '=')
            self.send(rng, to, f'return-{rng.randint(1, self.posted[to])}-{member}', '', subject='failed')
        elif what < 0.12:
            self.send(rng, to, rng.choice(['help', f'get.{rng.randint(1, 9)}', 'nothing']), f'asks{next(self.idents)}@m.net')
        else:
            sender = rng.choice(list(self.members[to])) if rng.random() < 0.9 else 'stranger@m.net'
            sent = self.send(rng, to, '', sender, subject=f'post {next(self.idents)}', body='x' * rng.randrange(3000) if rng.random() < 0.98 else
                             'y' * 60 + f'\r\n{"z" * 70}' * 3000)
            if found := re.match(r'250 2\.0\.0 posted (\d+)', sent.reply):
                self.posted[to] = max(self.posted[to], int(found[1]))
        time.sleep(rng.expovariate(8))

    def reads(self, rng: random.Random) -> None:
        """Somebody reads a letter, and writes to where it asks him to."""
        try:
            who, letter = self.sink.letters.get(timeout=0.5)
        except queue.Empty:
            return
        found = ASKED.search(letter.split(b'\r\n\r\n')[0])
        if found is None or rng.random() < 0.1:
            return
        to, rest = found[1].decode(), found[2].decode()
        sent = self.send(rng, to, rest if rng.random() < 0.8 else rest.replace('accept', 'reject'), who)
        if rest.startswith('sc.') and sent.is_taken():
            self.members[to].append(who)
        elif rest.startswith('uc.') and sent.is_taken() and who in self.members[to]:
            self.members[to].remove(who)

    def operates(self, rng: random.Random) -> None:
        """An operator adds and removes some addresses by any host, or gives a list another configuration."""
        to, now = rng.choice(list(LISTS)), b'%d' % time.time()
        if rng.random() < 0.15:
            return self.configures(rng, to)
        items = [rng.choice([b'A', b'R']) + netstrings(b'%d' % (MOVES + next(self.idents)), now, rng.choice([b'allow', b'deny', b'list']),
                                                       b'op%d@m.net' % rng.randrange(50)) for _ in range(rng.randint(1, 20))]
        self.given.append(given := Given(to, items))
        given.said = self.gives(rng, ('--give', to), b''.join(items), lambda said: said.count('\n') == len(items))
        self.stop.wait(rng.uniform(1, 4))

    def configures(self, rng: random.Random, to: str) -> None:
        """Another owner, and posts with a trailer or without one."""
        text = (self.origin / to / 'config').read_text().replace('\nowner owner@', f'\nowner owner{len(self.configured)}@')
        path = self.origin / f'{to}.{len(self.configured)}'
        path.write_text(text.replace('T', rng.choice('Tt'), 1))
        self.configured.append(path)
        self.gives(rng, ('--configure', to, str(path)), b'', lambda said: True)

    def gives(self, rng: random.Random, words: tuple[str, ...], given: bytes, is_whole: Callable[[str], bool]) -> str:
        """What one of the agent's commands says. One that fails is given again, by any host."""
        while not self.post.over.is_set():
            status, said = rng.choice(self.hosts).command(*words, given=given)
            if status == 0 and is_whole(said):
                return said
            self.failed[words[0], status, said.strip().split('\n')[-1][:100]] += 1
            time.sleep(rng.uniform(0.2, 1))
        return ''
