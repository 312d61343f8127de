"""What several hosts take, beside one that has no history. All servers and hosts are on one machine and one disk."""

import concurrent.futures
import ctypes
import multiprocessing
import multiprocessing.sharedctypes
import os
import pathlib
import random
import shutil
import signal
import statistics
import subprocess
import time
from collections.abc import Sequence
from typing import Any

from agent_cases.servers import Servers

from .host import TOP, Host
from .mail import Mail, mail, transaction
from .sink import Counting

AGENT = TOP / 'agent/ezmlm-agent'
CLIENTS, AT_ONCE = 4, 5  # processes, and connections of each
POSTS = {3: 500, 1000: 30}  # how many are measured, by the members of their list
LISTS = 20
MANY = 10_000  # posts whose history is measured
TIMES = 3     # measures of each rate, and kills, each
Post = tuple[pathlib.Path, Mail]  # a host's socket, and what is given there
BODY = 'x' * 70 + '\r\n'
KEY = '0' * 63 + '1'


class Handed:
    """What a sink in a process of its own took: how many copies, and when and by which host the last one came."""

    def __init__(self, where: str) -> None:
        self.many = multiprocessing.sharedctypes.RawValue(ctypes.c_ulong, 0)
        self.host = multiprocessing.sharedctypes.RawValue(ctypes.c_int, -1)
        self.process = multiprocessing.Process(target=self.serve, args=[where], daemon=True)
        self.process.start()
        while not os.path.exists(where):
            time.sleep(0.05)

    def serve(self, where: str) -> None:
        handed = self

        class Shared(Counting):
            def keep(self, session: Any, envelope: Any) -> None:
                handed.many.value += len(envelope.rcpt_tos)
                handed.host.value = int(str(session.host_name)[1:].split('.')[0])
        Shared(where)
        signal.pause()


def given(post: Post) -> float:
    """How many seconds it took until a post was taken. One that is put off is given again."""
    where, sent = post
    began = time.monotonic()
    while not (reply := transaction(where, sent)).startswith('250'):
        if reply[:1] == '5':
            raise RuntimeError(reply)
        time.sleep(0.05)
    return time.monotonic() - began


def all_given(posts: Sequence[Post]) -> list[float]:
    with concurrent.futures.ThreadPoolExecutor(AT_ONCE) as pool:
        return list(pool.map(given, posts))


class Bench:
    def __init__(self, program: pathlib.Path, place: pathlib.Path) -> None:
        self.program, self.place = program, place
        (place / 'logs').mkdir()
        self.handed = Handed(str(place / 'sink'))
        self.servers = Servers(place / 'servers')
        self.hosts: list[Host] = []
        self.posted = 0

    def begin(self, many: int, has_history: bool) -> None:
        """Starts so many hosts anew, on lists without a post."""
        if has_history:
            self.servers.sql('DROP SCHEMA IF EXISTS ezmlm CASCADE')
        for number in range(many):
            rows: dict[str, object] = {'mta': self.place / 'sink', 'runs': 4}
            if has_history:
                rows |= {'history': self.servers.string(), 'host': f'h{number}'}
            host = Host(number, self.place / f'h{number}', self.program, (), rows)
            host.make(disk=False)
            if number == 0:
                for members in POSTS:
                    for at in range(LISTS):
                        self.make(host, f'l{members}x{at}', members)
            else:
                shutil.copytree(self.hosts[0].lists, host.lists, dirs_exist_ok=True)
            self.hosts.append(host)
        for host in self.hosts:
            host.begin([AGENT])
        time.sleep(5)

    def make(self, host: Host, name: str, members: int) -> None:
        host.run(name, 'make', '--key', KEY, name, 'ex.org', 'owner@m.net')
        items = (b'A1:0,10:1700000000,4:list,%d:%b,' % (len(who), who) for who in (b'member%d@m%d.net' % (n, n % 100) for n in range(members)))
        host.run(name, 'spool', given=b''.join(items))

    def end(self) -> None:
        for host in self.hosts:
            host.end()
            shutil.rmtree(host.place)
        self.hosts.clear()

    def posts(self, many: int, members: int, lists: int) -> list[Post]:
        """Posts of 2 KB to so many lists in turn, by each host in turn."""
        made = []
        for number in range(many):
            self.posted += 1
            sent = mail(f'bench.{self.posted}', f'l{members}x{number % lists}', '', 'w@m.net', body=BODY * 28)
            made.append((self.hosts[number % len(self.hosts)].socket, sent))
        return made

    def rate(self, members: int, lists: int, many: int) -> float:
        """Posts a second, until each member's copy was handed on."""
        posts, before = self.posts(many, members, lists), self.handed.many.value
        began = time.monotonic()
        with concurrent.futures.ProcessPoolExecutor(CLIENTS) as pool:
            for _ in pool.map(all_given, [posts[at::CLIENTS] for at in range(CLIENTS)]):
                pass
        while self.handed.many.value < before + many * members:
            time.sleep(0.02)
        return many / (time.monotonic() - began)

    def latencies(self) -> list[float]:
        """Seconds until a post is taken, one after another."""
        return sorted(given(post) for post in self.posts(200, 3, 1))

    def next_copy(self, number: int) -> float:
        """Seconds from a signal to the host that hands on until another host hands on a copy. Posts come all the while by the others."""
        self.settled()
        gone = self.hosts[self.handed.host.value]
        others = [host for host in self.hosts if host is not gone]
        gone.signal(number)
        began = time.monotonic()
        while self.handed.host.value == gone.number:
            for _, sent in self.posts(1, 3, 1):
                given((random.choice(others).socket, sent))
        took = time.monotonic() - began
        gone.kill()
        gone.begin([AGENT])
        time.sleep(3)
        return took

    def settled(self) -> None:
        """Waits until copies of a new post were handed on."""
        before = self.handed.many.value
        for post in self.posts(1, 3, 1):
            given(post)
        while self.handed.many.value < before + 3:
            time.sleep(0.05)

    def next_answer(self) -> float:
        """Seconds from the kill of the first server until a post is taken, when another server is told at once to take its place."""
        self.settled()
        before = self.servers.first
        self.servers.kill(before)
        began = time.monotonic()
        self.servers.promote()
        for where, sent in self.posts(1, 3, 1):
            while True:
                try:
                    given((where, sent))
                    break
                except OSError:
                    time.sleep(0.05)
        took = time.monotonic() - began
        self.servers.follow(before)
        time.sleep(3)
        return took

    def size(self) -> str:
        """What the history takes, by its tables."""
        rows = self.servers.sql("SELECT relname, pg_total_relation_size(c.oid) FROM pg_class c JOIN pg_namespace n ON n.oid = relnamespace "
                                "WHERE nspname = 'ezmlm' AND relkind = 'r' ORDER BY 2 DESC")
        return f'{sum(size for _, size in rows) / 1e6:.1f} MB (' + ', '.join(f'{name} {size / 1e6:.1f}' for name, size in rows[:4]) + ')'


def told(name: str, *values: object) -> None:
    print(f'| {name} | ' + ' | '.join(map(str, values)) + ' |', flush=True)


def add_rates(bench: Bench, way: str, rates: dict[str, list[object]]) -> None:
    """Measures how many posts a second the hosts take, and adds that to the rows of the table."""
    for members, posts in POSTS.items():
        for lists in (1, LISTS):
            name = f'posts a second to {members:,} members, {lists} list{"s" * (lists > 1)}'
            found = [bench.rate(members, lists, posts) for _ in range(TIMES)]
            rates.setdefault(name, []).append(shown(found, 0 if members < 100 else 1))
            print(f'    {way}: {name}: {rates[name][-1]}, load {os.getloadavg()[0]:.0f}', flush=True)


def measured(program: pathlib.Path, place: pathlib.Path) -> int:
    """Prints the table. The answer is 0."""
    subprocess.run(['ip', 'link', 'set', 'lo', 'up'], check=True)
    bench = Bench(program, place)
    bench.servers.begin()
    ways: list[tuple[str, int, bool]] = [('no history', 1, False), ('history, one host', 1, True), ('history, three hosts', 3, True)]
    rates: dict[str, list[object]] = {}
    try:
        for way, many, has_history in ways:
            bench.begin(many, has_history)
            add_rates(bench, way, rates)
            found = bench.latencies()
            rates.setdefault('milliseconds until a post is taken: median, 99th of 100', []).append(
                f'{1000 * statistics.median(found):.0f}, {1000 * found[len(found) * 99 // 100]:.0f}')
            if many > 1:
                killed, held = ([bench.next_copy(number) for _ in range(TIMES)] for number in (signal.SIGKILL, signal.SIGSTOP))
                answers = [bench.next_answer() for _ in range(TIMES)]
            bench.end()
        told('', *(name for name, *_ in ways))
        told('---', *('---' for _ in ways))
        for name, values in rates.items():
            told(name, *values)
        told('seconds from the kill of the agent that hands on until the next copy', '', '', shown(killed))
        told('the same, when it is held, as when its machine stands still', '', '', shown(held))
        told('seconds from the kill of the first server until the next 250', '', '', shown(answers))
        bench.begin(1, True)
        bench.rate(3, 1, MANY)
        told(f'history of {MANY:,} posts', '', bench.size(), '')
        print(f'load {os.getloadavg()[0]:.1f}')
        bench.end()
    finally:
        for host in bench.hosts:
            if host.agent is not None:
                host.kill()
        bench.servers.end()
        bench.handed.process.kill()
    return 0


def shown(found: list[float], digits: int = 1) -> str:
    """The median, and the least and the most."""
    return f'{statistics.median(found):.{digits}f} ({min(found):.{digits}f} to {max(found):.{digits}f})'
