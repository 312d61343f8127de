"""Machines with a server and a host each, the lists on them, and where their mail goes."""

import pathlib
import shutil
import subprocess
import time

from agent_cases.servers import Servers

from .host import TAKEOVER, Host, wait
from .network import Network
from .people import LISTS, MEMBERS, MODERATOR, People
from .sink import Counting

KEY = '0' * 63 + '1'
SERVERS = 3


class Setting:
    """Three machines with a server and a host each, and one more that has a host alone, which joins late."""

    def __init__(self, program: pathlib.Path, place: pathlib.Path) -> None:
        self.program, self.place = program, place
        self.network = Network(SERVERS + 1)
        for name in ('logs', 'copies', 'origin'):
            (place / name).mkdir()
        self.servers = Servers(place / 'servers', SERVERS, [self.network.address(machine) for machine in range(SERVERS)], self.network.within)
        self.hosts: list[Host] = []  # who has the lists now
        self.copies: dict[str, list[pathlib.Path]] = {name: [] for name in LISTS}

    def begin(self) -> None:
        self.network.begin()
        self.servers.begin()
        self.sink = Counting(str(self.place / 'sink'))
        for number in range(SERVERS):
            host = self.host(number)
            for name in LISTS:
                if number == 0:
                    self.make(host, name)
                else:
                    self.hosts[0].copy(name, host.lists / name)
            self.hosts.append(host)
        for name in LISTS:
            self.hosts[0].copy(name, self.place / 'origin' / name)
            self.keep(self.hosts[0], name)
        for host in self.hosts:
            host.begin()

    def host(self, number: int) -> Host:
        """A host with a disk and without a list."""
        rows = {'mta': self.place / 'sink', 'history': self.servers.string(), 'host': f'h{number}', 'takeover': TAKEOVER}
        made = Host(number, self.place / f'h{number}', self.program, self.network.within(number), rows)
        made.make()
        return made

    @staticmethod
    def make(host: Host, name: str) -> None:
        host.run(name, 'make', *LISTS[name], '--key', KEY, name, 'ex.org', 'owner@m.net')
        for member in MEMBERS:
            host.run(name, 'sub', '0', 'list', member)
        host.run(name, 'sub', '0', 'mod', MODERATOR)

    def keep(self, host: Host, name: str) -> None:
        """Keeps a copy of a list as it stands on a host now."""
        to = self.place / 'copies' / f'{name}.{len(self.copies[name])}'
        host.copy(name, to)
        self.copies[name].append(to)

    def joins(self) -> Host:
        """The last machine's host comes to the lists, with the oldest copies there are."""
        host = self.host(SERVERS)
        for name in LISTS:
            shutil.copytree(self.copies[name][0], host.lists / name)
        self.hosts.append(host)
        host.begin()
        return host

    def is_settled(self) -> bool:
        """Whether each host's lists have answered all of their history, and nothing waits to be sent."""
        for name, following in self.servers.sql('SELECT name, next FROM ezmlm.list'):
            for host in self.hosts:
                if host.run(name, 'queue') or host.place_of(name) != following:
                    return False
        return True

    def settles(self, seconds: float, people: People) -> float | None:
        """Waits until everybody has done what he began and all is settled. The answer is how many seconds that took, or None if it isn't so
        after that many."""
        began = time.monotonic()
        try:
            while time.monotonic() < began + seconds:
                wait(1, self.hosts)
                if not people.are_busy() and self.is_settled():
                    return time.monotonic() - began
        finally:
            people.post.over.set()
        return None

    def save(self) -> None:
        """Copies the hosts' disks to where they stay when this process ends, with what the servers keep."""
        for host in self.hosts:
            shutil.copytree(host.lists, self.place / 'saved' / host.name / 'lists')
        first = self.servers.all[self.servers.first]
        with open(self.place / 'saved' / 'history.sql', 'wb') as file:
            dump = first.command('pg_dump', '-h', first.address, '-p', str(first.port), '-U', 'postgres', 'ezmlm')
            subprocess.run(dump, stdout=file, check=False)

    def end(self) -> None:
        for host in self.hosts:
            if host.agent is not None:
                host.kill()
        for log in self.servers.place.glob('*.log'):
            shutil.copy(log, self.place / 'logs')
        self.servers.end()
        self.sink.stop()
        for host in self.hosts:
            subprocess.run(['umount', '--lazy', host.place], check=True)
