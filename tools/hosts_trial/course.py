"""What happens to hosts, servers and the network meanwhile, at random."""

import collections
import random
import signal
import time
from collections.abc import Callable

from .host import TAKEOVER, Host, wait
from .people import LISTS
from .setting import SERVERS, Setting


class Course:
    """What one seed does. `counts` has how often each kind happened."""

    def __init__(self, setting: Setting, rng: random.Random) -> None:
        self.setting, self.rng = setting, rng
        self.counts: collections.Counter[str] = collections.Counter()

    def run(self, seconds: float) -> None:
        """Goes on for so many seconds. All is mended at the end, and the host that joins late has joined."""
        began = time.monotonic()
        kinds: list[tuple[int, Callable[[], None]]] = [
            (8, self.killed), (2, self.held), (2, self.stands_still), (3, self.cut), (2, self.parted), (2, self.full), (2, self.replaced),
            (1, self.server_held), (2, self.failover)]
        # Each kind comes once, in any order, before one comes again.
        due = self.rng.sample([call for _, call in kinds], len(kinds))
        while (gone := time.monotonic() - began) < seconds:
            if gone > seconds / 3 and len(self.setting.hosts) == SERVERS:
                self.tell('a host joins', 'from the oldest copies')
                self.setting.joins()
            call = due.pop() if due else self.rng.choices([call for _, call in kinds], [weight for weight, _ in kinds])[0]
            call()
            for name in LISTS:
                if self.rng.random() < 0.2:
                    self.setting.keep(self.rng.choice(self.setting.hosts), name)
            self.meanwhile(self.rng.uniform(0.5, 4))

    def tell(self, what: str, more: str) -> None:
        self.counts[what] += 1
        print(f'    {time.strftime("%H:%M:%S")} {what}: {more}', flush=True)

    def meanwhile(self, seconds: float, busy: Host | None = None) -> None:
        """Lets time pass. In its middle another host than a busy one is killed at times."""
        wait(seconds / 2, self.setting.hosts)
        if busy is not None and self.rng.random() < 0.3:
            self.killed(self.rng.choice([host for host in self.setting.hosts if host is not busy]))
        wait(seconds / 2, self.setting.hosts)

    def host(self) -> Host:
        return self.rng.choice(self.setting.hosts)

    def killed(self, host: Host | None = None) -> None:
        host = host or self.host()
        self.tell('a host is killed', host.name)
        host.kill()
        wait(self.rng.choice([0, self.rng.uniform(0, 2), self.rng.uniform(0, 2 * TAKEOVER)]), self.setting.hosts)
        host.begin()

    def held(self) -> None:
        """The agent alone is held, for longer than the take-over takes: its machine still answers for its connections."""
        host = self.host()
        self.tell('an agent is held', host.name)
        host.signal(signal.SIGSTOP)
        self.meanwhile(TAKEOVER + self.rng.uniform(1, 6), host)
        host.signal(signal.SIGCONT)

    def stands_still(self) -> None:
        """A machine stands still with all that is on it, and nobody hears from it, for longer than the take-over takes."""
        host = self.host()
        self.tell('a machine stands still', host.name)
        self.setting.network.cut(host.number)
        host.signal(signal.SIGSTOP)
        if host.number < SERVERS:
            self.setting.servers.all[host.number].stop()
        self.meanwhile(TAKEOVER + self.rng.uniform(1, 6), host)
        if host.number < SERVERS:
            self.setting.servers.all[host.number].go_on()
        host.signal(signal.SIGCONT)
        self.setting.network.mend(host.number)

    def cut(self) -> None:
        """A machine is cut off. Its host goes on, and its server too."""
        host = self.host()
        self.tell('a machine is cut off', host.name)
        self.setting.network.cut(host.number)
        self.meanwhile(self.rng.uniform(1, 3 * TAKEOVER), host)
        self.setting.network.mend(host.number)

    def parted(self) -> None:
        """Two machines lose what they send to each other, and reach all others."""
        one, other = self.rng.sample(self.setting.hosts, 2)
        self.tell('two machines are parted', f'{one.name} {other.name}')
        self.setting.network.part(one.number, other.number)
        self.meanwhile(self.rng.uniform(1, 3 * TAKEOVER), one)
        self.setting.network.join(one.number, other.number)

    def full(self) -> None:
        host = self.host()
        self.tell('a disk is full', host.name)
        with host.full():
            self.meanwhile(self.rng.uniform(2, 2 * TAKEOVER), self.rng.choice([host, None]))

    def replaced(self) -> None:
        """A list's folder is replaced by an old copy while the agent doesn't run."""
        host, name = self.host(), self.rng.choice(list(LISTS))
        copy = self.rng.choice(self.setting.copies[name])
        self.tell('a folder is replaced by an old copy', f'{host.name} {copy.name}')
        if self.rng.random() < 0.5:
            host.kill()
        else:
            host.end()
        host.replace(name, copy)
        host.begin()

    def server_held(self) -> None:
        server = self.rng.choice(self.setting.servers.all)
        self.tell('a server is held', server.name)
        server.stop()
        self.meanwhile(self.rng.uniform(1, 2 * TAKEOVER), self.host())
        server.go_on()

    def failover(self) -> None:
        """The first server is killed, the one that has most takes over, and the other comes back on a new copy."""
        servers = self.setting.servers
        before = servers.first
        servers.kill(before)
        wait(self.rng.uniform(0, TAKEOVER), self.setting.hosts)
        self.tell('the first server is killed', f's{before}, and s{servers.promote()} takes its place')
        self.meanwhile(self.rng.uniform(0, 2 * TAKEOVER), self.host())
        servers.follow(before)
