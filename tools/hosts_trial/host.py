"""A host: an agent with copies of the lists, on a small disk of its own."""

import contextlib
import dataclasses
import fcntl
import os
import pathlib
import shutil
import signal
import subprocess
import sys
import time
from collections.abc import Iterator, Sequence

TOP = pathlib.Path(__file__).resolve().parent.parent.parent
sys.path.insert(0, str(TOP / 'agent'))
from ezmlm_agent import folder  # noqa: E402

PYTHON = '/usr/bin/python3'
DISK = '512m'
HOUR = 20      # seconds of an agent's hour, so that timed runs and comparisons come often
TAKEOVER = 4   # seconds after which another host hands on
# The agent as it is, with short hours and minutes.
HASTY = f'''
import sys
sys.path.insert(0, {str(TOP / 'agent')!r})
from ezmlm_agent import __main__, mailing, retrying
__main__.LOOKS, mailing.HOUR, retrying.SHORTEST = 1, {HOUR}, 1
__main__.main(sys.argv[1:])
'''


@contextlib.contextmanager
def held(at: pathlib.Path) -> Iterator[None]:
    """Has a list as a run of the program has it."""
    with open(at / 'lock', 'a', encoding='ascii') as lock:
        fcntl.flock(lock, fcntl.LOCK_EX)
        yield


@dataclasses.dataclass
class Host:
    """A host of a number. `machine` is the command after which one of its machine's own stands, and `rows` are lines of its settings."""
    number: int
    place: pathlib.Path
    program: pathlib.Path
    machine: Sequence[str]
    rows: dict[str, object]
    agent: subprocess.Popen[bytes] | None = None
    kills: int = 0
    ended: list[int] = dataclasses.field(default_factory=list)  # statuses with which its agent ended by itself

    def __post_init__(self) -> None:
        self.lists, self.socket, self.log = self.place / 'lists', self.place / 'lmtp', self.place.parent / 'logs' / f'{self.place.name}.log'
        self.name, self.settings = self.place.name, self.place.parent / f'{self.place.name}.conf'

    def make(self, disk: bool = True) -> None:
        """Makes its folder, on a disk of its own, and its settings."""
        self.place.mkdir()
        if disk:
            subprocess.run(['mount', '-t', 'tmpfs', '-o', f'size={DISK}', 'none', self.place], check=True)
        self.lists.mkdir()
        rows = {'program': self.program, 'lists': self.lists, 'state': self.place / 'state', 'listen': self.socket,
                'name': f'{self.name}.ex.org', 'replies': 0, **self.rows}
        self.settings.write_text('[agent]\n' + ''.join(f'{name} = {value}\n' for name, value in rows.items()))

    def begin(self, words: Sequence[str | os.PathLike[str]] = (PYTHON, '-P', '-c', HASTY)) -> None:
        with open(self.log, 'ab') as log:
            self.agent = subprocess.Popen([*self.machine, *words, self.settings], stdin=subprocess.DEVNULL, stdout=log, stderr=log)

    def see(self) -> None:
        """Starts an agent anew that ended by itself, as systemd does, and notes it."""
        if self.agent is not None and (status := self.agent.poll()) is not None:
            self.ended.append(status)
            self.begin()

    def end(self, number: int = signal.SIGTERM) -> int:
        """Ends the agent, with whatever it runs if it is killed. The answer is its status."""
        assert self.agent
        self.agent.send_signal(number)
        status = self.agent.wait(120)
        self.agent = None
        return status

    def kill(self) -> None:
        """Kills the agent and what it runs, at once."""
        self.kills += 1
        assert self.agent
        self.agent.kill()
        for process in self.runs():
            with contextlib.suppress(ProcessLookupError):
                os.kill(process, signal.SIGKILL)
        self.agent.wait()
        self.agent = None

    def signal(self, number: int) -> None:
        assert self.agent
        self.agent.send_signal(number)

    def runs(self) -> list[int]:
        """The ids of processes that run in one of its lists' folders, or in one that stood there."""
        found = []
        for path in pathlib.Path('/proc').glob('[0-9]*'):
            with contextlib.suppress(OSError):
                if os.readlink(path / 'cwd').startswith(str(self.lists)):
                    found.append(int(path.name))
        return found

    def command(self, *words: str, given: bytes = b'', most: float = 300) -> tuple[int, str]:
        """The status of one of the agent's commands, which stands before its settings, and its output, or what went wrong. One that takes too
        long is killed, and has status 124."""
        before, *after = words
        try:
            done = subprocess.run([*self.machine, PYTHON, '-P', TOP / 'agent/ezmlm-agent', before, self.settings, *after], input=given,
                                  capture_output=True, timeout=most, check=False)
        except subprocess.TimeoutExpired:
            return 124, 'it took too long'
        return done.returncode, (done.stdout if not done.returncode or not done.stderr else done.stderr).decode('utf-8', 'replace')

    def run(self, name: str, *words: str, given: bytes = b'') -> str:
        """What the program says of a list. If a run of the agent's has the list it is asked again."""
        status, said = 111, b''
        while status == 111:
            done = subprocess.run([self.program, self.lists / name, *words], input=given, stdout=subprocess.PIPE, check=False)
            status, said = done.returncode, done.stdout
        return said.decode('utf-8', 'replace')

    def place_of(self, name: str) -> int:
        """The first number that a list here hasn't answered."""
        with held(self.lists / name):
            return folder.after_answers(self.lists / name)

    def copy(self, name: str, to: pathlib.Path) -> None:
        """Copies a list's folder, as docs/OPERATING.md takes a backup."""
        with held(self.lists / name):
            shutil.copytree(self.lists / name, to)

    def replace(self, name: str, by: pathlib.Path) -> None:
        """Puts an old copy in place of a list's folder. The agent has to be ended."""
        assert self.agent is None
        shutil.rmtree(self.lists / name)
        shutil.copytree(by, self.lists / name)

    @contextlib.contextmanager
    def full(self) -> Iterator[None]:
        """Fills the disk."""
        filler = self.place / 'filler'
        try:
            with open(filler, 'wb', buffering=0) as file, contextlib.suppress(OSError):
                for size in (1 << 20, 4096):
                    with contextlib.suppress(OSError):
                        while True:
                            file.write(bytes(size))
            yield
        finally:
            filler.unlink(missing_ok=True)


def wait(seconds: float, hosts: Sequence[Host] = ()) -> None:
    """Lets so much time pass, and has agents that ended by themselves started anew."""
    end = time.monotonic() + seconds
    while (left := end - time.monotonic()) > 0:
        for host in hosts:
            host.see()
        time.sleep(min(left, 0.2))
