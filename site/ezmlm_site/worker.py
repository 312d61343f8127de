"""A process beside this one that does work over a stranger's bytes, with an end: so much of the processor for each piece, and so much memory.

It is forked once and takes one piece after the other. One that takes too long is killed with its process, and the next piece gets a new process. The
time is the processor's, so that a busy machine ends nothing that a quiet one would not.
"""

from __future__ import annotations

import contextlib
import io
import os
import pickle
import resource
import select
import signal
import sys
import time
from collections.abc import Callable, Collection
from typing import Any, NoReturn

SECONDS = 5.0            # of the processor, for one piece
PATIENCE = 120.0         # seconds by the clock, after which a process that neither works nor ends is killed
ROOM = 256 * 1024 ** 2   # bytes of address space that it may take beyond what it is forked with
LENGTH = 8               # bytes of the number before each piece and each answer
CHUNK = 1024 ** 2


class Ended(Exception):
    """A piece has no answer: its process was ended over it, or ended by itself."""


class Worker:
    """The process. `work` are functions of bytes; their answers are made of built-in types and of `classes`."""

    def __init__(self, work: tuple[Callable[[bytes], Any], ...], classes: Collection[type], seconds: float = SECONDS) -> None:
        self.work = work
        self.classes = {(each.__module__, each.__qualname__): each for each in classes}
        self.seconds = seconds
        self.process = 0

    def call(self, place: int, content: bytes) -> Any:
        """The answer of one of the functions, by its place among them. Ended if there is none."""
        if not self.process:
            self.begin()
        try:
            self.pieces.write(bytes([place]) + len(content).to_bytes(LENGTH, 'big') + content[:CHUNK])
            for at in range(CHUNK, len(content), CHUNK):
                self.pieces.write(content[at:at + CHUNK])
            self.takes.end = time.monotonic() + PATIENCE
            return Answer(self.answers, self.classes).load()
        except (OSError, EOFError, pickle.UnpicklingError) as error:
            self.close()
            raise Ended('it takes too long, or too much memory') from error

    def begin(self) -> None:
        """Forks the process. It holds no file of this one except for its two pipes, so that no lock stays taken if this one is killed."""
        asked, gives = os.pipe()
        takes, answers = os.pipe()
        sys.stdout.flush()
        sys.stderr.flush()
        self.process = os.fork()
        if self.process == 0:
            try:
                serve(self.work, asked, answers, self.seconds)
            finally:
                os._exit(1)
        os.close(asked)
        os.close(answers)
        self.gives = open(gives, 'wb', buffering=0)
        self.pieces = Written(self.gives)
        self.takes = Pipe(takes)
        self.answers = io.BufferedReader(self.takes, CHUNK)

    def close(self) -> None:
        """Ends the process, whatever it does."""
        if self.process:
            self.gives.close()
            self.answers.close()
            with contextlib.suppress(ProcessLookupError):
                os.kill(self.process, signal.SIGKILL)
            os.waitpid(self.process, 0)
            self.process = 0


class Pipe(io.RawIOBase):
    """The end of a pipe that is read, until a moment of the monotonic clock: then it is as if it had ended."""

    def __init__(self, file: int) -> None:
        self.file = file
        self.end = 0.0

    def readable(self) -> bool:
        return True

    def readinto(self, into: Any) -> int:
        if not select.select([self.file], [], [], max(0.0, self.end - time.monotonic()))[0]:
            return 0
        return os.readv(self.file, [into])

    def close(self) -> None:
        if not self.closed:
            os.close(self.file)
        super().close()


class Answer(pickle.Unpickler):
    """Reads an answer, which may have these classes and no others: the process that made it has met a stranger's bytes."""

    def __init__(self, file: io.BufferedReader, classes: dict[tuple[str, str], type]) -> None:
        super().__init__(file)
        self.classes = classes

    def find_class(self, module: str, name: str) -> type:
        if (module, name) not in self.classes:
            raise pickle.UnpicklingError(f'{module}.{name} is no part of an answer')
        return self.classes[module, name]


def serve(work: tuple[Callable[[bytes], Any], ...], asked: int, answers: int, seconds: float) -> NoReturn:
    """The process: answers pieces until there are no more. A timer of the kernel's ends it in the middle of any call."""
    low, high = sorted((asked, answers))
    for begin, end in ((3, low), (low + 1, high), (high + 1, resource.getrlimit(resource.RLIMIT_NOFILE)[0])):
        os.closerange(begin, end)
    signal.signal(signal.SIGPROF, signal.SIG_DFL)
    signal.signal(signal.SIGINT, signal.SIG_DFL)
    limit = held() + ROOM
    resource.setrlimit(resource.RLIMIT_AS, (limit, limit))
    with open(asked, 'rb', buffering=0) as pieces, open(answers, 'wb', buffering=0) as answered:
        while head := pieces.read(1 + LENGTH):
            content = whole(pieces, int.from_bytes(head[1:], 'big'))
            signal.setitimer(signal.ITIMER_PROF, seconds)
            answer = work[head[0]](content)
            signal.setitimer(signal.ITIMER_PROF, 0)
            del content
            pickle.dump(answer, Written(answered), pickle.HIGHEST_PROTOCOL)
            del answer
    os._exit(0)


def held() -> int:
    """The bytes of address space that this process has."""
    with open('/proc/self/statm', 'rb') as file:
        return int(file.read().split()[0]) * resource.getpagesize()


def whole(file: io.FileIO, length: int) -> bytes:
    """So many bytes of a pipe."""
    chunks = []
    while length:
        chunks.append(file.read(min(CHUNK, length)))
        length -= len(chunks[-1])
        if not chunks[-1]:
            os._exit(1)
    return b''.join(chunks)


class Written:
    """A pipe that takes all of what it is given."""

    def __init__(self, file: io.FileIO) -> None:
        self.file = file

    def write(self, content: Any) -> None:
        rest = memoryview(content)
        while rest:
            rest = rest[self.file.write(rest) or 0:]
