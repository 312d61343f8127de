"""Runs of the program: items in, answers out, as docs/FORMATS.md has them."""

import asyncio
import collections
import contextlib
import dataclasses
import logging
import os
import pathlib
from collections.abc import Awaitable, Callable

from . import aside, tended

log = logging.getLogger('ezmlm-agent')


def netstring(content: bytes) -> bytes:
    return b'%d:%b,' % (len(content), content)


def item(letter: bytes, *elements: int | bytes) -> bytes:
    """One item of the stream. A number is an element by its digits."""
    return letter + b''.join(netstring(b'%d' % e if isinstance(e, int) else e) for e in elements)


def netstrings(text: bytes) -> list[bytes]:
    """The contents of a row of netstrings. Another text is a ValueError."""
    at, contents = 0, []
    while at < len(text):
        colon = text.index(b':', at)
        length = text[at:colon]
        end = colon + 1 + int(length)
        if not length.isdigit() or text[end:end + 1] != b',':
            raise ValueError(f'no netstring at {at}')
        contents.append(text[colon + 1:end])
        at = end + 1
    return contents


LONGEST_RUN = 600  # seconds; a run that is ended loses nothing that was answered
WAITS = 0.25       # seconds for which a list waits for one of the runs that all share, before it gets one of its own
HELD = 111         # another run has the list, or its disk failed
FILLING = 15       # items after the last one, by which it is committed and answered
FILL = item(b'S', 0, 0, 10**15)  # an item that does nothing: the report of an entry that was never there
SETTLES = 'out', '0'  # a command that does no more than to read the list: what its log has stands in its files then


@dataclasses.dataclass(frozen=True)
class Answer:
    """An item's answer."""
    status: int
    words: str
    is_answer = True


class Ending(Answer):
    """Why an item has no answer."""
    is_answer = False


@dataclasses.dataclass
class Item:
    """An item for a run: its bytes, what is told the answer or why there is none, and whether somebody still waits for that."""
    text: bytes
    settle: Callable[[Answer], None]
    is_wanted: Callable[[], bool] = lambda: True


More = Callable[[], Awaitable[list[Item]]]  # further items for a run, or none when it is to end


def answer_of(line: bytes) -> Answer:
    """What a line of the program says. Another line is a ValueError."""
    _, status, words = line.decode('ascii', 'replace').split(' ', 2)
    return (Answer if status in ('0', '100') else Ending)(int(status), words)


class Program:
    """The program. Its runs share `runs` turns; a list that has waited for one gets a run of its own, so that runs which hang hold up no
    other list. Each run goes in the list's folder: if that is gone there is no run, and none makes another one in its place."""

    def __init__(self, path: str, runs: int) -> None:
        self.path = os.path.abspath(path) if '/' in path else path
        self.turns = asyncio.Semaphore(runs)

    async def run(self, folder: str | pathlib.Path, *words: str, given: bytes = b'') -> tuple[int, bytes]:
        """The status and the output of one run."""
        async with aside.within(self.turns, WAITS):
            try:
                process = await self.begin(folder, *words)
            except OSError as error:
                return 71, b'- 71 %b\n' % str(error).encode('ascii', 'replace')
            try:
                async with asyncio.timeout(LONGEST_RUN):
                    text, _ = await process.communicate(given)
            except TimeoutError:
                return 71, b'- 71 it took too long\n'
            finally:
                kill(process)
            return process.returncode or 0, text

    async def begin(self, folder: str | pathlib.Path, *words: str) -> asyncio.subprocess.Process:
        return await asyncio.create_subprocess_exec(self.path, '.', *words, cwd=folder, stdin=asyncio.subprocess.PIPE,
                                                    stdout=asyncio.subprocess.PIPE)

    async def spool(self, folder: pathlib.Path, items: list[Item], more: More,
                    began: Callable[['Run'], None] = lambda run: None) -> tuple[list[Item], Ending]:
        """Gives one run items, each of which is told its answer as it comes, and then what `more` has, until it has nothing. The answer is
        the items that got none, and why the run ended before them. `began` gets the run, by which it can be ended."""
        async with aside.within(self.turns, WAITS):
            try:
                run = Run(await self.begin(folder, 'spool'))
            except OSError as error:
                return items, Ending(71, str(error))
            began(run)
            reading = asyncio.create_task(run.read())
            try:
                async with asyncio.timeout(LONGEST_RUN):
                    await run.feed(items, more)
                    await reading
                    await run.process.wait()
            except TimeoutError:
                run.ending = Ending(71, 'it took too long')
            finally:
                kill(run.process)
                await asyncio.gather(reading, run.process.wait())
        return [item for item in run.given if item], run.ending or Ending(run.process.returncode or 0, 'no answer')


def kill(process: asyncio.subprocess.Process) -> None:
    if process.returncode is None:
        with contextlib.suppress(ProcessLookupError):
            process.kill()


class Run:
    """A run of `spool` while it goes."""

    def __init__(self, process: asyncio.subprocess.Process) -> None:
        assert process.stdin and process.stdout
        self.process, self.stdin, self.stdout = process, process.stdin, process.stdout
        self.given: collections.deque[Item | None] = collections.deque()  # without an answer yet; None is one that only fills up
        self.left = 0  # items without an answer yet
        self.ending: Ending | None = None
        self.is_over = False
        self.answered = asyncio.Event()

    async def read(self) -> None:
        """Reads the answers to the end."""
        line = b''
        try:
            async for line in self.stdout:
                self.told(answer_of(line.rstrip(b'\n')))
        except (ValueError, IndexError):
            self.ending = Ending(71, f'{line[:80]!a} is no answer')
        except Exception as error:  # Whatever it is, what has no answer yet is given again.
            log.error('an answer couldn\'t be taken: %s', tended.told(error))
            self.ending = Ending(71, 'the agent couldn\'t take its answer')
        finally:
            self.is_over = True
            self.answered.set()

    def told(self, answer: Answer) -> None:
        if self.ending:
            raise ValueError('a line after the last one')
        if isinstance(answer, Ending):
            self.ending = answer
        elif item := self.given.popleft():
            item.settle(answer)
            self.left -= 1
            if not self.left:
                self.answered.set()

    async def feed(self, items: list[Item], more: More) -> None:
        """Gives items, and more when they are answered. The program answers sixteen at once, so the last ones need others after them."""
        while items:
            self.answered.clear()
            self.left = len(items)
            self.given.extend([*items, *[None] * FILLING])
            if self.is_over:
                break
            with contextlib.suppress(OSError):  # It may be about to end, and says why.
                self.stdin.write(b''.join(item.text for item in items) + FILL * FILLING)
                await self.stdin.drain()
            await self.answered.wait()
            items = [] if self.left else await more()
        self.stdin.close()
        with contextlib.suppress(OSError):
            await self.stdin.wait_closed()
