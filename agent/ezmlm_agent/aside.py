"""Calls that may block, as on a disk that is gone, in threads and with an end."""

import asyncio
import contextlib
import queue
import threading
from collections.abc import AsyncIterator, Callable
from typing import Any, TypeVar

Result = TypeVar('Result')
LONGEST = 10.0  # seconds for a read of a list's folder
TURNS, WAITS = 32, 1.0  # calls at once, and seconds for which one waits for its turn: then those that have one are stuck
KEPT = 16  # threads that wait for a further call, at most

Job = tuple['asyncio.Future[Any]', Callable[..., Any], tuple[Any, ...]]
idle: list['queue.SimpleQueue[Job]'] = []  # of the threads that wait for a call, how one is given it


class Blocked(OSError):
    """A call didn't end in time. Its thread goes on, and nothing waits for it."""


class Aside:
    """Calls by what they are of. While one of these is stuck no other of the same is begun, so that threads stay few."""

    def __init__(self, turns: asyncio.Semaphore | None = None) -> None:
        self.turns = turns or asyncio.Semaphore(TURNS)
        self.stuck: dict[str, int] = {}  # how many calls didn't end in time and go on

    async def call(self, of: str, call: Callable[..., Result], *words: Any, seconds: float | None = LONGEST) -> Result:
        """What a call answers. It is Blocked if that takes longer than so many seconds, or an earlier call of the same is stuck."""
        if self.stuck.get(of):
            raise Blocked('an earlier look is stuck, as on a disk that is gone')
        async with within(self.turns, WAITS):
            return await self.call_now(of, call, words, seconds)

    async def call_now(self, of: str, call: Callable[..., Result], words: tuple[Any, ...], seconds: float | None) -> Result:
        future: asyncio.Future[Result] = asyncio.get_running_loop().create_future()
        future.add_done_callback(lambda ended: ended.cancelled() or ended.exception())  # Nobody may ask for it any more.
        begin((future, call, words))
        if not await ends(future, seconds):
            self.stuck[of] = self.stuck.get(of, 0) + 1
            future.add_done_callback(lambda _: self.free(of))
            raise Blocked(f'it takes longer than {seconds:g} seconds')
        return future.result()

    def free(self, of: str) -> None:
        self.stuck[of] -= 1


async def ends(future: 'asyncio.Future[Any]', seconds: float | None) -> bool:
    """Whether a future ends within so many seconds, by a result or an error. It goes on if not."""
    loop = asyncio.get_running_loop()
    waits: asyncio.Future[None] = loop.create_future()

    def wake(_: object = None) -> None:
        if not waits.done():
            waits.set_result(None)
    future.add_done_callback(wake)
    timer = None if seconds is None else loop.call_later(seconds, wake)
    try:
        await waits
    finally:
        future.remove_done_callback(wake)
        if timer is not None:
            timer.cancel()
    return future.done()


def begin(job: Job) -> None:
    """Gives a call to a thread that waits for one, or to a new one. The interpreter doesn't wait for such a thread at its end."""
    try:
        idle.pop().put(job)
    except IndexError:
        threading.Thread(target=work, args=(job,), daemon=True).start()


def work(job: Job) -> None:
    """What such a thread does: this call, and others as long as not too many threads wait for any."""
    jobs: 'queue.SimpleQueue[Job]' = queue.SimpleQueue()
    run(*job)
    while len(idle) < KEPT:
        idle.append(jobs)
        run(*jobs.get())


def run(future: asyncio.Future[Any], call: Callable[..., Any], words: tuple[Any, ...]) -> None:
    """Makes a call in a thread, and tells its loop what came of it."""
    result, error = None, None
    try:
        result = call(*words)
    except BaseException as why:
        error = why
    with contextlib.suppress(RuntimeError):  # The loop is closed if the agent has ended meanwhile.
        future.get_loop().call_soon_threadsafe(settle, future, result, error)


def settle(future: asyncio.Future[Any], result: Any, error: BaseException | None) -> None:
    if future.cancelled():
        return
    if error is None:
        future.set_result(result)
    else:
        future.set_exception(error)


@contextlib.asynccontextmanager
async def within(turns: asyncio.Semaphore, seconds: float) -> AsyncIterator[None]:
    """Waits for a turn, but not longer than so many seconds: then it goes on without one. So what hangs with a turn holds up others for that
    long alone."""
    has_turn = not turns.locked() and await turns.acquire()  # A free one is there at once.
    if not has_turn:
        with contextlib.suppress(TimeoutError):
            async with asyncio.timeout(seconds):
                has_turn = await turns.acquire()
    try:
        yield
    finally:
        if has_turn:
            turns.release()


@contextlib.asynccontextmanager
async def lent(turns: asyncio.Semaphore, seconds: float) -> AsyncIterator[None]:
    """Waits for a turn, and gives it back after so many seconds even if what has it goes on. So what hangs with a turn keeps it for that
    long alone."""
    await turns.acquire()
    timer = asyncio.get_running_loop().call_later(seconds, turns.release)
    try:
        yield
    finally:
        if timer.when() > asyncio.get_running_loop().time():
            timer.cancel()
            turns.release()
