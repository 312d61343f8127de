"""Tasks that go on as long as the agent does. One that ends by an error is logged at once, and begun anew after a pause that grows."""

import asyncio
import logging
import os
import traceback
from collections.abc import Awaitable, Callable
from typing import Any

log = logging.getLogger('ezmlm-agent')
SHORTEST, LONGEST = 1.0, 60.0  # seconds until a task is begun anew
STEADY = 300.0  # seconds after which an error counts as the first one again
STEP = 0.5      # seconds after which a task that waits to be begun sees that the agent stops


def told(error: BaseException) -> str:
    """An error as it stands in the log: its kind, what it says, and where it comes from."""
    frames = traceback.extract_tb(error.__traceback__)
    where = f' ({os.path.basename(frames[-1].filename)}:{frames[-1].lineno})' if frames else ''
    return f'{type(error).__name__}: {error}{where}' if str(error) else type(error).__name__ + where


def begun(what: str, call: Callable[[], Awaitable[None]], is_over: Callable[[], bool]) -> 'asyncio.Task[None]':
    """A task that makes a call until it returns. `what` is what the log calls it, and `is_over` says whether it needn't be begun anew."""
    return asyncio.create_task(tend(what, call, is_over))


async def tend(what: str, call: Callable[[], Awaitable[None]], is_over: Callable[[], bool]) -> None:
    loop, pause = asyncio.get_running_loop(), SHORTEST
    while True:
        since = loop.time()
        try:
            return await call()
        except (Exception, asyncio.CancelledError) as error:
            if is_cancelled(error):
                raise
            pause = SHORTEST if loop.time() - since >= STEADY else pause
            log.error('%s ended by an error, and is begun anew in %g s: %s', what, pause, told(error))
        until = loop.time() + pause
        while not is_over() and (left := until - loop.time()) > 0:
            await asyncio.sleep(min(STEP, left))
        if is_over() and loop.time() - since < pause:
            return
        pause = min(2 * pause, LONGEST)


def is_cancelled(error: BaseException) -> bool:
    """Whether somebody ended this task. What is awaited may have been ended by itself, which is an error like others."""
    task = asyncio.current_task()
    return isinstance(error, asyncio.CancelledError) and task is not None and task.cancelling() > 0


def unexpected(_: asyncio.AbstractEventLoop, context: dict[str, Any]) -> None:
    """Tells what nobody waited for: an error of a callback, or of a connection's task. What it was about ends, and all else goes on."""
    error = context.get('exception')
    log.error('%s: %s', context['message'], told(error) if error is not None else 'no more is known')
