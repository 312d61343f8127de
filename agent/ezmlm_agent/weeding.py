"""Weeding beside the event loop: in few threads of its own and with an end, so that no stranger's mail holds up anything else."""

import asyncio
import logging
from collections.abc import Callable
from typing import Any, TypeVar

from . import aside

log = logging.getLogger('ezmlm-agent')
Result = TypeVar('Result')
AT_ONCE = 2     # mails that are looked at, of all lists
WAITS = 10.0    # seconds for which a mail waits for its turn
LONGEST = 1.0   # seconds for one mail. It takes some milliseconds, whatever stands in it


class Weeding:
    """Looks at mails, for all lists."""

    def __init__(self) -> None:
        self.turns = asyncio.Semaphore(AT_ONCE)

    async def told(self, look: Callable[..., Result], *words: Any) -> Result | None:
        """What a look answers, or None if that can't be told in time, or at all: then the mail is given to the list. A look that goes on keeps
        its turn, so there are never more threads than turns."""
        try:
            async with asyncio.timeout(WAITS):
                await self.turns.acquire()
        except TimeoutError:
            log.warning('a mail is given without weeding: others are looked at for %g seconds', WAITS)
            return None
        future: asyncio.Future[Result] = asyncio.get_running_loop().create_future()
        future.add_done_callback(self.free)
        aside.begin((future, look, words))
        done, _ = await asyncio.wait([future], timeout=LONGEST)
        if done and future.exception() is None:
            return future.result()
        log.warning('a mail is given without weeding: %s', future.exception() if done else f'that takes longer than {LONGEST:g} seconds')
        return None

    def free(self, ended: 'asyncio.Future[Any]') -> None:
        self.turns.release()
        _ = ended.cancelled() or ended.exception()  # Nobody may ask for it any more.
