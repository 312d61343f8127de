"""When a list that has something wrong is tried again, and how that is said."""

import asyncio
import logging
import pathlib
import time
from collections.abc import Callable
from typing import TYPE_CHECKING

from . import aside, program, tended, trouble

if TYPE_CHECKING:
    from . import mailing

log = logging.getLogger('ezmlm-agent')
SHORTEST, LONGEST = 60, 900  # seconds until a list of which nothing could be read or written is tried again
HOUR = 3600


class Again:
    """One timer for a list. Its pauses double as long as nothing works."""

    def __init__(self, wake: Callable[[], object]) -> None:
        self.wake, self.pause = wake, SHORTEST
        self.timer: asyncio.TimerHandle | None = None
        self.has_rung = False  # whether the list is to be tried again now

    def failed(self) -> None:
        if self.timer is None:
            self.timer = asyncio.get_running_loop().call_later(self.pause, self.due)
            self.pause = min(2 * self.pause, LONGEST)

    def due(self) -> None:
        self.timer = None
        self.has_rung = True
        self.wake()

    def worked(self) -> None:
        self.pause = SHORTEST
        if self.timer is not None:
            self.timer.cancel()
            self.timer = None


class Said:
    """What was said to be wrong with a list: it is said when it changes, and once an hour."""

    def __init__(self, name: str, good: str = 'it works again') -> None:
        self.name, self.good, self.last, self.next = name, good, '', 0.0

    def say(self, why: str) -> None:
        now = time.monotonic()
        if why != self.last or now >= self.next:
            log.error('%s: %s', self.name, why)
            self.last, self.next = why, now + HOUR

    def worked(self) -> None:
        """All is well again, which is said too: whoever reads the log needn't guess."""
        if self.last:
            log.info('%s: %s', self.name, self.good)
            self.last = ''


class Refused(Exception):
    """A list can't be read, or the program can't do what the agent needs. The cause says more."""

    def __init__(self, why: str, cause: trouble.Cause | None = None) -> None:
        super().__init__(f'{why}: {cause}' if cause else why)
        self.cause = cause


class Health:
    """What is wrong with a list, if anything is."""

    def __init__(self, folder: pathlib.Path, name: str, threads: aside.Aside, wake: Callable[[], object]) -> None:
        self.folder, self.threads = folder, threads
        self.said, self.again = Said(name), Again(wake)
        self.cause: trouble.Cause | None = None
        self.fault: tuple[float, str] | None = None   # since when the list puts mail off, by the monotonic clock, and why
        self.damage: tuple[float, str] | None = None  # the same for a damaged file: what doesn't read that file works all the time

    def fails(self, why: str) -> None:
        """Notes why the list puts mail off. Since when stays, until it works."""
        self.fault = self.fault[0] if self.fault else time.monotonic(), why

    def works(self) -> None:
        self.cause = self.fault = None
        if self.damage is None:
            self.said.worked()
            self.again.worked()
        else:
            self.again.failed()

    def wants_check(self) -> bool:
        """Whether it is to be seen now if a damaged file was mended."""
        has_rung, self.again.has_rung = self.again.has_rung, False
        return has_rung and self.damage is not None

    def checked(self, status: int) -> None:
        """What the program's `check` ended with, of a list that had a damaged file."""
        if status == 0:
            self.damage = None
            self.works()
        else:
            self.again.failed()

    def ending(self) -> program.Ending:
        """Why a mail has no answer yet."""
        if self.cause is None:
            return program.Ending(75, 'the list is at work for too long')
        return program.Ending(program.HELD, f'disk: {self.cause.what}')

    async def find(self, ending: program.Ending) -> trouble.Cause:
        """Looks why a run ended so, in a thread: the disk may be what hangs."""
        try:
            self.cause = await self.threads.call('folder', trouble.of_ending, self.folder, ending.status, ending.words)
        except Exception as error:  # Whatever it is, the list is tried again.
            self.cause = trouble.Cause(str(error) or type(error).__name__, self.folder, 'look at its disk')
        why = f'{ending.status} {ending.words}: {self.cause}'
        if ending.status == 75 and ending.words != 'nolist':
            self.damage = self.damage[0] if self.damage else time.monotonic(), why
        else:
            self.fails(why)
        return self.cause

    async def say(self, ending: program.Ending, more: str = '') -> None:
        self.said.say(f'{ending.status} {ending.words}: {await self.find(ending)}{more}')

    async def ended(self, ending: program.Ending) -> None:
        """A run ended without all answers, and nothing waits for another one."""
        await self.say(ending)
        self.again.failed()

    async def failed(self, error: Exception, state: pathlib.Path) -> program.Ending:
        """The list couldn't be read, or its notes not be written. The answer is what its mail is told. It always has one: the look why it failed
        may fail too, as on a disk that is gone."""
        cause = error.cause if isinstance(error, Refused) else None
        try:
            cause = cause or await self.threads.call('notes', trouble.of_error, state, error)
        except Exception as why:
            cause = trouble.Cause(f'{tended.told(error)}, and the look why ended so: {why or type(why).__name__}', state, 'look at its disk')
        words = str(cause) if cause else tended.told(error)
        self.fails(words)
        self.said.say(words)
        self.again.failed()
        return program.Ending(75, f'the agent can\'t write its notes or read the list{f": {cause.what}" if cause else ""}')


class Patience:
    """How long a list that another run has is tried again: while mail waits for it, and `patience` seconds for what else there is."""

    def __init__(self, mailing_list: 'mailing.MailingList') -> None:
        self.list, self.until, self.pause = mailing_list, time.monotonic() + mailing_list.settings.patience, 0.05
        self.is_said = False

    async def lasts(self, status: int) -> bool:
        """Waits a little. The answer is whether it makes sense to try again."""
        if self.list.stopping or time.monotonic() > self.until and not self.list.unanswered.mails:
            return False
        if status == program.HELD and not self.is_said:
            await self.list.health.say(program.Ending(status, 'disk'), '; it is tried again')
            self.is_said = True
        await asyncio.sleep(self.pause)
        self.pause = min(2 * self.pause, 2)
        return True
