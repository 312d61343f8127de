"""Each list is done by a process of its own, two at once, and may have a limit of time: so no list keeps the others from their turn.

A process that is killed at its limit loses nothing, as the next run goes on where it was. So a list with years of posts is made over several
runs, and one whose disk doesn't answer is left alone.
"""

from __future__ import annotations

import contextlib
import dataclasses
import os
import signal
import sys
import time
import traceback
from collections.abc import Callable, Collection, Sequence

AT_ONCE = 2
GRACE = 10.0  # seconds in which a process that is killed has to end: one that waits for a disk may not


@dataclasses.dataclass
class Turn:
    """A process at work: for whom, the moment of the monotonic clock at which it is to be killed, and whether it was."""
    name: str
    end: float
    is_killed: bool = False


def go_over(names: Sequence[str], do: Callable[[str], bool], seconds: float) -> int:
    """Does something for each name, whatever comes of the others. The answer is for how many it failed."""
    before = signal.pthread_sigmask(signal.SIG_BLOCK, {signal.SIGCHLD})
    waiting = list(reversed(names))
    running: dict[int, Turn] = {}
    failed = 0
    try:
        while waiting or running:
            while waiting and len(running) < AT_ONCE:
                name = waiting.pop()
                running[begin(name, do, before)] = Turn(name, time.monotonic() + seconds)
            failed += sum(not is_good for is_good in ended(running))
            kill_late(running, seconds)
            if running:
                next_end = min(turn.end for turn in running.values())
                signal.sigtimedwait({signal.SIGCHLD}, min(1.0, max(0.0, next_end - time.monotonic())))
    finally:
        for process in running:
            kill(process)
        signal.pthread_sigmask(signal.SIG_SETMASK, before)
    return failed


def begin(name: str, do: Callable[[str], bool], mask: Collection[int]) -> int:
    """Forks a process that does something for a name. It has a group of its own, with the processes that it starts."""
    sys.stdout.flush()
    sys.stderr.flush()
    process = os.fork()
    if process:
        return process
    status = 1
    try:
        os.setpgid(0, 0)
        signal.pthread_sigmask(signal.SIG_SETMASK, mask)
        status = 0 if do(name) else 1
    except BaseException:
        traceback.print_exc()
    finally:
        with contextlib.suppress(OSError, ValueError):
            sys.stdout.flush()
        os._exit(status)


def ended(running: dict[int, Turn]) -> list[bool]:
    """Takes out the processes that ended, and tells whether each did well. One that was killed at its limit did."""
    found = []
    for process in list(running):
        done, status = os.waitpid(process, os.WNOHANG)
        if done:
            turn = running.pop(process)
            if not turn.is_killed and os.WIFSIGNALED(status):
                print(f'ezmlm-site: {turn.name}: its process was ended by signal {os.WTERMSIG(status)}', file=sys.stderr)
            found.append(turn.is_killed or status == 0)
    return found


def kill_late(running: dict[int, Turn], seconds: float) -> None:
    """Kills processes that have had their time. One that doesn't end by that is left alone."""
    for process, turn in list(running.items()):
        if time.monotonic() < turn.end:
            continue
        if turn.is_killed:
            print(f'ezmlm-site: {turn.name}: its process can\'t be ended, as one that waits for a disk', file=sys.stderr)
            del running[process]
            continue
        print(f'ezmlm-site: {turn.name}: it isn\'t done after {seconds:.0f} seconds; the next run goes on', file=sys.stderr)
        kill(process)
        turn.is_killed, turn.end = True, time.monotonic() + GRACE


def kill(process: int) -> None:
    """Kills a process and those that it started."""
    for call in (os.killpg, os.kill):
        with contextlib.suppress(ProcessLookupError, PermissionError):
            call(process, signal.SIGKILL)
