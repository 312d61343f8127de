"""Whether the disk of a list has room for more mail, as Postfix asks of its own queue's disk by `queue_minfree`.

A full disk loses nothing, but on one even a report of sent mail, which would free some, finds no room for its log. So mail is put off before that, and
reports go on.
"""

import logging
import os
import pathlib
import time
from typing import NamedTuple

from . import aside, folder, settings, wire

log = logging.getLogger('ezmlm-agent')
LOGS = 10  # times the size of a list's log
KEPT = 1.0  # seconds for which what was seen of a disk holds
FULL = '452 4.3.1 The disk of this list is nearly full; later.'


class Free(NamedTuple):
    """What a disk has free, in bytes and in inodes, and what it has to have. A disk that doesn't count inodes has as many as it has to have."""
    bytes: int
    inodes: int
    least_bytes: int
    least_inodes: int

    def lacks(self, times: int = 1) -> str | None:
        """What there is less of than so many times what has to be free, as a sentence, or None."""
        for what, free, least in (('bytes', self.bytes, self.least_bytes), ('inodes', self.inodes, self.least_inodes)):
            if free < least * times:
                return f'{free} {what} are free on the disk, and mail is put off below {least}'
        return None


def free(path: pathlib.Path, chosen: settings.Settings) -> Free:
    """What is free where a list's folder is (statvfs(3)), for a user who isn't root. A setting of 0 asks for nothing."""
    found = os.statvfs(path)
    size = folder.size_or_none(path / 'log') or 0
    least = max(chosen.reserve << 20, LOGS * size) if chosen.reserve else 0
    inodes = chosen.reserve_inodes if found.f_files else 0
    return Free(found.f_bavail * found.f_frsize, found.f_favail, least, inodes)


def warned(path: pathlib.Path, chosen: settings.Settings) -> str | None:
    """What a monitor is warned of: there is less than twice what has to be free. What watches the lists says so of a disk that can't be asked."""
    try:
        return free(path, chosen).lacks(2)
    except OSError:
        return None


class Rooms:
    """What was seen of the disks of lists, by their folders."""

    def __init__(self, chosen: settings.Settings) -> None:
        self.settings = chosen
        self.seen: dict[pathlib.Path, tuple[float, str | None]] = {}

    async def lacks(self, path: pathlib.Path, threads: aside.Aside) -> str | None:
        """Why a list's disk takes no mail now, or None. One that can't be asked in time is left to the list."""
        if not self.settings.reserve and not self.settings.reserve_inodes:
            return None
        until, known = self.seen.get(path, (0.0, None))
        if time.monotonic() < until:
            return known
        try:
            found = (await threads.call('disk', free, path, self.settings)).lacks()
        except OSError:
            found = None
        if (found is None) != (known is None):
            log.warning('%s: %s', wire.printable(path.name), found or 'its disk has room again')
        self.seen[path] = time.monotonic() + KEPT, found
        return found
