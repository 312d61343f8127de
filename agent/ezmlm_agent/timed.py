"""What a list is given once an hour: its timed run, and the floor below which its answers are forgotten."""

import logging
from typing import TYPE_CHECKING

from . import folder, notes, program

if TYPE_CHECKING:
    from . import mailing

log = logging.getLogger('ezmlm-agent')
DAY = 86400
STEP = 512_000  # by which the floor may rise at once


async def items(found: 'mailing.MailingList', opened: notes.Notes, now: int) -> list[program.Item]:
    """A timed run, and the floor: mails that can't come again are forgotten, by the notes and then by the list."""
    def settle(answer: program.Answer) -> None:
        if answer.is_answer:
            log.info('%s: %d %s', found.name, answer.status, answer.words)
        else:
            found.is_due = True
    lowest = await opened.forget_before(now - found.settings.keep_days * DAY)
    floor = await found.aside(folder.floor, found.folder)
    floors = [*range(floor + STEP, lowest, STEP), lowest] if lowest > max(floor, notes.FIRST) else []
    return [program.Item(program.item(b'T', 0, now), settle),
            *(program.Item(program.item(b'F', 0, now, floor), settle) for floor in floors)]
