"""What the agent that runs knows of how it goes, told to whoever connects to its status socket: one JSON document, by the event loop."""

import asyncio
import json
import logging
import time
from collections.abc import Iterator
from typing import TYPE_CHECKING, Any

from . import tended, wire

if TYPE_CHECKING:
    from . import lists, mailing, smtp

log = logging.getLogger('ezmlm-agent')
OK, WARNING, CRITICAL = range(3)
PUT_OFF = 900  # seconds for which a list may put mail off
OUT = 300      # seconds for which something may wait though nothing is handed on
AWAY = 300     # seconds for which the transfer agent may be away
MOST_SESSIONS = 16
SAYING = 5     # seconds in which the answer has to be taken
FRESH = 0.2    # seconds for which an answer serves for others: whoever asks all the time doesn't keep the agent busy
LONGEST = 300  # letters of what is said of one fault

Fault = tuple[int, str, str]  # its status, the list's name or nothing, and what is wrong


def since(moment: float, now: float) -> str:
    return f'for {int(now - moment)} s'


def of_list(found: 'mailing.MailingList', now: float) -> Iterator[Fault]:
    """What is to be said of a list that is served."""
    for fault in (found.health.fault, found.health.damage):
        if fault is not None and now - fault[0] > PUT_OFF:
            yield CRITICAL, found.name, f'puts mail off {since(fault[0], now)}: {fault[1]}'
    queue = found.queue
    if queue.fault is not None and now - queue.fault[0] > OUT:
        yield CRITICAL, found.name, f'hands nothing on {since(queue.fault[0], now)}, and something waits: {queue.fault[1]}'
    if aside := queue.apart.found:
        words = f'{len(aside)} entr{"y is" if len(aside) == 1 else "ies are"} set aside'
        yield WARNING, found.name, f'{words}, on which the transfer agent hangs up: ezmlm-admin {found.folder} aside'


class Standing:
    """How the agent stands."""

    def __init__(self, served: 'lists.Lists', exchange: 'smtp.Exchange') -> None:
        self.lists, self.exchange = served, exchange
        self.sessions = 0
        self.answered: tuple[float, bytes] = float('-inf'), b''
        self.began = time.time()

    def faults(self, now: float) -> Iterator[Fault]:
        """What is wrong, at a moment of the monotonic clock."""
        away = self.exchange.fault
        if away is not None and now - away[0] > AWAY:
            yield CRITICAL, '', f'the transfer agent is away {since(away[0], now)}: {away[1]}'
        for name, (moment, why) in self.lists.off.items():
            if now - moment > PUT_OFF:
                yield CRITICAL, wire.printable(name), f'puts mail off {since(moment, now)}: {why}'
        for found in self.lists.served.values():
            if found.folder.name not in self.lists.off:
                yield from of_list(found, now)

    def document(self) -> dict[str, Any]:
        """The answer. The queues are as they were when the lists looked last: the number of entries, and the oldest one's seconds."""
        queues = {}
        for found in self.lists.served.values():
            many, written = found.queue.stands
            queues[found.name] = many, max(0, int(time.time() - written)) if written is not None else 0
        faults = [(level, wire.printable(name), wire.printable(text)[:LONGEST]) for level, name, text in self.faults(time.monotonic())]
        return {'began': int(self.began), 'queues': queues, 'faults': faults}

    def answer(self) -> bytes:
        made, text = self.answered
        if time.monotonic() - made > FRESH:
            text = json.dumps(self.document(), separators=(',', ':')).encode() + b'\n'
            self.answered = time.monotonic(), text
        return text

    async def serve(self, _: asyncio.StreamReader, writer: asyncio.StreamWriter) -> None:
        """Says it, whatever is asked, and hangs up. Too many who ask at once, and those who don't take it soon, get nothing."""
        if self.sessions >= MOST_SESSIONS:
            writer.transport.abort()
            return
        self.sessions += 1
        try:
            async with asyncio.timeout(SAYING):
                writer.write(self.answer())
                await writer.drain()
                writer.close()
                await writer.wait_closed()
        except OSError:
            pass
        except Exception as error:  # Whatever it is, the next one is answered.
            log.error('a monitor has no answer: %s', tended.told(error))
        finally:
            self.sessions -= 1
            writer.transport.abort()
