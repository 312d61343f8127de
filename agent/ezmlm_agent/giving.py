"""What operators give to a list that several hosts have: items, and configurations. It goes into the list's history, and so to each copy."""

import asyncio
import functools
import os
import pathlib
import re
import subprocess
import sys
import tempfile
import time
from typing import BinaryIO

from . import check, comparing, folder, history, items, lines, mails, program, puts, servers, settings, wire

PIECE = 1 << 16
WAITS, SLOWEST = 0.02, 0.5  # seconds between two looks for answers, at first and at most
SAID = 10  # seconds after which it is said that no host has answered
USAGE, WRONG, LATER = 64, 65, 75  # statuses, as the program has them
CONFIGURATION = re.compile(rb'flags (?:[bB][dD][fF][gG][hH][jJ][kK][lL][mM][pP][rR][sS][tT][uU])\nlocal ([!-?A-~]{1,60})\nhost ([a-z0-9._-]{1,255})\n'
                           rb'owner [!-?A-~]+@[a-z0-9._-]+\nprefix (?:[!-~](?:[ -~]{0,60}[!-~])?)?\nmax [1-9][0-9]{0,7}\n')


class Refused(Exception):
    """Why something isn't done, and the status."""

    def __init__(self, why: str, status: int) -> None:
        super().__init__(why)
        self.status = status


def opened(chosen: settings.Settings) -> history.History:
    """The history that the settings name. It is Refused if they name none."""
    if not chosen.history:
        raise Refused('the settings name no history: by hand use the program itself', settings.WRONG)
    return history.History(lines.Lines(servers.Servers(chosen.history, chosen.host, chosen.standby, chosen.takeover)))


async def known(past: history.History, name: str) -> tuple[bytes, bytes]:
    """LOCAL and HOST of a list of the history. Another one is Refused."""
    found = await past.lists()
    if name not in found:
        raise Refused(f'{name} has no history: an agent that has its folder begins one', LATER)
    return found[name][0]


async def give(chosen: settings.Settings, name: str, stream: BinaryIO) -> int:
    """Gives a list the items of a stream, and prints its answers as the program does. The answer is the status."""
    past, reader = opened(chosen), items.Reader()
    await known(past, name)
    more, words = b'begin', ''
    while more and not words:
        more = await asyncio.to_thread(os.read, stream.fileno(), PIECE)
        batch: list[items.Given] = []
        try:
            for item in reader.read(more, not more):
                batch.append(item)
                if len(batch) == mails.MOST_MAILS or sum(len(each.rest) for each in batch) >= mails.MOST_BYTES:
                    await give_some(past, name, batch)
                    batch = []
        except items.Bad as error:
            words = str(error)
        if batch:
            await give_some(past, name, batch)
    if words:
        print(f'- {WRONG} {words}', flush=True)
    return WRONG if words else 0


async def give_some(past: history.History, name: str, batch: list[items.Given]) -> None:
    """Gives a list items, and prints its answers when each of them has one."""
    given = await put_in(past, name, batch)
    begun, pause, is_said = time.monotonic(), WAITS, False
    while len(answers := await past.answers(name, given)) < len({each.number for each in given}):
        if time.monotonic() > begun + SAID and not is_said:
            print(f'ezmlm-agent: the items are in the history of {name}, and no host has answered them yet', file=sys.stderr, flush=True)
            is_said = True
        await asyncio.sleep(pause)
        pause = min(2 * pause, SLOWEST)
    print(''.join(f'{item.number} {answers[each.number]}\n' for item, each in zip(batch, given)), end='', flush=True)


async def put_in(past: history.History, name: str, batch: list[items.Given]) -> list[puts.Given]:
    """Puts items into a list's history. Hosts that are about to look at it are waited for."""
    end = time.monotonic() + 2 * past.lines.servers.takeover
    while True:
        try:
            return await past.give(name, [(item.number, item.numbered) for item in batch])
        except servers.Late:
            if time.monotonic() > end:
                raise
        await asyncio.sleep(SLOWEST)


async def configure(chosen: settings.Settings, name: str, path: str) -> int:
    """Puts a configuration into a list's history, if this host's copy is whole with it."""
    past = opened(chosen)
    address = await known(past, name)
    try:
        text = pathlib.Path(path).read_bytes()
    except OSError as error:
        raise Refused(f'{path}: {error.strerror}', WRONG) from error
    found = CONFIGURATION.fullmatch(text)
    if found is None:
        raise Refused(f'{path} is no configuration: take a copy of the list\'s file config, and change that', WRONG)
    if (found[1].lower(), found[2].lower()) != address:
        raise Refused(f'{path} is the configuration of another list: LOCAL and HOST of a list can\'t be changed', WRONG)
    await tried(chosen, name, text)
    await past.configure(name, text)
    print(f'{name}: each host lays it in before the next item')
    return 0


async def tried(chosen: settings.Settings, name: str, text: bytes) -> None:
    """Has the program's `check` look at this host's copy of a list as it would be with another configuration."""
    paths = [path for path in chosen.lists.iterdir() if wire.printable(path.name) == name]
    if not paths:
        raise Refused(f'there is no copy of {name} on this host, by which the configuration could be tried', LATER)
    runs = program.Program(chosen.program, 1)

    def look() -> tuple[int, str]:
        return folder.settled(paths[0], functools.partial(checked, runs.path, text))
    for _ in range(check.TRIES):
        try:
            status, line = await asyncio.to_thread(look)
            break
        except (folder.Held, folder.Unsettled):
            await asyncio.sleep(1)
    else:
        raise Refused(f'another run has {name}, or its log isn\'t empty: try again', LATER)
    if status:
        raise Refused(f'check would say: {line}; a prefix stays as it is while there are posts', WRONG)


def checked(binary: str, text: bytes, path: pathlib.Path) -> tuple[int, str]:
    """What `check` says of a list's files under another configuration. It reads them by links, with a log and a lock of its own."""
    with tempfile.TemporaryDirectory(prefix='ezmlm-agent.') as scratch:
        place = pathlib.Path(scratch)
        (place / 'config').write_bytes(text)
        for part in {part.partition('/')[0] for part in comparing.PARTS} - {'config'}:
            if (path / part).exists():
                (place / part).symlink_to((path / part).resolve())
        done = subprocess.run([binary, '.', 'check'], cwd=place, stdout=subprocess.PIPE, check=False)
        return done.returncode, wire.printable(done.stdout.decode('ascii', 'replace').strip())


async def forget_host(chosen: settings.Settings, host: str) -> int:
    """Forgets a host that is gone for good, so that nothing is kept for it any more."""
    lists = await opened(chosen).forget_host(host)
    if lists is None:
        raise Refused(f'an agent of the host {host} runs: end it first', WRONG)
    if not lists:
        raise Refused(f'no list has a copy on a host {host}', WRONG)
    print(f'{host} is forgotten, which had {lists} lists')
    return 0
