"""What an operator decides when a host's copy of a list can't go by its history: it gets another copy, or the history goes on from it."""

import asyncio
import functools
import itertools
import os
import pathlib
import shutil
import time
from collections.abc import Callable
from typing import TypeVar

from . import asking, chain, check, folder, history, program, servers, settings, states, taking, wire
from .giving import LATER, WRONG, Refused, known, opened

Result = TypeVar('Result')


async def go_on_from(chosen: settings.Settings, name: str) -> int:
    """Has a list's history go on from this host's copy, in a new epoch."""
    past = begun(chosen)
    await known(past, name)
    copy, kept = await read(path_of(chosen, name), name)
    fork, gone, epoch = await past.go_on_from(copy, kept)
    print(f'{name}: its history goes on from this host\'s copy, at item {copy.place}, in epoch {epoch}; {gone} item{"s" * (gone != 1)} that this copy '
          f'wasn\'t given, from item {fork} on, {"are" if gone != 1 else "is"} gone')
    print(f'{name}: hosts of other copies refuse its mail until they get one of this host, by --take-copy')
    return 0


async def take_copy(chosen: settings.Settings, name: str, source: str) -> int:
    """Puts a copy that was brought from another host in the place of this host's, if it can go by the list's history."""
    past = begun(chosen)
    await known(past, name)
    copy, _ = await read(pathlib.Path(source), name)
    try:
        later = await past.look_at(copy)
    except servers.Unfit as error:
        raise Refused(f'{source} can\'t go by the history: {error}', WRONG) from error
    place = path_of(chosen, name) if has_copy(chosen, name) else chosen.lists / name
    new = place.with_name(f'{place.name}.new')
    if new.exists():
        raise Refused(f'{new} is there, as of a --take-copy that was stopped: remove it', WRONG)
    try:
        await settled(pathlib.Path(source), functools.partial(shutil.copytree, dst=new))
        wrong, said = await program.Program(chosen.program, 1).run(new, 'check')
        if wrong:
            raise Refused(f'{source} is damaged: check says {wire.printable(said.decode("ascii", "replace").strip())}', WRONG)
        away = to_state(chosen, place)
        os.rename(new, place)
    except BaseException:
        shutil.rmtree(new, ignore_errors=True)
        raise
    os.sync()
    print(f'{name}: this host has the copy of {source}, and the history has the {later} items that came since it'
          + (f'; the former one is {away}' if away else ''))
    return 0


def begun(chosen: settings.Settings) -> history.History:
    """The history, if no agent of this host runs."""
    past = opened(chosen)
    if asking.is_running(chosen):
        raise Refused('the agent of this host runs: end it first', WRONG)
    return past


def has_copy(chosen: settings.Settings, name: str) -> bool:
    return any(wire.printable(path.name) == name for path in chosen.lists.iterdir())


def path_of(chosen: settings.Settings, name: str) -> pathlib.Path:
    """The folder of this host's copy."""
    for path in chosen.lists.iterdir():
        if wire.printable(path.name) == name:
            return path
    raise Refused(f'there is no copy of {name} on this host', WRONG)


async def settled(path: pathlib.Path, call: Callable[[pathlib.Path], Result]) -> Result:
    """What a call makes of a list's files while nothing else has them."""
    for _ in range(check.TRIES):
        try:
            return await asyncio.to_thread(folder.settled, path, call)
        except (folder.Held, folder.Unsettled):
            await asyncio.sleep(1)
        except OSError as error:
            raise Refused(f'{path}: {error.strerror or error}', WRONG) from error
    raise Refused(f'another run has {path}, or its log isn\'t empty: run the program\'s check on it, and try again', LATER)


async def read(path: pathlib.Path, name: str) -> tuple[taking.Copy, chain.Kept]:
    """The copy in a folder, and the hashes that it keeps."""
    def look(place: pathlib.Path) -> tuple[tuple[bytes, bytes] | None, states.State, chain.Kept]:
        return folder.address(place), states.state_of(place), chain.read(place)
    address, state, kept = await settled(path, look)
    if address is None:
        raise Refused(f'{path} is no list', WRONG)
    return taking.Copy(name, address, state.place, kept.at(state.place), state.floor, state.config, state.key), kept


def to_state(chosen: settings.Settings, place: pathlib.Path) -> pathlib.Path | None:
    """Keeps the folder of a list under another name in the agent's state."""
    if not place.exists():
        return None
    name = f'{place.name}.away-{time.strftime("%Y%m%dT%H%M%S")}'
    to = next(path for number in itertools.count(1) if not (path := chosen.state / (name + f'.{number}' * (number > 1))).exists())
    shutil.move(place, to)
    return to
