"""Looks whether the history of lists on several hosts is in order, and whether this host's copies can go by it."""

import asyncio
import pathlib

from . import check, folder, history, lines, notes, servers, settings, states, wire


async def faults(chosen: settings.Settings, addresses: 'check.Addresses') -> list[str]:
    """What is wrong with the servers, the history, and this host's copies of the lists, each named."""
    wrong: list[str] = []
    try:
        those = servers.Servers(chosen.history, chosen.host, chosen.standby, chosen.takeover)
        for row in those.rows:
            host = str(row.get('hostaddr') or row.get('host') or '/')
            wrong += [] if host.startswith('/') else check.kept_away((host, int(row.get('port') or 5432)), 'history')
        past = history.History(lines.Lines(those))
        if not await past.try_tables():
            print(f'history: {those.shown()} can be reached, and has no tables yet: the first agent makes them')
            return wrong
        known = await past.lists()
        print(f'history: {those.shown()}, {len(known)} list{"s" * (len(known) != 1)}; {kept_by(chosen)}; this host\'s clock is {abs(those.ahead):.1f} '
              f's {"before" if those.ahead >= 0 else "after"} the server\'s')
        for path, address in addresses.items():
            name = wire.printable(path.name)
            if name not in known:
                print(f'{name}: it has no history yet, which begins with this copy')
                continue
            state = await copy_of(path)
            wrong += [state] if isinstance(state, str) else copy(name, address, state, *known[name])
            if not isinstance(state, str):
                wrong += configured(name, state, await past.configurations(name, state.place))
        past.lines.close()
    except servers.Lost as error:
        wrong.append(f'history: {error}')
    except ValueError as error:
        wrong.append(str(error))
    return wrong


def kept_by(chosen: settings.Settings) -> str:
    return 'it is on one server alone, as standby = none says' if chosen.standby == 'none' else 'what is in it is on more than one server'


def settled_state(path: pathlib.Path) -> states.State:
    return folder.settled(path, states.state_of)


async def copy_of(path: pathlib.Path) -> states.State | str:
    """What this host's copy is, or why that can't be told."""
    for _ in range(check.TRIES):
        try:
            return await asyncio.to_thread(settled_state, path)
        except (folder.Held, folder.Unsettled):
            await asyncio.sleep(1)
        except OSError as error:
            return f'{check.shown(path)}: {error}'
    return f'{check.shown(path)}: another run has it, or its log isn\'t empty, so it isn\'t told whether the history has what it wants'


def copy(name: str, address: notes.Address, state: states.State, other: notes.Address, kept: range) -> list[str]:
    """What is wrong with a copy beside the history, and what is good about it."""
    if other != address:
        return [f'{name}: its history is the one of the list {wire.shown(b"@".join(other))}']
    if state.place > kept.stop:
        return [f'{name}: this copy has answered item {state.place - 1}, and the history goes to item {kept.stop - 1}: it was served by itself, or '
                'the history is an old one']
    if state.place < kept.start:
        return [f'{name}: this copy wants item {state.place}, and the history begins at item {kept.start}: take a newer copy of another host']
    print(f'{name}: the history has the {kept.stop - state.place} items that came since this copy')
    return []


def configured(name: str, state: states.State, rows: list[tuple[int, bytes]]) -> list[str]:
    """What is wrong with a copy's configuration: it is the one that holds at its place, or the former one if that begins there."""
    at, config = rows[0] if rows else (0, state.config)
    if state.config == config or at == state.place and state.config in [text for _, text in rows[1:]]:
        return []
    return [f'{name}: its configuration was changed by hand on this host']
