"""Looks whether the agent can do its work, before mail depends on it."""

import asyncio
import contextlib
import ipaddress
import os
import pathlib
import pwd
import socket
import sqlite3
import subprocess
from collections.abc import Iterable

from . import folder, notes, program, receivers, sections, settings, smtp, trouble, wire

TRIES = 20  # while another run has a list, a second each
MOST = 5    # lines that say the same of one list
UNIT = 'ezmlm-agent.service'

Addresses = dict[pathlib.Path, notes.Address]


def modes(path: pathlib.Path, owner: int) -> list[str]:
    """What is wrong with the owner and the mode of a file or folder. One that is gone meanwhile, as an entry that was sent, is in order."""
    try:
        state = path.lstat()
    except FileNotFoundError:
        return []
    wrong = []
    if state.st_uid != owner:
        wrong.append(f'{shown(path)} belongs to another user')
    if state.st_mode & 0o077:
        wrong.append(f'{shown(path)} is open to others: mode {state.st_mode & 0o7777:o}')
    return wrong


def shown(path: pathlib.Path | str) -> str:
    return wire.printable(str(path))


def all_below(path: pathlib.Path) -> Iterable[pathlib.Path]:
    """A folder and all that stands in it, without what is gone meanwhile."""
    for place, folders, files in os.walk(path):
        yield pathlib.Path(place)
        yield from (pathlib.Path(place, name) for name in files)


def some(wrong: list[str]) -> list[str]:
    """The first of these lines, and how many there are beside them."""
    return wrong if len(wrong) <= MOST + 1 else [*wrong[:MOST], f'and {len(wrong) - MOST} lines more like the last one']


def user(number: int) -> str:
    try:
        return pwd.getpwuid(number).pw_name
    except KeyError:
        return str(number)


async def whole(runs: program.Program, path: pathlib.Path) -> tuple[int, str]:
    """The status and the line by which the program says whether a list is whole."""
    status, text = 0, b''
    for _ in range(TRIES):
        status, text = await runs.run(path, 'check')
        if status != program.HELD:
            break
        await asyncio.sleep(1)
    return status, text.decode('ascii', 'replace').strip()


def found(chosen: settings.Settings) -> tuple[Addresses, list[str]]:
    """The lists by their folders, and what is wrong if there are none of their own."""
    addresses: Addresses = {}
    wrong = []
    try:
        paths = sorted(path for path in chosen.lists.iterdir() if path.name != 'lost+found' and path.is_dir())
    except OSError as error:
        return {}, [str(error)]
    for path in paths:
        try:
            address = folder.address(path)
        except OSError as error:
            wrong.append(str(error))
            continue
        if address in addresses.values():
            wrong.append(f'{shown(path)} has the address of another list')
        elif address is not None:
            addresses[path] = address
    return addresses, wrong or ([] if addresses else [f'there is no list in {chosen.lists}'])


def moderation(path: pathlib.Path, line: str) -> list[str]:
    """What is wrong with the moderators of a list that is whole, of which `check` says this line."""
    flags = (folder.configuration(path) or {}).get(b'flags', b'')
    if line.split()[6:7] != ['0']:
        return []
    name = shown(path.name)
    posts = [f'{name}: its posts wait for a moderator (m), and it has none: each goes back to its author after five days'] * (b'm' in flags)
    return posts + [f'{name}: subscriptions wait for a moderator (s), and it has none'] * (b's' in flags)


def sending(chosen: settings.Settings, addresses: Addresses) -> list[str]:
    """What is wrong with the sections of single lists, each of which is told, and with how posts are sent."""
    wrong = [f'[list {shown(name)}]: there is no such list in {shown(chosen.lists)}'
             for name in sorted(chosen.by_list.keys() - {path.name for path in addresses})]
    for path, address in addresses.items():
        flags, name, section = folder.flags(path), shown(path.name), chosen.by_list.get(path.name)
        local, host = (wire.shown(part) for part in address)
        if section is not None:
            print(f'[list {name}]: {section.told((local, host), flags)}')
        if section is not None and section.list_id is not None and section.list_id.of(local, host) is None:
            wrong.append(f'[list {name}]: {local}.{host} is no id of a list (RFC 2919): give list_id one, as TEXT <ID>')
        if sections.changes_posts(flags) and (section is None or not section.rewrite_from):
            does = ' and '.join(['marks subjects (f)'] * (b'f' in flags) + ['adds a trailer (t)'] * (b't' in flags))
            wrong.append(f'{name}: it {does}, which breaks its writers\' signatures: say rewrite_from = yes in [list {name}], or no to keep it so')
    return wrong


async def lists(chosen: settings.Settings, addresses: Addresses, owner: int) -> list[str]:
    """What is wrong with the lists, each named."""
    runs = program.Program(chosen.program, 1)
    status, _ = await runs.run('/', 'usage')
    if status != 64:
        return [f'{chosen.program} is not the program: status {status}']
    wrong = []
    for path, address in addresses.items():
        wrong += some([fault for each in all_below(path) for fault in modes(each, owner)])
        status, line = await whole(runs, path)
        if status:
            _, _, words = line.partition(f'{status} ')
            wrong.append(f'{shown(path)}: {status} {words}: {trouble.of_ending(path, status, words)}')
        else:
            print(f'{shown(path.name)}: {wire.shown(b"@".join(address))}, {line}')
            wrong += moderation(path, line)
    return wrong


def all_notes(chosen: settings.Settings) -> list[str]:
    """What is wrong with the agent's notes, each file of which is opened and read."""
    wrong = []
    for path in sorted(chosen.state.glob('*.sqlite')):
        try:
            with contextlib.closing(sqlite3.connect(f'{path.absolute().as_uri()}?mode=ro', uri=True)) as database:
                faults = notes.faults(database)
        except sqlite3.Error as error:
            faults = str(error)
        if faults:
            wrong.append(f'{shown(path)}: these notes are damaged: {faults}; the agent sets them aside when it starts, and begins new ones')
    return wrong


async def transfer_agent(chosen: settings.Settings, addresses: Addresses) -> list[str]:
    """What is wrong with the transfer agent. It is asked whether it would take mail of each list for its owner, and gets none."""
    wrong = []
    try:
        connection = await smtp.connect(chosen.mta)
        await connection.greet(chosen.name)
        print(f'{chosen.mta} takes: {" ".join(sorted(connection.extensions))}')
        for path, address in addresses.items():
            owner = (folder.configuration(path) or {}).get(b'owner', b'')
            commands = connection.commands(b'-return-@'.join(address), False, [owner], b'')
            replies = [reply async for reply in connection.ask([*commands, b'RSET\r\n'])]
            wrong += [f'{shown(path.name)}, mail to its owner: {reply.code} {reply.words()}' for reply in replies if reply.code >= 400]
        connection.close()
    except wire.Gone as error:
        return [*wrong, str(error)]
    if 'XVERP' not in connection.extensions:
        print('it takes no XVERP, so each copy is a transaction of its own (Postfix: smtpd_authorized_verp_clients)')
    return wrong


async def hosts(chosen: settings.Settings, addresses: Addresses) -> list[str]:
    """What is wrong with the history, if other hosts have the same lists."""
    if not chosen.history:
        return []
    try:
        from . import check_hosts
    except ModuleNotFoundError as error:
        return [f'history wants the package python3-psycopg: {error}']
    return await check_hosts.faults(chosen, addresses)


def keeps_away(chosen: settings.Settings) -> list[str]:
    """Whether the unit keeps the agent from a transfer agent on another host, as it does unless IPAddressAllow names that."""
    where = settings.endpoint(chosen.mta)
    return [] if isinstance(where, str) else kept_away(where, 'mta')


def kept_away(where: tuple[str, int], setting: str) -> list[str]:
    """Whether the unit keeps the agent from a host and port of a setting."""
    try:
        hosts = {ipaddress.ip_address(str(row[4][0]).partition('%')[0]) for row in socket.getaddrinfo(*where)}
        far = [host for host in hosts if not host.is_loopback]
        told = subprocess.run(['systemctl', 'show', '-p', 'IPAddressAllow', '-p', 'IPAddressDeny', UNIT], capture_output=True, text=True,
                              timeout=10, check=True).stdout
    except (OSError, subprocess.SubprocessError):
        return []
    return [f'{UNIT} has IPAddressDeny, by which the agent can\'t reach {host} ({setting}): add IPAddressAllow={host} to it'
            for host in far if is_denied(host, told)]


def is_denied(host: ipaddress.IPv4Address | ipaddress.IPv6Address, told: str) -> bool:
    """Whether a unit of which `systemctl show` tells this may not reach a host: what is allowed goes first (systemd.resource-control(5))."""
    rows = dict(line.split('=', 1) for line in told.splitlines() if '=' in line)
    allowed, denied = ([ipaddress.ip_network(word, strict=False) for word in rows.get(name, '').split()]
                       for name in ('IPAddressAllow', 'IPAddressDeny'))
    return any(host in network for network in denied) and not any(host in network for network in allowed)


def place(chosen: settings.Settings) -> list[str]:
    """What is wrong with the folders of the settings."""
    wrong = []
    if chosen.lists.exists() and chosen.lists.stat().st_mode & 0o022:
        wrong.append(f'{chosen.lists} can be written by others')
    for address in (chosen.listen, chosen.policy):
        path = pathlib.Path(address)
        if '/' in address and not os.access(path.parent, os.W_OK | os.X_OK):
            wrong.append(f'{path.parent}: no socket can be made there')
    return wrong


async def check(chosen: settings.Settings) -> int:
    """Tells all that is wrong. The status is 0 if nothing is."""
    wrong = []
    owner = chosen.lists.stat().st_uid if chosen.lists.exists() else os.geteuid()
    is_other = owner != os.geteuid()
    if is_other:
        wrong.append(f'this is run by {user(os.geteuid())}, and {chosen.lists} belongs to {user(owner)}: run it as the user that the agent runs as, '
                     f'by runuser -u {user(owner)} --')
    else:
        wrong += modes(chosen.state, owner) if chosen.state.exists() else []
        wrong += place(chosen)
        addresses, others = found(chosen)
        wrong += [*others, *await lists(chosen, addresses, owner), *sending(chosen, addresses), *all_notes(chosen)]
        wrong += await hosts(chosen, addresses)
        wrong += await transfer_agent(chosen, addresses)
        wrong += keeps_away(chosen)
        for line in await receivers.look(chosen, addresses):
            print(line)
    for line in wrong:
        print('! ' + line)
    return 1 if wrong else 0
