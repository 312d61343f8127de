"""The agent's settings, read from a file."""

import configparser
import dataclasses
import ipaddress
import pathlib
import re
import socket
from collections.abc import Callable, Mapping
from typing import Any

from . import resolver, sections

WRONG = 78  # EX_CONFIG of sysexits.h: settings that are wrong, for which systemd doesn't start the agent again

def is_yes(text: str) -> bool:
    """What `yes` and `no` say. Another word is a ValueError."""
    if text not in ('yes', 'no'):
        raise ValueError(f'{text} is neither yes nor no')
    return text == 'yes'


def posts(text: str) -> str:
    """One of the words of auto_posts. Another word is a ValueError."""
    if text not in ('take', 'refuse'):
        raise ValueError(f'{text} is neither take nor refuse')
    return text


def senders(text: str) -> tuple[str, ...]:
    """IP addresses, with blanks between them. Another word is a ValueError."""
    try:
        return tuple(str(ipaddress.ip_address(word)) for word in text.split())
    except ValueError as error:
        raise ValueError(f'sends_from: {error}') from error


def asked(text: str) -> str:
    """A resolver's address, with or without a port, or nothing. Another text is a ValueError."""
    if text:
        resolver.read(text)
    return text


def named(text: str) -> str:
    """The name of a host. Another text is a ValueError."""
    if re.fullmatch('[A-Za-z0-9._-]{1,60}', text) is None:
        raise ValueError('host is no name of letters, digits, dots, hyphens and underscores, 60 at most')
    return text


def standbys(text: str) -> str:
    """One of the words of standby. Another word is a ValueError."""
    if text not in ('quorum', 'none'):
        raise ValueError(f'{text} is neither quorum nor none')
    return text


def setting(read: Callable[[str], Any], default: Any = dataclasses.MISSING) -> Any:
    """A setting: what reads its text, and its value if there is no line of it."""
    return dataclasses.field(default=default, metadata={'read': read})


@dataclasses.dataclass(frozen=True)
class Settings:
    program: str = setting(str)                 # the program
    lists: pathlib.Path = setting(pathlib.Path)  # each folder in it that has a configuration is a list
    state: pathlib.Path = setting(pathlib.Path)  # what the agent remembers
    listen: str = setting(str)                  # where mail comes in: a socket's path, or HOST:PORT of loopback
    mta: str = setting(str, '127.0.0.1:25')     # where mail goes out: HOST:PORT, or a socket's path
    name: str = setting(str, '')                # how the agent calls itself
    batch: int = setting(int, 100)              # copies in one transaction
    connections: int = setting(int, 8)          # to the transfer agent, at once
    runs: int = setting(int, 4)                 # of the program, at once
    memory: int = setting(int, 128)             # MiB of mail that wait at once, and as many that are handed on
    reserve: int = setting(int, 80)             # MiB of a list's disk below which mail is put off; ten times what a log has at most
    reserve_inodes: int = setting(int, 2000)    # and inodes
    keep_days: int = setting(int, 15)           # how long a mail may come again: the transfer agent's queue lifetime and a margin
    patience: int = setting(int, 30)            # seconds after which a mail that the list hasn't answered is put off
    weed: bool = setting(is_yes, True)          # whether mail that a machine sent is kept from return addresses and requests
    auto_posts: str = setting(posts, 'take')    # what is done with posts that a machine sent
    replies: int = setting(int, 20)             # answers that one sender gets in an hour; 0 for any number
    status: str = setting(str, '')              # where a monitor asks: a socket's path, or HOST:PORT of loopback; else STATE/status
    policy: str = setting(str, '')              # where Postfix asks what a list refuses by the envelope: as listen, or nowhere
    sends_from: tuple[str, ...] = setting(senders, ())  # the transfer agent's addresses as the world sees them; for --check
    resolver: str = setting(asked, '')          # whom --check asks: ADDRESS or ADDRESS:PORT; without it those of /etc/resolv.conf
    history: str = setting(str, '')             # PostgreSQL's servers, as libpq has them, if other hosts have the same lists
    host: str = setting(named, '')              # how this host is called among them
    standby: str = setting(standbys, 'quorum')  # none: the history is on one server alone
    takeover: int = setting(int, 10)            # seconds until another host hands on instead of one that is gone
    by_list: Mapping[str, sections.Section] = dataclasses.field(default_factory=dict)  # settings of single lists, by their folders' names


def read(path: str) -> Settings:
    """Reads the settings from the section `agent` of a file, and those of single lists from the sections `list NAME`. A wrong one is a
    ValueError."""
    parser = configparser.ConfigParser(interpolation=None)
    try:
        with open(path, encoding='utf-8') as file:
            parser.read_file(file)
    except OSError as error:
        raise ValueError(f'{path}: {error.strerror}') from error
    except (configparser.Error, UnicodeError) as error:
        raise ValueError(f'{path}: {" ".join(str(error).split())}') from error
    if 'agent' not in parser:
        raise ValueError(f'{path}: there is no section [agent]')
    given = dict(parser['agent'])
    fields = {field.name: field for field in dataclasses.fields(Settings) if 'read' in field.metadata}
    unknown = given.keys() - fields.keys()
    missing = {name for name, field in fields.items() if field.default is dataclasses.MISSING} - given.keys()
    if unknown or missing:
        raise ValueError(f'{path}: ' + ', '.join(f'{what} {", ".join(sorted(names))}' for what, names in
                                                (('unknown', unknown), ('missing', missing)) if names))
    try:
        chosen = Settings(**{name: fields[name].metadata['read'](value) for name, value in given.items()}, by_list=sections.read(parser))
        check(chosen)
    except ValueError as error:
        raise ValueError(f'{path}: {error}') from error
    return dataclasses.replace(chosen, name=chosen.name or socket.gethostname(), status=chosen.status or str(chosen.state / 'status'))


def check(chosen: Settings) -> None:
    """A ValueError if a setting is out of its range."""
    for name in ('batch', 'connections', 'runs', 'memory', 'keep_days', 'patience'):
        if getattr(chosen, name) < 1:
            raise ValueError(f'{name} is below 1')
    if chosen.takeover < 2:
        raise ValueError('takeover is below 2')
    if bool(chosen.history) != bool(chosen.host):
        raise ValueError('history and host belong together: with history each host has a name of its own' if chosen.history else
                         'host is how this host is called among those that have the same history, and there is no history')
    endpoint(chosen.mta)
    for name in ('replies', 'reserve', 'reserve_inodes'):
        if getattr(chosen, name) < 0:
            raise ValueError(f'{name} is below 0')
    for address in (chosen.listen, chosen.policy, chosen.status):
        if address and not is_near(address):
            raise ValueError(f'{address} is not loopback, and whoever reaches the agent can give it mail')


def is_near(address: str) -> bool:
    """Whether an address is a socket's path, or HOST:PORT of loopback. One that is none of both, or has another name for HOST, is a
    ValueError."""
    where = endpoint(address)
    return isinstance(where, str) or where[0] == 'localhost' or ipaddress.ip_address(where[0]).is_loopback


def endpoint(text: str) -> str | tuple[str, int]:
    """A socket's path, or a host and a port."""
    if '/' in text:
        return text
    host, _, port = text.rpartition(':')
    if not host or not port.isdecimal():
        raise ValueError(f'{text} is neither a path nor HOST:PORT')
    return host.strip('[]'), int(port)
