"""What receivers make of the lists' mail, as `--check` tells it for each host. Nothing of it changes the status, and none of it takes long."""

import asyncio
import contextlib
import pathlib
from collections.abc import Callable, Mapping
from typing import Any

from . import folder, notes, records, resolver, settings, signing, wire
from .records import Finding
from .resolver import Untold

MOST_HOSTS = 10
NAMED = 3  # lists of a host that are named

Lists = dict[pathlib.Path, notes.Address]
Post = tuple[str, bytes | Untold]  # whose it is, and its bytes


async def look(chosen: settings.Settings, addresses: Mapping[pathlib.Path, notes.Address]) -> list[str]:
    """The lines on each host."""
    if not addresses:
        return []
    hosts: dict[bytes, Lists] = {}
    for path, address in addresses.items():
        hosts.setdefault(address[1], {})[path] = address
    looked_at = dict(list(hosts.items())[:MOST_HOSTS])
    lines = [f'{len(hosts) - MOST_HOSTS} more hosts with lists weren\'t looked at'] if len(hosts) > MOST_HOSTS else []
    try:
        mails = await asyncio.gather(*(returned(chosen, found) for found in looked_at.values()))
        asked = resolver_of(chosen)
        return [line for (host, found), post in zip(looked_at.items(), mails)
                for line in map(told(host, found), of_host(chosen, host, post, asked))] + lines
    except Exception as error:  # Whatever it is, it isn't what the check is for.
        return [*lines, f'what receivers make of the lists\' mail can\'t be told: {type(error).__name__}: {wire.printable(str(error))}']


async def returned(chosen: settings.Settings, lists: Lists) -> Post:
    """A post of one of a host's lists, as it comes back through the transfer agent."""
    path = hardest(chosen, lists)
    try:
        return wire.printable(path.name), await signing.sent_and_back(chosen, path, lists[path])
    except Untold as error:
        return wire.printable(path.name), error


def hardest(chosen: settings.Settings, lists: Lists) -> pathlib.Path:
    """The first list whose posts come from their writers, if there is one, or else the first: what signs by From alone leaves those out."""
    for path in lists:
        section = chosen.by_list.get(path.name)
        with contextlib.suppress(OSError):
            if section is None or not section.rewrites(folder.flags(path)):
                return path
    return next(iter(lists))


def resolver_of(chosen: settings.Settings) -> resolver.Resolver | Untold:
    try:
        return resolver.Resolver(chosen.resolver)
    except Untold as error:
        return error


def library(name: str, debian: str) -> Any | Untold:
    try:
        return resolver.package(name, debian)
    except Untold as error:
        return error


def told(host: bytes, lists: Lists) -> Callable[[Finding], str]:
    """How a finding on a host is told: with its lists, and as a warning if it is one."""
    names = [wire.printable(path.name) for path in lists]
    more = f' and {len(names) - NAMED} more' if len(names) > NAMED else ''
    whose = f'{wire.shown(host)} ({", ".join(names[:NAMED])}{more})'
    return lambda finding: f'{"warning: " if finding.is_warning else ""}{whose}: {finding.text}'


def of_host(chosen: settings.Settings, host: bytes, post: Post, asked: resolver.Resolver | Untold) -> list[Finding]:
    """What is found of one host: SPF, DMARC and DKIM."""
    if not host.isascii():
        return [Finding('what receivers make of its mail can\'t be told, as it isn\'t ASCII')]
    name = host.decode()

    def ask(domain: str, kind: str) -> resolver.Answers:
        if isinstance(asked, Untold):
            raise asked
        return asked.ask(domain, kind)
    return [*spf(chosen, name, ask), *dmarc(name, ask), dkim(name, post, ask)]


def spf(chosen: settings.Settings, host: str, ask: resolver.Ask) -> list[Finding]:
    try:
        sent_from: records.Senders | Untold = records.senders(chosen, ask, records.own())
    except Untold as error:
        sent_from = error
    try:
        return records.spf(host, chosen.name, sent_from, ask, library('spf', 'python3-spf'))
    except Untold as error:
        return [Finding(f'its SPF record can\'t be told: {error}')]


def dmarc(host: str, ask: resolver.Ask) -> list[Finding]:
    try:
        return [records.dmarc(host, ask)]
    except Untold as error:
        return [Finding(f'its DMARC policy can\'t be told: {error}')]


def dkim(host: str, post: Post, ask: resolver.Ask) -> Finding:
    name, mail = post
    if isinstance(mail, Untold):
        return Finding(f'whether a post of {name} is DKIM-signed can\'t be told: {mail}')
    return signing.dkim(host, name, mail, ask, library('dkim', 'python3-dkim'))
