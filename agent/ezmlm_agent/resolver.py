"""Questions to the DNS for `--check`: few, and none for long. python3-dnspython asks them."""

import importlib
import ipaddress
import time
from collections.abc import Callable
from typing import Any

SECONDS = 5.0  # of waiting for all answers together
EACH = 2.0     # for one
MOST = 100     # questions

Answers = list[Any]
Ask = Callable[[str, str], Answers]
"""Asks for the records of a name of one kind, and answers with none if there is none: of TXT the bytes of each, its strings joined; of A and
AAAA the addresses; of MX preferences and names; of PTR names. It is Untold if nobody answers."""


class Untold(Exception):
    """What can't be told, and why."""


def package(name: str, debian: str) -> Any:
    """A module of another package, or Untold."""
    try:
        return importlib.import_module(name)
    except ImportError as error:
        raise Untold(f'{debian} isn\'t installed') from error


def read(text: str) -> tuple[str, int]:
    """The address and the port of a resolver: ADDRESS, or ADDRESS:PORT with an IPv6 address in brackets. Another text is a ValueError."""
    try:
        return str(ipaddress.ip_address(text)), 53
    except ValueError:
        host, _, port = text.rpartition(':')
        if not port.isdecimal() or not 0 < int(port) < 65536:
            raise ValueError(f'resolver: {text} is neither ADDRESS nor ADDRESS:PORT') from None
        return str(ipaddress.ip_address(host.strip('[]'))), int(port)


class Resolver:
    """Asks each question once. It is Untold if there is no resolver."""

    def __init__(self, where: str = '') -> None:
        """The resolver is that of /etc/resolv.conf, unless `where` says another."""
        self.dns = package('dns.resolver', 'python3-dnspython')
        try:
            self.asks = self.dns.Resolver(configure=not where)
        except Exception as error:  # Whatever is wrong with /etc/resolv.conf.
            raise Untold('/etc/resolv.conf names no resolver') from error
        if where:
            address, self.asks.port = read(where)
            self.asks.nameservers = [address]
        self.seconds, self.left = SECONDS, MOST
        self.known: dict[tuple[str, str], Answers | Untold] = {}

    def ask(self, name: str, kind: str) -> Answers:
        """As Ask has it."""
        key = name.lower().rstrip('.'), kind
        if key not in self.known:
            self.known[key] = self.fresh(*key)
        found = self.known[key]
        if isinstance(found, Untold):
            raise found
        return found

    def fresh(self, name: str, kind: str) -> Answers | Untold:
        if self.seconds <= 0 or not self.left:
            return Untold(f'{name} wasn\'t asked for: {MOST} questions in {SECONDS:g} seconds are all')
        self.left -= 1
        begun = time.monotonic()
        try:
            found = self.asks.resolve(name, kind, lifetime=min(EACH, self.seconds), search=False)
        except (self.dns.NXDOMAIN, self.dns.NoAnswer):
            return []
        except Exception as error:  # Whatever becomes of a question, `--check` goes on.
            return Untold(f'no answer for {name} {kind}: {type(error).__name__}')
        finally:
            self.seconds -= time.monotonic() - begun
        return [value(record, kind) for record in found]


def value(record: Any, kind: str) -> Any:
    """What a record of dnspython says."""
    match kind:
        case 'TXT':
            return b''.join(record.strings)
        case 'MX':
            return record.preference, record.exchange.to_text(True)
        case 'PTR':
            return record.target.to_text(True)
        case _:
            return record.address
