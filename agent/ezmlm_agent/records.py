"""What a receiver finds of a list's host in the DNS: whether its SPF record covers the transfer agent (RFC 7208), and its DMARC policy
(RFC 9989, RFC 7489)."""

import contextlib
import dataclasses
import ipaddress
import re
import socket
from collections.abc import Iterable
from typing import Any

from . import settings, wire
from .resolver import Ask, Untold

PAGE = 'docs/RECEIVERS.md'
SPF = re.compile(rb'v=spf1(?: |$)', re.IGNORECASE)
DMARC = re.compile(rb'v[ \t]*=[ \t]*DMARC1[ \t]*(?:;|$)')
POLICIES = 'none', 'quarantine', 'reject'
DEEPEST = 8  # labels of a name above which RFC 9989's walk leaves some out
FAR = (socket.AF_INET, '192.0.2.1'), (socket.AF_INET6, '2001:db8::1')  # RFC 5737, RFC 3849: nobody's addresses. Nothing is sent to them


@dataclasses.dataclass(frozen=True)
class Finding:
    """What was found of a host, in words."""
    text: str
    is_warning: bool = False


@dataclasses.dataclass(frozen=True)
class Senders:
    """The addresses from which the transfer agent sends, as the world sees them, and how that is known."""
    addresses: list[str]
    source: str


Tags = dict[str, str]


# From where the transfer agent sends.

def senders(chosen: settings.Settings, ask: Ask, own: Iterable[str]) -> Senders:
    """What `sends_from` says. Else those that the host in `mta` has, if that is another host; those of this host (`own`) that are no private
    ones; or those that `name` has. It is Untold if there are none."""
    if chosen.sends_from:
        return Senders(list(chosen.sends_from), 'sends_from')
    where = settings.endpoint(chosen.mta)
    if not isinstance(where, str) and not is_loopback(where[0]):
        return named(where[0], 'mta', ask)
    if found := [address for address in own if ipaddress.ip_address(address).is_global]:
        return Senders(found, 'this host\'s own')
    return named(chosen.name, 'name', ask)


def named(host: str, setting: str, ask: Ask) -> Senders:
    """The addresses of the host that a setting names."""
    with contextlib.suppress(ValueError):
        return Senders([str(ipaddress.ip_address(host))], setting)
    found = [address for kind in ('A', 'AAAA') for address in ask(host, kind) if not is_loopback(address)]
    if not found:
        raise Untold(f'the DNS has no address of {host} ({setting}): say sends_from')
    return Senders(found, f'{host}, {setting}')


def is_loopback(host: str) -> bool:
    try:
        return ipaddress.ip_address(host).is_loopback
    except ValueError:
        return host == 'localhost'


def own() -> list[str]:
    """This host's addresses, by the routes to the world."""
    found = []
    for family, far in FAR:
        with contextlib.suppress(OSError), socket.socket(family, socket.SOCK_DGRAM) as probe:
            probe.connect((far, 9))
            found.append(str(probe.getsockname()[0]))
    return found


# SPF.

def spf(host: str, helo: str, sent_from: Senders | Untold, ask: Ask, library: Any | Untold) -> list[Finding]:
    """Whether the host's SPF record covers the transfer agent, for each of its addresses. The library is pyspf, which evaluates the record."""
    records = [text for text in ask(host, 'TXT') if SPF.match(text)]
    if not records:
        return [Finding(f'it has no SPF record: see {PAGE}', True)]
    if len(records) > 1:
        return [Finding(f'it has {len(records)} SPF records, and receivers take none of them (RFC 7208 4.5)', True)]
    shown = printable(records[0])
    for lacking in (library, sent_from):
        if isinstance(lacking, Untold):
            return [Finding(f'its SPF record is {shown}; whether that covers the transfer agent can\'t be told: {lacking}')]
    assert isinstance(sent_from, Senders)
    return [of_address(host, helo, address, sent_from.source, ask, library, shown) for address in sent_from.addresses]


def of_address(host: str, helo: str, address: str, source: str, ask: Ask, library: Any, shown: str) -> Finding:
    result, why = evaluated(host, helo, address, ask, library)
    from_where = f'mail from {address} ({source})'
    if result == 'pass':
        return Finding(f'SPF passes for {from_where}')
    if result == 'temperror':
        return Finding(f'whether SPF passes for {from_where} can\'t be told: {why}')
    if result == 'permerror':
        return Finding(f'its SPF record {shown} can\'t be evaluated: {why}', True)
    other = '' if source == 'sends_from' else '; if the transfer agent sends from elsewhere, say sends_from'
    return Finding(f'SPF says {result} for {from_where}: its record is {shown}{other}', True)


def evaluated(host: str, helo: str, address: str, ask: Ask, library: Any) -> tuple[str, str]:
    """The result of SPF for a mail of the host's lists that comes from an address (RFC 7208 2.6), and words on it."""
    def lookup(name: Any, kind: str, *_: Any) -> list[tuple[tuple[str, str], Any]]:
        try:
            found = ask(str(name), kind) if kind != 'SPF' else []
        except Untold as error:
            raise library.TempError(str(error)) from error
        return [((str(name), kind), [each] if kind == 'TXT' else each) for each in found]
    library.DNSLookup = lookup
    try:
        result, _, why = library.query(i=address, s=f'list-return-@{host}', h=helo).check()
    except Exception as error:  # Whatever the library makes of what somebody wrote into a zone.
        result, why = 'temperror', f'{type(error).__name__}: {error}'
    return str(result).lower(), wire.printable(str(why))[:200]


# DMARC.

def dmarc(host: str, ask: Ask) -> Finding:
    """Which DMARC policy the host has."""
    found = policy(host, ask)
    if found is None:
        return Finding(f'it has no DMARC record, nor has a domain above it: see {PAGE}', True)
    domain, tags, word = found
    said = tags.get(word) or tags.get('p', '')
    if said not in POLICIES:
        return Finding(f'its DMARC record, at _dmarc.{domain}, has no policy: p is none, quarantine or reject', True)
    return Finding(f'its DMARC policy is {said} (_dmarc.{domain})')


def policy(host: str, ask: Ask) -> tuple[str, Tags, str] | None:
    """The domain whose DMARC record holds for a host, the record, and the tag with the policy: the host's own with `p`, or else its
    organizational domain's with `sp`, by RFC 9989's walk up the tree. Receivers that go by RFC 7489 find that domain by the list of public
    suffixes; both come to the same, unless a suffix or a domain between them has a record of its own."""
    rows: list[tuple[str, Tags]] = []
    for domain in walk(host):
        tags = tags_of(ask(f'_dmarc.{domain}', 'TXT'))
        if tags is not None and domain == host:
            return domain, tags, 'p'
        if tags is not None:
            rows.append((domain, tags))
            if tags.get('psd') in ('y', 'n'):
                break
    if not rows:
        return None
    domain, tags = rows[-1]
    if tags.get('psd') == 'y' and len(rows) > 1 and rows[-2][0].partition('.')[2] == domain:
        domain, tags = rows[-2]  # A public suffix has this record, and the organizational domain stands right below it.
    return domain, tags, 'sp'


def walk(host: str) -> list[str]:
    """The domains whose records are looked for (RFC 9989): the host, and those above it, of which the first has seven labels at most."""
    labels = host.split('.')
    above = labels[1:] if len(labels) < DEEPEST else labels[1 - DEEPEST:]
    return [host, *('.'.join(above[at:]) for at in range(len(above)))]


def tags_of(texts: Iterable[bytes]) -> Tags | None:
    """The tags of a DMARC record. Texts that are no such record are passed over, and of several records none holds."""
    records = [text for text in texts if DMARC.match(text)]
    if len(records) != 1:
        return None
    pairs = (tag.partition('=') for tag in records[0].decode('latin-1').split(';'))
    return {name.strip().lower(): value.strip().lower() for name, _, value in pairs}


def printable(text: bytes) -> str:
    """A record as it is shown: one line, and not too long."""
    words = ascii(text.decode('utf-8', 'surrogateescape'))
    return words if len(words) <= 200 else f'{words[:196]} ..'
