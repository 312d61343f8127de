"""How many queries one address may have: so that one that asks without end keeps nobody else from searching."""

from __future__ import annotations

import collections
import contextlib
import ipaddress
import threading
import time
from collections.abc import Iterator
from typing import Any

AT_ONCE = 2         # queries of one address that are answered at the same time
AT_FIRST = 30       # queries that it may have without a pause
A_SECOND = 1.0      # queries that it may have after these
MOST_KEPT = 20_000  # addresses that are remembered


class TooMany(Exception):
    """An address has too many queries now."""


class Crowd:
    """The addresses that asked: what each has left, the moment of that, and how many of its queries are being answered."""

    def __init__(self) -> None:
        self.lock = threading.Lock()
        self.left: collections.OrderedDict[str, tuple[float, float]] = collections.OrderedDict()
        self.busy: collections.Counter[str] = collections.Counter()

    @contextlib.contextmanager
    def counted(self, address: str) -> Iterator[None]:
        """The time in which a query of an address is answered. TooMany if it has too many. Without an address none is counted."""
        if not address:
            yield
            return
        with self.lock:
            now = time.monotonic()
            left, then = self.left.pop(address, (float(AT_FIRST), now))
            left = min(float(AT_FIRST), left + (now - then) * A_SECOND)
            is_refused = left < 1 or self.busy[address] >= AT_ONCE
            self.left[address] = (left if is_refused else left - 1, now)
            if len(self.left) > MOST_KEPT:
                self.left.popitem(last=False)
            if is_refused:
                raise TooMany
            self.busy[address] += 1
        try:
            yield
        finally:
            with self.lock:
                self.busy[address] -= 1
                if not self.busy[address]:
                    del self.busy[address]


def address_of(environ: dict[str, Any]) -> str:
    """The address of whoever asked: by the server, or by the web server before it, which comes last in X-Forwarded-For; an IPv6 network of 64
    bits counts as one, since a host has one of its own. It is '' if nobody tells it."""
    text = environ.get('REMOTE_ADDR') or ''
    try:
        if not text or ipaddress.ip_address(text).is_loopback and 'HTTP_X_FORWARDED_FOR' in environ:
            text = environ.get('HTTP_X_FORWARDED_FOR', '')[-100:].rpartition(',')[2].strip()
        address = ipaddress.ip_address(text.strip('[]'))
    except ValueError:
        return ''
    if isinstance(address, ipaddress.IPv6Address):
        return str(address.ipv4_mapped or ipaddress.ip_network((address, 64), strict=False).network_address)
    return str(address)
