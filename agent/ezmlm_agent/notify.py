"""What the agent says to systemd: sd_notify(3), over its socket, with the watchdog of sd_watchdog_enabled(3)."""

import asyncio
import contextlib
import os
import socket


def address() -> str | bytes | None:
    """Where systemd hears, if it began the agent and wants to."""
    path = os.environ.get('NOTIFY_SOCKET', '')
    return b'\0' + path[1:].encode() if path.startswith('@') else path or None


def tell(*lines: str) -> None:
    """Says something: READY=1, RELOADING=1, STOPPING=1, WATCHDOG=1. Without systemd nobody hears it."""
    if (where := address()) is not None:
        with contextlib.suppress(OSError), socket.socket(socket.AF_UNIX, socket.SOCK_DGRAM | socket.SOCK_CLOEXEC) as told:
            told.setblocking(False)
            told.connect(where)
            told.send('\n'.join(lines).encode())


def pause() -> float | None:
    """Seconds after which systemd is to hear from this process again, or None if it needn't: half of those after which it ends it."""
    pid, microseconds = os.environ.get('WATCHDOG_PID', str(os.getpid())), os.environ.get('WATCHDOG_USEC', '')
    return int(microseconds) / 2_000_000 if microseconds.isdecimal() and int(microseconds) and pid == str(os.getpid()) else None


def feed() -> None:
    """Says from the event loop that it goes round, as long as it does: an agent that hangs is ended, and begun anew."""
    if (seconds := pause()) is not None:
        tell('WATCHDOG=1')
        asyncio.get_running_loop().call_later(seconds, feed)
