"""Whether what the lists send is signed (RFC 6376). `--check` hands the transfer agent a mail as a list sends it. That comes back to the agent,
which leaves it in a file for `--check`, and gives no list such a mail."""

import asyncio
import contextlib
import email.utils
import pathlib
import re
import secrets
import time
from collections.abc import Iterator
from typing import Any

from . import fields, folder, notes, program, settings, smtp, wire
from .records import Finding
from .resolver import Ask, Untold

SECONDS = 8.0  # for the way through the transfer agent and back
LONGEST = 1 << 16  # bytes of a mail that comes back
OLD = 3600  # seconds after which what a killed `--check` left is removed
REST = re.compile(rb'return-1-ezmlm-agent-check\.([0-9a-f]{16})=[^@]*', re.IGNORECASE)  # By its form it is a return address.
SIGNATURE = re.compile(rb'^DKIM-Signature:([^\n]*(?:\n[ \t][^\n]*)*)\n', re.IGNORECASE | re.MULTILINE)
NO_POST = program.Answer(0, 'weeded check')


# At the agent.

def number_of(rest: bytes | None) -> str | None:
    """The number of a mail of `--check` that came for LOCAL-REST@HOST, or None for any other mail."""
    found = REST.fullmatch(rest or b'')
    return found[1].decode().lower() if found else None


def keep(state: pathlib.Path, number: str, message: bytes) -> program.Answer:
    """Keeps a mail for the `--check` that waits for it; if none does it is dropped."""
    place = state / f'check-{number}'
    with contextlib.suppress(OSError):
        if len(message) <= LONGEST and place.exists():
            whole = place.with_suffix('.whole')
            whole.write_bytes(message)
            whole.replace(place)
    return NO_POST


# At --check.

async def sent_and_back(chosen: settings.Settings, path: pathlib.Path, address: notes.Address) -> bytes:
    """A mail of the list in a folder, as it comes back through the transfer agent, or Untold."""
    number = secrets.token_hex(8)
    local, host = address
    recipient = b'%b-return-1-ezmlm-agent-check.%b=%b@%b' % (local, number.encode(), host, host)
    section = chosen.by_list.get(path.name)
    try:
        entry = [b'%b-return-1-' % local, host, b'v', post(local, host, number), recipient]
        mail = fields.as_handed_on(entry, section, folder.flags(path))
        with waiting(chosen.state, number) as place:
            async with asyncio.timeout(SECONDS):
                await ask_whether_served(chosen.listen)
                await hand_on(chosen, recipient, mail)
                while not place.stat().st_size:
                    await asyncio.sleep(0.05)
            return place.read_bytes()
    except TimeoutError as error:
        raise Untold(f'a mail to {wire.shown(recipient)} didn\'t come back in {SECONDS:g} seconds') from error
    except (OSError, wire.Gone, fields.Unreadable) as error:
        raise Untold(str(error)) from error


def post(local: bytes, host: bytes, number: str) -> bytes:
    """A post as the program sends it, of a writer who is nobody (RFC 2606 2)."""
    own = b'%b@%b' % (local, host)
    rows = [b'Mailing-List: contact %b-help@%b; run by ezmlm' % (local, host), b'Precedence: bulk', b'List-Post: <mailto:%b>' % own,
            *(b'List-%b: <mailto:%b-%b@%b>' % (name, local, name.lower(), host) for name in (b'Help', b'Unsubscribe', b'Subscribe')),
            b'Delivered-To: mailing list %b' % own, b'From: writer@writer.invalid', b'To: %b' % own, b'Subject: ezmlm-agent --check',
            b'Date: %b' % email.utils.formatdate().encode(), b'Message-ID: <%b@%b>' % (number.encode(), host), b'',
            b'By this mail the agent looks whether what its lists send is signed.']
    return b''.join(row + b'\n' for row in rows)


@contextlib.contextmanager
def waiting(state: pathlib.Path, number: str) -> Iterator[pathlib.Path]:
    """An empty file, by which the agent knows that somebody waits for the mail of this number, and in which it leaves that."""
    if not state.is_dir():
        raise Untold(f'the agent has not run yet: there is no {state}')
    for left in state.glob('check-*'):
        with contextlib.suppress(OSError):
            if left.stat().st_mtime < time.time() - OLD:
                left.unlink()
    place = state / f'check-{number}'
    place.touch(mode=0o600, exist_ok=False)
    try:
        yield place
    finally:
        place.unlink(missing_ok=True)


async def ask_whether_served(address: str) -> None:
    """Untold unless an agent takes mail at an address."""
    try:
        connection = await smtp.connect(address)
        await connection.reply(SECONDS)
        connection.close()
    except wire.Gone as error:
        raise Untold(f'no agent takes mail at {address}') from error


async def hand_on(chosen: settings.Settings, recipient: bytes, mail: bytes) -> None:
    """Hands a mail to the transfer agent. Its sender is empty, so it has no bounce."""
    connection = await smtp.connect(chosen.mta)
    try:
        await connection.greet(chosen.name)
        reply, = await connection.hand_on(b'', False, [recipient], wire.as_sent(mail))
    finally:
        connection.close()
    if not smtp.is_good(reply):
        raise Untold(f'{chosen.mta} said {reply.code} {reply.words()} to a mail to {wire.shown(recipient)}')


# What it is worth.

def signatures(mail: bytes) -> list[tuple[str, str]]:
    """The domain and the selector of each DKIM signature of a mail, from above, and empty texts if one has none."""
    header = mail.replace(b'\r\n', b'\n').partition(b'\n\n')[0] + b'\n'
    found = []
    for text in SIGNATURE.findall(header):
        pairs = (tag.partition(b'=') for tag in re.sub(rb'\s', b'', text).split(b';'))
        tags = {name: wire.printable(value.decode('latin-1')).lower() for name, _, value in pairs}
        found.append((tags.get(b'd', ''), tags.get(b's', '')))
    return found


def dkim(host: str, name: str, mail: bytes, ask: Ask, library: Any | Untold) -> Finding:
    """Whether a post of the list of this name has a signature of the host's domain, or of one above it, that holds. The library is dkimpy."""
    found = signatures(mail)
    own = [at for at, (domain, _) in enumerate(found) if host == domain or '.' in domain and host.endswith(f'.{domain}')]
    if not own:
        others = ', '.join(sorted({domain[:100] for domain, _ in found}))
        return Finding(f'a post of {name} has no DKIM signature of {host}{f", but of {others}" if others else ""}', True)
    if isinstance(library, Untold):
        domain, selector = found[own[0]]
        return Finding(f'a post of {name} has a DKIM signature (d={domain}, s={selector}); whether that holds can\'t be told: {library}')
    findings = [of_signature(at, *found[at], name, mail, ask, library) for at in own]
    return min(findings, key=lambda finding: finding.is_warning)


def of_signature(at: int, domain: str, selector: str, name: str, mail: bytes, ask: Ask, library: Any) -> Finding:
    """What the signature at a place is worth."""
    key, what = f'{selector}._domainkey.{domain}', f'DKIM signature of a post of {name} (d={domain}, s={selector})'
    try:
        texts = ask(key, 'TXT')
    except Untold as error:
        return Finding(f'whether the {what} holds can\'t be told: {error}')
    if not texts:
        return Finding(f'the key of the {what} isn\'t in the DNS, at {key}', True)
    try:
        if library.DKIM(mail).verify(idx=at, dnsfunc=lambda key, timeout=0: texts[0]):
            return Finding(f'the {what} holds')
        why = ''
    except Exception as error:  # Whatever the library makes of a key that somebody wrote into a zone.
        why = f': {wire.printable(str(error))[:200]}'
    return Finding(f'the {what} doesn\'t hold{why}', True)
