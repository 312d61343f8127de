"""What a list would refuse by the envelope alone, before any byte of a mail is taken. It is read from the list's files, as docs/FORMATS.md has
them, and as its rules of a delivery say; what can't be told is left to the list."""

import pathlib

from . import folder, requests
from .requests import Kind

BUCKETS = 53
SETS = {b'list': 'subscribers', b'digest': 'digest/subscribers', b'allow': 'allow/subscribers', b'deny': 'deny/subscribers', b'mod': 'mod/subscribers'}
KNOWN = b'list', b'digest', b'allow', b'mod'


def bucket(key: bytes) -> int:
    """The place of the file that has an address, which is in lower case."""
    number = 5381
    for byte in key:
        number = number * 33 % 2**32 ^ byte
    return number % BUCKETS


def addresses(text: bytes) -> set[bytes]:
    """The addresses in a file of members, in lower case. It is a ValueError if the file is none."""
    is_dated = text.startswith(b'layout 2\n')
    words = text.removeprefix(b'layout 2\n').split(b'\0')
    members = words[:-1:2] if is_dated else words[:-1]
    if words[-1] or any(member[:1] != b'T' for member in members):
        raise ValueError('a file of members is damaged')
    return {member[1:].lower() for member in members}


def is_in(path: pathlib.Path, name: bytes, address: bytes) -> bool:
    """Whether an address is in one of the sets of the list in a folder."""
    key = address.lower()
    text = folder.bytes_or_none(path / SETS[name] / chr(64 + bucket(key)))
    return text is not None and key in addresses(text)


def refusal(path: pathlib.Path, rest: bytes | None, sender: bytes) -> str | None:
    """The word of the refusal that a mail from this sender gets, whatever stands in it, or None. The rest is that of the recipient
    LOCAL-REST@HOST, and None for LOCAL@HOST. `notours` is an address that asks nothing that the list has: it would answer that with help, to
    whoever's name is in the envelope. The empty sender is left to the list, which refuses it after the mail: other hosts ask by it whether an
    address is there, and hang up."""
    request = requests.read(rest)
    lines = folder.configuration(path)
    if lines is None or request.kind in (Kind.BOUNCE, Kind.OWNER):
        return None
    if request.kind is Kind.UNKNOWN:
        return 'notours'
    if not sender:
        return None
    if not requests.is_address(sender):
        return 'nosender'
    flags = lines.get(b'flags', b'')
    if request.kind is Kind.POST:
        return of_post(path, flags, sender)
    return 'private' if is_private(path, flags, request, sender) else None


def of_post(path: pathlib.Path, flags: bytes, sender: bytes) -> str | None:
    if b'k' in flags and is_in(path, b'deny', sender):
        return 'denied'
    if b'u' in flags and not any(is_in(path, name, sender) for name in KNOWN):
        return 'usersonly'
    return None


def is_private(path: pathlib.Path, flags: bytes, request: requests.Request, sender: bytes) -> bool:
    """Whether the list doesn't do what is asked for this sender."""
    if request.kind not in (Kind.SUBSCRIBE, Kind.UNSUBSCRIBE, Kind.MEMBERS, Kind.ARCHIVE):
        return False
    if is_in(path, b'mod', sender):
        is_set = request.set in (b'allow', b'deny')
        return request.kind is Kind.MEMBERS and b'l' not in flags or \
            request.kind in (Kind.SUBSCRIBE, Kind.UNSUBSCRIBE) and is_set and b'r' not in flags
    if request.kind is Kind.ARCHIVE:
        is_member = is_in(path, b'list', sender) or is_in(path, b'digest', sender)
        return b'b' in flags or b'p' not in flags or b'g' in flags and not is_member
    if request.kind is Kind.SUBSCRIBE and b'p' not in flags:
        return True
    return request.kind is Kind.MEMBERS or request.set in (b'allow', b'deny')
