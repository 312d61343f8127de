"""What a recipient asks of a list, by what stands after LOCAL: docs/FORMATS.md, "Requests by address"."""

import dataclasses
import enum
import re

LATEST = 253_402_300_800  # seconds: the first moment that is none
HIGHEST = 10**15          # of a held post's ticket
LONGEST_ADDRESS = 400     # bytes
ADDRESS = re.compile(rb'[!-?A-~]+@[A-Za-z0-9._-]+')


class Kind(enum.Enum):
    """What is asked. UNKNOWN is all that the list has no word for, and answers with help."""
    POST = enum.auto()
    OWNER = enum.auto()
    BOUNCE = enum.auto()
    HELP = enum.auto()
    SUBSCRIBE = enum.auto()
    UNSUBSCRIBE = enum.auto()
    CONFIRM = enum.auto()
    MEMBERS = enum.auto()
    ARCHIVE = enum.auto()
    MODERATE = enum.auto()
    UNKNOWN = enum.auto()


@dataclasses.dataclass(frozen=True)
class Request:
    """What is asked, of which of the list's sets, and of whom unless it is the sender."""
    kind: Kind
    set: bytes = b'list'
    address: bytes | None = None


SET = rb'(?P<set>digest-|allow-|deny-|)'
WHO = rb'-(?P<address>.*)'
POST = rb'[1-9][0-9]{0,7}'
COOKIE = rb'\.(?-i:[a-p]{20})'
MOMENT = rb'(?P<moment>0|[1-9][0-9]{0,11})'
FORMS = [(kind, re.compile(form, re.IGNORECASE | re.DOTALL)) for kind, form in (
    (Kind.HELP, rb'help'),
    (Kind.OWNER, rb'owner'),
    (Kind.SUBSCRIBE, SET + rb'subscribe(?:' + WHO + rb')?'),
    (Kind.UNSUBSCRIBE, SET + rb'unsubscribe(?:' + WHO + rb')?'),
    (Kind.CONFIRM, SET + rb'[stu]c\.' + MOMENT + COOKIE + WHO),
    (Kind.MEMBERS, SET + rb'list'),
    (Kind.ARCHIVE, rb'get\.' + POST + rb'(?:_' + POST + rb')?|(?:index|thread)\.' + POST),
    (Kind.MODERATE, rb'(?:accept|reject)-(?P<ticket>[1-9][0-9]{0,15})' + COOKIE),
    (Kind.BOUNCE, rb'(?:digest-)?return-(?:(?:' + POST + rb'|(?:warn|probe)-' + MOMENT + COOKIE + rb')' + WHO + rb')?'),
)]


def is_address(text: bytes) -> bool:
    """Whether a text is an address as the list keeps it: at most 400 bytes, split at its last @, of visible ASCII without a further @."""
    return len(text) <= LONGEST_ADDRESS and ADDRESS.fullmatch(text) is not None


def read(rest: bytes | None) -> Request:
    """What a recipient asks whose part before the @ is LOCAL, a hyphen and this, or LOCAL alone for None."""
    if rest is None:
        return Request(Kind.POST)
    for kind, form in FORMS:
        if (found := form.fullmatch(rest)) is not None:
            words = found.groupdict()
            who = words.get('address')
            address = None if who is None else b'@'.join(who.rpartition(b'=')[::2])
            if int(words.get('moment') or 0) >= LATEST or int(words.get('ticket') or 1) > HIGHEST:
                break
            if address is not None and not is_address(address):
                break
            return Request(kind, (words.get('set') or b'list').lower().rstrip(b'-'), address)
    return Request(Kind.UNKNOWN)


def is_of_bounces(rest: bytes | None) -> bool:
    """Whether an address is one to which bounces come, even if it has no good form."""
    return rest is not None and rest.lower().startswith((b'return-', b'digest-return-'))
