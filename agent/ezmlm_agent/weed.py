#!/usr/bin/python3 -P
"""Weeding: which mail isn't given to a list, since it tells of no failure, or a machine sent it (RFC 3464, RFC 3834).

Whatever a list gets at a return address counts as a bounce. So it is given what is recognised as one, and nothing else: an answer of an absent
person's mail box would have a member dropped whose mail arrives, while a bounce that isn't recognised only leaves a dead address in the list. An
automatic answer to another address of the list would confirm, accept or ask for help.

Strangers write this mail, so its time grows with its bytes: there is one pass over its lines, and each text that is searched has an end.

As a command it looks at the mail on standard input, for hosts without the agent:

    weed.py LOCAL RECIPIENT < MAIL

It prints `weeded` and why (`delayed`, `automatic` or `unrecognised`) and ends with 0 if the mail isn't for the list LOCAL; else it ends with 1.
"""

import binascii
import email.errors
import email.header
import enum
import re
import sys
from collections.abc import Iterable
from typing import NamedTuple

LOOKED_AT = 1 << 18  # bytes of a mail, from its first on: a report stands before the copy of the mail that it tells of
HEADER = 1 << 16     # bytes of a header
MOST_LINES = 20_000  # of these bytes
MOST_PARTS = 100
DEEPEST = 8          # multiparts in one another
SUBJECT = 1 << 11    # letters of the subject, as the time of `email.header` grows with their square
WORDS = 1 << 12      # letters of the text
FOREWORD = 400       # letters of the text in which a transfer agent says who it is

# RFC 3464 2.3.3: all that `Action` may be except `failed`; RFC 6533 for the second kind of report.
ARRIVES = {'delayed', 'delivered', 'relayed', 'expanded'}
REPORTS = {'message/delivery-status', 'message/global-delivery-status'}
# RFC 8098, RFC 6533: a receipt; RFC 5965: a complaint.
OTHER_REPORTS = {'message/disposition-notification', 'message/global-disposition-notification', 'message/feedback-report'}
ACTION = re.compile(r'Action[ \t]*:[ \t]*([a-z]*)', re.IGNORECASE)
PARAMETER = re.compile(r';\s*boundary\s*=\s*(?:"([^"]*)"|([^\s;"]*))', re.IGNORECASE)
COMMENT = re.compile(r'\(([^()]*)\)')
TOKEN = re.compile(r'\\.|[()]|[^()\\]+|\\', re.DOTALL)

SYSTEM = re.compile(
    r'\bmailer[-_ ]?daemon\b|\bpostmaster\b|\bmail[-. ]delivery[-. ](?:sub)?system\b|\b(?:system|mail|e-?mail) administrator\b|\bmdaemon@|'
    r'\bmicrosoft exchange\b|microsoftexchange[0-9a-f]{16}', re.IGNORECASE)
# How the subject of a notice of failure begins. What it quotes of another mail's subject comes after that.
FAILED = re.compile(
    r'\W*(?:postmaster\W+)?(?:(?:mail|message|e-?mail)? ?(?:un|non|not )-? ?deliver|returned? (?:e-?)?mail|returned to sender|'
    r'failure (?:notice|delivery)|'
    r'(?:permanent |your |the )?(?:(?:e-?mail|mail|message|smtp)[ :-]*)?(?:delivery|transport) (?:has )?(?:fail|error|problem|unsuccessful)|'
    r'delivery (?:status )?notification:? \W*(?:fail|error)|failed (?:mail|delivery)|(?:e-?mail|mail|message) (?:system error|failure|error|rejected|'
    r'(?:has |was )?(?:failed|bounced|rejected|not delivered)|(?:could|can) ?not be delivered|status - undeliverable)|'
    r'your message to \S+ could ?n.t be delivered|your message to \S+ could not be delivered|warning: \S+ - user unknown|user unknown|rejected:|'
    r'automatically rejected|unzustellbar|nicht zustellbar|zustellung fehlgeschlagen|fehler bei der (?:zustellung|.bermittlung)|'
    r'mail ?system ?fehler|non remis|non distribuable|.chec de (?:la )?(?:remise|distribution)|no se puede entregar|no entregado|'
    r'impossibile recapitare|mancato recapito|onbestelbaar|n.o entregue|niedostarcz|ol.verans|ikke leveret|ваше сообщение не)|'
    r'.{0,400}(?:\(delivery failed\)|mail failure\.)$', re.IGNORECASE)
LATE = re.compile(
    r'\W*(?:(?:e-?mail |mail |message |delivery )*(?:is )?delay(?:ed)?\b|(?:delivery status notification|mail delivery)\W+(?:delay|warning)|'
    r'(?:mail |message )?delivery (?:has been )?delayed|warning: (?:message|could not send|mail|delivery)|delivery warning|'
    r'message not yet delivered|zustellung verz.gert|verz.gerte zustellung|retard de (?:remise|distribution))|'
    r'.{0,400}(?:still being retried|not yet been delivered)\)?$', re.IGNORECASE)
# What a notice of delay says in its text: no notice of failure has it before its copy of the mail.
RETRIED = re.compile(
    r'attempts will continue|will (?:be )?continue to be (?:made|attempted)|warning message only|do not need to re-?send|temporary failure report|'
    r'no action is required on your part|message (?:has not|hasn.t) yet been delivered|has been delayed\b|will (?:keep|continue) trying|'
    r'delivery will be (?:retried|attempted again)|will be retried for|zustellversuche? (?:werden|wird)', re.IGNORECASE)
SAYS_FAILED = re.compile(
    r'hi\. this is the|this is the (?:postfix program|mail system|mail delivery|mailer-daemon)|created automatically by (?:the )?mail|'
    r'(?:could|can) ?not be delivered|could ?n.t be delivered|undeliverable|unable to deliver|was not delivered|delivery has failed|'
    r'permanent (?:fatal )?errors|did not reach|no valid recipients|non-delivery report|delivery to the following recipients? failed|'
    r'konnte nicht zugestellt werden|nicht zustellbar|n.a pas pu .tre (?:d.livr|remis|distribu)', re.IGNORECASE)
COPIED = re.compile(r'-+ ?(?:below this line|original message|message header|this is a copy|included|forwarded|the (?:original|header|body) )|'
                    r'(?:>|received:|return-path:|from:|subject:|old message|original message)', re.IGNORECASE)
ABSENT = re.compile(
    r'out[- ]of[- ](?:the[- ])?office|auto(?:matic|mated)?[- ]?(?:reply|response|answer|responder)|vacation|\b(?:on|away on) (?:holiday|leave)|'
    r'away from (?:my |the )?(?:mail|e-?mail|office|desk)|i am away|absen[ct]|'
    r'abwesen|urlaub|automatische (?:antwort|beantwoording)|afwezig|buiten kantoor|r\W?.?ponse automatique|en vacances|en cong|'
    r'fuera de (?:la )?oficina|respuesta autom|ausen[ct]|aus\W?.?ncia|resposta autom|fuori (?:sede|ufficio)|risposta autom|assen[tz]|'
    r'automatyczna odpowied|autoodpowied|nieobecn|fr\W?.?nvaro|frav\W?.?r|autosvar|автоответ|отсутств|自动回复|不在', re.IGNORECASE)
ANSWERERS = 'x-autoreply', 'x-autorespond', 'x-autoresponder', 'x-autoreply-from', 'x-autogenerated-reply'  # older than RFC 3834


class Place(enum.Enum):
    """To which of a list's addresses a mail came. That of a warning or a probe has a cookie, which no stranger knows."""
    LIST = enum.auto()
    OWNER = enum.auto()
    BOUNCES = enum.auto()
    COOKIE = enum.auto()
    OTHER = enum.auto()


class Part(NamedTuple):
    """A mail, or a part of one: its type and subtype, its fields by their names in lower case, and its lines."""
    kind: str
    fields: dict[str, list[str]]
    lines: list[str]


WEEDED = Place.BOUNCES, Place.COOKIE, Place.OTHER  # where not all mail is given to the list


def verdict(mail: bytes, place: Place) -> str | None:
    """Why a mail to this address isn't given to the list, as a word, or None if it is. To the list's own address and its owner's everything is
    given: the list's rules decide of the one, and a person reads the other."""
    if place not in WEEDED:
        return None
    if place is Place.OTHER:
        return 'automatic' if is_automatic(mail) else None
    word = of_bounce(parts(mail))
    return None if word == 'unrecognised' and place is Place.COOKIE else word


def is_automatic(mail: bytes) -> bool:
    """Whether no person sent a mail: it says so, it is a report, or it is an answer in somebody's absence."""
    fields = header(lines_of(mail[:HEADER]))
    return any(word != 'no' for word in automatic_words(fields)) or kind_of(fields) == 'multipart/report' or is_answer(fields)


def of_bounce(found: list[Part]) -> str | None:
    """What a mail to a return address is, if it isn't recognised as a notice of failure."""
    fields, kinds = found[0].fields, {part.kind for part in found}
    actions = {match[1].lower() for part in found if part.kind in REPORTS for line in part.lines if (match := ACTION.match(line))}
    if 'failed' in actions or 'x-failed-recipients' in fields or tells_failure(fields):
        return None
    if actions and actions <= ARRIVES:
        return 'delayed'
    if kinds & OTHER_REPORTS:
        return 'automatic'
    title, words = subject(fields), text(found)
    is_late = LATE.match(title) is not None or RETRIED.search(words) is not None
    if kinds & (REPORTS | {'multipart/report'}) or is_of_a_system(fields) and not ABSENT.search(title) or FAILED.match(title):
        return 'delayed' if is_late else None
    if automatic_words(fields) - {'no'} or is_answer(fields) or ABSENT.search(title):
        return 'automatic'
    if SAYS_FAILED.search(words[:FOREWORD]) and not title.lower().startswith(('re:', 'aw:')):
        return 'delayed' if is_late else None
    return 'unrecognised'


# What a mail says.

def is_of_a_system(fields: dict[str, list[str]]) -> bool:
    """Whether a transfer agent is the author: it tells of mail that it couldn't deliver, or not yet."""
    return any(SYSTEM.search(author[:SUBJECT]) or author.strip() in ('', '<>') or author.rstrip().endswith('<>') for author in fields.get('from', []))


def automatic_words(fields: dict[str, list[str]]) -> set[str]:
    """The keywords of the Auto-Submitted fields (RFC 3834 5), in lower case, without comments and parameters."""
    return {re.split(r'[;\s]', without_comments(value).strip().lower(), maxsplit=1)[0] for value in fields.get('auto-submitted', [])} - {''}


def without_comments(value: str) -> str:
    """A field's value without its comments, which may stand in one another (RFC 5322 3.2.2). One that doesn't end is none."""
    kept: list[str] = []
    opened: list[int] = []  # how many were kept when each comment began
    for token in TOKEN.findall(value):
        if token == ')' and opened:
            del kept[opened.pop():]
            kept.append(' ')
            continue
        if token == '(':
            opened.append(len(kept))
        kept.append(token)
    return ''.join(kept)


def tells_failure(fields: dict[str, list[str]]) -> bool:
    """Whether the comment of an Auto-Submitted field is one by which sendmail and others tell a bounce."""
    return any(word.strip().lower() in ('failure', 'rejected') for value in fields.get('auto-submitted', []) for word in COMMENT.findall(value))


def is_answer(fields: dict[str, list[str]]) -> bool:
    """Whether a mail is an answer in somebody's absence by fields that are older than RFC 3834, some of them only with such a subject."""
    precedence = {value.strip().lower() for value in fields.get('precedence', [])}
    if 'auto_reply' in precedence or any(name in fields for name in ANSWERERS):
        return True
    return bool(precedence & {'bulk', 'junk'} or 'x-auto-response-suppress' in fields) and ABSENT.search(subject(fields)) is not None


def subject(fields: dict[str, list[str]]) -> str:
    value = ' '.join(fields.get('subject', []))[:SUBJECT]
    try:
        return re.sub(r'\s+', ' ', str(email.header.make_header(email.header.decode_header(value)))).strip()
    except (ValueError, LookupError, email.errors.HeaderParseError):
        return value


def text(found: list[Part]) -> str:
    """The words of the first part that is a text, before the copy of the mail that it tells of."""
    part = next((part for part in found if part.kind.startswith('text/')), None)
    rows: list[str] = []
    for row in decoded(part) if part else []:
        if COPIED.match(row):
            break
        rows.append(row)
    return re.sub(r'\s+', ' ', ' '.join(rows)[:WORDS]).strip()


def decoded(part: Part) -> list[str]:
    """The first lines of a text, as it is read (RFC 2045 6)."""
    way = ''.join(part.fields.get('content-transfer-encoding', [])[:1]).strip().lower()
    lines = '\n'.join(part.lines[:WORDS])[:2 * WORDS]
    try:
        if way == 'base64':
            lines = binascii.a2b_base64(lines[:len(lines) // 4 * 4]).decode('utf-8', 'replace')
        elif way == 'quoted-printable':
            lines = binascii.a2b_qp(lines.encode('utf-8', 'replace')).decode('utf-8', 'replace')
    except (ValueError, binascii.Error):
        pass
    return lines.split('\n')


# The form of a mail.

def parts(mail: bytes) -> list[Part]:
    """A mail and its parts, without those of a mail that stands in it: a copy tells nothing of its own delivery. There is one pass over its
    lines, in which each is looked up among the boundaries of the multiparts that it stands in."""
    rows = lines_of(mail[:LOOKED_AT])
    at = rows.index('') + 1 if '' in rows else len(rows)
    found = [part_of(lines_of(mail[:HEADER]))]
    open_: list[str] = []        # the boundaries, each with its two hyphens
    depths: dict[str, int] = {}  # where each stands in this list
    enter(found[0], open_, depths)
    taken: list[str] | None = found[0].lines  # where lines are kept now
    while at < len(rows) and len(found) < MOST_PARTS:
        row, at = rows[at].rstrip(), at + 1
        bare = row.removesuffix('--') if row not in depths else row
        if not row.startswith('--') or bare not in depths:
            if taken is not None:
                taken.append(row)
            continue
        leave(depths[bare] + (bare == row), open_, depths)
        taken = None
        if bare == row:
            start = at
            while at < len(rows) and rows[at] and rows[at].rstrip() not in depths:
                at += 1
            at += at < len(rows) and not rows[at]
            found.append(part_of(rows[start:at]))
            enter(found[-1], open_, depths)
            taken = found[-1].lines
    return found


def part_of(rows: list[str]) -> Part:
    return Part(kind_of(fields := header(rows)), fields, [])


def enter(part: Part, open_: list[str], depths: dict[str, int]) -> None:
    """Goes into a part, if it is a multipart and not too deep."""
    match = PARAMETER.search(''.join(part.fields.get('content-type', [])[:1])[:SUBJECT]) if part.kind.startswith('multipart/') else None
    boundary = '--' + ((match[1] or match[2] or '').rstrip() if match else '')
    if boundary != '--' and boundary not in depths and len(open_) < DEEPEST:
        depths[boundary] = len(open_)
        open_.append(boundary)


def leave(many: int, open_: list[str], depths: dict[str, int]) -> None:
    """Goes out of all multiparts except the outermost ones, so many."""
    while len(open_) > many:
        del depths[open_.pop()]


def lines_of(mail: bytes) -> list[str]:
    return mail.decode('utf-8', 'replace').replace('\r\n', '\n').split('\n', MOST_LINES)[:MOST_LINES]


def header(rows: Iterable[str]) -> dict[str, list[str]]:
    """The fields above the first empty line, by their names in lower case, unfolded."""
    fields: dict[str, list[list[str]]] = {}
    last: list[str] = []
    for row in rows:
        if not row:
            break
        if row[0] in ' \t':
            last.append(row)
            continue
        name, colon, value = row.partition(':')
        last = [value]
        if colon:
            fields.setdefault(name.rstrip().lower(), []).append(last)
    return {name: ['\n'.join(pieces).strip() for pieces in values] for name, values in fields.items()}


def kind_of(fields: dict[str, list[str]]) -> str:
    """The type and subtype of a part in lower case (RFC 2045 5.2)."""
    kind = ''.join(fields.get('content-type', [])[:1])[:SUBJECT].partition(';')[0].strip().lower()
    return kind if re.fullmatch(r'[^\s/]+/[^\s/]+', kind) else 'text/plain'


def place_of(rest: str | None) -> Place:
    """Which address it is whose part before the @ is LOCAL, a hyphen and this, or LOCAL alone for None."""
    words = None if rest is None else rest.lower()
    if words is None:
        return Place.LIST
    if words.startswith(('return-', 'digest-return-')):
        return Place.COOKIE if words.removeprefix('digest-').startswith(('return-warn-', 'return-probe-')) else Place.BOUNCES
    return Place.OWNER if words == 'owner' else Place.OTHER


def main(words: list[str]) -> int:
    if len(words) != 2:
        print('usage: weed.py LOCAL RECIPIENT < MAIL', file=sys.stderr)
        return 64
    local, recipient = words
    front, rest = recipient.rpartition('@')[0][:len(local)], recipient.rpartition('@')[0][len(local):]
    is_own = front.lower() == local.lower() and rest.startswith('-')
    why = verdict(sys.stdin.buffer.read(LOOKED_AT), place_of(rest[1:] if is_own else None))
    if why is None:
        return 1
    print(f'weeded {why}')
    return 0


if __name__ == '__main__':
    sys.exit(main(sys.argv[1:]))
