"""What a stranger's bytes cost: each function that they reach takes at most 2.5 times as long for twice as many, whatever they are."""

import asyncio
import sys
import time

from .world import TOP, Skipped, Wrong, check

sys.path.insert(0, str(TOP / 'agent'))
from ezmlm_agent import (envelope, fields, lists, lmtp, mails, policy, program, records, replies, requests, sections, signing, smtp,  # noqa: E402
                         weed, wire)

SIZES = 50_000, 100_000, 200_000  # bytes
TWICE = 2.5
NOISE = 0.004  # seconds of a processor, which count for nothing
RUNS = 9       # at most, of which the shortest counts
EXAMPLES = 25  # of hostile bytes, for each function
# What bytes are made of: what begins, ends or parts something in a mail, an address, a request or a record.
TOKENS = [b'(', b')', b'"', b'\\', b'<', b'>', b'@', b'-', b'=', b'.', b',', b';', b':', b' ', b'\t', b'\n', b'\r\n', b'\r', b'\0', b'\xff', b'a', b'1',
          b'=?a?q?', b'?=', b'=?utf-8?b?QUJD?=', b'--b', b'--b--', b'\nFrom: ', b'\nSubject: ', b'\nAuto-Submitted: ', b'\nReply-To: ', b'\n ', b'\n\n',
          b'\n\nAction: ', b'\n--b\nContent-Type: message/delivery-status\n\n', b'\n--b\nContent-Type: multipart/mixed; boundary=c\n\n', b'delivery ',
          b'; boundary', b'return-', b'subscribe-', b'cats-', b'\nDKIM-Signature: ', b'v=DMARC1;', b'SIZE=', b' X=', b'\xc3\xa9', b'group:', b'\r\n.\r\n.']
OWN = b'Mailing-List: contact cats-help@ex.org; run by ezmlm\nPrecedence: bulk\nFrom: cats-help@ex.org\n'
FRONT = OWN.replace(b'From: cats-help@', b'List-Post: <mailto:cats@').replace(b'org\n', b'org>\n')
MANY = lists.ByAddress({(b'l%d' % n, b'ex.org'): n for n in range(1500)} | {(b'cats', b'ex.org'): 0, (b'cats-dogs', b'ex.org'): 1})


def over(call):
    """A call over a connection on which these bytes came."""
    def read(text):
        async def through():
            reader = asyncio.StreamReader(limit=1 << 30)
            reader.feed_data(text)
            reader.feed_eof()
            try:
                while True:
                    await call(reader)
            except (wire.Gone, EOFError):
                pass
        asyncio.run(through())
    return read


async def lines(reader):
    await over_wire(reader).line()


def over_wire(reader):
    """The one connection of a reader."""
    if not hasattr(reader, 'wire'):
        reader.wire = wire.Wire(reader, None)
    return reader.wire


async def one_mail(reader):
    await over_wire(reader).mail(lambda size: None)


async def one_request(reader):
    if await policy.attributes(over_wire(reader)) is None:
        raise EOFError


async def one_reply(reader):
    connection = smtp.Connection.__new__(smtp.Connection)
    connection.wire = over_wire(reader)
    await connection.reply()


def counted(text):
    """A sender of whom replies are counted."""
    counts = replies.Counts()
    key = counts.key(text)
    counts.add(key)
    counts.many(key)
    counts.take_back(key)


def handed_on(letter, mail):
    try:
        fields.as_handed_on([b'cats-return-1-', b'ex.org', letter, mail, b'a@m.net'], sections.read_one({'rewrite_from': 'always', 'owner': 'yes'}), b'')
    except fields.Unreadable:
        pass


def rewritten(text):
    """A post of which From is rewritten."""
    handed_on(b'v', FRONT + b'From: ' + text + b'\n\nhi\n')


def answered(text):
    """What a list answers, which quotes what was asked."""
    handed_on(b'p', OWN + text + b'\n\nhi\n')


def of_members(text):
    try:
        envelope.addresses(text)
    except ValueError:
        pass


def of_netstrings(text):
    try:
        program.netstrings(text)
        program.netstrings(b''.join(map(program.netstring, text.split(b'-'))))
    except ValueError:
        pass


# Each function that a stranger's bytes reach, and the bytes that it is given at most, if that is less than 200 kB.
LINE, PATH = wire.LONGEST_LINE, lmtp.LONGEST_PATH
REACHED = {
    'wire.Wire.line': (over(lines), wire.PIECE),
    'wire.Wire.mail': (over(one_mail), None),
    'wire.with_line_feeds': (lambda text: wire.with_line_feeds(b'\r\n' + text), None),
    'wire.as_sent': (wire.as_sent, None),
    'wire.shown': (wire.shown, None),
    'wire.unquoted': (lambda text: wire.unquoted(b'"' + text + b'"@h'), LINE),
    'wire.quoted': (lambda text: wire.quoted(text + b'@h'), LINE),
    'lmtp.path_of': (lambda text: lmtp.path_of(b'RCPT TO:<' + text), LINE),
    'lmtp.path_of, quoted': (lambda text: lmtp.path_of(b'RCPT TO:<"' + text), LINE),
    'lmtp.parameters': (lambda text: [lmtp.PARAMETER.fullmatch(word) for word in lmtp.parameters(b'MAIL FROM:<> ' + text)], LINE),
    'lmtp.declared_size': (lambda text: lmtp.declared_size(b'MAIL FROM:<a@b> ' + text), LINE),
    'policy.attributes': (over(one_request), wire.PIECE),
    'lists.ByAddress.named_by': (lambda text: (MANY.named_by(text + b'@ex.org'), MANY.named_by(b'cats-' + text + b'@ex.org')), None),
    'requests.read': (lambda text: (requests.read(text), requests.read(b'subscribe-' + text), requests.read(b'return-1-' + text)), None),
    'requests.is_of_bounces': (requests.is_of_bounces, None),
    'envelope.addresses': (of_members, None),
    'envelope.bucket': (envelope.bucket, PATH),
    'replies.Counts': (counted, None),
    'mails.Mail.key': (lambda text: mails.Mail(text, text, text, 0, None).key(), None),
    'program.netstrings': (of_netstrings, None),
    'program.answer_of': (lambda text: program.answer_of(b'1 0 ' + text.replace(b'\n', b'')), None),
    'weed.verdict, of bounces': (lambda text: weed.verdict(text, weed.Place.BOUNCES), None),
    'weed.verdict, a header': (lambda text: weed.verdict(b'From: a@b\nAuto-Submitted: ' + text, weed.Place.BOUNCES), None),
    'weed.verdict, a subject': (lambda text: weed.verdict(b'From: a@b\nSubject: ' + text, weed.Place.BOUNCES), None),
    'weed.verdict, parts': (lambda text: weed.verdict(b'Content-Type: multipart/mixed; boundary=b\n\n--b\n' + text, weed.Place.BOUNCES), None),
    'weed.verdict, a report': (lambda text: weed.verdict(b'Content-Type: message/delivery-status\n\n' + text, weed.Place.BOUNCES), None),
    'weed.verdict, a text': (lambda text: weed.verdict(b'From: a@b\n\n' + text, weed.Place.BOUNCES), None),
    'weed.verdict, of requests': (lambda text: weed.verdict(b'Auto-Submitted: no ' + text, weed.Place.OTHER), None),
    'weed.place_of': (lambda text: weed.place_of(text.decode('latin-1')), None),
    'signing.number_of': (lambda text: signing.number_of(b'return-1-ezmlm-agent-check.' + text), None),
    'signing.signatures': (lambda text: signing.signatures(b'DKIM-Signature: ' + text), signing.LONGEST),
    'fields.as_handed_on, From': (rewritten, fields.LONGEST_FIELD),
    'fields.as_handed_on, a header': (lambda text: rewritten(b'a@b\n' + text), None),
    'fields.as_handed_on, an answer': (answered, None),
    'records.tags_of': (lambda text: records.tags_of([b'v=DMARC1;' + text]), 65_535),
    'records.printable': (records.printable, 65_535),
    'smtp.Connection.reply': (over(one_reply), wire.PIECE),
}


def seconds(call, text):
    """The processor's time for a call."""
    begun = time.thread_time()
    call(text)
    return time.thread_time() - begun


def filled(before, unit, size):
    return (before + unit * (size // len(unit) + 1))[:size]


def look(name, before, unit):
    """It is Wrong if twice the bytes take more than 2.5 times as long."""
    call, limit = REACHED[name]
    largest = min(limit or SIZES[-1], SIZES[-1])
    texts = [filled(before, unit, largest * size // SIZES[-1]) for size in SIZES]
    times = [float('inf')] * len(texts)
    for _ in range(RUNS):  # Other work on the machine makes a run longer, and none makes it shorter.
        times = [min(best, seconds(call, text)) for best, text in zip(times, texts)]
        if all(longer <= TWICE * shorter + NOISE for shorter, longer in zip(times, times[1:])):
            return
    raise Wrong(f'{name}: {" s, ".join(f"{each:.4f}" for each in times)} s for {", ".join(str(len(text)) for text in texts)} bytes: '
                f'{before[:60]!r}, and {unit[:60]!r} again and again')


def looked_at(name):
    return lambda given: look(name, *given)


def examples():
    """Hostile bytes: some tokens, and some that come again and again."""
    from hypothesis import strategies
    pieces = strategies.lists(strategies.sampled_from(TOKENS), min_size=1, max_size=3).map(b''.join)
    return strategies.tuples(strategies.sampled_from([b'', *TOKENS]), pieces)


def case_growth(world):
    """Each function that a stranger's bytes reach takes at most 2.5 times as long for twice the bytes, over generated hostile ones."""
    try:
        import hypothesis
    except ImportError as error:
        raise Skipped('python3-hypothesis is not there') from error
    settings = hypothesis.settings(max_examples=EXAMPLES, deadline=None, database=None, derandomize=True,
                                   suppress_health_check=list(hypothesis.HealthCheck), phases=[hypothesis.Phase.generate])
    for name in REACHED:
        settings(hypothesis.given(examples())(looked_at(name)))()
    for name in REACHED:  # What was quadratic before, or is easily so.
        for unit in (b'(', b'\n', b'-', b'=?a?q?', b'"', b'<', b'\\', b' ', b'--b\n', b'a-', b'\n ', b'\n\nAction: failed'):
            look(name, b'', unit)
    world.note = f'{len(REACHED)} functions, {EXAMPLES} examples of each. '


def case_growth_is_seen(world):
    """The look at growth finds what is quadratic."""
    REACHED['quadratic'] = lambda text: [text[:at] for at in range(0, len(text), 40)], None
    try:
        look('quadratic', b'', b'(')
    except Wrong:
        return
    finally:
        del REACHED['quadratic']
    check(False, 'it was not seen')
