"""What receivers make of a host, as `--check` tells it: SPF, DMARC and DKIM, over answers of a resolver."""

import sys

from .signatures import key
from .world import TOP, check, library, same

sys.path.insert(0, str(TOP / 'agent'))
from ezmlm_agent import receivers, records, resolver, settings, signing  # noqa: E402
from ezmlm_agent.records import Senders  # noqa: E402
from ezmlm_agent.resolver import Untold  # noqa: E402

LATE = Untold('no answer')


def asks(rows):
    """A resolver that knows these answers by name and kind. One of them may be late."""
    def ask(name, kind):
        found = rows.get((name, kind), [])
        if isinstance(found, Untold):
            raise found
        return found
    return ask


ZONE = {('example.com', 'A'): ['192.0.2.10', '192.0.2.11'], ('example.com', 'MX'): [(10, 'mail-a.example.com'), (20, 'mail-b.example.com')],
        ('mail-a.example.com', 'A'): ['192.0.2.129'], ('mail-b.example.com', 'A'): ['192.0.2.130'],
        ('example.org', 'MX'): [(10, 'mail-c.example.org')], ('mail-c.example.org', 'A'): ['192.0.2.140']}  # RFC 7208 A
SPF = [  # RFC 7208 A.1: a record, and addresses for which it passes and fails
    ('v=spf1 +all', ['203.0.113.9'], []), ('v=spf1 a -all', ['192.0.2.10', '192.0.2.11'], ['192.0.2.129']),
    ('v=spf1 a:example.org -all', [], ['192.0.2.140']), ('v=spf1 mx -all', ['192.0.2.129', '192.0.2.130'], ['192.0.2.10']),
    ('v=spf1 mx:example.org -all', ['192.0.2.140'], ['192.0.2.129']),
    ('v=spf1 mx mx:example.org -all', ['192.0.2.129', '192.0.2.130', '192.0.2.140'], ['192.0.2.10']),
    ('v=spf1 mx/30 mx:example.org/30 -all', ['192.0.2.131', '192.0.2.143'], ['192.0.2.132']),
    ('v=spf1 ip4:192.0.2.128/28 -all', ['192.0.2.129'], ['192.0.2.65'])]


def case_spf_passes(world):
    """--check's SPF of RFC 7208's own examples passes and fails as they say."""
    pyspf = library('python3-spf', 'spf')
    for record, passes, fails in SPF:
        ask = asks({**ZONE, ('example.com', 'TXT'): [record.encode()]})
        for address in passes + fails:
            found, = records.spf('example.com', 'mx.example.com', Senders([address], 'sends_from'), ask, pyspf)
            wanted = f'SPF passes for mail from {address} (sends_from)' if address in passes else \
                f"SPF says fail for mail from {address} (sends_from): its record is '{record}'"
            same((found.text, found.is_warning), (wanted, address in fails), record)


def case_spf_told(world):
    """--check tells of an SPF record that is missing, there twice, wrong, too soft or late, and of what it lacks."""
    pyspf = library('python3-spf', 'spf')
    here = Senders(['192.0.2.1', '2001:db8::1'], 'this host\'s own')
    no_library, nobody = Untold('python3-spf isn\'t installed'), Untold('the DNS has no address of mx (name): say sends_from')
    rows = [([], here, None, [('it has no SPF record', True)]),
            ([b'google-site-verification=x', b'v=spf10 -all'], here, None, [('it has no SPF record', True)]),
            ([b'v=spf1 a -all', b'V=SPF1 mx'], here, None, [('it has 2 SPF records', True)]),
            ([b'v=spf1 -all'], here, no_library, [('its SPF record is \'v=spf1 -all\'; whether that covers the transfer agent can\'t be told: '
                                                   'python3-spf isn\'t installed', False)]),
            ([b'v=spf1 -all'], nobody, None, [('its SPF record is \'v=spf1 -all\'; whether that covers the transfer agent can\'t be told: '
                                               'the DNS has no address of mx', False)]),
            ([b'v=spf1 ip4:192.0.2.1 ~all'], here, None, [('SPF passes for mail from 192.0.2.1 (this host\'s own)', False),
                                                          ('SPF says softfail for mail from 2001:db8::1', True)]),
            ([b'v=spf1 ?all'], here, None, [('SPF says neutral', True)] * 2),
            ([b'v=spf1 a:x.ex.org -all'], here, None, [('whether SPF passes', False)] * 2),
            ([b'v=spf1 include:ex.org -all'], here, None, [('its SPF record \'v=spf1 include:ex.org -all\' can\'t be evaluated: ', True)] * 2),
            ([b'v=spf1 ipv4:192.0.2.1'], here, None, [('its SPF record \'v=spf1 ipv4:192.0.2.1\' can\'t be evaluated: ', True)] * 2),
            ([b'v=spf1 \xff\r\n\x1b[2J' + b'a' * 300], here, no_library, [('its SPF record is \'v=spf1 \\udcff\\r\\n\\x1b[2Jaaa', False)])]
    for texts, sent_from, lacking, wanted in rows:
        ask = asks({('ex.org', 'TXT'): texts, ('x.ex.org', 'A'): LATE, ('x.ex.org', 'AAAA'): LATE})
        found = records.spf('ex.org', 'mx.ex.org', sent_from, ask, lacking or pyspf)
        same(len(found), len(wanted), f'{texts}: {found}')
        for one, (text, is_warning) in zip(found, wanted):
            check(one.text.startswith(text) and one.is_warning == is_warning and one.text.isprintable(), f'{texts}: {one}')


def case_senders(world):
    """--check takes the transfer agent's addresses from sends_from, from another host in mta, from this host, or from name."""
    zone = {('mx.ex.org', 'A'): ['192.0.2.1', '127.0.1.1'], ('mx.ex.org', 'AAAA'): ['2001:db8::1'], ('relay.ex.org', 'A'): ['192.0.2.7'],
            ('late.ex.org', 'A'): LATE}
    rows = [({'sends_from': '198.51.100.7 2001:DB8::7'}, [], ['198.51.100.7', '2001:db8::7'], 'sends_from'),
            ({'mta': 'relay.ex.org:25'}, ['8.8.8.8'], ['192.0.2.7'], 'relay.ex.org, mta'), ({'mta': '192.0.2.8:25'}, [], ['192.0.2.8'], 'mta'),
            ({'mta': '[2001:db8::8]:25'}, [], ['2001:db8::8'], 'mta'),
            ({'mta': '127.0.0.1:25'}, ['8.8.8.8', '10.0.0.1', '2001:4860:4860::8888'], ['8.8.8.8', '2001:4860:4860::8888'], 'this host\'s own'),
            ({'mta': '/run/mta'}, ['10.0.0.1', 'fd00::1'], ['192.0.2.1', '2001:db8::1'], 'mx.ex.org, name'),
            ({'mta': 'localhost:25'}, [], ['192.0.2.1', '2001:db8::1'], 'mx.ex.org, name'),
            ({'name': 'mx'}, [], None, 'the DNS has no address of mx (name): say sends_from'),
            ({'mta': 'late.ex.org:25'}, [], None, 'no answer')]
    begun = dict(world.rows)
    for given, own, addresses, source in rows:
        world.rows = {**begun, **given}
        try:
            found = records.senders(settings.read(str(world.settings())), asks(zone), own)
            same((found.addresses, found.source), (addresses, source), f'{given} with {own}')
        except Untold as error:
            same((None, str(error)), (addresses, source), f'{given} with {own}')
    for given, wanted in (({'sends_from': 'mx.ex.org'}, 'sends_from: \'mx.ex.org\' does not appear'),
                          ({'resolver': 'ns.ex.org'}, 'resolver: ns.ex.org is'),
                          ({'resolver': '127.0.0.1:0'}, 'is neither ADDRESS nor ADDRESS:PORT'), ({'resolver': 'x:53'}, '\'x\' does not appear')):
        world.rows = {**begun, **given}
        try:
            settings.read(str(world.settings()))
            check(False, f'{given} is taken')
        except ValueError as error:
            check(wanted in str(error), f'{given}: {error}')
    same([resolver.read(text) for text in ('192.0.2.1', '127.0.0.1:5353', '::1', '[::1]:53')],
         [('192.0.2.1', 53), ('127.0.0.1', 5353), ('::1', 53), ('::1', 53)], 'resolvers')
    world.rows = begun


NONE = b'v=DMARC1; p=none; rua=mailto:dmarc-feedback@example.com'  # RFC 7489 B.2.1
DMARC = [
    ('example.com', {'example.com': [NONE]}, 'its DMARC policy is none (_dmarc.example.com)'),
    ('example.com', {'example.com': [b'v=DMARC1; p=quarantine; rua=mailto:a@example.com,mailto:x@y!10m; pct=25']}, 'policy is quarantine'),
    ('lists.example.com', {'example.com': [NONE]}, 'its DMARC policy is none (_dmarc.example.com)'),
    ('lists.example.com', {'example.com': [b'v=DMARC1; p=none; sp=reject']}, 'its DMARC policy is reject (_dmarc.example.com)'),
    ('lists.example.com', {'lists.example.com': [b'v=DMARC1; p=none; sp=reject']}, 'its DMARC policy is none (_dmarc.lists.example.com)'),
    ('a.lists.example.com', {'example.com': [b'v=DMARC1;p=reject'], 'lists.example.com': [NONE]}, 'policy is reject (_dmarc.example.com)'),
    ('a.lists.example.com', {'example.com': [b'v=DMARC1;p=reject'], 'lists.example.com': [NONE + b'; psd=n']},
     'none (_dmarc.lists.example.com)'),
    ('a.example.co.uk', {'co.uk': [b'v=DMARC1; p=reject; psd=y'], 'example.co.uk': [NONE]}, 'none (_dmarc.example.co.uk)'),
    ('example.co.uk', {'co.uk': [b'v=DMARC1; p=reject; psd=y'], 'uk': [NONE]}, 'reject (_dmarc.co.uk)'),
    ('example.com', {'example.com': [b'V=DMARC1; p=reject']}, None), ('example.com', {'example.com': [b'p=reject; v=DMARC1']}, None),
    ('example.com', {'example.com': [b'v=DMARC10; p=reject']}, None), ('example.com', {'example.com': [NONE, NONE]}, None),
    ('example.com', {}, None),
    ('example.com', {'example.com': [b'v=spf1 -all', NONE]}, 'its DMARC policy is none'),
    ('example.com', {'example.com': [b'v = DMARC1 ; P = Reject ;']}, 'its DMARC policy is reject'),
    ('example.com', {'example.com': [b'v=DMARC1; rua=mailto:a@b.c']}, 'its DMARC record, at _dmarc.example.com, has no policy'),
    ('example.com', {'example.com': [b'v=DMARC1; p=rejct']}, 'its DMARC record, at _dmarc.example.com, has no policy')]


def case_dmarc(world):
    """--check's DMARC policy is the host's own or its organizational domain's, by RFC 9989's walk."""
    for host, rows, wanted in DMARC:
        found = records.dmarc(host, asks({(f'_dmarc.{domain}', 'TXT'): texts for domain, texts in rows.items()}))
        check((wanted or 'it has no DMARC record') in found.text, f'{host}, {rows}: {found}')
        same(found.is_warning, wanted is None or 'no policy' in wanted, f'{host}, {rows}')
    walked = 'a.b.c.d.e.f.g.h.i.j.mail.example.com g.h.i.j.mail.example.com h.i.j.mail.example.com i.j.mail.example.com j.mail.example.com ' \
        'mail.example.com example.com com'  # RFC 9989's example
    same(records.walk('a.b.c.d.e.f.g.h.i.j.mail.example.com'), walked.split(), 'the walk')
    late = receivers.dmarc('ex.org', asks({('_dmarc.ex.org', 'TXT'): LATE}))
    same(late, [records.Finding('its DMARC policy can\'t be told: no answer')], 'a late one')


def case_signed(world):
    """--check tells of a signature that is missing, another's, without a key, or broken, and of one that holds."""
    dkimpy = library('python3-dkim', 'dkim')
    private, public = key(world)
    mail = signing.post(b'cats', b'lists.ex.org', '0' * 16)

    def signed(domain, mail=mail, selector=b's'):
        return dkimpy.sign(mail, selector, domain, private, include_headers=[b'from', b'list-post']).replace(b'\r\n', b'\n') + mail
    known = {('s._domainkey.lists.ex.org', 'TXT'): [public(b'')], ('s._domainkey.ex.org', 'TXT'): [public(b'')],
             ('late._domainkey.lists.ex.org', 'TXT'): LATE, ('bad._domainkey.lists.ex.org', 'TXT'): [b'v=DKIM1; p=\xff!']}
    holds, what = 'the DKIM signature of a post of cats (d={0}, s=s) holds', 'DKIM signature of a post of cats'
    rows = [(signed(b'lists.ex.org'), holds.format('lists.ex.org'), False), (signed(b'ex.org'), holds.format('ex.org'), False),
            (b'Received: x\n\tDKIM-Signature: d=w.net\n' + signed(b'ex.org'), holds.format('ex.org'), False),
            (signed(b'w.net', signed(b'ex.org')), holds.format('ex.org'), False),
            (signed(b'w.net', mail + b'x').removesuffix(mail + b'x') + signed(b'ex.org'), holds.format('ex.org'), False),
            (signed(b'lists.ex.org', selector=b'none') + b'x', f'the key of the {what} (d=lists.ex.org, s=none) isn\'t in the DNS', True),
            (signed(b'lists.ex.org') + b'x', f'the {what} (d=lists.ex.org, s=s) doesn\'t hold: body hash mismatch', True),
            (signed(b'lists.ex.org').replace(b'Post: <mailto:cats', b'Post: <mailto:dogs'), f'the {what} (d=lists.ex.org, s=s) doesn\'t', True),
            (signed(b'lists.ex.org', signed(b'ex.org') + b'x'), holds.format('lists.ex.org'), False),
            (signed(b'lists.ex.org', selector=b'late'), f'whether the {what} (d=lists.ex.org, s=late) holds can\'t be told: no answer', False),
            (signed(b'lists.ex.org', selector=b'bad'), f'the {what} (d=lists.ex.org, s=bad) doesn\'t hold', True),
            (mail, 'a post of cats has no DKIM signature of lists.ex.org', True),
            (b'', 'a post of cats has no DKIM signature of lists.ex.org', True),
            (signed(b'org'), 'a post of cats has no DKIM signature of lists.ex.org, but of org', True),
            (b'DKIM-Signature: d=ex.org\n' + mail, f'the key of the {what} (d=ex.org, s=) isn\'t', True),
            (b'DKIM-Signature: v=1; d=ex.org; s=s; b=\xff\n' + mail, f'the {what} (d=ex.org, s=s) doesn\'t hold', True),
            (mail + b'\nDKIM-Signature: d=ex.org; s=s\n', 'a post of cats has no DKIM signature of lists.ex.org', True),
            (signed(b'nets.ex.org'), 'a post of cats has no DKIM signature of lists.ex.org, but of nets.ex.org', True),
            (signed(b'a\x1b[2J.b'), 'a post of cats has no DKIM signature of lists.ex.org, but of a\\x1b[2j.b', True)]
    for given, text, is_warning in rows:
        found = signing.dkim('lists.ex.org', 'cats', given, asks(known), dkimpy)
        check(found.text.startswith(text) and found.is_warning == is_warning and found.text.isprintable(), f'{given[:200]}: {found}')
    found = signing.dkim('lists.ex.org', 'cats', signed(b'lists.ex.org'), asks(known), Untold('python3-dkim isn\'t installed'))
    same(found, records.Finding('a post of cats has a DKIM signature (d=lists.ex.org, s=s); whether that holds can\'t be told: '
                                'python3-dkim isn\'t installed'), 'without dkimpy')


def case_numbers_of_checks(world):
    """Only an address of the form that --check writes to is taken from a list's mail."""
    number = b'0123456789abcdef'
    rows = [(b'return-1-ezmlm-agent-check.%b=ex.org' % number, number.decode()),
            (b'Return-1-Ezmlm-Agent-Check.%b=ex.org' % number.upper(), number.decode()),
            (None, None), (b'', None), (b'return-1-ezmlm-agent-check.%b' % number[:15] + b'=ex.org', None), (b'return-1-a=m.net', None),
            (b'return-1-ezmlm-agent-check.%b=../x\n' % number, number.decode()), (b'return-1-ezmlm-agent-check.%b0=ex.org' % number, None),
            (b'return-1-ezmlm-agent-check.../../../../etc=ex.org', None), (b'x-return-1-ezmlm-agent-check.%b=ex.org' % number, None)]
    for rest, wanted in rows:
        same(signing.number_of(rest), wanted, f'{rest}')
