"""`--check` as receivers look: over a resolver, and with a mail that goes through a transfer agent and comes back."""

import asyncio
import contextlib
import os
import subprocess
import sys

from .checking import checked
from .names import Names
from .signatures import key
from .sink import Sink
from .world import HOST, LONG, TOP, Skipped, check, library, same, until

sys.path.insert(0, str(TOP / 'agent'))
from ezmlm_agent import receivers, resolver, settings, signing  # noqa: E402
from ezmlm_agent.resolver import Untold  # noqa: E402

PATIENT = f'''
import sys
sys.path.insert(0, sys.argv[1])
from ezmlm_agent import __main__, resolver, signing
resolver.SECONDS = resolver.EACH = signing.SECONDS = {LONG}
__main__.main(sys.argv[2:])
'''


def patiently(world):
    """What --check says that waits for as long as a slow machine needs."""
    done = subprocess.run(['/usr/bin/python3', '-P', '-c', PATIENT, TOP / 'agent', '--check', world.settings()], capture_output=True, text=True,
                          check=False)
    return done.returncode, done.stdout + done.stderr


def missing(*_):
    raise FileNotFoundError


class Relay(Sink):
    """A transfer agent that gives the agent the mail for its lists, as `sign` changes it."""

    def __init__(self, world, sign):
        self.sign, self.world, self.replies = sign, world, []
        super().__init__(str(world.place / 'relay'))
        world.rows['mta'] = world.place / 'relay'

    async def handle_DATA(self, server, session, envelope):
        for recipient in envelope.rcpt_tos:
            mail = self.sign(envelope.content.replace(b'\r\n', b'\n'))
            if mail and recipient.endswith(f'@{HOST}'):
                self.replies += self.world.mail('', [recipient], b'Received: by mx.ex.org id 1\n' + mail)
        return await super().handle_DATA(server, session, envelope)


def case_check_takes_the_hardest(world):
    """--check sends a post of a list whose posts come from their writers, if there is one."""
    always = '[list {0}]\nrewrite_from = always\n'.format
    rows = [('', 'birds'), (always('cats'), 'birds'), ('[list birds]\nrewrite_from = yes\n', 'cats'),
            (always('birds') + '[list cats]\n', 'cats'),
            (always('birds') + always('cats'), 'dogs'), (always('birds') + always('cats') + always('dogs'), 'birds')]
    for name, words in (('birds', ['-f']), ('cats', ['-FT']), ('dogs', ['-t'])):
        world.list(name, words=words)
    begun = world.settings().read_text()
    lists = {world.folder(name): (name.encode(), HOST.encode()) for name in ('birds', 'cats', 'dogs')}
    for text, wanted in rows:
        (world.place / 'agent.conf').write_text(begun + text)
        same(receivers.hardest(settings.read(str(world.place / 'agent.conf')), lists).name, wanted, text)
    (world.folder('birds') / 'config').unlink()
    (world.folder('birds') / 'config').mkdir()
    (world.place / 'agent.conf').write_text(begun + always('birds') + always('cats'))
    same(receivers.hardest(settings.read(str(world.place / 'agent.conf')), lists).name, 'dogs', 'where one can\'t be read')


def case_check_of_many_hosts(world):
    """--check looks at ten hosts, names three lists of each, and says what it leaves out; whatever goes wrong with that is told."""
    chosen = settings.read(str(world.settings()))
    lists = {world.folder(f'l{host}-{n}'): (b'l%d' % n, b'h%d.org' % host) for host in range(12) for n in range(5)}
    said = asyncio.run(receivers.look(chosen, lists))
    same(said[-1], '2 more hosts with lists weren\'t looked at', 'the last line')
    same(len({line.split()[0] for line in said[:-1]}), 10, 'hosts')
    check(any(line.startswith('h3.org (l3-0, l3-1, l3-2 and 2 more): its DMARC policy can\'t be told') for line in said), said)
    same(asyncio.run(receivers.look(chosen, {world.folder('list'): (b'l', b'h\xff.org')})),
         ['h\\udcff.org (list): what receivers make of its mail can\'t be told, as it isn\'t ASCII'], 'a host that isn\'t ASCII')
    asks, receivers.resolver_of = receivers.resolver_of, missing
    try:
        _, said = asyncio.run(receivers.look(chosen, lists))
        same(said, 'what receivers make of the lists\' mail can\'t be told: FileNotFoundError: ', 'a fault')
    finally:
        receivers.resolver_of = asks
    same(asyncio.run(receivers.look(chosen, {})), [], 'without lists')


def answers(asks, names):
    """Asks a resolver each kind of question."""
    rows = [(HOST, 'TXT', [b'one', b'twohalves']), ('EX.org.', 'TXT', [b'one', b'twohalves']), (HOST, 'A', ['192.0.2.1']),
            (HOST, 'AAAA', ['2001:db8::1']), (HOST, 'MX', [(10, 'mx.ex.org')]), ('1.2.0.192.in-addr.arpa', 'PTR', ['mx.ex.org']),
            ('none.ex.org', 'A', []), (HOST, 'PTR', [])]
    for name, kind, wanted in rows:
        found = asks.ask(name, kind)
        same(sorted(found), sorted(wanted), f'{name} {kind}')
    same(len(names.asked), len(rows) - 1, 'questions')
    same((asks.left, asks.seconds < LONG), (resolver.MOST - len(names.asked), True), 'what is left')


def refuses(asks):
    """Asks a resolver for what is no name, and more than it may be asked for."""
    wrong = [('x' * 64 + '.org', 'A', 'LabelTooLong'), ('a..b', 'A', 'EmptyLabel')]
    asks.left = len(wrong)
    for name, kind, why in [*wrong, ('more.ex.org', 'A', 'more.ex.org wasn\'t asked for: 100 questions in 900 seconds are all')]:
        try:
            check(False, f'{name}: {asks.ask(name, kind)}')
        except Untold as error:
            check(why in str(error), f'{name}: {error}')


def case_resolver(world):
    """--check's resolver answers each kind of question, none twice, and no more than a few."""
    dnspython = library('python3-dnspython', 'dns.resolver')
    try:
        names = Names({(HOST, 'TXT'): ['one', 'two" "halves'], (HOST, 'A'): ['192.0.2.1'], (HOST, 'AAAA'): ['2001:db8::1'],
                       (HOST, 'MX'): ['10 mx.ex.org.'], ('1.2.0.192.in-addr.arpa', 'PTR'): ['mx.ex.org.']})
    except OSError as error:
        raise Skipped(f'there is no loopback: {error}') from error
    seconds, read = (resolver.EACH, resolver.SECONDS), dnspython.Resolver.read_resolv_conf
    resolver.EACH = resolver.SECONDS = LONG
    try:
        asks = resolver.Resolver(names.where)
        answers(asks, names)
        refuses(asks)
        same(asks.ask(HOST, 'A'), ['192.0.2.1'], 'what was asked before')
        given, asks.left, resolver.EACH = [], 3, 2
        asks.asks.resolve = lambda name, kind, lifetime, search: given.append((lifetime, search)) or []
        for asks.seconds, name in ((3, 'a.b'), (1, 'b.b')):
            same(asks.ask(name, 'A'), [], name)
        same(given, [(2, False), (1, False)], 'how long an answer is waited for, and whether another name is asked for')
        dnspython.Resolver.read_resolv_conf = missing
        try:
            resolver.Resolver()
            check(False, 'there is a resolver')
        except Untold as error:
            same(str(error), '/etc/resolv.conf names no resolver', 'without a resolver')
    finally:
        (resolver.EACH, resolver.SECONDS), dnspython.Resolver.read_resolv_conf = seconds, read
        names.stop()


def all_is_well(world, relay):
    """What --check tells of mail that passes, and goes through the transfer agent and back."""
    status, said = patiently(world)
    same(status, 0, said)
    for line in (f'{HOST} (cats, dogs): SPF passes for mail from 192.0.2.1 (sends_from)', f'{HOST} (cats, dogs): its DMARC policy is none',
                 f'{HOST} (cats, dogs): the DKIM signature of a post of cats (d={HOST}, s=s) holds'):
        check(f'\n{line}' in said, f'no line {line!r} in {said}')
    check('warning' not in said, said)
    same(relay.replies, ['250 2.0.0 weeded check'], 'the mail that came back')
    mail, = [content for _, _, content in relay.copies]
    check(b'\r\nList-Post: <mailto:cats@ex.org>\r\n' in mail and b'\r\nFrom: writer@writer.invalid\r\n' in mail, mail)
    check(until(lambda: ' <> cats-return-1-ezmlm-agent-check.' in world.log()), world.log())
    same([path.name for path in (world.place / 'state').glob('check-*')], [], 'files that are left')
    same([line for line in world.log().splitlines() if line.startswith('cats ')
          and not line.endswith('weeded check') and 'posted' in line], [], 'what the list was given')


def comes_too_late(world):
    """A mail of --check for which nobody waits any more is weeded, and not kept."""
    number = '0' * 16
    late_one = world.mail('', [f'cats-return-1-ezmlm-agent-check.{number}=ex.org@{HOST}'], b'Received: x\n\nhi\n')
    same(late_one, ['250 2.0.0 weeded check'], 'one that comes too late')
    check(not (world.place / f'state/check-{number}').exists(), 'a mail that nobody waits for is kept')


def receivers_warn(world, zone, relay):
    """What it tells of SPF that fails, no DMARC record and no signature."""
    zone[(HOST, 'TXT')], zone[(f'_dmarc.{HOST}', 'TXT')] = ['v=spf1 -all'], []
    relay.sign = bytes
    status, said = patiently(world)
    for line in ('SPF says fail for mail from 192.0.2.1 (sends_from)', 'it has no DMARC record', 'a post of cats has no DKIM'):
        check(f'\nwarning: {HOST} (cats, dogs): {line}' in said, f'no line {line!r} in {said}')
    same(status, 0, f'the status of what receivers find: {said}')


def nobody_answers(world):
    """What it tells if neither the resolver nor the transfer agent answers."""
    status, said = checked(world)
    for line in ('its SPF record can\'t be told: no answer for ex.org TXT: LifetimeTimeout', 'its DMARC policy can\'t be told: ',
                 'whether a post of cats is DKIM-signed can\'t be told: a mail to cats-return-1-ezmlm-agent-check.'):
        check(f'\n{HOST} (cats, dogs): {line}' in said, f'no line {line!r} in {said}')
    same(status, 0, said)


def case_check_asks(world):
    """--check asks a resolver, and a mail goes through the transfer agent and back; the list has none of it."""
    dkimpy, pyspf, _ = library('python3-dkim', 'dkim'), library('python3-spf', 'spf'), library('python3-dnspython', 'dns.resolver')
    private, public = key(world)
    zone = {(HOST, 'TXT'): ['v=spf1 ip4:192.0.2.1 -all'], (f'_dmarc.{HOST}', 'TXT'): ['v=DMARC1; p=none'],
            (f's._domainkey.{HOST}', 'TXT'): [public(b'')[:200].decode() + '" "' + public(b'')[200:].decode()]}
    headers = [b'from', b'to', b'subject', b'list-post', b'list-id']
    relay = Relay(world, lambda mail: dkimpy.sign(mail, b's', HOST.encode(), private, include_headers=headers).replace(b'\r\n', b'\n') + mail)
    try:
        names, late = Names(zone), Names(None)
    except OSError as error:
        relay.stop()
        raise Skipped(f'there is no loopback: {error}') from error
    try:
        world.rows.update(sends_from='192.0.2.1', resolver=names.where)
        world.list()
        world.list('dogs')
        world.begin()
        all_is_well(world, relay)
        comes_too_late(world)
        receivers_warn(world, zone, relay)
        world.rows['resolver'], relay.sign = late.where, lambda mail: b''
        nobody_answers(world)
        check(0 < len(late.asked) < 20, f'{len(late.asked)} questions')  # Those of a few seconds, each given several times.
    finally:
        for server in (names, late, relay):
            server.stop()


def case_check_lacks(world):
    """--check goes on without the packages, a resolver, a transfer agent that gives it back its mail, or an agent that runs."""
    world.list()
    status, said = checked(world)
    line = f'{HOST} (cats): whether a post of cats is DKIM-signed can\'t be told: '
    check(f'{line}the agent has not run yet' in said and status == 0, said)
    (world.place / 'state').mkdir(mode=0o700)
    status, said = checked(world)
    check(f'{line}no agent takes mail at' in said and status == 0, said)
    world.begin()
    status, said = checked(world)
    check(f'{line}a mail to cats-return-1-ezmlm-agent-check.' in said and status == 0, said)
    world.sink.refuses_all = True
    status, said = patiently(world)
    check(f'{line}{world.place}/sink said 550 5.1.1 No such user to a mail to cats-return-1-ezmlm-agent-check.' in said, said)
    same(status, 1, 'the status, as the transfer agent refuses mail for the owner too')
    world.sink.refuses_all = False
    words = ['/usr/bin/python3', '-S', '-P', *world.words, '--check', world.settings()]
    done = subprocess.run(words, capture_output=True, text=True, check=False)
    for wanted in ('SPF record', 'DMARC policy'):
        check(f'{wanted} can\'t be told: python3-dnspython isn\'t installed' in done.stdout, done.stdout + done.stderr)
    same((done.returncode, done.stderr), (0, ''), done.stdout)
    left = world.place / 'state/check-old'
    left.touch()
    os.utime(left, (0, 0))
    with contextlib.suppress(Untold), signing.waiting(world.place / 'state', 'new') as place:
        check(place.exists() and not left.exists(), 'what a killed --check left')
        same(signing.keep(place.parent, 'new', b'x' * (signing.LONGEST + 1)).words, 'weeded check', 'a mail that is too long')
        same(place.read_bytes(), b'', 'a mail that is too long')
        signing.keep(place.parent, 'new', b'hi\n')
        same(place.read_bytes(), b'hi\n', 'a mail')
    check(not place.exists(), 'the file is left')
