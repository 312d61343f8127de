"""Forged senders: what is refused by the envelope before a mail is taken, and how many answers one sender gets."""

import socket
import sys

from .machines import machines
from .world import HOST, LONG, TOP, Client, begins, check, held, post, same, until

sys.path.insert(0, str(TOP / 'agent'))
from ezmlm_agent import envelope, lists, lmtp, requests  # noqa: E402

MOD, MEMBER, DIGEST, ALLOWED, DENIED, STRANGER = 'mod@m.net', 'a@m.net', 'dig@m.net', 'al@m.net', 'd@m.net', 's@m.net'
COOKIE = 'a' * 20
# What a rest asks, and of whom.
RESTS = [
    (None, 'POST', None), ('help', 'HELP', None), ('HELP', 'HELP', None), ('owner', 'OWNER', None), ('', 'UNKNOWN', None),
    ('subscribe', 'SUBSCRIBE', None), ('digest-subscribe-x=y', 'SUBSCRIBE', b'x@y'), ('Allow-Unsubscribe-a=b=c.d', 'UNSUBSCRIBE', b'a=b@c.d'),
    ('subscribe-x', 'UNKNOWN', None), ('subscribe-"x y"=m.net', 'UNKNOWN', None), ('subscribe-', 'UNKNOWN', None), ('mod-subscribe', 'UNKNOWN', None),
    ('list', 'MEMBERS', None), ('deny-list', 'MEMBERS', None), ('listx', 'UNKNOWN', None), ('mod-list', 'UNKNOWN', None),
    (f'sc.1700000000.{COOKIE}-x=y', 'CONFIRM', b'x@y'), (f'digest-tc.0.{COOKIE}-x=y', 'CONFIRM', b'x@y'), (f'uc.00.{COOKIE}-x=y', 'UNKNOWN', None),
    (f'sc.1.{COOKIE.upper()}-x=y', 'UNKNOWN', None), (f'sc.253402300800.{COOKIE}-x=y', 'UNKNOWN', None), (f'sc.1.{COOKIE}', 'UNKNOWN', None),
    ('get.1', 'ARCHIVE', None), ('get.1_99999999', 'ARCHIVE', None), ('get.007', 'UNKNOWN', None), ('get.100000000', 'UNKNOWN', None),
    ('index.5', 'ARCHIVE', None), ('thread.5', 'ARCHIVE', None), ('index.1_2', 'UNKNOWN', None), ('get', 'UNKNOWN', None),
    (f'accept-9.{COOKIE}', 'MODERATE', None), (f'reject-1000000000000000.{COOKIE}', 'MODERATE', None),
    (f'accept-1000000000000001.{COOKIE}', 'UNKNOWN', None), (f'accept-0.{COOKIE}', 'UNKNOWN', None),
    ('return-1-a=m.net', 'BOUNCE', b'a@m.net'), ('Digest-Return-1-a=m.net', 'BOUNCE', b'a@m.net'), ('return-', 'BOUNCE', None),
    (f'return-warn-1.{COOKIE}-a=b', 'BOUNCE', b'a@b'), (f'digest-return-probe-1.{COOKIE}-a=b', 'BOUNCE', b'a@b'), ('return-1-', 'UNKNOWN', None),
    ('return', 'UNKNOWN', None), ('nonsense', 'UNKNOWN', None),
]
# Lists by their options, and what they refuse by the envelope: the rest of the address, who writes, and the word, or None.
LISTS = {
    '': [(None, STRANGER, None), (None, DENIED, None), (None, '', None), (None, '#@[]', 'nosender'), ('help', '', None),
         ('help', STRANGER, None), ('owner', '', None), ('return-1-a=m.net', '', None), ('nonsense', STRANGER, 'notours'), ('get.x', '', 'notours'),
         ('subscribe', STRANGER, None), ('subscribe', '', None), ('subscribe', '#@[]', 'nosender'), ('allow-subscribe', STRANGER, 'private'), ('allow-subscribe', MOD, 'private'),
         ('deny-unsubscribe', MEMBER, 'private'), ('list', MOD, 'private'), ('list', STRANGER, 'private'), ('get.1', STRANGER, None),
         ('unsubscribe', STRANGER, None), (f'sc.1.{COOKIE}-x=y', STRANGER, None)],
    'k': [(None, DENIED, 'denied'), (None, DENIED.upper(), 'denied'), (None, STRANGER, None), ('help', DENIED, None)],
    'u': [(None, STRANGER, 'usersonly'), (None, DENIED, 'usersonly'), (None, MEMBER, None), (None, DIGEST, None), (None, ALLOWED, None),
          (None, MOD, None), (None, 'A@M.NET', None), ('help', STRANGER, None)],
    'uk': [(None, DENIED, 'denied'), (None, STRANGER, 'usersonly'), (None, MEMBER, None)],
    'um': [(None, STRANGER, 'usersonly'), (None, MEMBER, None)],
    'P': [('subscribe', STRANGER, 'private'), ('digest-subscribe', STRANGER, 'private'), ('subscribe', MOD, None), ('unsubscribe', MEMBER, None),
          ('get.1', MEMBER, 'private'), ('get.1', MOD, None), (None, STRANGER, None)],
    'b': [('get.1', MEMBER, 'private'), ('index.1', STRANGER, 'private'), ('thread.1', MOD, None)],
    'g': [('get.1', STRANGER, 'private'), ('get.1', MEMBER, None), ('get.1', DIGEST, None), ('get.1', ALLOWED, 'private'), ('get.1', MOD, None)],
    'r': [('allow-subscribe', MOD, None), ('deny-unsubscribe-x=y', MOD, None), ('allow-subscribe', MEMBER, 'private')],
    'l': [('list', MOD, None), ('digest-list', MOD, None), ('list', MEMBER, 'private')],
}
WORDS = {'denied': '550 5.7.1 The sender may not post', 'usersonly': '550 5.7.2 Only those who are known', 'nosender': '550 5.7.1 The sender of',
         'notours': '550 5.1.1 The list has no such address', 'private': '550 5.7.2'}


class PolicyClient:
    """Asks as Postfix does."""

    def __init__(self, path):
        self.socket = socket.socket(socket.AF_UNIX)
        self.socket.settimeout(LONG)
        self.socket.connect(str(path))
        self.file = self.socket.makefile('rb')

    def ask(self, sender, recipient, state='RCPT', more=b''):
        self.socket.sendall(f'request=smtpd_access_policy\nprotocol_state={state}\nprotocol_name=ESMTP\nhelo_name=x\nqueue_id=\n'
                            f'sender={sender}\nrecipient={recipient}\nrecipient_count=0\n'.encode() + more + b'\n')
        action, end = self.file.readline(), self.file.readline()
        check(end == b'\n', f'{action!r} has no end')
        return action.decode().removeprefix('action=').strip()

    def close(self):
        self.file.close()
        self.socket.close()


def address(name, rest):
    return f'{name}@{HOST}' if rest is None else f'{name}-{rest}@{HOST}'


def with_sets(world, name, options):
    world.list(name, members=[MEMBER], words=[f'-{options}'] if options else [])
    for kind, who in (('mod', MOD), ('digest', DIGEST), ('allow', ALLOWED), ('deny', DENIED)):
        world.run(name, 'sub', '0', kind, who)


def told(client, sender, recipient, is_unknown):
    """What the policy service says of a mail, when it can tell."""
    said = ['']

    def asked():
        said[0] = client.ask(sender, recipient)
        return is_unknown or said[0] != 'DUNNO'
    until(asked)
    return said[0]


def case_policy(world):
    """What a list refuses by the envelope alone is refused by the policy service, with each option; and a mail that it lets through isn't
    refused for one of these by the list."""
    world.rows['policy'] = world.place / 'policy'
    names = {options: f'l{n}' for n, options in enumerate(LISTS)}
    for options, name in names.items():
        with_sets(world, name, options)
    world.begin()
    client = PolicyClient(world.place / 'policy')
    for options, rows in LISTS.items():
        name = names[options]
        for n, (rest, sender, word) in enumerate(rows):
            # While another run has the list, as the one before may, it can't be told.
            said = told(client, sender, address(name, rest), word is None)
            check(said.startswith(WORDS[word] if word else 'DUNNO'), f'{options or "no"} options, {rest} of {sender}: {said}, and not {word}')
            answer = world.run(name, 'deliver', '0', sender, address(name, rest), given=post(n, to=name)).split()
            if word and word != 'notours':
                same(answer[1:], ['100', word], f'the list itself: {options}, {rest} of {sender}')
            else:
                check(answer[1] == '0' or answer[2] in ('badcookie', 'gone') or not sender, f'the list itself: {options}, {rest} of {sender}: {answer}')
    same(client.ask(STRANGER, f'nobody@{HOST}'), 'DUNNO', 'an address of no list')
    same(client.ask(STRANGER, address('l0', 'nonsense'), state='DATA'), 'DUNNO', 'another state')
    same(client.ask(STRANGER, 'l0', more=b'x=' + b'y' * 3000 + b'\n'), 'DUNNO', 'no address')
    begins(told(client, STRANGER, address('l0', 'x' * (lmtp.LONGEST_PATH - len(address('l0', '')))), False), '550 5.1.1', 'a long address')
    same(client.ask(STRANGER, address('l0', 'x' * (lmtp.LONGEST_PATH + 1 - len(address('l0', ''))))), 'DUNNO', 'one that is too long')
    same(client.ask('x' * 995 + '@m.net', address('l1', 'nonsense')), 'DUNNO', 'a sender that is too long')
    check(world.tells(f'l1 - {DENIED} l1@{HOST}: refused by policy: denied'), 'the log does not tell it')
    client.close()


def case_policy_cant_tell(world):
    """If the policy service can't tell what a list would refuse it says DUNNO, and mail goes on."""
    world.rows['policy'] = world.place / 'policy'
    with_sets(world, 'cats', 'uk')
    world.begin()
    client = PolicyClient(world.place / 'policy')
    begins(client.ask(DENIED, address('cats', None)), '550', 'a denied sender')
    with held(world.folder()):
        same(client.ask(DENIED, address('cats', None)), 'DUNNO', 'a list that another run has')
    with held(world.folder()):
        bucket = world.folder() / 'deny/subscribers' / chr(64 + envelope.bucket(DENIED.encode()))
        kept = bucket.read_bytes()
        bucket.write_bytes(b'x')
    same(client.ask(DENIED, address('cats', None)), 'DUNNO', 'a damaged file')
    bucket.write_bytes(kept)
    begins(client.ask(DENIED, address('cats', None)), '550', 'the mended file')
    (world.folder() / 'num').rename(world.folder() / 'kept')
    (world.folder() / 'num').write_bytes(b'x')
    begins(world.mail(MEMBER, [f'cats@{HOST}'], post(2))[0], '451', 'a post to a damaged list')
    same(client.ask(DENIED, address('cats', None)), 'DUNNO', 'a list that is known to be damaged')
    (world.folder() / 'kept').replace(world.folder() / 'num')
    same(world.mail(MEMBER, [f'cats@{HOST}'], post(2))[0], '250 2.0.0 posted 1', 'the post again')
    check(until(lambda: client.ask(DENIED, address('cats', None)).startswith('550')), 'the mended list')
    junk = PolicyClient(world.place / 'policy')
    junk.socket.sendall(b'x' * 10_000)
    same(junk.file.read(), b'', 'a line without an end')
    junk.close()
    same(world.post(1), '550 5.7.2 Only those who are known to this list may post.', 'the list')
    client.close()


def case_shared_policy(world):
    """A host refuses by policy only while it hears of the servers, and knows that its copy has all of the history."""
    with machines(world, 1) as (those, (host,)):
        host.rows['policy'] = host.place / 'policy'
        host.begin()
        same(host.post(1), '250 2.0.0 posted 1', 'a post')
        client, nonsense = PolicyClient(host.place / 'policy'), address('cats', 'nonsense')
        check(until(lambda: client.ask(STRANGER, nonsense).startswith('550 5.1.1')), 'a host that is right does not refuse')
        those.kill(0)
        check(until(lambda: client.ask(STRANGER, nonsense) == 'DUNNO'), 'a host that is cut off refuses')
        those.all[0].start()
        check(until(lambda: client.ask(STRANGER, nonsense).startswith('550 5.1.1')), 'it does not refuse when the servers are back')
        client.close()


def case_longest_local(world):
    """A recipient names the list with the longest LOCAL that there is, in any case of letters."""
    found = lists.ByAddress({(b'a', b'h'): 1, (b'a-b', b'h'): 2, (b'a-b-c', b'i'): 3, (b'-', b'h'): 4, (b'ab', b'h'): 5})
    for recipient, wanted in ((b'a@h', (1, None)), (b'A@H', (1, None)), (b'a-@h', (1, b'')), (b'a-c-B@h', (1, b'c-B')), (b'a-b@h', (2, None)),
                              (b'a-b-c@h', (2, b'c')), (b'a-b-c@i', (3, None)), (b'A-b-C-d@i', (3, b'd')), (b'a-b@i', None), (b'abc@h', None),
                              (b'a@b@h', None), (b'a', None), (b'', None), (b'@h', None), (b'---@h', (4, b'-')), (b'-@h', (4, None)),
                              (b'b-a@h', None), (b'a-' + b'-' * 4000 + b'@h', (1, b'-' * 4000)), (b'ab-a-b@h', (5, b'a-b'))):
        same(found.named_by(recipient), wanted, str(recipient[:40]))


def case_parameters(world):
    """MAIL takes the parameters of what LHLO says, and RCPT none: all others are 555."""
    world.list()
    world.begin()
    with Client(world.place / 'lmtp') as client:
        for words, wanted in (('BODY=8BITMIME SIZE=99', '250'), ('body=7bit SMTPUTF8  size=1', '250'), ('', '250'), (' ', '250'), ('XVERP', '555 5.5.4'),
                              ('AUTH=<>', '555 5.5.4'), ('BODY=BINARYMIME', '555 5.5.4'), ('SIZE=1 RET=HDRS', '555 5.5.4'), ('SIZE=x', '555 5.5.4'),
                              ('SIZE=99999999999 X=1', '552')):
            begins(client.command(f'MAIL FROM:<a@m.net> {words}'.encode()), wanted, words)
            client.command(b'RSET')
        begins(client.command(b'MAIL FROM:<a@m.net>'), '250', 'MAIL')
        for words, wanted in (('NOTIFY=NEVER', '555 5.5.4'), ('SIZE=1', '555 5.5.4'), ('ORCPT=rfc822;a@b X', '555 5.5.4'), ('', '250')):
            begins(client.command(f'RCPT TO:<cats@{HOST}> {words}'.strip().encode()), wanted, words)


def case_requests_by_address(world):
    """What a recipient asks: each form, and what is none, as docs/FORMATS.md has it; and the hash of an address there."""
    for rest, kind, who in RESTS:
        found = requests.read(None if rest is None else rest.encode())
        same((found.kind.name, found.address), (kind, who), str(rest))
    same(chr(64 + envelope.bucket(b'a@b')), ']', 'the file of a@b')
    same(envelope.addresses(b'Ta@b\0TC@d\0'), {b'a@b', b'c@d'}, 'layout 1')
    same(envelope.addresses(b'layout 2\nTa@b\x001700000000\0TC@d\x000\0'), {b'a@b', b'c@d'}, 'layout 2')


def case_private_says_why(world):
    """What a list doesn't do for somebody is refused with what that means."""
    world.list(words=['-P'])
    world.list('dogs', words=['-b'])
    world.begin()
    rows = [('cats-subscribe', '550 5.7.2 Nobody joins this list by mail. Ask its owner'), ('cats-list', '550 5.7.2 Only moderators may see'),
            ('cats-allow-subscribe', '550 5.7.2 Only moderators may change who may post'), ('dogs-get.1', '550 5.7.2 The archive of this list'),
            ('dogs-deny-unsubscribe-x=y', '550 5.7.2 Only moderators may change who may post')]
    for n, (local, wanted) in enumerate(rows):
        begins(world.mail('s@m.net', [f'{local}@{HOST}'], post(n))[0], wanted, local)
    check(until(lambda: world.queue() == 0), 'the queue stays')
