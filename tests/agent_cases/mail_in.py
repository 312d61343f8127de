"""Mail in: replies, addresses, bytes."""

import os
import re
import threading
import time

from .world import HOST, IS_UNPROVED, TOP, Client, begins, check, post, same, until

LONGEST = 33_554_432


def case_each_reply(world):
    """Each answer of the list becomes a reply that a person understands, and one line in the log."""
    world.list(words=['-uk'])
    world.run('cats', 'sub', '0', 'deny', 'd@m.net')
    world.begin()
    rows = [
        ('a@m.net', 'cats', post(1), '250 2.0.0 posted 1'),
        ('x@m.net', 'cats', post(2), '550 5.7.2 Only those who are known'),
        ('d@m.net', 'cats', post(2), '550 5.7.1 The sender may not post'),
        ('a@m.net', 'cats', post(3, subject='help'), '554 5.6.0 The subject is a command'),
        ('a@m.net', 'cats', post(4, subject=''), '554 5.6.0 The message has no subject'),
        ('a@m.net', 'cats', post(5, to='dogs'), '554 5.6.0 Neither'),
        ('a@m.net', 'cats', b'Mailing-List: x\n' + post(6), '554 5.4.6'),
        ('a@m.net', 'cats', post(7, body='x' * 2_000_000), '552 5.3.4'),
        ('a@m.net', 'cats-help', post(8), '250 2.0.0 help'),
        ('a@m.net', 'cats-sc.1.aaaaaaaaaaaaaaaaaaaa-x=y', post(9), '550 5.7.1'),
        ('a@m.net', 'cats-accept-9.aaaaaaaaaaaaaaaaaaaa', post(10), '550 5.7.1 The message that this address answers for'),
        ('a@m.net', 'cats-list', post(11), '550 5.7.2'),
        ('a@m.net', 'cats-owner', post(12), '250 2.0.0 owner'),
        ('a@m.net', 'birds', post(13), '550 5.1.1'),
        ('a@m.net', 'cat', post(14), '550 5.1.1'),
        ('a@m.net', 'catsx', post(15), '550 5.1.1'),
    ]
    for sender, local, message, wanted in rows:
        begins(world.mail(sender, [f'{local}@{HOST}'], message)[0], wanted, f'{local} of {sender}')
    world.end()
    lines = re.findall(r'(?m)^cats (\d+) (\S+) (\S+): (\d+) (.*), \d+ ms$', world.log())
    same(lines[:2], [('512', 'a@m.net', 'cats@ex.org', '0', 'posted 1'), ('513', 'x@m.net', 'cats@ex.org', '100', 'usersonly')], 'the log')
    same(len(lines), len(rows) - 3, 'lines of the log')  # The last three are of no list.


def case_each_word(world):
    """Each word of a refusal is for good and has a sentence, except those that tell of no mail: they are for now."""
    says = world.place / 'says'
    says.touch()
    world.list()
    world.stands_in()
    world.begin()
    for n, word in enumerate(('gone', 'full', 'toobig', 'nosender', 'looped', 'denied', 'nosubject', 'command', 'notaddressed', 'usersonly',
                              'notours', 'badcookie', 'private')):
        says.write_text(f'100 {word}')
        reply = world.post(n)
        check(re.fullmatch(r'55[024] 5\.\d\.\d [A-Z].* .*\.', reply), f'{word}: {reply}')
    for n, word in enumerate(('stale', 'noentry', 'toosoon', 'badfloor', 'absent', 'there', 'new'), 100):
        says.write_text(f'100 {word}')
        begins(world.post(n), '451 4.3.0', word)
    for n, words in enumerate(('71 memory', '75 num', '111 disk', '72 more', '65 bad 1', '64 usage', '0', 'x'), 200):
        says.write_text(words)
        begins(world.post(n), '451 4.3.0', words)
    says.unlink()
    for n in (0, 100, 200):
        begins(world.post(n), '250 2.0.0 posted', 'the same again')


def case_empty_sender(world):
    """The empty sender's mail is a bounce if its address is one, and else nothing that the list answers."""
    world.list()
    world.begin()
    world.post()
    check(world.is_out(3), 'the post did not go out')
    rows = [
        ('cats', '550 5.7.1'),
        ('cats-help', '550 5.7.1'),
        ('cats-return-1-a=m.net', '250 2.0.0 bounce'),
        ('cats-return-9-a=m.net', '250 2.0.0 ignored'),
        ('cats-owner', '250 2.0.0 owner'),
    ]
    for n, (local, wanted) in enumerate(rows):
        begins(world.mail('', [f'{local}@{HOST}'], post(n + 2, subject='failure notice'))[0], wanted, local)


def case_addresses(world):
    """Recipients in odd case, quoted, with + and =, long, and of the list with the longest name."""
    world.list()
    world.list('cats-dogs')
    world.begin()
    same(world.mail('w@m.net', ['CATS@EX.org', '"cats"@ex.org', 'c\\ats@ex.org', '"ca\\ts"@ex.org'], post()),
         ['250 2.0.0 posted 1'] * 2 + ['550 5.1.1 There is no list of this address.', '250 2.0.0 posted 1'], 'one list in other spellings')
    same(world.mail('w@m.net', ['cats-dogs@ex.org'], post(2, to='cats-dogs')), ['250 2.0.0 posted 1'], 'the list with the longer name')
    rows = [
        ('Cats-Get.1', '250 2.0.0 archive'),
        ('cats-subscribe-x+y=m.net', '250 2.0.0 asked'),
        ('cats-subscribe-"x y"=m.net', '250 2.0.0 help'),
        ('"cats-subscribe-A_b=c"', '250 2.0.0 asked'),
        ('"cats-subscribe-q=r=s.org"', '250 2.0.0 asked'),
        ('cats-' + 'x' * (1000 - len('cats-@ex.org')), '250 2.0.0 help'),
        ('cats-' + 'x' * (1001 - len('cats-@ex.org')), '501 5.1.3'),
    ]
    for n, (local, wanted) in enumerate(rows):
        begins(world.mail('w@m.net', [f'{local}@{HOST}'], post(n + 3))[0], wanted, local[:40])
    check(until(lambda: world.queue() == 0), 'the queue stays')
    told = {recipient for _, recipient, content in world.sink.copies if b'confirm subscribe' in content}
    same(told, {'x+y@m.net', 'A_b@c', 'q=r@s.org'}, 'who is asked to confirm')
    with Client(world.place / 'lmtp') as client:
        begins(client.command(b'MAIL FROM:<%b@m.net>' % (b'x' * 996)), '501', 'a sender of 1,001 bytes')
        begins(client.command(b'MAIL FROM:<%b@m.net>' % (b'x' * 994)), '250', 'a sender of 1,000 bytes')


def case_bytes(world):
    """A mail goes out as it came: lone CR, CR before an end of line, long lines, dots, NUL, bytes past ASCII, no end of line at its end."""
    world.list()
    world.begin()
    rows = [
        'one\n.two\n..\n.\n...\n',
        'x' * 1200 + '\n' + '.' * 1200 + '\n' + 'y' * 70_000,
        'a\rb\r\rc\n\r.\rd\r',
        'nul \x00 and \xe9\xff\x80',
        'cr at the end of a line\r\nand here\r',
        '\n\n\n',
    ]
    for n, body in enumerate(rows):
        message = post(n, body=body)
        same(world.mail('w@m.net', [f'cats@{HOST}'], message), [f'250 2.0.0 posted {n + 1}'], ascii(body[:20]))
        check(world.is_out(3 * n + 3), 'it did not go out')
        # What follows the list's own fields is the message, to the byte.
        check(world.sink.copies[-1][2].endswith(b'list cats@ex.org\r\n' + message.replace(b'\n', b'\r\n')), f'{body[:20]!a} came out as another')


def case_many_at_once(world):
    """200 mails at once to one list, and to twenty."""
    names = [f'l{n}' for n in range(20)]
    for name in ['cats', *names]:
        world.list(name)
    world.begin()
    for lists in (['cats'], names):
        said = []
        threads = [threading.Thread(target=lambda n=n: said.append(world.post(n, to=lists[n % len(lists)]))) for n in range(200)]
        for thread in threads:
            thread.start()
        for thread in threads:
            thread.join()
        same([reply for reply in said if not reply or not reply.startswith('250 2.0.0 posted')], [], 'not posted')
        same(sum(world.posts(name) for name in lists), 200, 'posts')
    check(until(lambda: all(world.queue(name) == 0 for name in ['cats', *names])), 'the queue stays')
    same(len(world.sink.copies), 1200, 'copies')


def case_large_mail(world):
    """A mail of 16 MB is posted if the list takes it; one that is longer than any list takes is refused, to the byte."""
    world.rows['patience'] = 600  # A program that was built without proof takes its time.
    world.list(words=['--max', '16777216'])
    world.begin()
    body = ('x' * 70 + '\n') * (15_000 if IS_UNPROVED else 225_000)
    same(world.post(1, body=body), '250 2.0.0 posted 1', 'a mail of 16 MB')
    check(world.is_out(3), 'it did not go out')
    check(world.sink.copies[0][2].endswith(body.replace('\n', '\r\n').encode() + b'\r\n'), 'the copy is another')
    # An end of line is two bytes on the way and one in the message.
    for size, wanted in ((LONGEST, '250 2.0.0 help'), (LONGEST + 1, '552 5.3.4'))[IS_UNPROVED:]:
        message = b'a: b\n' + b'xxxxxxx\n' * ((size - 5) // 8) + b'x' * ((size - 5) % 8 - 1) + b'\n'
        same(len(message), size, 'the size')
        for reply in world.mail('w@m.net', [f'cats-help@{HOST}', f'cats-unknown@{HOST}'], message):
            begins(reply, wanted, f'{size} bytes')


def case_little_memory(world):
    """If too much mail waits, more is put off, and a small one is taken after it. Those that come at once don't keep out one another."""
    world.rows['memory'] = 1
    world.list(words=['--max', '16777216'])
    world.begin()
    begins(world.post(1, body=('x' * 70 + '\n') * 30_000), '452 4.3.1', 'a mail of 2 MB')
    same(world.post(2), '250 2.0.0 posted 1', 'a small one')
    clients = [Client(world.place / 'lmtp') for _ in range(4)]
    for client in clients:
        client.propose('w@m.net', [f'cats@{HOST}'])
    for n, client in enumerate(clients):
        client.socket.sendall(post(n + 3, body='x' * 400_000).replace(b'\n', b'\r\n'))
    for client in clients:
        client.send(b'')
    said = [client.reply()[:16] for client in clients]
    check('250 2.0.0 posted' in said and set(said) <= {'250 2.0.0 posted', '452 4.3.1 Too mu'}, f'said {said}')
    for client in clients:
        client.__exit__()


def case_bad_clients(world):
    """Garbage, a line without an end, 500 connections that are kept open: memory stays bounded, and others are served."""
    world.list()
    world.begin()
    same(world.post(), '250 2.0.0 posted 1', 'a post')
    before = world.memory()
    with Client(world.place / 'lmtp') as client:
        some = os.urandom(100).replace(b'\n', b'')
        for line in (b'', b'\0\xff', b'EHLO x', b'DATA', b'RCPT TO:<cats@ex.org>', b'MAIL FROM:cats', b'BDAT 3', some):
            begins(client.command(line), '50', f'{line[:20]!a}')
        same(client.mail('w@m.net', [f'cats@{HOST}'], post(2)), ['250 2.0.0 posted 2'], 'after garbage')
    with Client(world.place / 'lmtp') as client:
        try:
            for _ in range(1000):
                client.socket.sendall(b'x' * 10_000)
            client.reply()
            check(False, 'a line of 10 MB was read')
        except (OSError, EOFError):
            pass
    clients = [Client(world.place / 'lmtp') for _ in range(500)]
    for n, client in enumerate(clients):
        client.socket.sendall([b'x' * 4000, b'MAIL FROM:<a@b>\r\nRCPT TO:<cats@ex.org>\r\nDATA\r\n' + b'x' * 30_000][n % 2])
    same(world.post(3), '250 2.0.0 posted 3', 'beside 500 connections')
    grown = world.memory() - before
    check(grown < 150, f'the agent grew by {grown} MiB')
    for client in clients:
        client.__exit__()
    check(world.is_out(9), 'not handed on')
    world.note = f'it grew by {grown} MiB'


# The agent of which some calls never end, and whose last moment comes soon after a signal.
HANGING = ('/usr/bin/python3', '-c', '''
import sys, time
sys.path.insert(0, sys.argv[1])
from ezmlm_agent import __main__, signing, weed
__main__.LAST = 3
signing.keep = weed.verdict = lambda *_: time.sleep(100_000)
__main__.main(sys.argv[2:])
''', TOP / 'agent')


def case_ends_whatever_hangs(world):
    """A look at a mail that doesn't end gives the mail to the list, and calls that don't end keep no agent from ending, which says what is left."""
    world.list()
    world.begin(words=HANGING)
    same(world.mail('w@m.net', [f'cats-help@{HOST}'], post()), ['250 2.0.0 help'], 'a mail that can\'t be looked at')
    check(world.tells('a mail is given without weeding: that takes longer than 1 seconds'), 'the log does not tell it')
    asking = threading.Thread(target=world.mail, args=['', [f'cats-return-1-ezmlm-agent-check.{"0" * 16}=ex.org@{HOST}'], post(2)])
    asking.start()
    check(until(lambda: world.post(3) == '250 2.0.0 posted 1'), 'other mail waits')
    begun = time.monotonic()
    same(world.end(), 0, 'the status')
    asking.join()
    check(world.tells('ends, and leaves 1 connections, '), 'the log does not tell what is left')
    world.note = f'it ended after {time.monotonic() - begun:.1f} seconds. '
