"""Mail out: transactions, refusals, and a transfer agent that fails."""

import os
import signal
import time

from .sink import Sink, never
from .world import HOST, MEMBERS, begins, check, post, same, until

HUNDRED = [f'm{n}@m.net' for n in range(100)]
AGAIN = 'entry 1 is tried again'


def senders(members, n=1):
    return sorted(f'cats-return-{n}-{member.replace("@", "=")}@{HOST}' for member in members)


def bounces(world):
    """How many files the ledger of bounces has."""
    return len(list((world.folder() / 'bounce').glob('*')))


def is_older(world, seconds):
    """Lets the entries of the queue be older."""
    for path in (world.folder() / 'queue').iterdir():
        os.utime(path, (time.time() - seconds,) * 2)


def case_copies(world):
    """A post goes to each member once, by one transaction, under a sender that names the member, and leaves the queue."""
    world.list()
    world.begin()
    world.post()
    check(world.is_out(3), f'{len(world.sink.copies)} copies')
    same(sorted(sender for sender, _, _ in world.sink.copies), senders(MEMBERS), 'senders')
    same(world.sink.transactions, [MEMBERS], 'transactions')


def case_odd_members(world):
    """Members whom XVERP can't spell go one by one, quoted, and the others together."""
    odd = ['a,b@m.net', 'a"b@m.net', '.c@m.net', 'd..e@m.net', "f'g@m.net", 'h(i)@m.net']
    plain = ['A_b+C.d@m.net', 'x=y@m.net', 'z-@m.net']
    world.list(members=odd + plain)
    world.begin()
    world.post()
    check(world.is_out(9), f'{len(world.sink.copies)} copies')
    wanted = sorted(sender.rpartition('@')[0] for sender in senders(odd + plain))
    same(sorted(sender.rpartition('@')[0].replace('\\"', '"').strip('"') for sender, _, _ in world.sink.copies), wanted, 'senders')
    same(sorted(map(len, world.sink.transactions)), [1] * 6 + [3], 'transactions')


def case_no_xverp(world):
    """If the transfer agent takes no XVERP each copy is a transaction."""
    world.sink.takes_verp = False
    world.list()
    world.begin()
    world.post()
    check(world.is_out(3), f'{len(world.sink.copies)} copies')
    same(sorted(sender for sender, _, _ in world.sink.copies), senders(MEMBERS), 'senders')
    same(len(world.sink.transactions), 3, 'transactions')


def case_refused_recipient(world):
    """A recipient who is refused for good bounces; the others have their copies, and the entry leaves the queue."""
    world.list()
    world.sink.refuse = {'b@m.net'}
    world.begin()
    world.post()
    check(world.is_out(2), f'{len(world.sink.copies)} copies')
    same(world.sink.recipients(), ['a@m.net', 'c@m.net'], 'copies')
    same(bounces(world), 1, 'bounces')
    check(world.tells(f'<> cats-return-1-b=m.net@{HOST}: 0 bounce'), 'the log tells no bounce')


def case_many_refused(world):
    """A transfer agent that hangs up after so many refusals gets the others all the same, and each refusal is a bounce."""
    world.list(members=HUNDRED)
    world.sink.refuse, world.sink.most_errors = set(HUNDRED[::2]), 20
    world.begin()
    world.post()
    check(world.is_out(50), f'{len(world.sink.copies)} copies')
    same(world.sink.recipients(), sorted(HUNDRED[1::2]), 'copies')
    world.end()
    same(world.log().count(': 0 bounce,'), 50, 'bounces')


def case_all_refused(world):
    """If every copy is refused the entry stays for a day, and nobody bounces; after it each is a bounce. Few are tried meanwhile."""
    world.rows['batch'] = 10
    world.list(members=HUNDRED + [f'n{n}@m.net' for n in range(300)])
    world.sink.refuses_all = True
    world.begin()
    world.post()
    check(world.tells(AGAIN), 'it was not tried')
    world.end()
    same((world.queue(), bounces(world)), (1, 0), 'entries and bounces')
    # After the first hundred, what its six connections had in hand.
    check(len(world.sink.asked) <= 160 * world.log().count(AGAIN), f'{len(world.sink.asked)} were tried')
    is_older(world, 82_800)
    world.begin()
    check(world.tells(AGAIN, times=world.log().count(AGAIN) + 1), 'it was not tried again')
    world.end()
    same((world.queue(), bounces(world)), (1, 0), 'entries and bounces after 23 hours')
    is_older(world, 86_400)
    world.begin()
    check(world.is_out(0), 'it stays after a day')
    world.end()
    same(world.log().count(': 0 bounce,'), 400, 'bounces')


def case_deferred_recipient(world):
    """A recipient who is put off gets his copy later, the others theirs at once and once, and other entries go on."""
    world.list()
    world.sink.defer = {'b@m.net'}
    world.begin()
    world.post()
    check(until(lambda: len(world.sink.copies) == 2), 'the others have no copy')
    world.mail('a@m.net', [f'cats-help@{HOST}'], post(2))
    check(until(lambda: len(world.sink.copies) == 3 and world.queue() == 1), 'the other entry waits')
    world.sink.defer = set()
    check(world.is_out(4), f'{world.sink.recipients()}')
    same(world.sink.recipients(), ['a@m.net', 'a@m.net', 'b@m.net', 'c@m.net'], 'copies')
    same(bounces(world), 0, 'bounces')


def case_deferred_for_long(world):
    """A recipient who is put off for as long as numbers are kept bounces."""
    world.list()
    world.sink.defer = {'b@m.net'}
    world.begin()
    world.post()
    check(until(lambda: len(world.sink.copies) == 2), 'the others have no copy')
    world.end()
    is_older(world, 15 * 86_400)
    world.begin()
    check(world.is_out(2), 'it stays')
    same(bounces(world), 1, 'bounces')


def case_no_transfer_agent(world):
    """While there is no transfer agent mail is taken all the same, and goes out when it is there."""
    world.list()
    world.sink.stop()
    (world.place / 'sink').unlink(missing_ok=True)
    world.begin()
    same(world.post(), '250 2.0.0 posted 1', 'a post')
    check(world.tells('nothing is handed on'), 'the log tells nothing')
    world.sink = Sink(str(world.place / 'sink'))
    check(world.is_out(3), f'{len(world.sink.copies)} copies')
    same(bounces(world), 0, 'bounces')


def case_hang_up(world):
    """A transfer agent that hangs up in the middle gets the entry again, and no member bounces."""
    world.list()
    world.sink.hang_up = 2
    world.begin()
    world.post()
    check(world.is_out(3), f'{len(world.sink.copies)} copies')
    same(bounces(world), 0, 'bounces')


def case_slow_list(world):
    """A list whose transactions take their time, on each connection that it may have, doesn't hold up another."""
    world.rows['batch'] = 1
    world.list(members=HUNDRED)
    world.list('dogs')
    world.sink.holds = lambda recipients: recipients[0] in HUNDRED
    world.begin()
    world.post()
    check(until(lambda: world.sink.waiting == 6), 'not all connections of a list are used')
    world.post(1, to='dogs')
    check(until(lambda: world.queue('dogs') == 0 and len(world.sink.copies) >= 9), 'the other list waits')
    same((world.queue('cats'), world.sink.waiting), (1, 6), 'entries and transactions of the slow list')
    world.sink.holds = never
    check(world.is_out(103), f'{len(world.sink.copies)} copies')


def case_terminated(world):
    """SIGTERM: mail in hand is answered, what is handed on is noted, nothing is doubled, nothing is lost."""
    members = [f'm{n}@m.net' for n in range(1000)]
    world.rows['batch'] = 20
    world.list(members=members)
    world.sink.holds = lambda _: world.sink.answered >= 10
    world.begin()
    world.post()
    check(until(lambda: world.sink.waiting == 6), 'nothing goes out')
    world.agent.send_signal(signal.SIGTERM)
    check(world.tells('stops'), 'it doesn\'t stop')
    world.sink.holds = never
    same(world.end(), 0, 'the status')
    same((world.queue(), world.sink.answered), (1, 16), 'entries, and transactions that were in hand')
    world.begin()
    check(world.is_out(1000), f'{len(world.sink.copies)} copies')
    same(world.sink.recipients(), sorted(members), 'copies')


def case_killed_in_the_middle(world):
    """SIGKILL while copies go out doubles at most one transaction for each connection, and loses none."""
    members = [f'm{n}@m.net' for n in range(1000)]
    world.rows.update(batch=10, connections=4)
    world.list(members=members)
    world.sink.holds = lambda _: True
    world.begin()
    world.post()
    for most in (10, 30, 50):
        world.sink.holds = lambda _, most=most: world.sink.answered >= most
        check(until(lambda most=most: world.sink.answered >= most and world.sink.waiting == 2), 'nothing goes out')
        world.end(signal.SIGKILL)
        check(until(lambda: world.sink.waiting == 0), 'a transaction goes on')
        world.begin()
    world.sink.holds = never
    check(until(lambda: world.queue() == 0), 'the entry stays')
    same(set(world.sink.recipients()), set(members), 'copies')
    doubled = len(world.sink.copies) - 1000
    check(0 < doubled <= 3 * 4 * 10, f'{doubled} copies twice')
    world.note = f'{doubled} twice after 3 kills'


def case_little_memory_out(world):
    """If not all entries have room in memory at once they go out one after the other, also one that is larger than all of it."""
    world.list(words=['--max', '16777216'])
    world.sink.stop()
    world.rows['memory'] = 8
    world.begin()
    for n, size in enumerate((600, 700, 1200, 900)):
        same(world.post(n, body=('x' * 99 + '\n') * 10 * size), f'250 2.0.0 posted {n + 1}', 'a post')
    world.end()
    world.rows['memory'] = 1
    (world.place / 'sink').unlink(missing_ok=True)
    world.sink = Sink(str(world.place / 'sink'))
    world.sink.holds = lambda _: True
    world.begin()
    same(world.post(5), '250 2.0.0 posted 5', 'a small post')
    check(until(lambda: world.sink.waiting), 'nothing is handed on')
    world.sink.holds = never
    check(world.is_out(15), f'{len(world.sink.copies)} copies')
    check(world.sink.most_waiting <= 2, f'{world.sink.most_waiting} were handed on at once')  # a large one and the small one


def case_damaged_entry(world):
    """An entry that is none stays, and the others go out."""
    world.list()
    world.sink.defer = set(MEMBERS)
    world.begin()
    world.post()
    check(world.tells('Later'), 'it was not tried')
    world.end()
    (world.folder() / 'queue/1').write_bytes(b'9:cats')
    (world.folder() / 'queue/7').write_bytes(b'1:a,-4:,')
    (world.folder() / 'queue/notes').write_bytes(b'a file of somebody else')
    world.sink.defer = set()
    world.begin()
    begins(world.post(2), '250', 'a post')
    check(until(lambda: len(world.sink.copies) == 3 and not (world.folder() / 'queue/2').exists()), 'the other entry stays')
    check((world.folder() / 'queue/1').exists(), 'the damaged entry was reported')
