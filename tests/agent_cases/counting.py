"""How many answers an address gets in an hour: who is counted, what isn't, and what becomes of mail beyond that."""

import asyncio
import sys
import time
import tracemalloc
import types

from .backscatter import COOKIE, PolicyClient
from .world import HOST, TOP, begins, check, post, same

sys.path.insert(0, str(TOP / 'agent'))
from ezmlm_agent import lists, replies  # noqa: E402

OFTEN = '450 4.7.1 This sender has asked'
DROPPED = ['250 2.0.0 dropped']


def ask(world, sender, local, n=1):
    return world.mail(sender, [f'{local}@{HOST}'], post(n))


def case_replies(world):
    """A sender gets so many answers in an hour, over all lists and recipients; posts, confirmations and what isn't answered don't count. Mail
    beyond that is taken and dropped, so that none waits with the transfer agent."""
    world.rows['replies'] = 5
    world.list(words=['-P'])
    world.list('dogs')
    world.begin()
    for n in range(3):
        same(ask(world, 'f@m.net', 'dogs-help', n), ['250 2.0.0 help'], 'help')
    # What is refused and what is weeded sends nothing.
    for n in range(10):
        begins(ask(world, 'f@m.net', 'cats-subscribe', n)[0], '550 5.7.2 Nobody joins this list by mail', 'a list that is not open')
        same(world.mail('f@m.net', [f'dogs-help@{HOST}'], b'Auto-Submitted: auto-replied\n' + post(n)), ['250 2.0.0 weeded automatic'], 'weeded')
    said = world.mail('F@m.net', [f'dogs-get.{n}@{HOST}' for n in range(1, 10)], post(5))
    same((len(said), [reply[:3] for reply in said[:2]], said[2:]), (9, ['250'] * 2, DROPPED * 7), 'nine requests in one mail')
    check(world.tells(f'dogs - F@m.net dogs-get.9@{HOST}: dropped: its sender has asked for too many answers'), 'the log does not tell it')
    same(ask(world, 'f@m.net', 'cats-help', 6), DROPPED, 'another list')
    same(ask(world, 'g@m.net', 'dogs-help', 7), ['250 2.0.0 help'], 'another sender')
    same(world.mail('f@m.net', [f'dogs@{HOST}', f'dogs-owner@{HOST}'], post(8, to='dogs')), ['250 2.0.0 posted 1', '250 2.0.0 owner'], 'a post')
    begins(ask(world, 'f@m.net', f'dogs-sc.1.{COOKIE}-f=m.net', 9)[0], '550 5.7.1 The letters', 'a confirmation')
    world.end()
    world.rows['replies'] = 0
    world.begin()
    for n in range(30):
        same(ask(world, 'f@m.net', 'dogs-help', n + 100), ['250 2.0.0 help'], 'without a limit')


def case_replies_by_policy(world):
    """Who has had so many answers is told by the policy service, before his mail is taken; whoever is asked about only isn't counted."""
    world.rows.update(replies=5, policy=world.place / 'policy')
    world.list(words=['-P'])
    world.list('dogs')
    world.begin()
    client = PolicyClient(world.place / 'policy')
    for _ in range(20):
        same(client.ask('f@m.net', f'cats-help@{HOST}'), 'DUNNO', 'before any')
    for n in range(5):
        same(ask(world, 'f@m.net', 'cats-help', n), ['250 2.0.0 help'], 'help')
    begins(client.ask('F@m.net', f'cats-help@{HOST}'), OFTEN, 'after five')
    check(world.tells(f'cats - F@m.net cats-help@{HOST}: refused by policy: often'), 'the log does not tell it')
    begins(client.ask('f@m.net', f'dogs-get.1@{HOST}'), OFTEN, 'another request')
    begins(client.ask('f@m.net', f'cats-subscribe@{HOST}'), '550 5.7.2 Nobody joins', 'what the list refuses')
    for rest in ('', '-owner', '-unsubscribe'):
        same(client.ask('f@m.net', f'cats{rest}@{HOST}'), 'DUNNO', f'cats{rest}')
    same(client.ask('g@m.net', f'cats-help@{HOST}'), 'DUNNO', 'another sender')
    client.close()


def case_replies_forged(world):
    """Forged requests keep nobody from unsubscribing, and of those to unsubscribe each member gets three letters an hour from a list; who is no
    member gets no more than of other answers. Who is named in a request is counted, whoever sends it."""
    world.rows['replies'] = 5
    for name in ('cats', 'dogs'):
        world.list(name, members=['v@m.net'])
    world.list('birds', members=['x@m.net'])
    world.begin()
    said = [ask(world, 'v@m.net', 'cats-help', n) for n in range(180)]
    same(said, [['250 2.0.0 help']] * 5 + [DROPPED] * 175, '180 forged requests')
    said = [ask(world, 'v@m.net', 'birds-unsubscribe', n) for n in range(20)]
    same(said, [['250 2.0.0 absent']] * 3 + [DROPPED] * 17, 'to leave a list of which he is no member')
    for name in ('cats', 'dogs'):
        said = [ask(world, 'V@m.net', f'{name}-unsubscribe', n) for n in range(20)]
        same(said, [['250 2.0.0 asked']] * 3 + [DROPPED] * 17, f'to leave {name}')
    same([ask(world, f's{n}@m.net', 'dogs-unsubscribe-v=m.net', n) for n in range(20)], [DROPPED] * 20, 'in the names of others')
    said = [ask(world, f's{n}@m.net', 'dogs-subscribe-w=m.net', n) for n in range(20)]
    same(said, [['250 2.0.0 asked']] * 5 + [DROPPED] * 15, 'to have somebody else join')


def named(name, rest):
    """A list that is no more than a folder, for counts alone."""
    return lists.Named(types.SimpleNamespace(folder=name), rest)


def case_replies_memory(world):
    """However many senders there are, of a thousand bytes each, and however many answers each has had, their counts have one bound of bytes."""
    del world
    bound, replies.MEMORY = replies.MEMORY, 2 << 20
    try:
        for most, senders, each in (20, 10_000, 2), (100_000, 40, 20_000):
            counts = replies.Replies(most).counts
            tracemalloc.start()
            for n in range(senders):
                key = counts.key(b'%d' % n + b'x' * 990 + b'@m.net')
                for _ in range(each):
                    counts.add(key)
            taken = tracemalloc.get_traced_memory()[0]
            tracemalloc.stop()
            check(1 << 20 < taken < 3 << 20, f'{senders} senders, {each} answers: {taken >> 10} KiB')
            same((counts.many(key), counts.many(counts.key(b'0' + b'x' * 990 + b'@m.net'))), (each, 0), 'the last sender and the first')
    finally:
        replies.MEMORY = bound
        tracemalloc.stop()


def case_replies_hour(world):
    """An answer counts for an hour, and one that wasn't given doesn't."""
    del world
    counted = replies.Replies(2)
    to = lists.Named(types.SimpleNamespace(folder='cats'), b'help')

    def take(sender=b'f@m.net'):
        return asyncio.run(counted.take(to, sender))
    now, replies.time = [7200.0], types.SimpleNamespace(monotonic=lambda: now[0])
    try:
        kept = [take(), take()]
        same(take(), None, 'a third one')
        counted.give_back(kept[1])
        check(take() is not None and take() is None, 'one that was given back')
        now[0] += 3599
        same(take(), None, 'a second before the hour is over')
        now[0] += 1
        check(take() is not None and take() is not None and take() is None, 'after the hour')
        same((take(b''), counted.counts.many(counted.counts.key(b''))), ((), 0), 'the empty sender')
    finally:
        replies.time = time
