"""What waits of several lists' histories at one moment goes together: what each is told, and that one that fails takes no other along."""

import asyncio
import contextlib
import threading

from .histories import histories, spell
from .world import check, same

NAMES = [f'list "{n}\\' for n in range(6)]  # with each byte that an array of names escapes


async def taken_up(past, place=512):
    from ezmlm_agent import taking
    for name in NAMES:
        await past.take_up(taking.Copy(name, (name.encode(), b'ex.org'), place, None, 1, b'config', b'key'), {}, [])
    # The copies keep no hashes here, as those of before hashes were kept.
    await past.lines.call(lambda cursor: cursor.execute('UPDATE ezmlm.list SET unhashed = 10000'))


def told(past, name, place, mails=(), sent=(), left=(), size=1 << 20, text=spell):
    """A call for what a history says to a host."""
    from ezmlm_agent import puts
    return past.proceed(puts.Wish(name, place, None, puts.Adds([(key, text(key.hex())) for key in mails], sent, left=left), 128, size))


def shown(said):
    """The numbers, the next one, and the items by their texts."""
    return said if said is None or isinstance(said, Exception) else (said.numbers, said.next, [row.text.split(b':')[0].decode() for row in said.rows])


@contextlib.contextmanager
def counted():
    """How many calls each transaction had."""
    from ezmlm_agent import lines
    made, make = [], lines.Transaction.make

    def count(transaction, connection):
        made.append(len(transaction.jobs))
        make(transaction, connection)
    lines.Transaction.make = count
    try:
        yield made
    finally:
        lines.Transaction.make = make


async def gathered(*calls):
    return [shown(said) for said in await asyncio.gather(*calls, return_exceptions=True)]


def case_history_together(world):
    """Calls for several lists are one transaction; each list's row has its own numbers, and is told its own items and copies."""
    with histories(world) as (those, pasts):
        one, two = pasts

        async def ask():
            for past in pasts:
                await taken_up(past)
            with counted() as made:
                found = await gathered(*(told(one, name, 512, [b'\0"\\' + bytes([n]), b'x'], [7] * (n == 3)) for n, name in enumerate(NAMES)),
                                       *(one.hand(name, [(3, b'"m\0', b'u\0\\v'), (4, b'', b'')]) for name in NAMES))
            # What comes first finds a connection that is free, and all else waits together.
            same(made, [1, 2 * len(NAMES) - 1], 'calls of the transactions')
            for n in range(len(NAMES)):
                keys = [f'00225c0{n} 512', '78 513']
                same(found[n], ([512, 513], 514 + (n == 3), keys + ['S3'] * (n == 3)), f'list {n}')
            found = await gathered(*(told(two, name, 512 + n % 2, [b'x'], left=[3] * (n == 1)) for n, name in enumerate(NAMES)))
            same([(numbers, len(texts)) for numbers, _, texts in found], [([513], 2 + (n == 3) - n % 2) for n in range(6)], 'to the other host')
            for n, name in enumerate(NAMES):
                same(await two.handed(name), [(3, b'"m\0', b'u\0\\v')] * (n != 1) + [(4, b'', b'')], f'copies of list {n}')
            found = await gathered(*(told(two, name, 512, size=1) for name in NAMES))
            same([len(texts) for _, _, texts in found], 6 * [1], 'items, where there is no room for a second one')
            same([row for row in those.sql('SELECT DISTINCT place, host FROM ezmlm.host ORDER BY 2, 1')], [(512, 'one'), (512, 'two')], 'places')
            await gathered(*(told(two, name, 513 + n) for n, name in enumerate(NAMES[:2])))
            same(those.sql("SELECT place FROM ezmlm.host WHERE host = 'two' ORDER BY list"), [(513,), (514,)] + 4 * [(512,)], 'places later')
        asyncio.run(ask())


def case_history_together_fails(world):
    """Of calls that are one transaction those that fail take no other along, and leave nothing of themselves."""
    with histories(world) as (those, pasts):
        from ezmlm_agent import servers as connections
        one, _ = pasts

        def bad(word):
            def spelled(number, moment):
                raise ZeroDivisionError
            return spelled

        async def ask():
            await taken_up(one)
            those.sql('DELETE FROM ezmlm.host WHERE list = %s', NAMES[1])
            those.sql('UPDATE ezmlm.list SET next = 510 WHERE name = %s', NAMES[2])
            those.sql('UPDATE ezmlm.list SET first = 513, next = 513 WHERE name = %s', NAMES[3])
            # A number that the table has already, as of servers that went wrong.
            those.sql("INSERT INTO ezmlm.item VALUES (%s, 513, 1, NULL, 'x', 'x')", NAMES[4])
            for words, wanted in ([b'a'], ([512], 513)), ([b'b'], ([513], 514)):
                first = told(one, 'none', 512, words)
                found = await gathered(first, *(told(one, name, 512, words) for name in NAMES))
                same([type(said) for said in found[:1] + found[2:5]], 4 * [connections.Unfit], f'lists that can\'t go on: {found}')
                same(found[1][:2], wanted, 'the first list')
                same(found[6][:2], wanted, 'the last list')
                if words == [b'a']:
                    same(found[5][:2], wanted, 'the list before it goes wrong')
            same(type(found[5]), connections.Lost, f'what the servers refuse: {found[5]}')
            found = await gathered(told(one, 'none', 512), *(told(one, name, 512, [b'c'], text=bad if name == NAMES[0] else spell) for name in NAMES))
            same((type(found[1]), found[6][:2]), (ZeroDivisionError, ([514], 515)), 'beside what can\'t be spelled')
            same([number for number, in those.sql('SELECT next FROM ezmlm.list ORDER BY name')], [514, 512, 510, 513, 513, 515], 'the lists\' rows')
            same(those.sql('SELECT list, count(*) FROM ezmlm.item GROUP BY list ORDER BY list'),
                 [(NAMES[0], 2), (NAMES[4], 2), (NAMES[5], 3)], 'items')
        asyncio.run(ask())


def case_history_together_held(world):
    """Lists' rows that somebody holds for long hold up no other list, and their own calls are made when they are free."""
    with histories(world, takeover=30) as (those, pasts):
        one, _ = pasts
        holds, over = threading.Event(), threading.Event()

        def hold():
            with contextlib.closing(one.lines.servers.connect()) as connection, connection.transaction():
                connection.execute('SELECT FROM ezmlm.list WHERE name = ANY(%s) FOR UPDATE', (NAMES[-2:],))
                holds.set()
                over.wait(60)

        async def ask():
            await taken_up(one)
            thread = threading.Thread(target=hold)
            thread.start()
            await asyncio.to_thread(holds.wait, 20)
            calls = [asyncio.create_task(told(one, name, 512, [b'a'])) for name in (NAMES[0], *NAMES)]
            calls.insert(0, asyncio.create_task(one.give(NAMES[-1], [(0, spell('x'))])))
            await asyncio.wait(calls[1:6], timeout=25)
            same((await told(one, NAMES[0], 513, [b'b'])).numbers, [513], 'another list, all the while')
            same([call.done() for call in calls], [False] + 5 * [True] + 2 * [False], 'which calls have ended')
            over.set()
            same([said.numbers for said in await asyncio.gather(*calls[1:6])], 5 * [[512]], 'numbers of the others')
            given, *held = await asyncio.gather(calls[0], *calls[6:])
            same(sorted([each.number for each in given] + held[1].numbers) + held[0].numbers, [512, 513, 512], 'numbers of those that were held')
            await asyncio.to_thread(thread.join)
        asyncio.run(ask())
