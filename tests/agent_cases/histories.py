"""The history of lists in PostgreSQL, asked as each host asks it: numbers, keys, places, and what is forgotten."""

import asyncio
import contextlib
import os
import sys
import time

from . import servers
from .world import IS_UNPROVED, TOP, Skipped, check, post, same

sys.path.insert(0, str(TOP / 'agent'))
DAY = 86400
ADDRESS = b'cats', b'ex.org'


def spell(word):
    """An item of a word, which tells its number."""
    return lambda number, moment: b'%b %d' % (word.encode(), number)


@contextlib.contextmanager
def histories(world, hosts=('one', 'two'), many=1, standby='none', takeover=5):
    """A history for each host over servers of their own. Without PostgreSQL the case is skipped."""
    if (lacking := servers.lacking()) is not None:
        raise Skipped(lacking)
    from ezmlm_agent import history, lines
    from ezmlm_agent import servers as connections
    with servers.Servers(many=many) as those:
        found = [history.History(lines.Lines(connections.Servers(those.string(), host, standby, takeover))) for host in hosts]
        with contextlib.closing(found[0].lines.servers.connect()) as connection:
            found[0].prepare(connection)
        try:
            yield those, found
        finally:
            for each in found:
                each.lines.close()


async def taken_up(past, place=512, floor=1, address=ADDRESS, config=b'config', key=b'key', known=(), handed=(), kept=None):
    from ezmlm_agent import taking
    return await past.take_up(taking.Copy('cats', address, place, kept, floor, config, key), dict(known), handed)


def up_to(those, place):
    """The hash of the history before a place, as the servers have it."""
    rows = those.sql('SELECT hash FROM ezmlm.item WHERE number = %s', place - 1) or those.sql('SELECT base FROM ezmlm.list')
    return bytes(rows[0][0])


def hash_up_to(cursor, place):
    cursor.execute('SELECT coalesce((SELECT hash FROM ezmlm.item WHERE list = %s AND number = %s), '
                   '(SELECT base FROM ezmlm.list WHERE name = %s))', ('cats', place - 1, 'cats'))
    return cursor.fetchone()[0]


async def told(past, place, mails=(), sent=(), keep=None, given=(), left=(), most=128, size=1 << 20, kept=None):
    """What a history says: the numbers, the next one, and the items by their texts."""
    from ezmlm_agent import puts
    if kept is None:
        kept = bytes(await past.lines.call(hash_up_to, place))
    adds = puts.Adds([(key.encode(), spell(key)) for key in mails], sent, keep, [(number, spell(word)) for number, word in given], left)
    said = await past.proceed(puts.Wish('cats', place, None, adds, most, size, kept))
    return said.numbers, said.next, [row.text.split(b':')[0].decode() for row in said.rows]


# What is put in by the host at this place, and what it is told: numbers, the next number, items from its place on.
ROWS = [
    (0, 512, {'mails': ['a', 'b']}, ([512, 513], 514, ['a 512', 'b 513'])),
    (1, 512, {'mails': ['b', 'c', 'c', 'a']}, ([513, 514, 514, 512], 515, ['a 512', 'b 513', 'c 514'])),
    (1, 513, {}, ([], 515, ['b 513', 'c 514'])),
    (0, 515, {'mails': ['a']}, ([512], 515, [])),
    (0, 512, {'most': 2}, ([], 515, ['a 512', 'b 513'])),
    (0, 512, {'size': 11}, ([], 515, ['a 512', 'b 513'])),
    (0, 513, {'size': 1}, ([], 515, ['b 513'])),
    (1, 515, {'given': [(7, 'x'), (0, 'y'), (0, 'y'), (7, 'x')]}, ([515, 516, 517, 515], 518, ['x 515', 'y 516', 'y 517'])),
    (0, 518, {'given': [(7, 'x'), (8, 'z')]}, ([515, 518], 519, ['z 518'])),
    (0, 519, {'mails': ['d'], 'sent': [3, 4]}, ([519], 522, ['d 519', 'S3', 'S3'])),
]


def case_history_rows(world):
    """Numbers are a row without gaps, and a mail or an operator's item that comes again has the number that it had."""
    with histories(world) as (_, pasts):

        async def ask():
            for past in pasts:
                await taken_up(past)
            for at, (host, place, words, wanted) in enumerate(ROWS):
                same(await told(pasts[host], place, **words), wanted, f'row {at}')
        asyncio.run(ask())


def case_history_at_once(world):
    """What many hosts put in at once gets numbers in a row, each its own."""
    with histories(world, [f'host{n}' for n in range(4)], takeover=60) as (those, pasts):

        async def ask():
            for past in pasts:
                await taken_up(past)
            calls = [told(pasts[n % 4], 512, [f'{n}', f'{n // 2}x']) for n in range(40)]
            return await asyncio.gather(*calls)
        found = asyncio.run(ask())
        same(sorted({number for numbers, _, _ in found for number in numbers}), list(range(512, 572)), 'numbers')
        same([number for number, in those.sql('SELECT number FROM ezmlm.item ORDER BY number')], list(range(512, 572)), 'items')


def case_history_forgets(world):
    """What all hosts have answered and is old is removed, and the floor rises; what a host still wants stays."""
    with histories(world) as (those, pasts):
        one, two = pasts

        async def ask():
            for past in pasts:
                await taken_up(past)
            await told(one, 512, ['a', 'b', 'c'])
            those.sql("UPDATE ezmlm.item SET first = first - 100 WHERE number < 514")
            those.sql("UPDATE ezmlm.mail SET first = first - 100 WHERE number < 514")
            await told(one, 515)
            await told(two, 513)
            numbers, following, _ = await told(one, 515, keep=50)
            same((numbers, following), ([], 517), 'a timed run and the floor')
            texts = those.sql('SELECT number, text FROM ezmlm.item ORDER BY number')
            same([number for number, _ in texts], [513, 514, 515, 516], 'items that are left')
            same([bytes(text)[:1] for _, text in texts][2:], [b'T', b'F'], 'the last two')
            check(bytes(texts[3][1]).endswith(b',3:514,'), texts)
            same(await told(two, 517, ['a', 'c']), ([517, 514], 518, ['a 517']), 'one that was forgotten, and one that was not')
            await told(two, 517)
            await told(one, 517, keep=50)
            same(those.sql('SELECT min(number) FROM ezmlm.item'), [(514,)], 'the first item')
        asyncio.run(ask())


def case_history_confirmed(world):
    """Nothing is told before a second server has it on its disk, be it put in now, or read: not what another host put in either."""
    with histories(world, many=3, standby='quorum', takeover=2) as (those, pasts):
        from ezmlm_agent import servers as connections
        one, two = pasts

        async def ask():
            for past in pasts:
                await taken_up(past)
            same(await told(one, 512, ['a']), ([512], 513, ['a 512']), 'a mail')
            others = [server for server in those.all if server is not those.all[those.first]]
            for server in others:
                server.stop()
            calls = told(one, 512, ['b']), told(two, 512), one.stands('cats'), two.hand('cats', [(3, b'm', b'u')]), one.lists()
            same([type(found) for found in await asyncio.gather(*calls, return_exceptions=True)], 5 * [connections.Lost], 'while none confirms')
            for server in others:
                server.go_on()
            same(await told(two, 512, ['b']), ([513], 514, ['a 512', 'b 513']), 'when they confirm again')
        asyncio.run(ask())


def case_history_apart(world):
    """Of calls that go over one connection one that fails takes no other along, and leaves nothing of itself."""
    with histories(world) as (those, pasts):
        one, _ = pasts

        async def ask():
            await taken_up(one)

            def fails(cursor):
                cursor.execute('UPDATE ezmlm.list SET floor = 7')
                raise ZeroDivisionError

            def is_wrong(cursor):
                cursor.execute('UPDATE ezmlm.list SET floor = 8')
                cursor.execute('SELECT 1 / 0').fetchone()
            calls = [call for n in range(8) for call in (told(one, 512, [f'{n}']), one.lines.call(fails), one.lines.call(is_wrong))]
            found = await asyncio.gather(*calls, return_exceptions=True)
            same(sorted(numbers[0] for numbers, *_ in found[::3]), list(range(512, 520)), 'numbers')
            same([type(error) for error in found[1::3]], 8 * [ZeroDivisionError], 'errors of their own')
            same([str(error) for error in found[2::3]], 8 * ['division by zero'], 'errors of the server')
            same(those.sql('SELECT next, floor FROM ezmlm.list'), [(520, 1)], 'the list')
        asyncio.run(ask())


def case_history_of_a_lost_host(world):
    """A server asks a host that says nothing whether it is still there, also in the middle of a call, so that its locks go within `takeover`."""
    with histories(world) as (those, found):
        with contextlib.closing(found[0].lines.servers.connect()) as connection:
            rows = [connection.execute(f'SHOW tcp_keepalives_{name}').fetchone() for name in ('idle', 'interval', 'count')]
        idle, interval, count = (int(value) for value, in rows)
        check(0 < idle + interval * count <= 5, f'a host is asked after {idle} s, and {count} times every {interval} s')


def case_history_of_another(world):
    """A copy that can't be one of the history's list is refused in words."""
    with histories(world) as (those, pasts):
        from ezmlm_agent import servers as connections

        async def ask():
            one, two = pasts
            await taken_up(one, 600)
            await told(one, 600, ['a', 'b'])
            rows = [({'address': (b'dogs', b'ex.org'), 'place': 600}, 'the history of cats is the one of the list cats@ex.org'),
                    ({'place': 603}, 'has answered item 602, and its history goes to item 601'),
                    ({'place': 599}, 'wants item 599, and the history begins at item 600')]
            for words, wanted in rows:
                try:
                    await taken_up(two, **words)
                    check(False, f'{words} was taken')
                except connections.Unfit as why:
                    check(wanted in str(why), f'{words}: {why}')
            await taken_up(two, 601, kept=up_to(those, 601))
            await taken_up(two, 601, kept=up_to(those, 601))
            try:
                await taken_up(two, 601, key=b'other', kept=up_to(those, 601))
                check(False, 'another key was taken')
            except connections.Unfit as why:
                check('was changed by hand' in str(why), why)
            await taken_up(two, 602, key=b'other', kept=up_to(those, 602))
            those.sql('UPDATE ezmlm.list SET next = 601')
            for mails in (), ('c', 'd', 'e'):
                try:
                    await told(two, 602, mails, kept=b'x')
                    check(False, 'a history that lost items is taken')
                except connections.Unfit as why:
                    check('has answered item 601, and its history goes to item 600' in str(why), why)
            same(those.sql('SELECT count(*) FROM ezmlm.item'), [(2,)], 'items')
        asyncio.run(ask())


def case_history_known(world):
    """The mails and copies that the first host knew of its own count on; those that another one knew don't."""
    with histories(world) as (_, pasts):

        async def ask():
            one, two = pasts
            await taken_up(one, 600, known={b'a': (555, 1)}, handed=[(3, b'mark', b'x\0y')])
            await taken_up(two, 600, known={b'b': (556, 1)}, handed=[(4, b'mark', b'z')])
            same(await told(two, 600, ['a', 'b']), ([555, 600], 601, ['b 600']), 'numbers')
            same(await two.handed('cats'), [(3, b'mark', b'x\0y')], 'copies')
            await two.hand('cats', [(4, b'm', b'u'), (5, b'm', b'v')])
            same(await told(one, 600, left=[3, 4]), ([], 601, ['b 600']), 'copies are forgotten')
            same(await one.handed('cats'), [(5, b'm', b'v')], 'copies that are left')
        asyncio.run(ask())


def case_history_others(world):
    """Which hosts' copies differ: those that are fewer, or as many, at the last place at which a host's copy was looked at."""
    from ezmlm_agent import comparing
    rows = [('', 'a', [], []), ('a1x', 'a', [], []), ('a1x b1x c1x', 'a', [], []), ('a1x b1y c1y', 'a', ['b', 'c'], ['b', 'c']),
            ('a1x b1y c1y', 'b', [], []), ('a1x b1y', 'a', [], ['b']), ('a1x b1y', 'b', [], ['a']), ('a1x b1y c1z', 'a', [], ['b', 'c']),
            ('a1x b1x c1y d1y', 'a', [], ['c', 'd']), ('a1y b1x a2x b2x', 'a', [], []), ('a1x b1x a2x b2y c2y', 'a', ['b', 'c'], ['b', 'c']),
            ('a1x b2y c2y', 'a', [], []), ('b1x c1y', 'a', [], [])]
    for text, host, soon, later in rows:
        seen = [comparing.Seen(int(word[1]), word[0], 100, word[2].encode(), 0) for word in text.split()]
        same((comparing.others(seen, host, 59), comparing.others(seen, host, 60)), (soon, later), f'{text} for {host}')
    seen = [comparing.Seen(1, 'a', 100, b'x', 0), comparing.Seen(1, 'b', 200, b'y', 0)]
    same(comparing.others(seen, 'a', 60), [], 'looks at more and at fewer posts')


def case_history_digest(world):
    """Any change of a list's files changes its hash, except for the lock, the log, and posts that a look doesn't go back to."""
    from ezmlm_agent import comparing, program
    folder = world.list()
    # It makes files of each kind. Over a program that was built without proof a short one and some posts do.
    world.run('cats', 'exercise', '100' if IS_UNPROVED else '3000')
    if IS_UNPROVED:
        world.run('cats', 'spool', given=b''.join(program.item(b'D', 0, 10**9, b'w@m.net', b'cats@ex.org', post(n)) for n in range(200)))
    posts = int((folder / 'num').read_text())
    check(posts > 200, f'{posts} posts')

    def digest(back):
        return comparing.whole(folder, comparing.changing(folder, back))
    hashes = digest(10**8), digest(1)
    for path in sorted(path for path in folder.rglob('*') if path.is_file()):
        was = path.read_bytes()
        path.write_bytes(was + b'x')
        name = str(path.relative_to(folder))
        is_new = name in ('lock', 'log')
        is_old = name.startswith('archive/') and name.split('/')[1].isdigit() and int(name.split('/')[1]) < (posts - 1) // 100
        try:
            same((digest(10**8) == hashes[0], digest(1) == hashes[1]), (is_new, is_new or is_old), name)
        except ValueError:
            same(name, 'num', 'the file that is no number')
        path.write_bytes(was)
    same((digest(10**8), digest(1)), hashes, 'the same files')
    os.unlink(folder / 'archive/0/17')
    check(digest(10**8) != hashes[0], 'a post that is gone')


def case_history_answered(world):
    """Which numbers a list has answered is read from its kept replies."""
    from ezmlm_agent import folder
    path = world.list()
    for number in (512, 514, 1023, 500_000_000_000):
        world.run('cats', 'sub', str(number), 'allow', 'x@y')
    numbers = [1, 511, 512, 513, 514, 1022, 1023, 1024, 500_000_000_000, 500_000_000_001]
    same(sorted(folder.answered(path, numbers)), [512, 514, 1023, 500_000_000_000], 'answered')
