"""A history that knows itself: servers that were set back, what an operator decides then, and tables of before."""

import asyncio
import contextlib
import os
import re
import shutil
import subprocess

import needed

from . import servers
from .histories import histories, taken_up, told, up_to
from .shared_by_hand import status_says
from .machines import are_at_rest, are_the_same, copied, machines
from .world import Skipped, begins, check, same, until

POOLER = '''[databases]
ezmlm = host={first.address} port={first.port} dbname=ezmlm user=ezmlm
[pgbouncer]
listen_addr = 127.0.0.1
listen_port = {port}
unix_socket_dir =
auth_type = any
user = postgres
pool_mode = transaction
ignore_startup_parameters = options,extra_float_digits
'''
LISTED = 'version', 'list', 'item', 'mail', 'given', 'configuration', 'handed', 'host', 'digest', 'trouble'


def saved(those):
    """What the history is, as a backup of the servers has it."""
    return {name: those.sql(f'SELECT * FROM ezmlm.{name}') for name in LISTED}


def set_back(those, backup):
    """Lays a backup into the servers, and starts them anew as whoever does so has to."""
    those.sql('TRUNCATE ' + ', '.join(f'ezmlm.{name}' for name in LISTED))
    for name, rows in backup.items():
        for row in rows:
            those.sql(f'INSERT INTO ezmlm.{name} VALUES ({", ".join(["%s"] * len(row))})', *row)
    first = those.all[those.first]
    first.kill()
    first.start()


def case_history_chain(world):
    """The hash of each item is made of the one before it and its text, whoever puts it in; a copy that was given another item is Unfit at any
    place, however long the history is."""
    with histories(world) as (those, pasts):
        from ezmlm_agent import chain
        from ezmlm_agent import servers as connections
        one, two = pasts

        async def ask():
            for past in pasts:
                await taken_up(past)
            await asyncio.gather(*(told(past, 512, [f'{n}']) for n in range(10) for past in pasts))
            await one.give('cats', [(7, lambda number, moment: b'given')])
            await one.configure('cats', b'other')
            await told(one, 512, keep=0)
            rows = those.sql('SELECT number, text, hash FROM ezmlm.item ORDER BY number')
            digest = bytes(those.sql('SELECT base FROM ezmlm.list')[0][0])
            for number, text, found in rows:
                digest = chain.after(digest, bytes(text))
                same(bytes(found), digest, f'the hash of item {number}')
            same(bytes(those.sql('SELECT head FROM ezmlm.list')[0][0]), digest, 'the last one')
            wrong = [(512, b'x'), (515, b'x'), (515, up_to(those, 516)), (rows[-1][0] + 1, b'x')]
            for place, kept in wrong:
                for call in told(two, place, ['new'], kept=kept), taken_up(two, place, kept=kept):
                    try:
                        await call
                        check(False, f'a copy with another item {place - 1} was taken')
                    except connections.Unfit as why:
                        check(f'item {place - 1} of the history of cats is another one' in str(why), why)
            same(len(those.sql('SELECT * FROM ezmlm.item')), len(rows), 'items')
        asyncio.run(ask())


def case_history_of_before(world):
    """Tables of version 1 are taken over: each item has its hash then, copies that keep none go on from where they stand, and an agent of version 1
    can put nothing in."""
    with histories(world) as (those, pasts):
        import psycopg
        from ezmlm_agent import servers as connections
        one, two = pasts

        async def begin():
            await taken_up(one)
            await told(one, 512, ['a', 'b'])
        asyncio.run(begin())
        for text in ('ALTER TABLE ezmlm.list DROP head, DROP base, DROP unhashed, DROP epoch', 'ALTER TABLE ezmlm.item DROP hash',
                     'ALTER TABLE ezmlm.host DROP ahead, DROP server', 'ALTER TABLE ezmlm.digest DROP hash', 'DROP TABLE ezmlm.trouble',
                     'UPDATE ezmlm.version SET number = 1'):
            those.sql(text)
        with two.lines.servers.connect() as connection:
            two.prepare(connection)
        same(those.sql('SELECT number FROM ezmlm.version'), [(2,)], 'the version')
        same(those.sql('SELECT i.number, i.hash = sha256(coalesce(b.hash, l.base) || i.text) FROM ezmlm.item i JOIN ezmlm.list l ON l.name = i.list '
                       'LEFT JOIN ezmlm.item b ON b.number = i.number - 1 ORDER BY i.number'), [(512, True), (513, True)], 'hashes')
        try:
            those.sql("INSERT INTO ezmlm.item (list, number, first, text) VALUES ('cats', 514, 0, 'x')")
            check(False, 'an item without a hash is taken')
        except psycopg.errors.NotNullViolation:
            pass

        async def go_on():
            same(await taken_up(two, 513), up_to(those, 513), 'the hash that a copy of before keeps')
            same(await told(one, 514, ['c']), ([514], 515, ['c 514']), 'one that comes')
            try:
                await taken_up(two, 515)
                check(False, 'a copy that keeps no hash is taken')
            except connections.Unfit as why:
                check('doesn\'t tell by its file history what item 514 was' in str(why), why)
        asyncio.run(go_on())


def case_shared_set_back(world):
    """The servers are set back while one host is behind: hosts that answered more stop, however long the history gets, --give and --status say so, and
    no answered mail is missing when it goes on from the copy of one that has it."""
    with machines(world) as (those, hosts):
        for each in hosts:
            each.begin()
        same(hosts[0].post(1), '250 2.0.0 posted 1', 'a post')
        check(are_at_rest(hosts) and are_the_same(hosts), 'the copies differ')
        grows_after_a_set_back(those, *hosts)
        goes_on_from_the_first(*hosts)
        takes_a_copy(world, *hosts)


def grows_after_a_set_back(those, one, two, three):
    """The history is an old one, and grows past what two hosts have answered by the host that was behind."""
    three.end()
    backup = saved(those)
    for n in range(2, 8):
        same(two.post(n), f'250 2.0.0 posted {n}', 'a post')
    check(are_at_rest([one, two]) and are_the_same([one, two]), 'the copies differ')
    set_back(those, backup)
    three.begin()
    check(until(lambda: (three.post(20) or '').startswith('250')), 'a post to the host that was behind')
    refused = one.says('cats: it can\'t go by its history') and two.says('cats: it can\'t go by its history')
    check(refused, 'the others do not say so')
    for n in range(21, 50):
        begins(three.post(n), '250', 'a post that makes the history longer')
    check(until(lambda: (one.post(60) or '').startswith('451')) and until(lambda: (two.post(61) or '').startswith('451')), 'a post to the others')
    for each in one, two:  # A new start changes nothing.
        each.end()
        each.begin()
    status_says(one, 2, 'EZMLM-AGENT CRITICAL', 'is another one than this host\'s copy was given', 'cats: one can\'t go by the history')
    for given in b'A1:0,1:1,4:list,5:x@y.z,', b'A1:9,1:1,4:list,5:y@y.z,':
        status, said = three.command('--give', 'cats', given=given)
        check(status == 75 and 'can\'t go by the history' in said and 'subscribed' not in said, said)
    begins(one.post(62), '451', 'a post')
    check(until(lambda: are_at_rest([three])), 'the queue stays')


def goes_on_from_the_first(one, two, three):
    """The operator decides for the copy of the first host."""
    status, said = one.command('--go-on-from', 'cats')
    check(status == 65 and 'end it first' in said, said)
    one.end()
    status, said = one.command('--go-on-from', 'cats')
    check(status == 0 and re.search(r'epoch 2.*items? .* gone', said), said)
    one.begin()
    check(until(lambda: (one.post(70) or '').startswith('250 2.0.0 posted 8')), 'a post where the history goes on')
    check(until(lambda: (two.post(71) or '').startswith('250 2.0.0 posted 9')), 'a post to the host of the same copy')
    same(one.post(1), '250 2.0.0 posted 1', 'a post of which the key was in the backup')
    begins(one.post(5), '250 2.0.0 posted', 'one of which the key is gone, which counts twice')
    check(three.says('in epoch 2'), 'the third one does not stop')
    begins(three.post(72), '451', 'a post to the third one')


def takes_a_copy(world, one, two, three):
    """The third host gets a copy of another one."""
    copied(two.folder(), world.place / 'brought')
    status, said = three.command('--take-copy', 'cats', str(world.place / 'brought'))
    check(status == 65 and 'end it first' in said, said)
    three.end()
    status, said = three.command('--take-copy', 'cats', str(three.folder()))
    check(status == 65 and 'can\'t go by the history' in said, said)
    same(three.command('--take-copy', 'cats', str(world.place / 'brought'))[0], 0, 'a copy is taken')
    check(list((three.place / 'state').glob('cats.away-*')), 'the copy of before is gone')
    three.begin()
    check(until(lambda: (three.post(72) or '').startswith('250')), 'a post to the third one')
    check(are_at_rest([one, two, three]) and are_the_same([one, two, three]), 'the copies differ')
    for number in range(1, 8):
        check((three.folder() / f'archive/0/{number:02}').is_file(), f'post {number} is missing')


def case_shared_copied(world):
    """A copy keeps its hashes in its folder: one of an old backup goes on, one that was served by itself is refused, and so is one that keeps none."""
    with machines(world, 2) as (those, hosts):
        one, two = hosts
        for each in hosts:
            each.begin()
        same(one.post(1), '250 2.0.0 posted 1', 'a post')
        check(are_at_rest(hosts) and are_the_same(hosts), 'the copies differ')
        two.end()
        copied(two.folder(), world.place / 'old')
        same(one.post(2), '250 2.0.0 posted 2', 'a post')
        check(are_at_rest([one]), 'it did not go out')
        shutil.rmtree(two.folder())
        copied(world.place / 'old', two.folder())
        two.begin()
        check(until(lambda: (two.post(3) or '').startswith('250 2.0.0 posted 3')) and are_the_same(hosts), 'a post to the old copy')
        two.end()
        place = those.sql('SELECT next FROM ezmlm.list')[0][0]
        subprocess.run([world.program, two.folder(), 'sub', str(place), 'allow', 'x@y.z'], check=True, stdout=subprocess.DEVNULL)
        two.begin()
        check(until(lambda: (two.post(4) or '').startswith('451')), 'a post to a copy that was served by itself')
        same(one.post(5), '250 2.0.0 posted 4', 'a post')
        for n in range(6, 12):
            begins(one.post(n), '250', 'a post')
        begins(two.post(4), '451', 'a post when the history is longer')
        check(two.says('it was served by itself'), 'nothing is said')
        two.end()
        (two.folder() / 'history').unlink()
        two.begin()
        begins(two.post(4), '451', 'a post to a copy that keeps no hashes')


def case_shared_pooler(world):
    """A pooler in transaction mode is found at each start and by --check, and refused in words."""
    if lacking := needed.lacking('pgbouncer'):
        raise Skipped(lacking)
    with machines(world, 1) as (those, (host,)):
        first, (port,) = those.all[0], servers.free_ports(1)
        words = {'history': f'host=127.0.0.1 port={port} dbname=ezmlm user=ezmlm'}
        path = those.place / 'pgbouncer.ini'
        path.write_text(POOLER.format(first=first, port=port))
        for wanted, more in ('as through a pooler', ''), ('there is a pooler in transaction mode', 'ALTER ROLE ezmlm SET lock_timeout = 5000'):
            if more:
                first.sql(more)
            kept, host.rows = host.rows, {**host.rows, **words}
            with pooling(path):
                check(until(lambda wanted=wanted: wanted in host.command('--check')[1]), host.command('--check')[1])
                done = subprocess.run([*world.words, host.settings()], capture_output=True, text=True, check=False)
            check(done.returncode == 1 and wanted in done.stderr, f'{wanted}: {done}')
            host.rows = kept
        host.begin()
        same(host.post(1), '250 2.0.0 posted 1', 'a post without it')


@contextlib.contextmanager
def pooling(path):
    """A pooler with these settings."""
    changed = ['--reuid', 'postgres', '--regid', 'postgres', '--clear-groups'] if os.geteuid() == 0 else []
    with subprocess.Popen(['setpriv', *changed, '/usr/sbin/pgbouncer', '-q', path], stderr=subprocess.DEVNULL) as pooler:
        try:
            yield
        finally:
            pooler.kill()


def case_history_standbys(world):
    """A commit that waits while the standbys are taken out of the settings isn't told as one that is on two disks."""
    with histories(world, many=2, standby='quorum', takeover=10) as (those, pasts):
        from ezmlm_agent import servers as connections
        one, _ = pasts
        first = those.all[0]

        async def ask():
            await taken_up(one)
            await told(one, 512, ['a'])
            those.all[1].stop()
            call = asyncio.create_task(told(one, 512, ['b']))
            await asyncio.sleep(1)
            first.sql("ALTER SYSTEM SET synchronous_standby_names = ''")
            first.sql('SELECT pg_reload_conf()')
            for put_off in [await asyncio.gather(call, return_exceptions=True), await asyncio.gather(told(one, 512, ['c']), return_exceptions=True)]:
                check(isinstance(put_off[0], connections.Lost) and 'standby' in str(put_off[0]), put_off)
            first.sql('ALTER SYSTEM RESET synchronous_standby_names')
            first.sql('SELECT pg_reload_conf()')
            those.all[1].go_on()
            same((await told(one, 512, ['b']))[2][:2], ['a 512', 'b 513'], 'when they confirm again')
        asyncio.run(ask())


def case_shared_one_name_later(world):
    """Of two agents of one name one ends, and says so, also if the servers were away when the second one began."""
    with machines(world, 2) as (those, hosts):
        one, two = hosts
        two.rows['host'] = 'one'
        one.begin()
        same(one.post(1), '250 2.0.0 posted 1', 'a post')
        those.all[0].kill()
        two.begin()
        those.all[0].start()
        check(until(lambda: one.agent.poll() is not None or two.agent.poll() is not None), 'both go on')
        ended, other = (one, two) if one.agent.poll() is not None else (two, one)
        same(ended.agent.wait(), 1, 'the status')
        check(ended.says('another agent calls itself host = one'), ended.log())
        check(until(lambda: (other.post(2) or '').startswith('250')), 'a post to the other one')
        ended.end()
