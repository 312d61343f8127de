"""Lists that several hosts have: what operators give and ask, and what is refused."""

import functools
import os
import pathlib
import re
import shutil
import signal
import subprocess
import sys
import time

from . import servers
from .machines import are_at_rest, are_the_same, machines
from .world import HOST, MEMBERS, TOP, begins, check, same, until

sys.path.insert(0, str(TOP / 'agent'))
from ezmlm_agent import status as standings  # noqa: E402
# What --give says meanwhile if it takes longer than ten seconds, as it does on a slow machine.
UNANSWERED = 'ezmlm-agent: the items are in the history of cats, and no host has answered them yet'


def case_shared_given(world):
    """--give: items of operators go to each copy, count once by their numbers, and are answered as the program answers them."""
    with machines(world, 2) as (those, hosts):
        for each in hosts:
            each.begin()
        one, two = hosts
        given = b'A1:0,1:1,4:list,5:d@e.f,R4:1000,1:1,4:list,7:a@m.net,F1:7,1:1,3:513,T1:5,10:1000000000,'
        same(one.command('--give', 'cats', given=given), (0, '0 0 subscribed\n1000 0 unsubscribed\n7 0 floored 513\n5 0 timed 0\n'), 'at first')
        same(two.command('--give', 'cats', given=given),
             (0, '0 0 already\n1000 0 unsubscribed\n7 0 floored 513\n5 0 timed 0\n'), 'again on another host')
        same(two.command('--give', 'cats', given=b'A1:0,1:1,3:mod,5:d@e.f,x'), (65, '0 0 subscribed\n- 65 bad 23\n'), 'a bad stream')
        same(two.command('--give', 'cats', given=b'A1:0,1:1,3:mod'), (65, '- 65 short 9\n'), 'a short stream')
        status, said = two.command('--give', 'dogs', given=given)
        check(status == 75 and 'dogs has no history' in said, said)
        numbers = range(600_000_000_000, 600_000_000_300)
        many = b''.join(b'A%d:%d,1:1,5:allow,%d:m%d@x.y,' % (len(str(n)), n, len(f'm{n}@x.y'), n) for n in numbers)
        status, said = one.command('--give', 'cats', given=many)
        answers = [line for line in said.splitlines() if line != UNANSWERED]
        same((status, answers), (0, [f'{n} 0 subscribed' for n in numbers]), 'many')
        same(one.post(1), '250 2.0.0 posted 1', 'a post')
        check(until(lambda: len(world.sink.copies) == 3) and are_at_rest(hosts) and are_the_same(hosts), 'the copies differ')
        same(sorted(world.sink.recipients()), ['b@m.net', 'c@m.net', 'd@e.f'], 'recipients')


def case_shared_configured(world):
    """--configure: a configuration is laid into each copy at one place; one that is changed by hand on one host isn't served there."""
    with machines(world, 2) as (those, hosts):
        for each in hosts:
            each.begin()
        one, two = hosts
        same(one.post(1), '250 2.0.0 posted 1', 'a post')
        check(are_the_same(hosts), 'the copies differ')
        was = (one.folder() / 'config').read_bytes()
        refused = was.replace(b'U\n', b'u\n', 1)
        file = world.place / 'config'
        rows = [(was + b'x', 'is no configuration'), (was.replace(b'local cats', b'local dogs'), 'of another list'),
                (was.replace(b'DF', b'Df', 1), 'check would say'), (was.replace(b'owner owner@m.net', b'owner cats-x@ex.org'), 'check would say')]
        for text, wanted in rows:
            file.write_bytes(text)
            status, said = two.command('--configure', 'cats', str(file))
            check(status == 65 and wanted in said and said.count('\n') == 1, f'{text!r}: {status} {said}')
        two.end()
        for n, text in enumerate((refused, was.replace(b'max 1048576', b'max 1000'), refused), 2):
            file.write_bytes(text)
            same(one.command('--configure', 'cats', str(file))[0], 0, 'a configuration')
            begins(one.post(n), '550' if text == refused else '250', 'a post of a stranger')
        two.begin()
        check(are_the_same(hosts), 'the copies differ')
        same((two.folder() / 'config').read_bytes(), refused, 'the configuration')
        (two.folder() / 'config').write_bytes(was)
        check(until(lambda: (two.post(7) or '').startswith('451')), 'a post where the configuration was changed by hand')
        check(two.says('its configuration was changed by hand on this host'), 'nothing is said')
        same((two.place / 'state/cats.config').read_bytes(), refused, 'the one that all have')
        begins(one.post(8), '550', 'a post on the other host')
        (two.folder() / 'config').write_bytes(refused)
        begins(two.post(9), '550', 'a post')
        (two.folder() / 'key').write_bytes(bytes(range(32)))
        check(until(lambda: (two.post(10) or '').startswith('451')), 'a post where the key was changed by hand')
        check(two.says('its key was changed by hand on this host'), 'nothing is said')
        shutil.copy(one.folder() / 'key', two.folder() / 'key')
        begins(two.post(11), '550', 'a post')
        check(are_the_same(hosts), 'the copies differ')


def status_says(host, level, *wanted):
    """Waits until --status of cats ends with this status and says all of this, and answers its lines."""
    said = []

    def holds():
        said.append(host.command('--status', 'cats'))
        return said[-1][0] == level and all(word in said[-1][1] for word in wanted)
    check(until(holds), f'{wanted}: {said[-1:]}')
    return said[-1][1].splitlines()


def case_shared_status(world):
    """--status tells where each host stands, who hands on, and what waits, with the status of a monitor's plugin; --forget-host forgets one."""
    with machines(world) as (those, hosts):
        one, two, three = hosts
        status, said = one.command('--status')
        check(status == 2 and said.startswith('EZMLM-AGENT CRITICAL - ') and 'can\'t be reached' in said, said)
        for each in hosts:
            each.begin()
        same(one.post(1), '250 2.0.0 posted 1', 'a post')
        says = functools.partial(status_says, one)
        lines = says(0, 'EZMLM-AGENT OK - 1 list', 'cats: queue 0, ', ' hands on', 'cats: one at item 514, has all', 'cats: two at item 514, has all',
                     'cats: three at item 514, has all, never compared')
        same(len(lines), 5, lines)
        three.end()
        says(1, 'EZMLM-AGENT WARNING - cats: three isn\'t there')
        world.sink.defer = set(MEMBERS)
        same(two.post(2), '250 2.0.0 posted 2', 'a post')
        says(1, 'cats: queue 1, the oldest for ', 'cats: three at item 514, 1 items and ')
        those.sql("UPDATE ezmlm.item SET first = first - 4000 WHERE number = 514")
        says(2, 'EZMLM-AGENT CRITICAL - cats: three is 1 items and 40')
        same(one.command('--forget-host', 'two'), (65, 'ezmlm-agent: an agent of the host two runs: end it first\n'), 'a host that runs')
        same(one.command('--forget-host', 'four'), (65, 'ezmlm-agent: no list has a copy on a host four\n'), 'a host that there is not')
        same(one.command('--forget-host', 'three'), (0, 'three is forgotten, which had 1 lists\n'), 'a host')
        says(0, 'EZMLM-AGENT OK')
        os.utime(one.folder() / 'queue/2', 2 * (time.time() - 2 * 86400,))
        says(2, 'cats: the oldest entry of the queue is ')
        status, said = one.command('--status', 'dogs')
        check(status == 2 and said.startswith('EZMLM-AGENT CRITICAL - there is no list dogs'), said)
        one.end()
        says(2, 'no agent runs here', 'two hands on')
        three.begin()
        check(until(lambda: 'cats: three at item 515, has all' in one.command('--status')[1]), 'a host that was forgotten comes back')


def case_status_rows(_):
    """What --status says of a host: how far it is behind, or ahead of what the servers have, and by how much its clock differs."""
    for host, wanted in ((standings.Host('one', 5), 'has all, never compared'),
                         (standings.Host('one', 5, behind=3, late=7), '3 items and 7 s behind, never compared'),
                         (standings.Host('one', 5, behind=-51, compared=90), '51 items ahead, compared 10 s ago'),
                         (standings.Host('one', 5, ahead=1), 'has all, never compared'),
                         (standings.Host('one', 5, ahead=40), 'has all, never compared, its clock 40 s before the server\'s'),
                         (standings.Host('one', 5, ahead=-2, is_there=False), 'has all, never compared, its clock 2 s after the server\'s, not there')):
        same(list(standings.told(standings.Standing('cats', None, 'one', [host]), 100.0))[1], f'cats: one at item 5, {wanted}', str(host))


def case_status_alone(world):
    """--status without a history tells of this host's queues, and whether the agent runs."""
    world.list()

    def said():
        done = subprocess.run([*world.words, '--status', world.settings()], capture_output=True, text=True, check=False)
        return done.returncode, done.stdout.splitlines()
    same(said(), (2, ['EZMLM-AGENT CRITICAL - no agent runs here', 'cats: queue 0']), 'before the agent')
    world.begin()
    same(said(), (0, ['EZMLM-AGENT OK - 1 list', 'cats: queue 0']), 'with the agent')
    world.sink.defer = set(MEMBERS)
    world.post()
    status, lines = said()
    check(status == 0 and lines[1].startswith('cats: queue 1, the oldest for '), lines)
    os.utime(world.folder() / 'queue/1', 2 * (time.time() - 2 * 86400,))
    status, lines = said()
    check(status == 2 and lines[0].startswith('EZMLM-AGENT CRITICAL - cats: the oldest entry of the queue is '), lines)


def case_shared_words(world):
    """Words and settings of several hosts that make no sense are refused, each by name."""
    world.list()
    rows = [({'history': 'host=x'}, 'history and host belong together'), ({'host': 'one'}, 'and there is no history'),
            ({'history': 'host=x', 'host': 'a b'}, 'host is no name'), ({'history': 'host=x', 'host': 'a', 'standby': 'some'}, 'neither quorum nor none'),
            ({'history': 'host=x', 'host': 'a', 'takeover': '1'}, 'takeover is below 2'), ({'history': 'nonsense', 'host': 'a'}, 'no connection string'),
            ({'history': 'host=x,y port=1,2,3', 'host': 'a'}, 'not as many of the one as of the other')]
    for more, wanted in rows:
        kept = dict(world.rows)
        world.rows.update(more)
        done = subprocess.run([*world.words, world.settings()], capture_output=True, text=True, check=False)
        check(done.returncode == 78 and wanted in done.stderr and done.stderr.count('\n') == 1, f'{more}: {done.returncode} {done.stderr}')
        world.rows = kept
    done = subprocess.run(['/usr/bin/python3', '-c', 'import sys; from ezmlm_agent import __main__; print("psycopg" in sys.modules)'],
                          cwd=TOP / 'agent', capture_output=True, text=True, check=False)
    same(done.stdout, 'False\n', 'whether psycopg is read without a history')
    for words, status in ((['--give', world.settings()], 2), (['--status'], 2), (['--status', 'x', 'y', 'z'], 2),
                          (['--check', '--give', world.settings(), 'cats'], 2), (['--give', world.settings(), 'cats'], 78),
                          (['--configure', world.settings(), 'cats', 'x'], 78), (['--forget-host', world.settings(), 'one'], 78)):
        done = subprocess.run([*world.words, *words], stdin=subprocess.DEVNULL, capture_output=True, text=True, check=False)
        check(done.returncode == status and 'Traceback' not in done.stderr, f'{words}: {done.returncode} {done.stderr}')


def case_shared_refused(world):
    """Servers that can't keep a history, and a history that isn't this agent's, are refused in words at the start and by --check."""
    with machines(world, 1) as (those, hosts):
        host, = hosts
        first = those.all[0]

        def refused(wanted, sql=(), undo=(), rows=None, starts=1):
            for text in sql:
                first.sql(text) if 'SYSTEM' in text or 'ROLE' in text else those.sql(text)
            kept, host.rows = host.rows, {**host.rows, **(rows or {})}
            status, said = host.command('--check')
            check(status == 1 and any(line.startswith('! ') and wanted in line for line in said.splitlines()), f'{wanted}: {said}')
            done = subprocess.run([*world.words, host.settings()], capture_output=True, text=True, check=False) if starts is not None else None
            check(done is None or done.returncode == starts and wanted in done.stderr, f'{wanted}: {done}')
            host.rows = kept
            for text in undo:
                first.sql(text) if 'SYSTEM' in text or 'ROLE' in text else those.sql(text)
        status, said = host.command('--check')
        check(status == 0 and 'has no tables yet' in said and 'on one server alone' not in said, said)
        refused('the server has no synchronous standby', rows={'standby': 'quorum'})
        refused('synchronous_commit is off', ["ALTER ROLE ezmlm SET synchronous_commit = off"], ["ALTER ROLE ezmlm RESET synchronous_commit"])
        refused('connection failed', rows={'history': 'host=127.0.0.1 port=1 dbname=x'}, starts=None)
        refused('synchronous_commit is local', ["ALTER ROLE ezmlm SET synchronous_commit = local"], ["ALTER ROLE ezmlm RESET synchronous_commit"],
                rows={'standby': 'quorum'})
        host.begin()
        same(host.post(1), '250 2.0.0 posted 1', 'a post')
        status, said = host.command('--check')
        check(status == 0 and 'on one server alone' in said and 'cats: the history has the ' in said, said)
        host.end()
        refused('the history has version 3, and this agent knows version 2: install the newer agent', ['UPDATE ezmlm.version SET number = 3'],
                ['UPDATE ezmlm.version SET number = 2'])
        refused('permission denied', ['REVOKE ALL ON ezmlm.version FROM ezmlm'], ['GRANT ALL ON ezmlm.version TO ezmlm'])
        refused('its history is the one of the list dogs@ex.org', ["UPDATE ezmlm.list SET local = 'dogs'"], ["UPDATE ezmlm.list SET local = 'cats'"],
                starts=None)
        refused('this copy wants item 514, and the history begins at item 600', ['UPDATE ezmlm.list SET first = 600, next = 700'],
                ['UPDATE ezmlm.list SET first = 512, next = 514'], starts=None)
        host.begin()
        same(host.post(2), '250 2.0.0 posted 2', 'a post')


def case_shared_one_name(world):
    """A second host of the same name ends, and says so; the first one goes on."""
    with machines(world, 2) as (those, hosts):
        one, two = hosts
        two.rows['host'] = 'one'
        one.begin()
        two.begin()
        check(two.agent.wait(60) == 1 and two.says('another agent calls itself host = one'), two.log())
        same(one.post(1), '250 2.0.0 posted 1', 'a post')
        two.end()


def case_shared_address(world):
    """A list whose history is another one's isn't served there; a host whose folder is gone puts its mail off."""
    with machines(world, 2) as (those, hosts):
        one, two = hosts
        one.begin()
        same(one.post(1), '250 2.0.0 posted 1', 'a post')
        shutil.rmtree(two.folder())
        subprocess.run([world.program, two.folder(), 'make', '--key', '1' * 64, 'birds', HOST, 'o@m.net'], check=True, stdout=subprocess.DEVNULL)
        two.begin()
        begins(two.post(2, 'birds'), '451 ', 'a post to another list')
        check(two.says('the history of cats is the one of the list cats@ex.org'), two.log())
        shutil.move(one.folder(), one.place / 'away')
        begins(one.post(3), '451 ', 'a post without a folder')
        shutil.move(one.place / 'away', one.folder())
        check(until(lambda: (one.post(3) or '').startswith('250 2.0.0 posted 2')), 'a post with it')


def case_shared_clock(world):
    """A host whose clock differs from the server's by more than a minute gives nothing, and says by how much."""
    with machines(world, 2) as (those, hosts):
        if hosts is None:
            return
        one, two = hosts
        one.begin()
        same(one.post(1), '250 2.0.0 posted 1', 'a post')
        status, said = one.command('--check')
        check(status == 0 and re.search(r"this host's clock is 0\.\d s (before|after) the server's", said), said)
        library = next(pathlib.Path('/usr/lib').glob('*/faketime/libfaketime.so.1'), None)
        if library is None:
            world.note = 'not tried with another clock, as there is no faketime'
            return
        two.begin(['env', f'LD_PRELOAD={library}', 'FAKETIME=+20d', *world.words])
        check(two.says('the clocks of this host and of the server differ by 1728'), two.log())
        begins(two.post(2), '451 ', 'a post to the host whose clock is wrong')
        status, said = two.command('--give', 'cats', given=b'A1:0,1:1,4:list,5:d@e.f,')
        same(status, 0, said)
        same(one.post(3), '250 2.0.0 posted 2', 'a post')
        check('this host hands on' not in two.log(), 'the host whose clock is wrong hands on')
        same(those.sql('SELECT max(first) < extract(epoch FROM now()) + 60 FROM ezmlm.item'), [(True,)], 'moments of items')
        two.end(signal.SIGKILL)
