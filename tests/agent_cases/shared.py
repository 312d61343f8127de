"""Lists that several hosts have: mail in and out, and what is killed, cut off, behind or damaged."""

import shutil
import signal
import threading
import time

from .machines import are_at_rest, are_the_same, copied, leader, machines
from .world import HASTY, IS_UNPROVED, MEMBERS, begins, check, same, until


def case_shared(world):
    """Three hosts with one history: what comes to any of them is posted once on each, in one order, and goes out once."""
    with machines(world) as (those, hosts):
        for each in hosts:
            each.begin()
        for n in range(1, 10):
            same(hosts[n % 3].post(n), f'250 2.0.0 posted {n}', 'a post')
        for each in hosts:
            same(each.post(1), '250 2.0.0 posted 1', 'the first one again')
        check(until(lambda: len(world.sink.copies) == 27), f'{len(world.sink.copies)} copies')
        check(are_at_rest(hosts), 'the queue stays')
        check(are_the_same(hosts), 'the copies differ')
        same(sum('this host hands on' in each.log() for each in hosts), 1, 'hosts that hand on')
        for each in hosts:
            same(each.end(), 0, 'the status')


def case_shared_takes_over(world):
    """The host that hands on is killed, or stands still for longer than the others wait: another one takes over, and no copy is lost."""
    with machines(world, 2) as (those, hosts):
        for each in hosts:
            each.begin()
        same(hosts[0].post(1), '250 2.0.0 posted 1', 'a post')
        check(until(lambda: len(world.sink.copies) == 3), 'it did not go out')
        for n, number in enumerate((signal.SIGKILL, signal.SIGSTOP), 2):
            check(are_at_rest(hosts), 'the queue stays')
            first = leader(hosts)
            other = hosts[first is hosts[0]]
            before = other.log().count('this host hands on')
            first.agent.send_signal(number)
            same(other.post(n), f'250 2.0.0 posted {n}', 'a post')
            check(until(lambda n=n: len({copy[1:] for copy in world.sink.copies}) == 3 * n), 'it did not go out')
            check(other.log().count('this host hands on') > before, 'the other one did not begin to hand on')
            if number == signal.SIGSTOP:
                first.agent.send_signal(signal.SIGCONT)
            else:
                first.agent.wait()
                first.begin()
            same(first.post(n), f'250 2.0.0 posted {n}', 'the same')
        same(len({copy[1:] for copy in world.sink.copies}), 9, 'copies')
        world.note = f'{len(world.sink.copies) - 9} copies twice'
        check(are_the_same(hosts), 'the copies differ')


def case_shared_behind(world):
    """A host that takes over, and whose copy is behind, hands nothing on that was before: it first gives its list what the history has."""
    with machines(world, 2) as (those, hosts):
        one, two = hosts
        world.sink.defer = set(MEMBERS)
        for each in hosts:
            each.begin()
        same(one.post(1), '250 2.0.0 posted 1', 'a post')
        check(until(lambda: all(list(each.folder().glob('queue/1')) for each in hosts)), 'the entry is not there')
        two.end(signal.SIGKILL)
        times = 200 if IS_UNPROVED else 2000
        same(one.command('--give', 'cats', given=b'A1:0,1:1,4:list,5:a@b.c,R1:0,1:1,4:list,5:a@b.c,' * times)[0], 0, 'many items')
        world.sink.defer = set()
        same(one.post(2), '250 2.0.0 posted 2', 'a post')
        check(until(lambda: len(world.sink.copies) == 6) and are_at_rest([one]), 'it did not go out')
        one.end()
        check(list(two.folder().glob('queue/1')), 'the entry of the copy is gone')
        two.begin()
        check(until(lambda: two.post(3) == '250 2.0.0 posted 3'), 'no post')
        check(until(lambda: len(world.sink.copies) >= 9) and are_at_rest([two]), 'it did not go out')
        same(len(world.sink.copies), 9, 'copies')
        one.begin()
        check(are_the_same(hosts), 'the copies differ')


def case_shared_servers(world):
    """Three servers: while the first one is gone mail waits, and when another takes its place all goes on. Nothing is lost, and nothing twice."""
    with machines(world, 2, 3, 'quorum') as (those, hosts):
        for each in hosts:
            each.begin()
        taken, put_off, stop = {}, [], threading.Event()

        def posts(at):
            n = 1000 * at
            while not stop.is_set():
                n += 1
                while not (reply := hosts[at].post(n) or '').startswith('250'):
                    put_off.append(reply)
                    time.sleep(0.1)
                taken[n] = reply
        threads = [threading.Thread(target=posts, args=[at]) for at in range(2)]
        for thread in threads:
            thread.start()
        check(until(lambda: len(taken) >= 20), 'no posts come')
        those.kill(0)
        those.promote()
        many = len(taken)
        check(until(lambda: len(taken) >= many + 20), 'no posts come any more')
        stop.set()
        for thread in threads:
            thread.join()
        same(put_off, [], 'replies to mail that had to be given again')
        same(len(set(taken.values())), len(taken), 'numbers of posts')
        check(until(lambda: len({copy[1:] for copy in world.sink.copies}) == 3 * len(taken)), 'copies are missing')
        check(are_the_same(hosts), 'the copies differ')
        same((hosts[0].folder() / 'num').read_text(), f'{len(taken)}\n', 'posts')
        world.note = f'{len(taken)} posts, {len(world.sink.copies) - 3 * len(taken)} copies twice'


def case_shared_from_alone(world):
    """A host that served its list alone goes on with a history, and back: what was posted and handed on before counts as before."""
    with machines(world, 1) as (those, hosts):
        host, = hosts
        shared = dict(host.rows)
        alone = {name: value for name, value in shared.items() if name not in ('history', 'host', 'standby', 'takeover')}
        host.rows = alone
        world.sink.defer = {'b@m.net'}
        host.begin()
        same(host.post(1), '250 2.0.0 posted 1', 'a post')
        check(until(lambda: len(world.sink.copies) == 2), 'it did not go out')
        host.end()
        world.sink.defer = set()
        host.rows = shared
        host.begin()
        same(host.post(1), '250 2.0.0 posted 1', 'the same')
        same(host.post(2), '250 2.0.0 posted 2', 'another one')
        check(until(lambda: len(world.sink.copies) >= 6) and are_at_rest(hosts), 'they did not go out')
        same(sorted(world.sink.recipients()), sorted(2 * MEMBERS), 'recipients')
        same(those.sql('SELECT min(number), count(*) FROM ezmlm.item WHERE get_byte(text, 0) = 68'), [(513, 1)], 'mails of the history')
        host.end()
        host.rows = alone
        host.begin()
        same(host.post(1), '250 2.0.0 posted 1', 'the first one once more')
        same(host.post(3), '250 2.0.0 posted 3', 'a third one')
        check(until(lambda: len(world.sink.copies) >= 9) and are_at_rest(hosts), 'it did not go out')
        same(len(world.sink.copies), 9, 'copies')


def case_shared_compared(world):
    """After each timed run the copies are compared. A host whose copy is another one than the others' isn't served, and says so."""
    with machines(world) as (those, hosts):
        for each in hosts:
            each.begin(words=HASTY)
        one, two, three = hosts
        for n in range(1, 4):
            same(three.post(n), f'250 2.0.0 posted {n}', 'a post')

        def seen():
            return those.sql('SELECT place, count(*), count(DISTINCT digest) FROM ezmlm.digest GROUP BY place ORDER BY place DESC LIMIT 5')
        check(until(lambda: any(many == 3 and different == 1 for _, many, different in seen())), f'{seen()}')
        same(len([row for row in seen() if row[2] != 1]), 0, 'differences')
        path = three.folder() / 'archive/0/02'
        path.write_bytes(path.read_bytes().replace(b'hello', b'hullo'))
        check(three.says('this copy differs from the one of one and two'), 'the difference is not told')
        check(until(lambda: (three.post(4) or '').startswith('451 ')), 'a post to the host that differs')
        same(one.post(4), '250 2.0.0 posted 4', 'a post')
        same(two.post(5), '250 2.0.0 posted 5', 'a post')
        check('this copy differs' not in one.log() + two.log(), 'the others say so too')
        three.end()
        three.begin(words=HASTY)
        begins(three.post(6), '451 ', 'a post after a new start')
        three.end()
        shutil.rmtree(three.folder())
        copied(two.folder(), three.folder())
        three.begin(words=HASTY)
        check(until(lambda: (three.post(6) or '').startswith('250 2.0.0 posted 6')), 'a post after the repair')
        check(until(lambda: any(many == 3 and different == 1 for _, many, different in seen()[:1])), f'{seen()}')
        for each in hosts:
            each.end()
        check(len(set(copy[1:] for copy in world.sink.copies)) == 18, 'copies are missing')
