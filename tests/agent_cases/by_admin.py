"""ezmlm-admin on a list that several hosts have: what it changes goes through the history, or is refused."""

import os
import subprocess

from .machines import are_at_rest, are_the_same, machines
from .world import MEMBERS, TOP, begins, check, same, until


def admin(host, *words, conf=True):
    """The status of ezmlm-admin on a host, and what it says."""
    settings = ['--agent', str(host.settings())] if conf else []
    done = subprocess.run(['/usr/bin/python3', '-P', '-m', 'ezmlm_admin', '--program', str(host.world.program), *settings, str(host.folder()), *words],
                          stdout=subprocess.PIPE, stderr=subprocess.STDOUT, check=False,
                          env={**os.environ, 'PYTHONPATH': f'{TOP / "agent"}:{TOP / "admin"}'})
    return done.returncode, done.stdout.decode()


def case_shared_by_admin(world):
    """accept, reject and options of ezmlm-admin change each copy, rebuild is refused, and so is all of it without the agent's settings."""
    with machines(world, 2) as (those, hosts):
        one, two = hosts
        for each in hosts:
            each.begin()
        same(one.command('--give', 'cats', given=b'A1:0,1:1,3:mod,7:b@m.net,')[0], 0, 'a moderator')
        check(are_the_same(hosts), 'the copies differ')
        status, said = admin(one, 'options', '-dmU')
        check(status == 0 and 'm: now posts are moderated' in said, said)
        begins(two.post(1), '250 2.0.0 held', 'a post')
        check(are_at_rest(hosts) and are_the_same(hosts), 'the copies differ')
        begins(two.post(2), '250 2.0.0 held', 'another one')
        tickets = sorted(int(path.name) for path in (two.folder() / 'pending').rglob('*') if path.is_file() and path.name.isdecimal())
        check(until(lambda: admin(two, 'held')[0] == 0), 'held')
        before = len(world.sink.copies)
        status, said = admin(one, 'accept', '1', conf=False)
        check(status == 100 and 'other hosts have this list too' in said and '--agent' in said, said)
        status, said = admin(one, 'accept', '1')
        check(status == 0 and 'posted' in said, f'{status} {said} {tickets}')
        check(until(lambda: len(world.sink.copies) >= before + len(MEMBERS)), 'the post does not go out')
        status, said = admin(two, 'reject', '2')
        same(status, 0, said)
        check(are_at_rest(hosts) and are_the_same(hosts), 'the copies differ')
        status, said = admin(two, 'rebuild')
        check(status == 100 and 'other hosts have this list too' in said, said)
        begins(one.post(3), '250', 'a post')
        begins(two.post(4), '250', 'a post')
