"""Runs the cases, a few at once."""

import argparse
import collections
import concurrent.futures
import functools
import os
import pathlib
import sys
import traceback

import compiled

from . import (backscatter, beside, by_admin, checking, counting, given, growing, histories, hosts, killed, looks, mail_in, mail_out, numbers,
               receivers, records, rooms, servers, set_back, set_up, shared, shared_by_hand, signatures, steady, together, trouble, watched,
               weeding)
from .world import IS_UNPROVED, TOP, Skipped, World, Wrong

AT_ONCE = 4
# What the cases leave out over a program that was built without proof.
LEFT_OUT = 'two of three steps at which the agent is killed, three of four streams that operators give, two of three mails to a busy list, mails ' \
    'of 16 MB and more, nine of ten items that a copy is behind, the hash of each kind of file, a check of queues that change meanwhile, and all ' \
    'cases of several hosts but two'
# The cases that take as long there as thirty others.
LONG_ONES = 'history_digest', 'check_beside_a_queue'
# The cases of several hosts that run there too: lists that two hosts share, and a host that takes over.
OF_HOSTS = 'shared', 'shared_takes_over'


def cases():
    """The cases by their names, the longest first."""
    found = {f'killed{part}': functools.partial(killed.case_killed, part=part) for part in range(killed.PARTS)}
    for module in (growing, shared, shared_by_hand, set_back, by_admin, histories, together, given, mail_out, beside, trouble, watched, steady, weeding,
                   backscatter, counting, hosts, checking, mail_in, numbers, set_up, receivers, records, looks, signatures, rooms):
        found.update({name.removeprefix('case_'): call for name, call in vars(module).items() if name.startswith('case_')})
    return found


def run(name, program):
    """How a case ended, and what there is to say."""
    world, how, said = World(program), 'ok', ''
    try:
        cases()[name](world)
        if world.end() or 'Traceback' in world.log():
            how, said = 'FAILED', 'the agent ended with a fault, or told one'
    except Skipped as why:
        how, said = 'skipped', str(why)
    except Wrong as why:
        how, said = 'FAILED', str(why)
    except Exception:
        how, said = 'FAILED', traceback.format_exc()
    if how == 'FAILED':
        said = '\n'.join([said, *('    ' + line for line in world.log().splitlines()[-15:])])
    elif world.note:
        said = f'{said}; {world.note}' if said else world.note
    world.close()
    return how, said


def tell(name, how, said):
    """Prints the line of a case, and below it what the agent said last if it failed."""
    case = cases()[name]
    about = getattr(case, 'func', case).__doc__
    print(f'{how:<7} {name}: {about}' + (f' {said}' if said and how == 'FAILED' else f' ({said})' if said else ''), flush=True)


def is_wanted(name):
    """Whether the case of this name runs, if none is asked for: over a program that was built without proof not each of several hosts, and no
    long one."""
    return not IS_UNPROVED or name in OF_HOSTS or not name.startswith('shared') and name not in LONG_ONES


def main():
    parser = argparse.ArgumentParser(prog='tests/agent')
    parser.add_argument('program', nargs='?', default=os.environ.get('EZMLM', TOP / 'crates/ezmlm/out/ezmlm'))
    parser.add_argument('-k', default='', metavar='WORD')
    parser.add_argument('--long', action='store_true')
    words = parser.parse_args()
    program = pathlib.Path(words.program).resolve()
    if not program.is_file() or not os.access(program, os.X_OK):
        sys.exit(f'agent: there is no program {program}: tools/install and .ci/run prove and build it, tests/quick without proof')
    if words.long:
        killed.STRIDE[0], trouble.HELD[0], beside.MANY[0] = 1, 60, 3000
    ended, names = collections.Counter(), [name for name in cases() if words.k in name and (words.k or is_wanted(name))]
    with compiled.kept(), servers.made_once(), concurrent.futures.ProcessPoolExecutor(AT_ONCE) as pool:
        runs = {pool.submit(run, name, program): name for name in names}
        for done in concurrent.futures.as_completed(runs):
            how, said = done.result()
            ended[how] += 1
            tell(runs[done], how, said)
    if IS_UNPROVED:
        print(f'skipped {LEFT_OUT}: over a program that was built without proof they take minutes')
    print(f'{ended["ok"]} passed, {ended["FAILED"]} failed, {ended["skipped"]} skipped')
    sys.exit(ended['FAILED'] > 0)


if __name__ == '__main__':
    main()
