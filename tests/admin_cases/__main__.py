"""Runs the cases, a few at once."""

import argparse
import concurrent.futures
import os
import pathlib
import sys
import traceback

import compiled

from . import asked, changed, killed, made_anew, monitored, rebuilt, rows, scrubbed, shell
from .world import IS_UNPROVED, TOP, Skipped, World, Wrong

AT_ONCE = 4
# The cases that don't run over a program that was built without proof: there they take minutes.
LONG_ONES = 'killed_with_an_index_gone', 'killed_with_all_damaged', 'killed_twice', 'files_cut', 'bytes_turned', 'bytes_turned_otherwise'
MODULES = killed, scrubbed, rebuilt, made_anew, asked, changed, monitored, rows, shell  # those that take longest first


def cases():
    """The cases by their names."""
    return {name.removeprefix('case_'): call for module in MODULES for name, call in vars(module).items() if name.startswith('case_')}


def is_wanted(name):
    """Whether the case of this name runs, if none is asked for."""
    return not IS_UNPROVED or name not in LONG_ONES


def run(name, program):
    """How a case ended, and what there is to say."""
    world = World(program)
    try:
        cases()[name](world)
        return 'ok', world.note
    except Skipped as why:
        return 'skipped', str(why)
    except Wrong as why:
        return 'FAILED', str(why)
    except Exception:
        return 'FAILED', traceback.format_exc()
    finally:
        world.close()


def main():
    parser = argparse.ArgumentParser(prog='tests/admin')
    parser.add_argument('program', nargs='?', default=os.environ.get('EZMLM', TOP / 'crates/ezmlm/out/ezmlm'))
    parser.add_argument('-k', default='', metavar='WORD')
    parser.add_argument('--long', action='store_true')
    words = parser.parse_args()
    rebuilt.IS_LONG[0] = words.long
    program = pathlib.Path(words.program).resolve()
    if not program.is_file() or not os.access(program, os.X_OK):
        sys.exit(f'admin: there is no program {program}: tools/install and .ci/run prove and build it, tests/quick without proof')
    ended = {'ok': 0, 'skipped': 0, 'FAILED': 0}
    with compiled.kept(), concurrent.futures.ProcessPoolExecutor(AT_ONCE) as pool:
        runs = {pool.submit(run, name, program): name for name in cases() if words.k in name and (words.k or is_wanted(name))}
        for done in concurrent.futures.as_completed(runs):
            how, said = done.result()
            ended[how] += 1
            print(f'{how:<7} {runs[done]}: {cases()[runs[done]].__doc__}' + (f' ({said})' if said else ''), flush=True)
    if IS_UNPROVED:
        print(f'skipped {len(LONG_ONES)} cases of damages and kills, two of three steps at which ezmlm-admin is killed, and '
              'six of seven damages that are mended: over a program that was built without proof they take minutes')
    print(f'{ended["ok"]} passed, {ended["FAILED"]} failed, {ended["skipped"]} skipped')
    sys.exit(ended['FAILED'] > 0)


if __name__ == '__main__':
    main()
