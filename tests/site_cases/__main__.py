"""Runs the cases, two at once."""

from __future__ import annotations

import argparse
import concurrent.futures
import os
import pathlib
import sys
import traceback
from collections.abc import Callable

from . import closing, ended, escapes, growing, growth, hostile, killed, looks, mails, searching, settled
from .world import TOP, Skipped, World, Wrong

AT_ONCE = 2
Case = Callable[[World], None]


def cases() -> dict[str, Case]:
    """The cases by their names, the longest first."""
    found: dict[str, Case] = {}
    for module in (growth, killed, hostile, ended, closing, growing, looks, settled, searching, mails, escapes):
        found.update({name.removeprefix('case_'): call for name, call in vars(module).items() if name.startswith('case_')})
    return found


def run(name: str, program: pathlib.Path) -> tuple[str, str]:
    """How a case ended, and what is wrong with it."""
    world = World(program)
    try:
        cases()[name](world)
        return 'ok', ''
    except Skipped as why:
        return 'skipped', str(why)
    except Wrong as why:
        return 'FAILED', str(why)
    except Exception:
        return 'FAILED', traceback.format_exc()
    finally:
        world.close()


def main() -> int:
    parser = argparse.ArgumentParser(prog='tests/site')
    parser.add_argument('program', nargs='?', default=os.environ.get('EZMLM', TOP / 'crates/ezmlm/out/ezmlm'))
    parser.add_argument('-k', default='', metavar='WORD')
    words = parser.parse_args()
    program = pathlib.Path(words.program).resolve()
    if not program.is_file() or not os.access(program, os.X_OK):
        sys.exit(f'site: there is no program {program}: tools/install and .ci/run prove and build it, tests/quick without proof')
    names = [name for name in cases() if words.k in name]
    ended = []
    with concurrent.futures.ProcessPoolExecutor(AT_ONCE) as pool:
        runs = {pool.submit(run, name, program): name for name in names}
        for done in concurrent.futures.as_completed(runs):
            how, why = done.result()
            ended.append(how)
            print(f'{how:<7} {runs[done]}: {cases()[runs[done]].__doc__}' + (f' {why}' if why else ''), flush=True)
    print(f'{ended.count("ok")} passed, {ended.count("FAILED")} failed, {ended.count("skipped")} skipped')
    return int('FAILED' in ended)


if __name__ == '__main__':
    sys.exit(main())
