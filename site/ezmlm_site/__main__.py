"""ezmlm-site [--anew] [--turn SECONDS] [--program PROGRAM] SETTINGS [LIST ..]: writes the archives of lists as sites."""

from __future__ import annotations

import argparse
import os
import sqlite3
import subprocess
import sys

import jinja2

from . import archive, lists, making, settings, turns


def main(words: list[str]) -> int:
    """Runs over each list that the settings name, or over some. The status is 0, or 1 if one of them failed."""
    parser = argparse.ArgumentParser(prog='ezmlm-site', description='Writes the archives of lists as sites of static pages.')
    parser.add_argument('--anew', action='store_true', help='make all anew from the lists alone')
    parser.add_argument('--turn', type=float, default=float('inf'), metavar='SECONDS', help='what a list has of time; the next run goes on with one that isn\'t done')
    parser.add_argument('--program', help='the program, in place of what the settings say')
    parser.add_argument('--verbose', action='store_true', help='tell what was done of each list')
    parser.add_argument('settings', metavar='SETTINGS')
    parser.add_argument('lists', metavar='LIST', nargs='*', help='the sections to do; all without it')
    given = parser.parse_args(words)
    try:
        chosen = settings.read(given.settings)
        if unknown := set(given.lists) - {site.name for site in chosen.sites}:
            raise ValueError(f'{given.settings} has no section {", ".join(sorted(unknown))}')
    except ValueError as error:
        print(f'ezmlm-site: {error}', file=sys.stderr)
        return 2
    os.umask(0o022)
    sites = {site.name: site for site in chosen.sites if not given.lists or site.name in given.lists}
    failed = turns.go_over(list(sites), lambda name: is_done(given.program or chosen.program, sites[name], given.anew, given.verbose), given.turn)
    return int(failed + turns.go_over(['site'], lambda _: is_named(chosen), given.turn) > 0)


def is_named(chosen: settings.Settings) -> bool:
    """Writes the page of all lists, and says what went wrong."""
    try:
        lists.write(chosen)
    except (OSError, sqlite3.Error, jinja2.TemplateError, MemoryError) as error:
        print(f'ezmlm-site: the page of all lists: {error or type(error).__name__}', file=sys.stderr)
        return False
    return True


def is_done(program: str, site: settings.Site, is_anew: bool, is_verbose: bool) -> bool:
    """Does one list, and says what went wrong. No fault of one list keeps the others from theirs."""
    try:
        said = making.Maker(program, site, is_anew).run()
    except making.Busy as error:
        said = str(error)
    except (archive.Unreadable, OSError, sqlite3.Error, subprocess.SubprocessError, jinja2.TemplateError, MemoryError) as error:
        print(f'ezmlm-site: {site.name}: {error or type(error).__name__}', file=sys.stderr)
        return False
    if is_verbose:
        print(f'{site.name}: {said}')
    return True


if __name__ == '__main__':
    sys.exit(main(sys.argv[1:]))
