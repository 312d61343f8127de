"""Completion in bash, the manual page, and types."""

import os
import re
import shutil
import subprocess

from ezmlm_admin import __main__ as command

from .world import TOP, Skipped, check, post, same

LONGEST_FILE = 200
# Sources a completion, completes the words, of which the last is the one that is being written, and prints what is proposed.
ASK = '. "$1"; COMP_WORDS=("${@:3}"); COMP_CWORD=$(($# - 3)); "$2" 2> /dev/null; printf "%s\\n" "${COMPREPLY[@]}"'


def proposed(world, name, *words):
    """What bash proposes for the last word."""
    call = '_' + name.replace('-', '_')
    done = subprocess.run(['bash', '-c', ASK, 'bash', TOP / 'admin/completion' / name, call, name, *words], cwd=world.place,
                          stdout=subprocess.PIPE, stderr=subprocess.PIPE)
    same(done.stderr, b'', f'{name} {words}')
    return done.stdout.decode().split()


def case_completion(world):
    """bash completes the words of ezmlm, ezmlm-agent and ezmlm-admin, folders, sets, tickets and ids."""
    world.list('cats', '-m')
    world.spool('cats', post(1), post(2))
    sets = ['list', 'digest', 'allow', 'deny', 'mod']
    for name, words, wanted in (
            ('ezmlm', ['ca'], ['cats']), ('ezmlm', ['cats', 's'], ['spool', 'sent', 'sub', 'show', 'split']),
            ('ezmlm', ['cats', 'list', ''], ['-t', *sets]),
            ('ezmlm', ['cats', 'list', '-t', 'd'], ['digest', 'deny']), ('ezmlm', ['cats', 'sub', '0', 'm'], ['mod']),
            ('ezmlm', ['cats', 'out', ''], ['1', '2']),
            ('ezmlm', ['cats', 'make', '--'], ['--key', '--prefix', '--max']), ('ezmlm', ['cats', 'split', '-a', '1', 'a'], ['allow']),
            ('ezmlm-agent', ['--c'], ['--check', '--configure']), ('ezmlm-agent', ['--check', 'ca'], ['cats']),
            ('ezmlm-admin', [''], ['cats', 'watch', 'metrics', 'scrub']), ('ezmlm-admin', ['--j'], ['--json']), ('ezmlm-admin', ['--json', 'c'], ['cats']),
            ('ezmlm-admin', ['cats', 'he'], ['held']), ('ezmlm-admin', ['cats', 'accept', ''], ['1', '2']),
            ('ezmlm-admin', ['cats', 'bounces', ''], ['list', 'digest']),
            ('ezmlm-admin', ['--program', 'ca'], ['cats']), ('ezmlm-admin', ['--program', 'x', 'cats', 'reb'], ['rebuild']),
            ('ezmlm-admin', ['watch', 'c'], ['cats']),
            ('ezmlm-admin', ['cats', 'options', '--a'], ['--anyway']), ('ezmlm-admin', ['cats', 'member', 'x'], []),
            ('ezmlm-admin', ['cats', 'options', '+m'], ['+m']), ('ezmlm-admin', ['scrub', '--'], ['--repair', '--anew']),
            ('ezmlm-admin', ['cats', 'scrub', '--r'], ['--repair']), ('ezmlm-admin', ['scrub', 'c'], ['cats']),
            ('ezmlm-admin', ['cats', 'watch', 'c'], ['cats'])):
        same(proposed(world, name, *words), wanted, f'{name} {words}')
    same(set(proposed(world, 'ezmlm-admin', 'cats', '')), {*command.WORDS, *command.MONITORS}, 'all words')
    usage = (TOP / 'man/ezmlm.1').read_text().split('.SH DESCRIPTION')[0]
    words = set(re.findall(r'\.(?:B|RB) (?:\\fB)?([a-z]+)$', usage, re.MULTILINE)) - {'ezmlm'} | {'pages', 'sub', 'unsub', 'split', 'spool'}
    same(words - set(proposed(world, 'ezmlm', 'cats', '')), set(), "commands of ezmlm(1) that aren't proposed")


def case_manual_page(world):
    """The manual page has each word, and groff has nothing to say of it."""
    page = (TOP / 'man/ezmlm-admin.8').read_text()
    for word in (*command.WORDS, *command.MONITORS, r'\-\-json', r'\-\-program', r'\-\-help', r'\-\-anyway', r'\-\-owner', r'\-\-repair', r'\-\-anew'):
        check(word in page, f'{word} is not in it')
    if shutil.which('groff') is None:
        raise Skipped('groff is not installed')
    done = subprocess.run(['groff', '-man', '-Tutf8', '-ww', '-z', TOP / 'man/ezmlm-admin.8'], stdout=subprocess.PIPE, stderr=subprocess.STDOUT)
    same((done.returncode, done.stdout), (0, b''), 'groff')
    world.note = f'{len(page.splitlines())} lines'


def case_types(world):
    """mypy --strict has nothing to say of ezmlm_admin, and no file has more than 200 lines."""
    for path in (TOP / 'admin/ezmlm_admin').glob('*.py'):
        check(len(path.read_text().splitlines()) <= LONGEST_FILE, f'{path.name} is longer than {LONGEST_FILE} lines')
    if not os.path.exists('/usr/bin/mypy'):
        raise Skipped('mypy is not installed')
    done = subprocess.run(['/usr/bin/mypy', '--strict', '-p', 'ezmlm_admin'], cwd=world.place,
                          env={**os.environ, 'MYPYPATH': f'{TOP / "admin"}:{TOP / "agent"}'}, stdout=subprocess.PIPE)
    same(done.returncode, 0, done.stdout.decode())
