"""`--check`, the words of the command line, and what mypy says of the agent."""

import os
import pathlib
import subprocess
import sys
import threading

import needed

from .world import TOP, Skipped, check, same

sys.path.insert(0, str(TOP / 'agent'))
import ezmlm_agent  # noqa: E402
from ezmlm_agent import check as checks  # noqa: E402


def checked(world):
    done = subprocess.run([*world.words[:1], '--check', world.settings()], capture_output=True, text=True, check=False)
    return done.returncode, done.stdout + done.stderr


def case_check_beside_a_queue(world):
    """--check doesn't mind files that are gone a moment later."""
    world.list(members=[f'm{n}@m.net' for n in range(20)])
    world.begin()
    stop = []

    def posts():
        n = 0
        while not stop:
            world.post(n := n + 1)
    thread = threading.Thread(target=posts)
    thread.start()
    try:
        for _ in range(5):
            status, said = checked(world)
            check('Traceback' not in said and 'FileNotFound' not in said, said)
            check(status == 0 or '111 disk' in said, said)
    finally:
        stop.append(1)
        thread.join()


def case_check_warns(world):
    """--check warns of a list whose posts or subscriptions nobody accepts, and of a transfer agent that the unit keeps the agent from."""
    world.list('cats', words=['-m'])
    world.list('dogs', words=['-s'])
    world.list('birds', words=['-ms'])
    world.run('birds', 'sub', '0', 'mod', 'mod@m.net')
    status, said = checked(world)
    same(status, 1, 'the status')
    for wanted in ('! cats: its posts wait for a moderator (m), and it has none', '! dogs: subscriptions wait for a moderator (s), and it has none'):
        check(wanted in said, said)
    check('! birds' not in said, said)
    rows = [('10.0.0.1', 'IPAddressAllow=127.0.0.0/8 ::1/128\nIPAddressDeny=0.0.0.0/0 ::/0\n', True),
            ('10.0.0.1', 'IPAddressAllow=127.0.0.0/8 10.0.0.1/32\nIPAddressDeny=0.0.0.0/0 ::/0\n', False),
            ('2001:db8::1', 'IPAddressAllow=127.0.0.0/8\nIPAddressDeny=::/0\n', True), ('10.0.0.1', 'IPAddressAllow=\nIPAddressDeny=\n', False)]
    for host, told, wanted in rows:
        same(checks.is_denied(checks.ipaddress.ip_address(host), told), wanted, f'{host} with {told!r}')


def case_check_by_another_user(world):
    """--check by another user than the lists' says that once, and not of each file."""
    world.list()
    if os.geteuid() != 0:
        raise Skipped('only root can be another user')
    for path in (world.place / 'lists', *(world.place / 'lists').rglob('*')):
        os.chown(path, 1, 1)
    status, said = checked(world)
    same((status, said.count('\n')), (1, 1), said)
    check('this is run by root, and' in said and 'belongs to daemon: run it as the user that the agent runs as' in said, said)
    for path in (world.place / 'lists', *(world.place / 'lists').rglob('*')):
        os.chown(path, 0, 0)


def case_words(world):
    """--help, --version, words that are none, and a file of settings without its section."""
    agent = str(TOP / 'agent/ezmlm-agent')

    def said(*words):
        done = subprocess.run([agent, *words], capture_output=True, text=True, check=False)
        return done.returncode, done.stdout + done.stderr
    status, text = said('--help')
    check(status == 0 and '--check' in text and 'SETTINGS' in text, text)
    same(said('--version'), (0, f'ezmlm-agent {ezmlm_agent.VERSION}\n'), '--version')
    check(said()[0] == 2 and said('--chek', 'x')[0] == 2, 'wrong words')
    bad = pathlib.Path(world.place / 'bad.conf')
    for text, wanted in (('lists = x\n', 'no section headers'), ('[other]\nx = y\n', 'there is no section [agent]'), ('[agent]\nx\n', 'bad.conf')):
        bad.write_text(text)
        status, told = said(bad)
        check(status == 78 and wanted in told and told.count('\n') == 1 and 'Traceback' not in told, f'{text!r}: {status} {told}')
    status, told = said(world.place / 'none.conf')
    check(status == 78 and 'No such file' in told, told)


def case_types(world):
    """The agent's types are checked by mypy, strictly, and none of its files is too long."""
    files = sorted((TOP / 'agent/ezmlm_agent').glob('*.py'))
    long = {path.name: lines for path in files if (lines := len(path.read_text().splitlines())) >= 320}
    same(long, {}, 'files that are too long')
    # What is said of psycopg's types can't be told without it.
    if lacking := needed.lacking('mypy', 'python3-psycopg'):
        raise Skipped(lacking)
    done = subprocess.run(['mypy', '--strict', '--cache-dir', str(world.place / 'mypy'), '-p', 'ezmlm_agent'], capture_output=True,
                          text=True, cwd=TOP / 'agent', check=False)
    same(done.returncode, 0, done.stdout + done.stderr)
