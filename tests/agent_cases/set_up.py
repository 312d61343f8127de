"""How the agent is set up: settings, `--check`, its unit; and what it does by itself."""

import os
import shutil
import socket
import subprocess

import needed

from .sink import Sink
from .world import HASTY, HOST, TOP, Client, Skipped, check, post, same

def case_by_itself(world):
    """Every hour there is a timed run of every list, and what somebody else gave the list to send goes out within a minute."""
    for name in ('cats', 'dogs'):
        world.list(name)
    world.begin(words=HASTY)
    check(world.tells('cats: 0 timed', 'dogs: 0 timed', times=3), 'not each list has its timed runs')
    same(world.run('cats', 'deliver', '0', 'w@m.net', f'cats@{HOST}', given=post()), '0 0 posted 1\n', 'a post by hand')
    check(world.is_out(3), f'{len(world.sink.copies)} copies')


def free_port():
    with socket.socket() as probe:
        probe.bind(('127.0.0.1', 0))
        return probe.getsockname()[1]


def case_ports(world):
    """Mail comes in and goes out by ports of loopback too."""
    try:
        ports = free_port(), free_port()
    except OSError as error:
        raise Skipped(f'there is no loopback: {error}') from error
    world.list()
    world.sink.stop()
    world.sink = Sink(('127.0.0.1', ports[1]))
    world.rows.update(listen=f'127.0.0.1:{ports[0]}', mta=f'127.0.0.1:{ports[1]}')
    world.begin()
    with Client(('127.0.0.1', ports[0])) as client:
        same(client.mail('w@m.net', [f'cats@{HOST}'], post()), ['250 2.0.0 posted 1'], 'a post')
    check(world.is_out(3), f'{len(world.sink.copies)} copies')


def case_unit(world):
    """The units for systemd are in order, and keep away what the agent has no need of."""
    if lacking := needed.lacking('systemd'):
        raise Skipped(lacking)
    units = [world.place / f'ezmlm-agent.{kind}' for kind in ('service', 'socket')]
    for unit in units:
        unit.write_text((TOP / 'agent' / unit.name).read_text().replace('/usr/local/lib/ezmlm', str(TOP / 'agent').replace(' ', r'\x20')))
    for words in (['verify', *units], ['security', '--offline=true', '--threshold=20', units[0]]):
        done = subprocess.run(['systemd-analyze', *words], capture_output=True, text=True, check=False)
        same((done.returncode, done.stderr), (0, ''), words[0])


def case_two_agents(world):
    """A second agent of the same state ends, and the first one goes on."""
    world.list()
    world.begin()
    again = subprocess.run([*world.words, world.settings()], capture_output=True, text=True, check=False)
    same((again.returncode, again.stderr), (1, 'ezmlm-agent: another agent runs\n'), 'the second')
    same(world.post(), '250 2.0.0 posted 1', 'a post')


def case_settings(world):
    """Settings that make no sense are refused by name, and so are folders that can't be had."""
    (world.place / 'file').touch()
    rows = [('listen', '192.0.2.1:24', 'not loopback', 78), ('batch', '0', 'batch is below 1', 78), ('mta', 'somewhere', 'neither a path', 78),
            ('colour', 'red', 'unknown colour', 78), ('runs', 'x', 'invalid literal', 78), ('patience', '0', 'patience is below 1', 78),
            ('weed', 'perhaps', 'neither yes nor no', 78), ('auto_posts', 'hold', 'neither take nor refuse', 78),
            ('listen', world.place / 'none/lmtp', 'No such file', 1), ('state', world.place / 'file/state', 'Not a directory', 1)]
    for name, value, wanted, status in rows:
        kept = dict(world.rows)
        world.rows[name] = value
        said = subprocess.run([*world.words, world.settings()], capture_output=True, text=True, check=False)
        check(said.returncode == status and wanted in said.stderr and said.stderr.count('\n') == 1, f'{name}: {said.stderr}')
        world.rows = kept


def case_check(world):
    """--check tells what the lists are, what the transfer agent takes, and what is wrong."""
    folder = world.list()

    def checked():
        done = subprocess.run([*world.words[:1], '--check', world.settings()], capture_output=True, text=True, check=False)
        return done.returncode, done.stdout + done.stderr
    status, said = checked()
    same(status, 0, said)
    for wanted in ('cats: cats@ex.org, ok 0 3 0 0 0 0 0 0', 'XVERP'):
        check(wanted in said, said)
    same(world.sink.copies, [], 'copies')
    os.chmod(folder / 'key', 0o644)
    if os.geteuid() == 0:
        shutil.chown(folder / 'num', 1)
    world.sink.refuses_all, world.sink.takes_verp = True, False
    os.chmod(world.place / 'lists', 0o777)
    shutil.copytree(folder, world.folder('copy'))
    (folder / 'num').write_bytes(b'x\n')
    status, said = checked()
    same(status, 1, 'the status')
    check(os.geteuid() != 0 or 'num belongs to another user' in said, said)
    for wanted in ('lists can be written by others', 'key is open to others: mode 644', '75 num', 'mail to its owner: 550', 'takes no XVERP',
                   'has the address of another list'):
        check(wanted in said, said)
    world.rows['program'] = '/bin/true'
    check('/bin/true is not the program' in checked()[1], 'another program is taken')
