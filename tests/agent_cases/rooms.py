"""Disks that are nearly full: mail is put off before they are, and what the lists send goes on."""

import os
import sys

from . import watched
from .world import HOST, TOP, Client, check, post, same

sys.path.insert(0, str(TOP / 'agent'))
from ezmlm_agent import asking, room, settings  # noqa: E402

# Bytes and inodes that are free and that have to be, how many times, and what is said.
ROWS = [((80, 20, 80, 20), 1, None), ((79, 20, 80, 20), 1, '79 bytes are free on the disk, and mail is put off below 80'),
        ((80, 19, 80, 20), 1, '19 inodes are free on the disk, and mail is put off below 20'), ((0, 0, 0, 0), 1, None), ((0, 0, 0, 0), 2, None),
        ((160, 40, 80, 20), 2, None), ((159, 40, 80, 20), 2, '159 bytes are free on the disk, and mail is put off below 80'),
        ((160, 39, 80, 20), 2, '39 inodes are free on the disk, and mail is put off below 20')]


def chosen(**more):
    return settings.Settings('program', 'lists', 'state', 'listen', **more)


def case_room_rows(world):
    """Below what is there has to be free mail is put off, below twice that a monitor is warned; ten times a large log is asked for."""
    for numbers, times, wanted in ROWS:
        same(room.Free(*numbers).lacks(times), wanted, f'{numbers} {times}')
    place = world.place / 'lists'
    found = room.free(place, chosen())
    same((found.least_bytes, found.least_inodes), (80 << 20, 2000), 'without a setting')
    (place / 'log').write_bytes(b'x' * 9_000_000)
    same(room.free(place, chosen()).least_bytes, 90_000_000, 'with a large log')
    same(room.free(place, chosen(reserve=0, reserve_inodes=0))[2:], (0, 0), 'with settings of 0')
    (place / 'log').unlink()
    many = 1 + (os.statvfs(place).f_bavail * os.statvfs(place).f_frsize >> 20)
    same([bool(room.warned(place, chosen(reserve=reserve, reserve_inodes=0))) for reserve in (many // 3, many // 2 + 1, many)], [False, True, True],
         'warnings')
    same(room.warned(place / 'none', chosen()), None, 'a folder that is gone')


def case_room(world):
    """Mail to a list whose disk is nearly full is answered 452 4.3.1, which is logged once, both commands of a monitor warn, and what waits in the
    queue goes out."""
    world.list()
    world.rows['mta'] = world.place / 'nobody'
    world.begin()
    same(world.post(), '250 2.0.0 posted 1', 'with room')
    world.end()
    state = os.statvfs(world.place)
    world.rows.update(reserve=(state.f_blocks * state.f_frsize >> 20) + 1, mta=world.place / 'sink')
    world.begin()
    with Client(world.place / 'lmtp') as client:
        for _ in range(3):
            same(client.mail('w@m.net', [f'cats@{HOST}'], post(2)), [room.FULL], 'without')
        same(client.mail('w@m.net', [f'nobody@{HOST}'], post(2)), ['550 5.1.1 There is no list of this address.'], 'no list')
    check(world.is_out(3), f'{len(world.sink.copies)} copies')
    check(world.tells('bytes are free on the disk'), 'the log does not say so')
    same(world.log().count('bytes are free on the disk, and mail is put off below'), 1, 'lines of the log')
    watched.both_say(world, 'cats: ', asking.WARNING)
    watched.both_say(world, ' bytes are free on the disk, and mail is put off below ', asking.WARNING)
    world.end()
    del world.rows['reserve']
    world.rows['reserve_inodes'] = 1 << 60
    world.begin()
    same(world.post(3), room.FULL if state.f_files else '250 2.0.0 posted 2', 'without inodes')
    world.rows['reserve_inodes'] = -1
    try:
        check(False, f'a setting below 0: {settings.read(world.settings())}')
    except ValueError as error:
        check('reserve_inodes is below 0' in str(error), str(error))
