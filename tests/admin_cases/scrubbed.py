"""scrub: each file that changed without a run is named, and none that a run wrote."""

import json
import os
import shutil
import subprocess
import threading

from ezmlm_admin import changes, lists, scrub, sums

from .archives import archive
from .world import BEGIN, TOP, check, holds, post, same

DAY = 86_400
# Paths, and what they are to people; None is no file of a list.
WORDS = [('archive/0/07', 'post 7'), ('archive/12/00', 'post 1200'), ('archive/1/index', 'the index of posts 100 to 199'), ('num', 'the number of posts'),
         ('ids', 'the counter of the queue\'s entries'), ('tickets', 'the counter of held posts'), ('counts/mod', 'the number of members of mod'),
         ('subscribers/]', 'members of list'), ('digest/subscribers/@', 'members of digest'), ('bounce/t', 'bounces of members of list'),
         ('digest/bounce/t', 'bounces of members of digest'), ('queue/17', 'entry 17 of the queue'), ('pending/3', 'the held post 3'),
         ('done/1', 'the answers to items 512 to 1023'), ('archive/threads/005', 'threads of the archive'), ('floor', 'the floor'),
         ('sums', None), ('config.old', None), ('lock', None), ('log.new', None), ('archive/0/7', None), ('subscribers/u', None), ('queue/x', None)]


def filled(world, name='cats'):
    """A list with a file of each kind."""
    folder = archive(world, name, 4, '-d')
    local = name.encode()
    world.spool(name, (b'A', 0, 5, b'mod', b'm@b'), *((b'A', 0, 5, kind, b'a@b') for kind in (b'list', b'digest', b'allow', b'deny')),
                (b'A', 600, 5, b'list', b'c@d'))
    world.admin(name, 'options', '-dm')
    world.spool(name, post(9, to=local), post(10, to=local))
    world.answers(name, 'floor', '0', '600')
    return folder


def chosen(world, name='cats'):
    return lists.MailingList(world.place / name, str(world.program))


def ran(world, name='cats', copy=None, anew=False):
    """The lines of a run."""
    one = chosen(world, name)
    return scrub.told(one, scrub.one(one, copy, anew))


def flip(path, at, bit=0):
    """Turns a bit of a file, as a disk does: the file's time stays."""
    state = path.stat()
    with open(path, 'r+b') as file:
        file.seek(at)
        byte = file.read(1)[0]
        file.seek(at)
        file.write(bytes([byte ^ 1 << bit]))
    os.utime(path, ns=(state.st_atime_ns, state.st_mtime_ns))


def case_scrub_words(world):
    """Each file of a list is named in people's words, and what is no file of a list is left out."""
    for path, wanted in WORDS:
        same(sums.about(path), wanted, path)
    folder = filled(world)
    (folder / 'archive/stranger').mkdir()
    (folder / 'archive/stranger/01').write_bytes(b'x')
    (folder / 'config.old').write_bytes(b'x')
    there = {str(path.relative_to(folder)) for path in folder.rglob('*') if path.is_file()} - {'archive/stranger/01', 'config.old', 'lock'}
    found = list(sums.paths(folder))
    same((set(found), sorted(found, key=sums.order)), (there, found), 'the paths')


def case_scrub_flips(world):
    """Each bit of each file of a small list is turned, and of its sums, with the file's time kept: each is found. A whole run names each file."""
    changes.FRESH = 0
    folder = filled(world)
    holds(ran(world)[-1], 'nothing changed without a run', 'at first')
    rows = {row.path: row for row in sums.rows(folder)}
    turned, missed = 0, []
    for name in [*sums.paths(folder), sums.NAME]:
        path, kept, state = folder / name, (folder / name).read_bytes(), (folder / name).stat()
        for at in range(8 * len(kept)):
            flip(path, at // 8, at % 8)
            turned += 1
            missed += [] if is_found(folder, name, rows) else [(name, at)]
            if at == 0:
                said = ran(world)
                check(f'({name})' in said[0] and ': 1 file changed' in said[1] or name == sums.NAME and 'are damaged' in said[0], f'{name}: {said}')
            path.write_bytes(kept)
            os.utime(path, ns=(state.st_atime_ns, state.st_mtime_ns))
    same(missed, [], f'bits of {turned} that were not found')
    check(turned > 50_000, f'{turned} bits alone')
    holds(ran(world)[-1], 'nothing changed without a run', 'at the end')
    world.note = f'{turned} bits of {len(rows) + 1} files'


def is_found(folder, name, rows):
    """Whether a file is found to be changed, or the sums to be damaged."""
    if name == sums.NAME:
        return not sums.is_whole(folder)
    seen = changes.Scrubbed(0)
    changes.look(folder, name, rows[name], seen, None)
    return [change.path for change in seen.changes] == [name]


def case_scrub_runs(world):
    """After runs of each kind, and after options and rebuild, no file is named; each file has a sum."""
    changes.FRESH = 0
    folder = filled(world)
    ticket = json.loads(world.admin('--json', 'cats', 'held'))[0]['ticket']
    steps = [lambda: world.spool('cats', (b'A', 0, 6, b'list', b'e@f')), lambda: world.answers('cats', 'unsub', '0', 'list', 'e@f'),
             lambda: world.admin('cats', 'accept', str(ticket)), lambda: world.admin('cats', 'reject', str(ticket + 1)),
             lambda: world.answers('cats', 'sent', '0', '1'), lambda: world.answers('cats', 'rekey', '0', '08' * 32),
             lambda: world.spool('cats', (b'D', 700, BEGIN + 99 * DAY, b'', b'cats-return-1-a=b@ex.org', b'\n')),
             lambda: world.answers('cats', 'timed', '0'), lambda: world.answers('cats', 'floor', '0', '1200'),
             lambda: world.admin('cats', 'options', '+M', '--max', '77777'), lambda: world.admin('cats', 'rebuild')]
    ran(world)
    for number, step in enumerate(steps):
        step()
        said = ran(world)
        same(len(said), 1, f'step {number}: {said}')
    same([row.path for row in sums.rows(folder)], list(sums.paths(folder)), 'the files with a sum')
    world.whole()


def case_scrub_tells(world):
    """What is told of a post, a member and a counter, of what is gone or can't be read, each time until it is mended, and by watch."""
    changes.FRESH = 0
    folder = filled(world)
    ran(world)
    line = world.admin('scrub', 'cats')
    same(line.count('\n'), 1, line)
    flip(folder / 'archive/0/02', 30)
    flip(folder / 'ids', 0, 1)
    flip(folder / 'subscribers/]', 12)
    (folder / 'archive/0/03').unlink()
    for _ in range(2):
        said = world.admin('scrub', 'cats', status=75)
        for part in ('cats: post 2 (archive/0/02) has other bytes, and no run writes it a second time; it was right at 20',
                     'cats: post 3 (archive/0/03) is gone', 'cats: members of list, now ', 'cats: the counter of the queue\'s entries (ids) has other bytes, '
                     'though nobody wrote it: its time is as it was', ': 4 files changed without a run'):
            holds(said, part, 'scrub')
    told = json.loads(world.admin('--json', 'cats', 'scrub', status=75))[0]
    same(([change['path'] for change in told['changes']], told['status']), (['archive/0/02', 'archive/0/03', 'ids', 'subscribers/]'], 75), 'JSON')
    holds(world.admin('watch', 'cats', status=2), '4 of its files changed without a run: ezmlm-admin scrub names them', 'watch')
    (folder / 'archive/0/04').unlink()
    os.mkfifo(folder / 'archive/0/04')
    holds(world.admin('scrub', 'cats', status=75), 'post 4 (archive/0/04) can\'t be read', 'a pipe')
    (folder / 'archive/0/04').unlink()
    world.admin('scrub', '--anew', 'cats')
    same(world.admin('scrub', 'cats').count('\n'), 1, 'after --anew')
    moment = os.stat(folder / 'sums').st_mtime
    same([status for status, _ in sums.faults(folder, moment + 14 * DAY)], [], 'after 14 days')
    same([status for status, _ in sums.faults(folder, moment + 16 * DAY)], [1], 'after 16 days')
    for words in (['--repair', 'none', 'cats'], ['--sideways', 'cats'], [], ['--repair', 'cats', 'cats', 'dogs'], ['--repair', 'cats', '--anew', 'cats']):
        check(world.admin_run('scrub', *words).returncode in (64, 75), f'{words}')


def case_scrub_repairs(world):
    """--repair takes a file from a copy only if it has the sum that it had here; the list is whole then."""
    changes.FRESH = 0
    folder = filled(world)
    ran(world)
    line, copy = world.whole(), world.place / 'copy'
    shutil.copytree(folder, copy)
    before = {path: path.read_bytes() for path in folder.rglob('*') if path.is_file() and path.name != sums.NAME}
    for name in ('archive/0/02', 'ids', 'subscribers/]'):
        flip(folder / name, 0, 1)
    (folder / 'archive/0/03').unlink()
    flip(copy / 'ids', 1)
    said = world.admin('scrub', '--repair', copy, 'cats', status=75)
    same((said.count('; it is repaired'), said.count('the copy hasn\'t got it as it was either')), (3, 1), said)
    shutil.copy2(folder / 'ids', copy / 'mine')
    (copy / 'ids').write_bytes(before[folder / 'ids'])
    holds(world.admin('scrub', '--repair', copy, 'cats'), '(ids) has other bytes', 'the last one')
    same({path: path.read_bytes() for path in folder.rglob('*') if path.is_file() and path.name != sums.NAME}, before, 'the files')
    same((world.whole(), world.admin('scrub', 'cats').count('\n')), (line, 1), 'the list')


def case_scrub_beside_mail(world):
    """Mail comes in while a scrub looks: each is answered, in the time between two slices, and no file is named."""
    changes.FRESH = 0
    archive(world, 'cats', 600)
    world.answers('cats', 'sub', '0', 'list', 'a@b')
    ran(world)
    answers, ended, held = [], threading.Event(), scrub.HELD
    before = os.path.getsize(world.place / 'cats/num')

    def deliver():
        number = 1000
        while not ended.is_set():
            number += 1
            answers.append(world.run('cats', 'deliver', str(number), 'a@b', 'cats@ex.org', given=b'From: a@b\nTo: cats@ex.org\nSubject: x\n\nhi\n'))
    sender = threading.Thread(target=deliver)
    sender.start()
    try:
        scrub.HELD = 0.002
        said = [ran(world) for _ in range(2)]
    finally:
        scrub.HELD = held
        ended.set()
        sender.join()
    same([len(lines) for lines in said], [1, 1], said)
    check(len(answers) > 5 and before > 0, f'{len(answers)} mails')
    same([answer for answer in answers if answer[0] or b' posted ' not in answer[1]], [], 'mails')
    world.note = f'{len(answers)} mails'


def case_scrub_stopped(world):
    """A scrub that is killed leaves the former sums, and the next one goes on from these; two at once are refused, and damaged sums are taken anew."""
    changes.FRESH = 0
    folder = filled(world)
    ran(world)
    before = (folder / 'sums').read_bytes()
    (folder / 'sums.new').write_bytes(b'half a l')
    flip(folder / 'archive/0/02', 5)
    holds(world.admin('scrub', 'cats', status=75), 'post 2 ', 'after one that was killed')
    check(not (folder / 'sums.new').exists() and (folder / 'sums').read_bytes() != before, 'sums.new is left')
    writer = sums.Writer(folder)
    holds(world.admin('scrub', 'cats', status=111), 'another scrub is at it', 'two at once')
    writer.close()
    (folder / 'sums').write_bytes(before[:-9])
    said = world.admin('scrub', 'cats', status=75)
    holds(said, 'the sums themselves (sums) are damaged, and are taken anew', 'cut sums')
    holds(world.admin('watch', 'cats', status=2), 'its files changed', 'watch')


def case_scrub_unit(world):
    """The timer and its service are in order."""
    units = [world.place / f'ezmlm-scrub.{kind}' for kind in ('service', 'timer')]
    for unit in units:
        unit.write_text((TOP / 'admin' / unit.name).read_text().replace('/usr/local/bin/ezmlm-admin', '/bin/true'))
    if shutil.which('systemd-analyze'):
        done = subprocess.run(['systemd-analyze', '--man=no', 'verify', *units], capture_output=True, text=True)
        same((done.returncode, done.stderr), (0, ''), 'verify')
