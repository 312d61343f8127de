"""rebuild: each kind of damage, and what of an archive can't be told any more."""

import contextlib
import json
import os
import pathlib
import shutil
import subprocess

from ezmlm_admin import rebuild
from ezmlm_admin.lists import MailingList, Refused

from .archives import STEP, archive, cut, post_path, told, tree, turned
from .world import BEGIN, Skipped, check, holds, post, same, some

POSTS = 103
IS_LONG, LONG = [False], (1, 23)  # every byte, and of the first index every 23rd


def mended(world, name, good, what):
    """Rebuilds a list in this process. The archive has to be as it was, to the byte, if the program saw the damage. Whether it did."""
    folder = world.place / name
    said = rebuild.rebuild(MailingList(folder, str(world.program)))
    same(said.status, 0, f'{what}: {said.lines}')
    if said.data['posts'] is None:
        return False
    found = tree(folder)
    for path in good.keys() | found.keys():
        same(found.get(path), good.get(path), f'{what}: {path}')
    return True


def damaged(world, name, good, damages):
    """Does each damage to a copy of the list, and mends it. How many the program saw, and how many there were."""
    seen, damages = 0, damages if IS_LONG[0] else some(damages, 7)
    for what, damage in damages:
        shutil.copytree(world.place / name, world.place / 'hurt')
        damage(world.place / 'hurt')
        seen += mended(world, 'hurt', good, what)
        shutil.rmtree(world.place / 'hurt')
    return seen, len(damages)


def gone(*names):
    def damage(folder):
        for name in names:
            shutil.rmtree(folder / name) if (folder / name).is_dir() else (folder / name).unlink()
    return 'gone: ' + ', '.join(names), damage


def written(name, text):
    return f'{name} as {text!r}', lambda folder: (folder / name).write_bytes(text)


def at(name, place, hurt, how):
    return f'{name} {how} at {place}', lambda folder: hurt(folder / name, place)


def case_files_gone(world):
    """Indexes, thread files and num that are gone, empty or garbage are written anew to the byte, and the program answers as before."""
    folder = archive(world, 'cats', POSTS, '-f')
    good, before = tree(folder), told(world, 'cats', POSTS)
    threads = sorted(path.name for path in (folder / 'archive/threads').iterdir())
    damages = [gone('archive/0/index'), gone('archive/1/index'), gone('archive/0/index', 'archive/1/index', 'num', 'archive/threads'),
               gone('archive/threads'), gone('num'), gone(f'archive/threads/{threads[1]}')]
    damages += [written(name, text) for name in ('num', 'archive/0/index', f'archive/threads/{threads[0]}', 'archive/threads/000')
                for text in (b'', b'\0\0\0', b'5:hello,1:9,')]
    damages += [written('num', text) for text in (b'102\n', b'104\n', b'3\n', b'0\n', b'1O3\n', b'99999999\n')]
    damages.append(('an index after the last', lambda each: ((each / 'archive/2').mkdir(), (each / 'archive/2/index').write_bytes(b'x'))))
    seen, many = damaged(world, 'cats', good, damages)
    check(seen >= many - 3, f'the program saw {seen} of {many}')  # It doesn't look at an empty file, or after the last.
    (folder / 'archive/0/index').unlink()
    world.admin('cats', 'rebuild')
    same(told(world, 'cats', POSTS), before, 'what the program tells')
    same(len(list(folder.glob('archive.old-*'))), 1, 'old archives')
    world.note = f'{seen} damages'


def damaged_everywhere(world, hurt, steps):
    """Hurts each file of the archive that the program writes anew at every so many bytes, those of the first index more seldom."""
    folder = archive(world, 'cats', POSTS, '-f')
    good = tree(folder)
    names = ['num', 'archive/1/index', *(f'archive/threads/{path.name}' for path in (folder / 'archive/threads').iterdir()), 'archive/0/index']
    damages = []
    for name in names:
        step = (LONG if IS_LONG[0] else steps)[name == 'archive/0/index']
        damages += [at(name, place, hurt, 'hurt') for place in range(0, len(good[name]), step)]
    seen, many = damaged(world, 'cats', good, damages)
    world.note = f'{many} damages, {seen} of them seen by the program'
    return seen, many


def case_files_cut(world):
    """Indexes, thread files and num that are cut anywhere are written anew to the byte."""
    seen, many = damaged_everywhere(world, cut, (41, 1201))
    check(seen >= many - 3, f'the program saw {seen} of {many}')  # Cut to nothing is as gone, and an index may end at an entry's end.


def case_bytes_turned(world):
    """A byte that is turned anywhere in an index, a thread file or num is as it was, if the program names a file."""
    seen, many = damaged_everywhere(world, turned, (17, 431))
    check(seen > many // 3, f'the program saw {seen} of {many}')


def case_bytes_turned_otherwise(world):
    """The same with bytes that become other kinds of bytes."""
    seen, many = damaged_everywhere(world, lambda path, place: turned(path, place, 0x2b), (19, 433))
    check(seen > many // 2, f'the program saw {seen} of {many}')


def case_whole_entries_kept(world):
    """Entries that are whole keep sender and moment, though From, Date and the file's time say others; of the others it is said."""
    folder = world.list('cats')
    items = [(b'D', 0, BEGIN + n, b'envelope%d@b' % n, b'cats@ex.org', b'From: Other <from%d@B.Net>\nTo: cats@ex.org\nSubject: same\n\nx\n' % n)
             for n in range(1, 8)]
    world.spool('cats', *items)
    lines = (folder / 'archive/0/index').read_bytes().split(b'\n')
    lines[3] = lines[3][:-3]
    (folder / 'archive/0/index').write_bytes(b'\n'.join(lines))
    os.utime(post_path(folder, 4), (BEGIN + 4000,) * 2)
    said = json.loads(world.admin('--json', 'cats', 'rebuild'))
    index = (folder / 'archive/0/index').read_bytes().split(b'\n')
    same([n for n in range(7) if index[n] != lines[n]], [3], 'entries that changed')
    holds(index[3], b'10:1700004000,11:from4@b.net,', 'the entry that was gone')
    same([one['post'] for one in said['said']], [4], 'posts of which it is said')
    holds(said['said'][0]['what'], "sender from4@b.net by From, moment 2023-11-14T23:20:00Z by its file's time", 'said')
    same(said['changed'], ['archive/0/index'], 'files')
    holds((folder / said['old'] / 'archive/0/index').read_bytes(), lines[3] + b'\n', 'the old index')


def case_hostile_posts(world):
    """Posts without a From that a list can have, and with bytes that no header should have, get an entry."""
    folder = world.list('cats')
    froms = b'', b'From: \xff\x1b[31m <x y@z>\n', b'From: "a@b" <not an address>\nFrom: b@c\n', b'From: ' + b'a' * 70_000 + b'\n', \
        b'From: (((((\n', b'From: =?utf-8?q?=00?= <ok@C.org>\nDate: Thu, 99 Foo 99999 99:99:99 +9999\n'
    world.spool('cats', *((b'D', 0, BEGIN + n, b'e@b', b'cats@ex.org', text + b'To: cats@ex.org\nSubject: s \x1b]0;x\x07\n\nx\n')
                          for n, text in enumerate(froms)))
    (folder / 'archive/0/index').unlink()
    said = world.admin('cats', 'rebuild')
    check(all(c.isprintable() or c == '\n' for c in said), f'control characters: {said!r}')
    world.whole()
    senders = [line.split(b',')[1].split(b':')[1] for line in (folder / 'archive/0/index').read_bytes().splitlines()]
    same(senders, [b'unknown@unknown.invalid'] * 5 + [b'ok@c.org'], 'senders')


def case_posts_gone(world):
    """A post that is gone is named, and nothing is written: its number can't become another post's."""
    folder = archive(world, 'cats', 5)
    for number, damage in ((3, []), (5, []), (5, ['num']), (5, ['archive/0/index'])):
        shutil.copytree(folder, world.place / 'hurt')
        for path in (post_path(pathlib.Path('archive/..'), number), *damage):
            (world.place / 'hurt' / path).unlink()
        before = tree(world.place / 'hurt')
        holds(world.admin('hurt', 'rebuild', status=75), f'hurt/archive/0/0{number} is gone', 'refusal')
        same(tree(world.place / 'hurt'), before, 'the files')
        post_path(world.place / 'hurt', number).write_bytes(b'Subject: lost\n\nlost\n')
        world.admin('hurt', 'rebuild')
        same(world.whole('hurt'), 'ok 5 0 0 0 0 0 0 5', 'with a message in its place')
        shutil.rmtree(world.place / 'hurt')


def case_post_cut(world):
    """A post that was cut is told, as its entry has another size."""
    folder = archive(world, 'cats', 5)
    cut(post_path(folder, 2), 300)
    holds(world.admin('cats', 'rebuild'), 'post 2: its entry said', 'said')
    world.whole()


def case_nothing_to_rebuild(world):
    """A list that is whole stays as it is, one without posts too, and what a rebuild doesn't mend is named."""
    folder = archive(world, 'cats', 3)
    holds(world.admin('cats', 'rebuild'), 'nothing is to be rebuilt', 'said')
    check(not list(folder.glob('archive.*')), 'it was rebuilt')
    (folder / 'counts/list').write_bytes(b'7\n')
    holds(world.admin('cats', 'rebuild', status=75), 'check: 75 counts/list', 'said')
    check(not list(folder.glob('archive.*')), 'it was rebuilt')
    (folder / 'config').write_bytes(b'flags\n')
    holds(world.admin('cats', 'rebuild', status=75), 'config is damaged; check says: 75 config', 'said')
    empty = world.list('dogs')
    (empty / 'num').unlink()
    world.admin('dogs', 'rebuild')
    same(world.whole('dogs'), 'ok 0 0 0 0 0 0 0 0', 'without posts')
    same(world.spool('dogs', post(1, to=b'dogs')), ['0 0 posted 1'], 'its first post')


def case_full_disk(world):
    """On a full disk a rebuild is 111 and gives its room back, and the list stays as it was; with room it is done."""
    disk = world.place / 'disk'
    disk.mkdir()
    if os.geteuid() or subprocess.run(['mount', '-t', 'tmpfs', '-o', 'size=4m', 'tmpfs', disk], stderr=subprocess.DEVNULL).returncode:
        raise Skipped('a disk of its own needs root')
    try:
        folder = archive(world, 'disk/cats', POSTS)
        good = tree(folder)
        (folder / 'archive/1/index').unlink()
        hurt = tree(folder)
        with contextlib.suppress(OSError), open(disk / 'filler', 'wb', buffering=0) as filler:
            while filler.write(bytes(4096)):
                pass
        holds(world.admin('disk/cats', 'rebuild', status=111), 'No space left on device', 'refusal')
        same(tree(folder), hurt, 'the archive')
        same([path.name for path in folder.iterdir() if path.name.startswith(('archive.', 'num.'))], [], 'left')
        (disk / 'filler').unlink()
        world.admin('disk/cats', 'rebuild')
        same(tree(folder), good, 'the archive')
    finally:
        subprocess.run(['umount', disk], check=True)


def case_no_hard_links(world):
    """On a disk without hard links the posts are copied, with their times."""
    folder = archive(world, 'cats', 3)
    good, link = tree(folder), os.link

    def refused(*_, **__):
        raise PermissionError(1, 'Operation not permitted')

    (folder / 'archive/0/index').unlink()
    os.link = refused
    try:
        same(mended(world, 'cats', good, 'copies'), True, 'mended')
    finally:
        os.link = link
    same((post_path(folder, 2).stat().st_nlink, post_path(folder, 2).stat().st_mtime), (1, BEGIN + 2 * STEP), 'a post')


def case_next_posts(world):
    """A rebuilt list takes posts, digests and moderators' answers as before."""
    folder = archive(world, 'cats', 12, '-d')
    cut(folder / 'archive/0/index', 40)
    status, line = world.run('cats', 'deliver', '0', 'a@b', 'cats@ex.org', given=post(13)[5])
    same((status, line), (75, b'0 75 archive/0/index\n'), 'the damaged list')
    world.admin('cats', 'rebuild')
    same(world.spool('cats', post(13, moment=BEGIN + 13 * 90_000), (b'T', 0, BEGIN + 10**7)), ['0 0 posted 13', '0 0 timed 1'], 'the next')
    world.whole()


def case_in_process_refusals(world):
    """A folder without a list is refused before anything is written."""
    (world.place / 'none').mkdir()
    try:
        MailingList(world.place / 'none', str(world.program))
    except Refused as error:
        same(error.status, 75, 'status')
        same(list((world.place / 'none').iterdir()), [], 'files')
        return
    check(False, 'it was taken')
