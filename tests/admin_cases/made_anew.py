"""rebuild NEW: a list made anew beside another."""

import json
import shutil

from .archives import archive, told, tree
from .world import BEGIN, check, holds, same

SETS = 'list', 'digest', 'allow', 'deny', 'mod'


def case_new_list(world):
    """The new list has the same posts, indexes, threads, members with their moments, keys, configuration and digests' mark, to the byte."""
    folder = archive(world, 'cats', 9, '-fdkt', '--prefix', '[x y]', '--max', '5000')
    world.spool('cats', *((b'A', 0, BEGIN + 10**6 + n, name.encode(), b'U%d@b.net' % (n * 7)) for n, name in enumerate(SETS * 3)),
                (b'T', 0, BEGIN + 10**7))
    world.spool('cats', (b'T', 0, BEGIN + 10**8), (b'K', 0, BEGIN + 10**8 + 5, b'5e' * 32))
    world.admin('cats', 'options', '-fdkmt', '--prefix', '[x y]', '--max', '600')
    said = world.admin('cats', 'rebuild', 'new')
    holds(said, 'made new; check: ok ', 'said')
    old, new = tree(folder), tree(world.place / 'new')
    same(new, old, 'the archive')
    for name in ('config', 'key', 'dig', *(f'counts/{name}' for name in SETS)):
        same((world.place / 'new' / name).read_bytes(), (folder / name).read_bytes(), name)
    check(len((folder / 'key').read_bytes()) == 72, 'there is no former key')
    for name in SETS:
        same(world.answers('new', 'list', '-t', name), world.answers('cats', 'list', '-t', name), name)
    same(world.answers('new', 'queue'), '', 'the queue')
    same([path.name for path in world.place.iterdir() if path.name.endswith('.part')], [], 'left')


def case_new_list_of_posts(world):
    """A new list without options tells of its posts what the old one told, and takes the next one under the next number."""
    archive(world, 'cats', 12)
    before = told(world, 'cats', 12)
    world.admin('cats', 'rebuild', 'new')
    (world.place / 'cats').rename(world.place / 'old')
    (world.place / 'new').rename(world.place / 'cats')
    same(told(world, 'cats', 12), before, 'what the program tells')
    same(world.spool('cats', (b'D', 0, BEGIN, b'a@b', b'cats@ex.org', b'To: cats@ex.org\nSubject: x\n\nx\n')), ['0 0 posted 13'], 'the next post')


def case_new_list_of_a_damaged_one(world):
    """Of a list with a damaged bucket, key, mark, index, held post and ledger it takes what can be told, and says the rest."""
    folder = archive(world, 'cats', 4, '-d')
    world.spool('cats', *((b'A', 0, BEGIN, b'list', b'u%d@b' % n) for n in range(200)))
    bucket = folder / 'subscribers/]'
    members = [part for part in bucket.read_bytes().split(b'T') if b'@' in part]
    bucket.write_bytes(bucket.read_bytes().replace(members[1].split(b'\0')[0], b'\0\0\0', 1))
    lost = members[1].split(b'\0')[0].decode()
    (folder / 'key').write_bytes(b'short')
    (folder / 'dig').write_bytes(b'99:99\n')
    (folder / 'archive/0/index').write_bytes(b'x')
    (folder / 'bounce').mkdir()
    (folder / 'bounce/A').write_bytes(b'x')
    said = json.loads(world.admin('--json', 'cats', 'rebuild', 'new'))
    same(said['check'], 'ok 4 199 0 0 0 0 0 0', 'check')
    text = '\n'.join(said['said'])
    for part in (f'subscribers/] is damaged: {len(members) - 1} members could be told', 'key is damaged',
            'dig is damaged: the next digest begins after post 4',
                 'post 1: its entry was gone'):
        holds(text, part, 'said')
    have = world.answers('new', 'list', 'list').split()
    same(sorted(have), sorted({f'u{n}@b' for n in range(200)} - {lost}), 'members')
    same((world.place / 'new/dig').read_bytes(), b'4:0\n', 'the mark')


def case_new_list_refused(world):
    """A folder that is there, an unfinished one, and a post that the new list doesn't take are refused, and nothing is left."""
    folder = archive(world, 'cats', 2)
    (world.place / 'there').mkdir()
    holds(world.admin('cats', 'rebuild', 'there', status=100), 'there is there already', 'refusal')
    (world.place / 'new.part').mkdir()
    holds(world.admin('cats', 'rebuild', 'new', status=100), 'new.part is there', 'refusal')
    (world.place / 'new.part').rmdir()
    text = (folder / 'archive/0/02').read_bytes()
    (folder / 'archive/0/02').write_bytes(text.replace(b'To: cats', b'To: c\xc1ts'))
    holds(world.admin('cats', 'rebuild', 'new', status=75), "in place of '0 0 posted 2', the new list answered ['0 100 notaddressed']", 'refusal')
    (folder / 'archive/0/01').unlink()
    holds(world.admin('cats', 'rebuild', 'new', status=75), 'archive/0/01 is gone', 'refusal')
    same(sorted(path.name for path in world.place.iterdir()), ['cats', 'there'], 'left')
    shutil.rmtree(folder)
    holds(world.admin('cats', 'rebuild', 'new', status=75), 'no list here', 'refusal')
