"""Questions about a list, a moderator's answers, and what is refused."""

import json
import os
import pwd
import subprocess
import threading
import time

from .world import BEGIN, TOOL, Skipped, check, held, holds, post, same

HOUR = 3600


def lines(text):
    """The rows of a table without its heads, each split at two spaces or more."""
    return [[cell.strip() for cell in line.split('  ') if cell.strip()] for line in text.splitlines()[1:]]


def case_member(world):
    """member tells the sets, since when, and the bounces; an address that is in none is 100, and one that is none 65."""
    world.list()
    world.spool('cats', (b'A', 0, BEGIN, b'list', b'Ann@EX.net'), (b'A', 0, BEGIN + 60, b'mod', b'ann@ex.net'), post(1),
                (b'D', 0, BEGIN + 500, b'', b'cats-return-1-ann=ex.net@ex.org', b'\n'))
    same(world.admin('cats', 'member', 'ANN@ex.NET'),
         'list: Ann@ex.net, since 2023-11-14T22:13:20Z\n    bounces: not warned, since 2023-11-14T22:21:40Z, 1 mail missed\n'
         'mod: ann@ex.net, since 2023-11-14T22:14:20Z\n', 'a member')
    found = json.loads(world.admin('--json', 'cats', 'member', 'ann@ex.net'))
    same([(one['set'], one['address'], one['since']) for one in found], [('list', 'Ann@ex.net', BEGIN),
            ('mod', 'ann@ex.net', BEGIN + 60)], 'JSON')
    same(found[0]['bounces'], {'set': 'list', 'address': 'ann@ex.net', 'stage': 'not warned',
            'since': BEGIN + 500, 'first': BEGIN + 500, 'missed': [1]},
         'bounces')
    same(world.admin('cats', 'member', 'bob@ex.net', status=100), 'bob@ex.net is in no set\n', 'nobody')
    same(json.loads(world.admin_run('--json', 'cats', 'member', 'bob@ex.net').stdout), [], 'nobody in JSON')
    for word in ('bob', 'a b@c', '@', '', 'a@b\x1b[2J', 'x' * 401 + '@b', b'\xff@b'):
        error = world.admin('cats', 'member', word, status=65)
        holds(error, 'is no address', 'refusal')
        check(all(c.isprintable() or c == '\n' for c in error), error)


def case_bounces(world):
    """bounces tells who, the stage, since when and how many mails were missed, of both sets or of one."""
    folder = world.list('cats', '-d')
    world.spool('cats', *((b'A', 0, BEGIN, name, b'%s@b.net' % who) for name in (b'list', b'digest') for who in (b'ann', b'bob')), post(1),
            post(2))
    world.spool('cats', *((b'D', 0, BEGIN + n, b'', b'cats-return-%d-%s=b.net@ex.org' % (n, who), b'\n') for n in (1, 2) for who in (b'ann',
            b'bob')),
                (b'T', 0, BEGIN + 10**6 + 1), (b'D', 0, BEGIN + 10**6 + 9, b'', b'cats-digest-return-1-bob=b.net@ex.org', b'\n'))
    warned = next(line.split(b':')[1] for line in (folder / 'queue/4').read_bytes().split(b',') if b'return-warn' in line)
    check(warned.startswith(b'cats-return-warn-'), warned)
    world.spool('cats', (b'D', 0, BEGIN + 10**6 + 50, b'', warned + b'ann=b.net@ex.org', b'\n'))
    same(lines(world.admin('cats', 'bounces')),
         [['list', 'warning bounced', world_date(BEGIN + 10**6 + 50), '0', 'ann@b.net'],
          ['list', 'warned', world_date(BEGIN + 10**6 + 1), '0', 'bob@b.net'],
          ['digest', 'not warned', world_date(BEGIN + 10**6 + 9), '1', 'bob@b.net']], 'both sets')
    same(len(lines(world.admin('cats', 'bounces', 'digest'))), 1, 'digest')
    same([one['stage'] for one in json.loads(world.admin('--json', 'cats', 'bounces', 'list'))], ['warning bounced', 'warned'], 'list')
    holds(world.admin('cats', 'bounces', 'mod', status=65), 'is no set with bounces', 'refusal')
    world.list('dogs')
    same((world.admin('dogs', 'bounces'), world.admin('--json', 'dogs', 'bounces')), ('', '[]\n'), 'none')


def world_date(moment):
    return time.strftime('%Y-%m-%dT%H:%M:%SZ', time.gmtime(moment))


HOSTILE = b'=?utf-8?q?h=C3=A9llo?= \x1b]0;title\x07 \xff\xfe \xe2\x80\xae'


def case_held(world):
    """held tells tickets, senders, decoded subjects and ages, and a post whole; nothing of a mail reaches a terminal, and JSON is exact."""
    world.list('cats', '-m')
    now = int(time.time())
    mail = b'To: cats@ex.org\nSubject: ' + HOSTILE + b'\n\nbody \x1b[2J\x00\xff\r\n'
    world.spool('cats', (b'D', 0, now - 90 * HOUR, b'ann@b', b'cats@ex.org', mail), post(2, moment=now - 1),
            (b'D', 0, now, b'x@y', b'cats@ex.org', post(3)[5]))
    said = world.admin('cats', 'held')
    rows = lines(said)
    same([(row[0], row[3]) for row in rows], [('1', 'ann@b'), ('2', 'u@b.net'), ('3', 'x@y')], 'tickets and senders')
    same((rows[0][1], rows[0][4]), ('3d 18h', 'h\xe9llo \\x1b]0;title\\x07 \\xff\\xfe \\u202e'), 'age and subject')
    whole = world.admin('cats', 'held', '1')
    holds(whole, 'held since ' + world_date(now - 90 * HOUR) + ', from ann@b, ', 'the post')
    holds(whole, 'body \\x1b[2J\\x00\\xff\n', 'the post')
    for text in (said, whole):
        check(all(c.isprintable() or c == '\n' for c in text), f'control characters: {text!r}')
    found = json.loads(world.admin('--json', 'cats', 'held'))
    same((found[0]['subject_as_sent'].encode('utf-8', 'surrogateescape'), found[0]['moment'], found[0]['bytes']),
         (HOSTILE, now - 90 * HOUR, len(mail)), 'JSON')
    same(json.loads(world.admin('--json', 'cats', 'held', '1'))['message'].encode('utf-8', 'surrogateescape'), mail, 'the message in JSON')
    for word, status in (('4', 100), ('0', 65), ('01', 65), ('x', 65), ('-1', 65), ('1' * 20, 65)):
        world.admin('cats', 'held', word, status=status)


def case_accept_and_reject(world):
    """accept posts a held post and reject gives it back, by the program's answer, with a key that was changed too; a second answer is 100."""
    folder = world.list('cats', '-m')
    now = int(time.time())
    world.spool('cats', *(post(n, moment=now - 500 + n, subject=b's%d' % n) for n in range(1, 5)), (b'K', 0, now - 100, b'ab' * 32),
                (b'A', 0, now, b'list', b'a@b'))
    same(world.admin('cats', 'accept', '2'), 'posted 1\n', 'accepted')
    same(world.admin('cats', 'reject', '1'), 'rejected\n', 'rejected')
    same(json.loads(world.admin('--json', 'cats', 'accept', '4')), {'ticket': 4, 'status': 0, 'answer': 'posted 2'}, 'JSON')
    holds(world.admin('cats', 'accept', '2', status=100), 'no post is held under the ticket 2', 'again')
    same([row[0] for row in lines(world.admin('cats', 'held'))], ['3'], 'held')
    holds(world.answers('cats', 'show', '1'), 'Subject: s2\n', 'the post')
    same(len((folder / 'key').read_bytes()), 72, 'the key was changed')
    world.admin('cats', 'reject', 'x', status=65)


def case_queue(world):
    """queue tells id, age, kind, recipients, bytes and subject, and if there is nothing it prints nothing."""
    folder = world.list('cats', '-d')
    same(world.admin('cats', 'queue'), '', 'nothing')
    world.spool('cats', (b'A', 0, BEGIN, b'list', b'a@b'), (b'A', 0, BEGIN, b'list', b'c@d'),
            (b'A', 0, BEGIN, b'digest', b'e@f'), post(1, subject=HOSTILE),
                (b'D', 0, BEGIN + 1, b'', b'cats-return-1-a=b@ex.org', b'\n'), (b'T', 0, BEGIN + 10**6 + 1),
                (b'D', 0, BEGIN, b'x@y', b'cats-help@ex.org', b'\n'))
    os.utime(folder / 'queue/1', (time.time() - 25 * HOUR - 99,) * 2)
    said = world.admin('cats', 'queue')
    rows = lines(said)
    same([(row[0], *row[2:4]) for row in rows], [('1', 'post 1', '2'), ('2', 'digest 1', '1'), ('3', 'warning', '1'),
            ('4', 'mail', '1')], 'entries')
    same(rows[0][1], '1d 1h', 'age')
    same([row[4] for row in rows], [line.split(' ')[2] for line in world.answers('cats', 'queue').splitlines()], 'bytes')
    same([row[5] for row in rows[1:]], ['cats Digest Issue 1', 'bounce warning', 'help'], 'subjects')
    check(all(c.isprintable() or c == '\n' for c in said), f'control characters: {said!r}')
    found = json.loads(world.admin('--json', 'cats', 'queue'))
    same(found[0]['subject_as_sent'].encode('utf-8', 'surrogateescape'), HOSTILE, 'JSON')


def case_digest(world):
    """digest tells what waits and when the next is due: by age, by 30 posts, by 65,536 bytes; and that a list has none."""
    now = int(time.time())
    world.list('cats', '-d')
    world.spool('cats', post(1, moment=now - 100_000), post(2, moment=now))
    found = json.loads(world.admin('--json', 'cats', 'digest'))
    sizes = [len(world.answers('cats', 'show', n)) for n in '12']
    same(found, {'digests': True, 'issue': 0, 'last': 0, 'waiting': 2, 'bytes': sum(sizes), 'first': now - 100_000, 'is_due': False,
            'due': now + 72_800}, 'two')
    holds(world.admin('cats', 'digest'), f'due at {world_date(now + 72_800)}', 'two')
    world.list('dogs', '-d')
    world.spool('dogs', *(post(n, to=b'dogs', moment=now - 5) for n in range(1, 30)))
    same(json.loads(world.admin('--json', 'dogs', 'digest'))['is_due'], False, '29 posts')
    world.spool('dogs', post(30, to=b'dogs', moment=now))
    holds(world.admin('dogs', 'digest'), 'due now', '30 posts')
    same(world.answers('dogs', 'timed', '0'), '0 0 timed 1\n', 'the program')
    same(world.admin('dogs', 'digest'), 'issue 1 was the last, up to post 30\n0 posts in none yet\nnone is due\n', 'then')
    world.list('old', '-d')
    world.spool('old', post(1, to=b'old', moment=now - 172_801))
    holds(world.admin('old', 'digest'), 'due now', 'an old one')
    world.list('big')
    world.spool('big', post(1, to=b'big', moment=now, more=b'\n' + b'x' * 66_000))
    holds(world.admin('big', 'digest'), 'the list has no digests', 'without d')
    world.admin('big', 'options', '-d')
    holds(world.admin('big', 'digest'), 'due now', 'a big one')


def case_usage(world):
    """Wrong words are 64, a folder without a list 75, and help is given; all is said on standard error, in a line."""
    world.list()
    for words in ((), ('cats',), ('cats', 'nothing'), ('cats', 'member'), ('cats', 'member', 'a@b', 'c@d'), ('cats', 'queue', '1'),
            ('--what', 'cats', 'queue'),
                  ('cats', 'accept'), ('cats', 'rebuild', 'a', 'b'), ('cats', '\x1b[2J')):
        error = world.admin(*words, status=64)
        check(error.startswith('ezmlm-admin: ') and error.count('\n') == 1 and '\x1b' not in error, error)
    for folder in ('none', 'none/', 'cats/config', '.'):
        holds(world.admin(folder, 'queue', status=75), 'there is no list here', folder)
    same(world.admin('--version'), 'ezmlm-admin 0.1\n', 'version')
    for words in (('--help',), ('-h',), ('cats', 'member', '--help'), ('watch', '--help'), ('cats', '--help')):
        holds(world.admin(*words), 'usage: ezmlm-admin', 'help')
    done = world.admin_run('--program', '/none/ezmlm', 'cats', 'queue')
    same(done.returncode, 71, 'without a program')
    holds(done.stderr, b'there is no program /none/ezmlm', 'without a program')
    same(world.admin('cats/', 'queue'), '', 'a slash at the end')
    same(world.admin('cats', 'queue', '--json'), '[]\n', '--json at the end')


def case_held_lock(world):
    """A list that another run holds is waited for, ten seconds long; then it is 111, and nothing was changed."""
    folder = world.list('cats', '-m')
    world.spool('cats', post(1, moment=int(time.time())))
    for words in (('held',), ('accept', '1'), ('options', '-d'), ('queue',)):
        with held(folder):
            begun = time.monotonic()
            error = world.admin('cats', *words, status=111)
            check(time.monotonic() - begun >= 9.9, f'{words} waited for {time.monotonic() - begun} seconds')
        check('another run' in error or '111 disk' in error, error)
    with held(folder) as lock:
        timer = threading.Timer(1, lock.close)
        timer.start()
        same(world.admin('cats', 'accept', '1'), 'posted 1\n', 'when it is let go')
        timer.join()


def case_unsettled_log(world):
    """What a killed run left in the log is laid down before files are read; a log that is damaged is refused."""
    folder = world.list()
    bucket, count = b'layout 2\nTa@b\x00' + b'1700000000\0', b'1\n'
    row = b''.join(b'W' + b''.join(b'%d:%b,' % (len(part), part) for part in parts) for parts in ((b'3', b'29', bucket), (b'8', b'0', count)))
    (folder / 'log').write_bytes(b'\x01%d:%b,\x00' % (len(row), row))
    holds(world.admin('cats', 'member', 'a@b'), 'list: a@b, since 2023-11-14T22:13:20Z', 'what the log had')
    same((folder / 'log').stat().st_size, 1, 'the log')
    (folder / 'log').write_bytes(b'\x01xyz')
    holds(world.admin('cats', 'member', 'a@b', status=75), '75 log', 'a damaged log')


def case_damaged_files(world):
    """A damaged file is 75, with its path and what check says; a FIFO in its place is one, and holds nothing up."""
    folder = world.list('cats', '-m')
    now = int(time.time())
    world.spool('cats', (b'A', 0, BEGIN, b'list', b'a@b'), post(1, moment=now))
    for name, words in (('config', ('options',)), ('subscribers/]', ('member', 'a@b')), ('pending/1', ('held',)), ('tickets', ('held',)),
                        ('key', ('accept', '1')), ('num', ('digest',)), ('dig', ('digest',))):
        kept = (folder / name).read_bytes()
        (folder / name).write_bytes(b'x')
        said = world.admin('cats', *words, status=75)
        holds(said, f'cats/{name} is damaged; check says: 75 {name}', name)
        (folder / name).write_bytes(kept)
    (folder / 'subscribers/]').unlink()
    os.mkfifo(folder / 'subscribers/]')
    holds(world.admin('cats', 'member', 'a@b', status=75), 'cats/subscribers/] is damaged', 'a FIFO')


def case_other_user(world):
    """By root it names runuser for a list of another user, and writes nothing; by the user it works."""
    if os.geteuid():
        raise Skipped('only root can try it')
    folder = world.list()
    nobody = pwd.getpwnam('nobody')
    os.chown(world.place, nobody.pw_uid, nobody.pw_gid)
    if subprocess.run([TOOL, '--version'], user=nobody.pw_uid, stdout=subprocess.DEVNULL, stderr=subprocess.DEVNULL).returncode:
        raise Skipped('nobody may not read the source')
    try:
        subprocess.run([world.program], user=nobody.pw_uid, stdout=subprocess.DEVNULL)
    except PermissionError:
        raise Skipped('nobody may not run the program') from None
    done = world.admin_run('cats', 'options', user=nobody.pw_uid)
    same(done.returncode, 77, "by nobody on root's list")
    holds(done.stderr, b'run it as the user that the list belongs to', "by nobody on root's list")
    for path in (world.place, folder, *folder.rglob('*')):
        os.chown(path, nobody.pw_uid, nobody.pw_gid)
    before = sorted((str(path), path.stat().st_mtime_ns) for path in folder.rglob('*'))
    for words in (('options',), ('options', '-d'), ('rebuild',), ('member', 'a@b')):
        holds(world.admin('cats', *words, status=77), 'runuser -u nobody -- ezmlm-admin', words)
    same(sorted((str(path), path.stat().st_mtime_ns) for path in folder.rglob('*')), before, 'files')
    done = world.admin_run('cats', 'options', '-d', user=nobody.pw_uid)
    same((done.returncode, done.stderr), (0, b''), 'by the user')
    same({path.stat().st_uid for path in folder.rglob('*')}, {nobody.pw_uid}, 'whose files')
    (world.place / 'lost+found').mkdir(0o700)
    done = world.admin_run('watch', '.', user=nobody.pw_uid)
    same((done.returncode, done.stdout[:31]), (0, b'EZMLM OK - the list is whole | '), 'beside the folder of a disk')
    (world.place / 'secret').mkdir(0o700)
    done = world.admin_run('watch', '.', user=nobody.pw_uid)
    same(done.returncode, 2, 'beside a folder that may not be read')
    holds(done.stdout, b'secret: 111', 'beside a folder that may not be read')
