"""rebuild and options, killed before each of their steps."""

import os
import shutil
import signal
import sys
import tempfile

from ezmlm_admin.__main__ import main

from .archives import archive, tree, turned
from .world import KEY, check, post, same, some

WRITES = os.O_WRONLY | os.O_RDWR | os.O_CREAT
STEPS = 'os.mkdir', 'os.rename', 'os.link', 'os.remove', 'os.rmdir', 'os.truncate', 'os.utime', 'os.chmod', 'subprocess.Popen'
STEPS_IN_TURN = range(1, 99)  # more than there are


def stopped(world, step, *words):
    """Whether ezmlm-admin was killed before this step. Otherwise it ended well. It is run in a fork of this process."""
    child = os.fork()
    if not child:
        try:
            os.chdir(world.place)
            sys.stdout = open(os.devnull, 'w', encoding='utf-8')
            sys.dont_write_bytecode, tempfile.tempdir = True, str(world.place)
            count(step)
            os._exit(main(['--program', str(world.program), *words]))
        finally:
            os._exit(99)
    _, status = os.waitpid(child, 0)
    check(status in (0, signal.SIGKILL), f'step {step}: it ended with {status}')
    return status != 0


def count(step):
    """Kills this process before its N-th step that changes a file or runs the program."""
    left = [step]

    def hook(event, arguments):
        if event in STEPS or (event == 'open' and arguments[2] & WRITES and arguments[0] != os.devnull):
            left[0] -= 1
            if not left[0]:
                os.kill(os.getpid(), signal.SIGKILL)

    sys.addaudithook(hook)


def left_well(world, good, hurt, step):
    """The list that a killed rebuild left is the new one, or the old one, or has no num: then check names it, and no post is taken."""
    folder = world.place / 'hurt'
    found, (status, line) = tree(folder), world.run('hurt', 'check')
    if found != good and found != hurt:
        same((status, line), (75, b'- 75 num\n'), f'step {step}: check')
        same(world.run('hurt', 'deliver', '0', 'a@b', 'cats@ex.org', given=post(9)[5]), (75, b'0 75 num\n'), f'step {step}: a post')
    elif found == good:
        same(status, 0, f'step {step}: check')
    else:
        check(status == 75, f'step {step}: {line}')
    return 'new' if found == good else 'old' if found == hurt else 'between'


def killed(world, posts, damage):
    """Kills a rebuild before each step in turn, and lets the next one end it. What was met."""
    folder = archive(world, 'cats', posts, '-f')
    good = tree(folder)
    damage(folder)
    hurt, met = tree(folder), {}
    for step in some(STEPS_IN_TURN, 3):
        shutil.copytree(folder, world.place / 'hurt')
        is_stopped = stopped(world, step, 'hurt', 'rebuild')
        how = left_well(world, good, hurt, step)
        met[how] = met.get(how, 0) + 1
        check(not stopped(world, 0, 'hurt', 'rebuild'), 'it was stopped')
        same(tree(world.place / 'hurt'), good, f'step {step}: the archive')
        left = [path.name for path in (world.place / 'hurt').iterdir() if path.name in ('archive.new', 'num.new', 'archive.old')]
        same(left, [], f'step {step}: left')
        olds = list((world.place / 'hurt').glob('archive.old-*'))
        same(len(olds), 1, f'step {step}: old archives')
        same({path: text for path, text in tree(olds[0]).items()}, hurt, f'step {step}: the old archive')
        shutil.rmtree(world.place / 'hurt')
        if not is_stopped:
            return met
    return met


def complete(world, met):
    """All three ways were met, and it was killed until it ended by itself."""
    check(met.keys() == {'new', 'old', 'between'}, f'met {met}')
    world.note = ', '.join(f'{many} {how}' for how, many in met.items())


def case_killed_with_an_index_gone(world):
    """Killed before each step, a rebuild leaves the old archive, the new one, or no num; and the next one ends it."""
    complete(world, killed(world, 4, lambda folder: (folder / 'archive/0/index').unlink()))


def case_killed_with_all_damaged(world):
    """The same with an index, a thread file and num damaged at once."""
    def damage(folder):
        turned(folder / 'archive/0/index', 20)
        shutil.rmtree(folder / 'archive/threads')
        (folder / 'num').write_bytes(b'9\n')
    complete(world, killed(world, 3, damage))


def case_killed_without_num(world):
    """The same with num gone from the start."""
    met = killed(world, 3, lambda folder: (folder / 'num').unlink())
    check({'new', 'old'} <= met.keys(), f'met {met}')
    world.note = str(met)


def case_killed_twice(world):
    """A rebuild that is killed while it ends what another left leaves no mix either."""
    folder = archive(world, 'cats', 3)
    good = tree(folder)
    turned(folder / 'archive/0/index', 20)
    hurt = tree(folder)
    first = next(step for step in range(10, 99) if between(world, folder, step))
    for more, steps in ((0, 9), (1, 9), (2, 5)):
        for step in some(range(2, steps), 3):
            check(between(world, folder, first + more), 'there is a num')
            stopped(world, step, 'hurt', 'rebuild')
            left_well(world, good, hurt, f'{first + more} and {step}')
            check(not stopped(world, 0, 'hurt', 'rebuild'), 'it was stopped')
            same(tree(world.place / 'hurt'), good, 'the archive')
    shutil.rmtree(world.place / 'hurt')


def between(world, folder, step):
    """Whether a rebuild that is killed before this step leaves a list without num."""
    shutil.rmtree(world.place / 'hurt', ignore_errors=True)
    shutil.copytree(folder, world.place / 'hurt')
    stopped(world, step, 'hurt', 'rebuild')
    return not (world.place / 'hurt/num').exists()


def every_file(folder):
    """The bytes of all files in a list's folder."""
    return {str(path.relative_to(folder)): path.is_file() and path.read_bytes() for path in folder.rglob('*')}


def case_killed_options(world):
    """Killed before each step, a change of options leaves the former configuration or the new one, and a list that is whole."""
    folder = archive(world, 'cats', 2)
    world.answers('new', 'make', '-dt', '--max=4096', '--key', KEY, 'cats', 'ex.org', 'o@own.org')
    texts = [(each / 'config').read_bytes() for each in (folder, world.place / 'new')]
    met, before = set(), None
    for step in some(STEPS_IN_TURN, 3):
        shutil.copytree(folder, world.place / 'hurt')
        is_stopped = stopped(world, step, 'hurt', 'options', '-dt', '--max', '4096')
        met.add(texts.index((world.place / 'hurt/config').read_bytes()))
        left = every_file(world.place / 'hurt')
        # Most steps are of its scratch files. Where the list's are as the stop before left them, what follows is the same too.
        if left != before:
            world.whole('hurt')
            check(not stopped(world, 0, 'hurt', 'options', '-dt', '--max', '4096'), 'it was stopped')
            same((world.place / 'hurt/config').read_bytes(), texts[1], 'the configuration')
        before = left
        shutil.rmtree(world.place / 'hurt')
        if not is_stopped:
            break
    same(met, {0, 1}, 'configurations that were met')
