"""options: told and changed."""

import json
import os

from ezmlm_admin import lists, options

from .archives import archive, told
from .world import KEY, check, holds, post, same

OTHER_FILES = 'key', 'num', 'dig', 'tickets', 'ids', 'counts/list', 'counts/mod'


def made(world, *words, local='cats', owner='o@own.org'):
    """The configuration that the program's make writes of these words, in a folder of its own."""
    world.answers('made', 'make', *words, '--key', KEY, '--', local, 'ex.org', owner)
    text = (world.place / 'made/config').read_bytes()
    for path in (world.place / 'made').rglob('*'):
        path.is_file() and path.unlink()
    return text


def case_options_told(world):
    """options tells each option in words, and the words by which make writes them again."""
    for letters in ((), ('-bdfghjklmprstu',), ('-P',), ('-dfm', '--prefix', 'x y', '--max', '99'), ('-F', '--prefix', '[cats]')):
        (world.place / 'told').mkdir(exist_ok=True)
        text = made(world, *letters)
        (world.place / 'told/config').write_bytes(text)
        found = json.loads(world.admin('--json', 'told', 'options'))
        same(made(world, *found['words']), text, f'{letters} by {found["words"]}')
    world.list('cats', '-dm')
    said = world.admin('cats', 'options')
    for line in ('list    cats@ex.org', 'owner   o@own.org', 'max     1048576 bytes a post', 'm yes   posts are moderated',
                 'b no    the archive is for moderators alone', 'words   -dm'):
        holds(said.splitlines(), line, 'options')


def case_options_changed(world):
    """options writes what make would write of the words; key, counts and all other files stay, and the former one is config.old."""
    folder = archive(world, 'cats', 3)
    world.spool('cats', (b'A', 0, 5, b'mod', b'm@b'), (b'A', 0, 5, b'list', b'a@b'))
    kept = {name: (folder / name).read_bytes() for name in OTHER_FILES}
    former, line = (folder / 'config').read_bytes(), world.whole()
    for words, owner in ((('-dm', '--max', '4096'), None), (('-tu', '--max=5', '-k'), None), (('-P',), None),
            (('-bghjlrs',), 'new@own.org'), (('-p',), None)):
        owner = owner or former.split(b'\n')[3].removeprefix(b'owner ').decode()
        said = world.admin('cats', 'options', *words, '--owner', owner, '--anyway')
        now = (folder / 'config').read_bytes()
        same(now, made(world, *words, owner=owner), f'{words}')
        same((folder / 'config.old').read_bytes(), former, 'the former one')
        same({name: (folder / name).read_bytes() for name in OTHER_FILES}, kept, 'other files')
        holds(said, f'check: {line}', 'said')
        same(((folder / 'config').stat().st_mode & 0o777, (folder / 'config.old').stat().st_mode & 0o777), (0o600, 0o600), 'modes')
        former = now
    same(world.admin('cats', 'options', '-p', '--max', '1048576'), f'the options are as they were\ncheck: {line}\n', 'the same again')
    said = world.admin('cats', 'options', '-dm', '--max', '77')
    for part in ('max: 1048576 -> 77', 'd: now there are digests', 'm: now posts are moderated', 'the former ones are in config.old',
            'the digests begin'):
        holds(said, part, 'said')
    same(world.spool('cats', post(4)), ['0 100 toobig'], 'a post above the new most')
    check(not list(folder.glob('*.new')), 'something is left')


def case_options_single(world):
    """+LETTERS change these alone, values alone too; what -LETTERS would undo unnamed is refused, and named, without --anyway."""
    folder = world.list('cats', '-dk', '--max', '4096', '--prefix', 'x y')
    keeps = '--prefix=x y', '--max=4096'
    for words, letters in ((('+t',), '-dkt'), (('+uT',), '-dku'), (('+D', '+f'), '-kuf'), (('+P',), '-kufP'), (('+p',), '-kuf')):
        world.admin('cats', 'options', *words)
        same((folder / 'config').read_bytes(), made(world, letters, *keeps), words)
    world.admin('cats', 'options', '--max', '99')
    same((folder / 'config').read_bytes(), made(world, '-kuf', '--prefix=x y', '--max=99'), '--max alone')
    before = (folder / 'config').read_bytes()
    for words, lost in ((('-d',), 'f, k, u, --max would be lost, as they aren\'t named'), (('-kuf', '--max', '99'), '--prefix would be lost, as it isn\'t'),
                        (('-kuF', '--prefix=x y'), '--max would be lost')):
        holds(world.admin('cats', 'options', *words, status=100), lost, words)
        same((folder / 'config').read_bytes(), before, words)
    world.admin('cats', 'options', '-dKUF', '--prefix=x y', '--max=99')
    world.admin('cats', 'options', '-t', '--anyway')
    same((folder / 'config').read_bytes(), made(world, '-t'), '--anyway')
    world.admin('cats', 'options', '+f')
    same((folder / 'config').read_bytes(), made(world, '-tf'), 'f gets the prefix that make gives it')
    holds(world.admin('cats', 'options', '+m', status=100), 'the list has none', 'without a moderator')


def case_options_prefix(world):
    """A prefix that would leave threads that don't agree is refused, and nothing changes; one that check takes is laid in."""
    folder = archive(world, 'cats', 6, '-f')
    before = (folder / 'config').read_bytes()
    for words in (('-d', '--anyway'), ('-f', '--prefix', '[x]'), ('-F', '--prefix', 'topic'), ('+F', '--prefix', 'topic')):
        said = world.admin('cats', 'options', *words, status=100)
        holds(said, 'the threads of the posts that are there are made by [cats] (check would say: 75 archive/threads/', 'refusal')
        holds(said, "keep it by '--prefix=[cats]'", 'refusal')
        same((folder / 'config').read_bytes(), before, 'the configuration')
        check(not (folder / 'config.old').exists(), 'there is a config.old')
    asked = told(world, 'cats', 6)
    world.admin('cats', 'options', '-dF', '--prefix=[cats]')
    same(told(world, 'cats', 6), asked, 'what the program tells')
    archive(world, 'dogs', 6)
    world.admin('dogs', 'options', '-f', status=0)
    world.list('empty')
    world.admin('empty', 'options', '-f', '--prefix', 'x')
    holds((world.place / 'empty/config').read_bytes(), b'prefix x\n', 'a list without posts')


def case_options_no_moderator(world):
    """m or s that is turned on with no moderator is refused without --anyway, and not if there is one, or if it was on."""
    folder = world.list()
    before = (folder / 'config').read_bytes()
    for words in ('-m', '-s', '-dms'):
        holds(world.admin('cats', 'options', words, status=100), 'the list has none: first ezmlm', 'refusal')
        same((folder / 'config').read_bytes(), before, 'the configuration')
    world.admin('cats', 'options', '-m', '--anyway')
    world.admin('cats', 'options', '-dm')
    holds(world.admin('cats', 'options', '-dms', status=100), '-s asks the moderators', 'refusal')
    world.answers('cats', 'sub', '0', 'mod', 'm@b')
    world.admin('cats', 'options', '-dms')


def case_options_refused(world):
    """Words that make doesn't take, values without letters and a list that isn't whole are refused with the reason."""
    folder = world.list()
    before = (folder / 'config').read_bytes()
    for words in (('-dd',), ('-dD',), ('-d', '--max', '0'), ('-d', '--max', '16777217'), ('-d', '--prefix', ''),
                  ('-d', '--prefix', ' x'), ('-d', '--prefix', 'x' * 63), ('-d', '--owner', 'nobody'), ('-d', '--owner', 'cats-owner@ex.org'),
                  ('-d', '--owner', '')):
        holds(world.admin('cats', 'options', *words, status=64), 'make refuses these words: - 64 usage', words)
    for words in (('-x',), ('-d', 'word'), ('--other',), ('-',), ('--',), ('-d', '--max'), ('d',), ('+',), ('+x',), ('+d', '-m'), ('-m', '+d'), ('+dd',),
                  ('+d', '+D'), ('+d', 'm'), ('--max', '5', '--max', '6'), ('--anyway',)):
        holds(world.admin('cats', 'options', *words, status=64), 'options: ', words)
    (folder / 'counts/deny').write_bytes(b'5\n')
    holds(world.admin('cats', 'options', '-d', status=75), "a list that isn't whole stay: check says: 75 counts/deny", 'refusal')
    same((folder / 'config').read_bytes(), before, 'the configuration')
    same(sorted(path.name for path in folder.glob('config*')), ['config'], 'files')


def case_options_back(world):
    """If check doesn't say ok after all, the former configuration is back."""
    folder, says = world.list(), iter([(0, 'ok'), (75, '75 num')])
    before = (folder / 'config').read_bytes()
    (folder / 'config.old').write_bytes(b'an older one\n')

    class Odd(lists.MailingList):
        def check(self):
            return next(says)

    try:
        options.options(Odd(folder, str(world.program)), '-d')
    except lists.Refused as error:
        holds(str(error), 'check says 75 num, so the former options are back', 'refusal')
        same((folder / 'config').read_bytes(), before, 'the configuration')
        return
    check(False, 'it was not refused')


def case_options_owner(world):
    """The owner stays unless --owner names another, and a local part that begins with a hyphen is no option."""
    world.answers('odd', 'make', '--key', KEY, '--', '-odd', 'ex.org', '-o@own.org')
    world.admin('odd', 'options', '-d')
    same((world.place / 'odd/config').read_bytes(), made(world, '-d', local='-odd', owner='-o@own.org'), 'the configuration')
    world.admin('odd', 'options', '-d', '--owner=-p@own.org')
    holds((world.place / 'odd/config').read_bytes(), b'owner -p@own.org\n', 'the owner')
    check(os.path.exists(world.place / 'odd/config.old'), 'there is no config.old')
