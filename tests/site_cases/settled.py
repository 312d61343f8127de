"""Settings, and lists that aren't as they were: what is shown, what is refused, and that nothing is lost by it."""

from __future__ import annotations

import fcntl
import os
import pathlib
import shutil
import subprocess
import threading
import time

from ezmlm_site import archive, making, settings

from .world import BEGAN, TOP, World, Wrong, equal, holds, mail, tree

GOOD = {'folder': '/l/cats', 'web': '/w/cats', 'state': '/s'}
# What is wrong with a file of settings, in words of the refusal.
REFUSED = [
    ({'colour': 'red'}, 'unknown settings: colour'), ({'web': 'w/cats'}, 'no absolute path'), ({'url': 'ex.org/cats'}, 'no URL'),
    ({'url': 'javascript:alert(1)'}, 'no URL'), ({'url': 'https://ex.org/?x'}, 'no URL'), ({'url': 'https://ex.org/"x'}, 'no URL'),
    ({'language': 'not a tag'}, 'no tag of a language'), ({'timezone': 'Europe/Nowhere'}, 'no time zone'), ({'timezone': '../../etc/passwd'}, 'no time zone'),
    ({'addresses': 'some'}, 'none of shown, shortened, hidden'), ({'archive': 'ajar'}, 'none of list, open, closed'), ({'noindex': 'maybe'}, 'neither yes nor no'),
    ({'first': '0'}, 'no number of a post'), ({'first': '123456789'}, 'no number of a post'), ({'left_out': '3 x'}, 'x is neither'),
    ({'left_out': '9-3'}, 'begins after its end'), ({'left_out': '1-99999999'}, 'has too many posts'), ({'web': '/l/cats/web'}, 'above or below'),
    ({'web': '/l'}, 'above or below'), ({'state': '/w/cats/state'}, 'above or below'),
]


def written(place: pathlib.Path, *sections: tuple[str, dict[str, str]]) -> str:
    """The path of a file of settings."""
    path = place / 'site.conf'
    path.write_text(''.join(f'[{name}]\n' + ''.join(f'{key} = {value}\n' for key, value in values.items()) for name, values in sections))
    return str(path)


def refused(path: str, why: str) -> None:
    try:
        settings.read(path)
    except ValueError as error:
        holds(f'it was refused by {error!s:.300} and not by {why}', why in str(error) and path in str(error))
    else:
        raise Wrong(f'it was not refused by {why}')


def case_settings(world: World) -> None:
    """Settings that are taken, and those that are refused by their names."""
    got = settings.read(written(world.place, ('site', {'state': '/s', 'program': '/p'}), ('cats', {'folder': '/l/cats', 'web': '/w/cats', 'left_out': '3, 7-9 12',
                                'url': 'https://ex.org/cats', 'noindex': 'yes'}), ('dogs', {'folder': '/l/dogs', 'web': '/w/dogs', 'source': 'yes'})))
    equal('the program', got.program, '/p')
    equal('the posts left out', got.sites[0].left_out, {3, 7, 8, 9, 12})
    equal('the URL', got.sites[0].url, 'https://ex.org/cats/')
    equal('noindex, and the source given', (got.sites[0].noindex, got.sites[0].gives_source, got.sites[1].gives_source), (True, False, True))
    for given, why in REFUSED:
        refused(written(world.place, ('cats', GOOD | given)), why)
    refused(written(world.place, ('cats', {'folder': '/l/cats', 'web': '/w'})), 'wants the settings state')
    refused(written(world.place, ('cats', GOOD), ('dogs', GOOD | {'folder': '/l/dogs'})), 'have one web folder')
    refused(written(world.place, ('a cat', GOOD)), 'no name of a list')
    refused(written(world.place, ('site', {'colour': 'red'}), ('cats', GOOD)), '[site] has unknown settings')
    refused(written(world.place, ('site', {})), 'no section of a list')
    refused(str(world.place / 'none'), 'No such file')


def case_left_out(world: World) -> None:
    """Posts that are left out are neither shown nor found, their pages say so, and they come back."""
    world.make_list()
    world.post(mail('one', 'a secret sentence\n' * 300, 'Hidden Jo <jo@b>'), mail('Re: one', 'answer\n'), mail('two'))
    world.post(b'From: X <x@b>\nTo: cats@ex.org\nSubject: with a file\nContent-Type: application/x-y; name=f.bin\n\nsecret file\n')
    world.make()
    before = tree(world.web)
    holds('the file is there', '4/1-f.bin' in before)
    world.set(left_out=frozenset({1, 4, 99}))
    world.make()
    after = tree(world.web)
    for name, content in after.items():
        holds(f'{name} has what was left out', not any(word in content for word in (b'secret', b'Hidden Jo', b'with a file')))
    for name in ('1.eml', '4.eml', '4/1-f.bin'):
        holds(f'{name} is still there', name not in after)
    holds('the page says so', 'left out of the archive on the web' in world.page('1.html'))
    holds('the thread is named by what is left of it', '<h1 dir="auto">Re: one</h1>' in world.page('thread/1.html'))
    kept = (world.site.state / 'cats.sqlite').read_bytes()
    holds('the store has it', b'Hidden Jo' not in kept and b'secret sentence' not in kept)
    equal('what is made anew', after, world.anew())
    world.set(left_out=frozenset())
    world.make()
    equal('what comes back', tree(world.web), before)


def case_addresses_of_pages(world: World) -> None:
    """Addresses on the pages, in fields and texts too: shortened, hidden with no source, and shown."""
    world.make_list()
    world.post(mail('to jo@sub.net', 'write to jo@sub.net or cats@ex.org\n', 'jo@sub.net', more='Cc: <jo@sub.net>\nReply-To: jo@sub.net\nMessage-ID: <1@id.net>\n'),
               sender=b'env@sub.net')
    world.make()
    pages = {name: content for name, content in tree(world.web).items() if name.endswith(('.html', '.xml'))}
    holds('an address is shown', not any(b'sub.net' in content for content in pages.values()))
    holds('it is shortened', 'write to jo@…' in world.page('1.html'))
    holds('whoever answers names the mail', 'mailto:cats@ex.org?In-Reply-To=%3C1%40id.net%3E&amp;Subject=Re%3A%20to%20jo%40' in world.page('1.html'))
    holds('the list\'s own stays', 'or cats@ex.org' in world.page('1.html'))
    world.set(addresses='hidden', source=False)
    world.make()
    all_files = tree(world.web)
    holds('an address is there', not any(b'sub.net' in content or b'jo@' in content or b'id.net' in content for content in all_files.values()))
    holds('the source is there', '1.eml' not in all_files)
    equal('what is made anew', all_files, world.anew())
    world.set(addresses='shown')
    world.make()
    holds('the address is shown', 'write to jo@sub.net' in world.page('1.html'))


def case_said_of_a_list(world: World) -> None:
    """Title, description, URL, language, time zone, noindex, search, the first post, and a folder of templates."""
    world.make_list()
    world.post(mail('old'), mail('one'), mail('Re: old'), moment=BEGAN)
    own = world.place / 'templates'
    own.mkdir()
    (own / 'style.css').write_text('/* own */')
    (own / 'index.html').write_text('{% extends "base.html" %}{% block title %}own {{ title_of_list }}{% endblock %}{% block main %}<h1>own</h1>{% endblock %}')
    world.set(title='Cats & <Dogs>', description='About "cats"', url='https://ex.org/cats/', language='de', timezone='Europe/Berlin', noindex=True, search=True,
              first=2, templates=own)
    world.make()
    page = world.page('3.html')
    for piece in ('<html lang="de">', 'Re: old · Cats &amp; &lt;Dogs&gt;', '2001-09-09 03:48 CEST', 'datetime="2001-09-09T01:48:40Z"', 'content="noindex"',
                  '<link rel="canonical" href="https://ex.org/cats/3.html">', '<form action="search"', 'href="thread/1.html#p3"'):
        holds(f'the page lacks {piece}', piece in page)
    equal('the style', world.page('style.css'), '/* own */')
    holds('the index is of the own template', '<title>own Cats &amp; &lt;Dogs&gt;</title>' in world.page('index.html'))
    holds('a post before the first one is shown', not (world.web / '1.html').exists() and 'rel="prev"' not in page)
    holds('the feed has absolute links', '<link rel="alternate" type="text/html" href="https://ex.org/cats/3.html"/>' in world.page('feed.xml'))
    world.set(search=False, noindex=False, url='')
    world.make()
    page = world.page('3.html')
    holds('it has a form, robots or a canonical link', '<form' not in page and 'noindex' not in page and 'canonical' not in page)
    equal('what is made anew', tree(world.web), world.anew())


def case_other_lists(world: World) -> None:
    """A list that was put back as it was, and another one in its place, are made anew, and nothing stays of the one before."""
    world.make_list()
    world.post(mail('one'), mail('two', more='Content-Type: application/x-y; name=f.bin\n'), mail('three'), moment=BEGAN)
    shutil.copytree(world.list, world.place / 'backup')
    world.make()
    world.post(mail('four'), moment=BEGAN + 90 * 86_400)
    world.make()
    shutil.rmtree(world.list)
    (world.place / 'backup').rename(world.list)
    world.make()
    equal('the list put back', tree(world.web), world.anew())
    holds('a page of before is there', not (world.web / '4.html').exists() and not (world.web / '2001-12.html').exists())
    shutil.rmtree(world.list)
    world.make_list()
    world.post(mail('other one'), mail('other two'), mail('other three'), moment=BEGAN)
    (world.web / 'robots.txt').write_text('mine')
    (world.web / 'thread/notes.html').write_text('mine')
    world.make()
    after = tree(world.web)
    equal('files that aren\'t the site\'s', (after.pop('robots.txt'), after.pop('thread/notes.html')), (b'mine', b'mine'))
    equal('another list', after, world.anew())


def case_lost_state(world: World) -> None:
    """State that is lost or spoiled, and pages that are lost, are made anew; --anew gives what is there."""
    world.make_list()
    world.post(mail('one'), mail('Re: one'))
    world.make()
    before = tree(world.web)
    (world.site.state / 'cats.sqlite').write_bytes(b'no database' * 1000)
    world.make()
    equal('with spoiled state', tree(world.web), before)
    shutil.rmtree(world.site.state)
    world.make()
    equal('without state', tree(world.web), before)
    shutil.rmtree(world.web)
    world.make()
    equal('without pages', tree(world.web), before)
    (world.web / '1.html').write_bytes(b'spoiled')
    (world.web / '77.html').write_bytes(b'stray')
    world.make(is_anew=True)
    equal('made anew', tree(world.web), before)


def case_damaged(world: World) -> None:
    """Files of a list that don't agree are named, and what is on the web stays as it is."""
    world.make_list()
    world.post(mail('one'), mail('two'))
    world.make()
    before = tree(world.web)
    world.post(mail('three'))
    whole = world.place / 'whole'
    shutil.copytree(world.list, whole)

    def cut(path: pathlib.Path) -> None:
        path.write_bytes(path.read_bytes()[:-1])
    rows = [('archive/0/03', 'archive/0/03'), ('archive/0/index', 'archive/0/index'), ('config', 'config')]
    for name, said in rows:
        cut(world.list / name) if name != 'config' else (world.list / name).write_bytes(b'nothing\n')
        try:
            world.make()
        except archive.Unreadable as error:
            holds(f'{name} is told as {error}', said in str(error))
        else:
            raise Wrong(f'{name} is damaged, and nothing is said')
        equal(f'what is on the web while {name} is damaged', tree(world.web), before)
        shutil.rmtree(world.list)
        shutil.copytree(whole, world.list)
    world.make()
    equal('what is made after', tree(world.web), world.anew())


def case_held(world: World) -> None:
    """A list that another run has is asked again, and at last given up; of two runs of the site one goes."""
    world.make_list()
    world.post(mail())
    with open(world.list / 'lock', 'ab') as lock:
        fcntl.flock(lock, fcntl.LOCK_EX)
        try:
            making.Maker(world.program, world.site, False, patience=0.5).run()
        except archive.Unreadable as error:
            holds(f'it is told as {error}', '111' in str(error) or 'another run' in str(error))
        else:
            raise Wrong('nothing is said')
        release = threading.Timer(1.5, lambda: fcntl.flock(lock, fcntl.LOCK_UN))
        release.start()
        world.make()
        release.join()
    with open(world.site.state / 'cats.lock', 'ab') as lock:
        fcntl.flock(lock, fcntl.LOCK_EX)
        try:
            world.make()
        except making.Busy:
            pass
        else:
            raise Wrong('two runs are at work')


def case_command(world: World) -> None:
    """The command: lists one after the other, a bad one harms no other, and what it says."""
    world.make_list()
    world.post(mail())
    web = world.place / 'other'
    path = written(world.place, ('site', {'state': str(world.place / 'st'), 'program': world.program}), ('gone', {'folder': str(world.place / 'gone'),
                   'web': str(world.place / 'w')}), ('cats', {'folder': str(world.list), 'web': str(web)}))

    def run(*words: str) -> tuple[int, str, str]:
        done = subprocess.run([TOP / 'site/ezmlm-site', *words], capture_output=True, text=True, check=False)
        return done.returncode, done.stdout, done.stderr
    status, said, wrong = run(path)
    holds(f'{status} {said!a} {wrong!a}', status == 1 and said == '' and wrong.startswith('ezmlm-site: gone: ') and wrong.count('\n') == 1)
    holds('the other list has no site', (web / '1.html').exists())
    equal('one list', run('--verbose', path, 'cats'), (0, 'cats: 1 posts, 0 pages written\n', ''))
    equal('modes', [oct(os.stat(name).st_mode & 0o777) for name in (web, web / '1.html', world.place / 'st/cats.sqlite')], ['0o755', '0o644', '0o640'])
    equal('a list that isn\'t there', run(path, 'dogs')[0], 2)
    equal('settings that aren\'t there', run(str(world.place / 'none'))[0], 2)
    begun = time.monotonic()
    equal('another program', run('--program', '/bin/false', path, 'cats')[0], 1)
    holds('it waited for it', time.monotonic() - begun < 30)
