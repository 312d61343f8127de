"""Lists that are closed and opened again, and the page of all lists of a host: what is there, and what is found."""

from __future__ import annotations

import os
import shutil
import subprocess
import urllib.parse

from ezmlm_site import making, search, settings

from .killed import killed
from .looks import valid
from .searching import ask
from .world import BEGAN, DAY, TOP, World, equal, holds, mail, tree

FILE = mail('with a file', '--b\n\ntext\n--b\nContent-Type: application/x-y; name=f.bin\n\nbytes\n--b--\n', more='Content-Type: multipart/mixed; boundary=b\n')
CLOSED = {'b': 'B', 'g': 'G', 'P': 'p'}  # a flag that closes the archive, and the one that opens it


def flag(world: World, letter: str) -> None:
    """Writes one flag of a list's configuration, in place of its other case."""
    path = world.list / 'config'
    lines = path.read_text().split('\n')
    lines[0] = 'flags ' + lines[0].removeprefix('flags ').replace(letter.swapcase(), letter)
    path.write_text('\n'.join(lines))
    equal('what `check` says', world.ask('check').split()[0], b'ok')


def case_closed(world: World) -> None:
    """A list that becomes closed has no page and no file on the web, and nothing is found in it; opened again all is there. Others' files stay."""
    world.make_list()
    world.post(mail('one'), mail('Re: one'), FILE, moment=BEGAN)
    world.post(mail('later'), moment=BEGAN + 90 * DAY)
    world.set(search=True)
    world.make()
    (world.web / 'robots.txt').write_text('mine')
    (world.web / 'thread/notes.html').write_text('mine')
    before = tree(world.web)
    path = world.place / 'site.conf'
    path.write_text(f'[cats]\nfolder = {world.list}\nweb = {world.web}\nstate = {world.site.state}\nsearch = yes\n')
    application = search.Search(str(path))
    equal('the search before', ask(application, 'q=later')[0], '200 OK')
    for closes, opens in CLOSED.items():
        flag(world, closes)
        holds(f'{closes}: the run says so', 'are removed' in world.make())
        equal(f'{closes}: what is left', tree(world.web), {'robots.txt': b'mine', 'thread/notes.html': b'mine'})
        holds(f'{closes}: a folder of attachments is left', not (world.web / '3').exists())
        equal(f'{closes}: what is kept', [name for name in os.listdir(world.site.state) if name != 'cats.lock'], [])
        status, _, page = ask(application, 'q=later')
        holds(f'{closes}: the search answers {status} {page}', status.startswith('404') and 'later' not in page)
        world.make()
        flag(world, opens)
        world.make()
        equal(f'{opens}: what is there again', tree(world.web), before)
        equal(f'{opens}: the search', ask(application, 'q=later')[0], '200 OK')
    world.set(archive='closed')
    world.make()
    holds('by the settings it stays', '1.html' not in tree(world.web))


def case_never_open(world: World) -> None:
    """Of a list that was never open nothing is written, and nothing of another's folder is removed; `archive = open` shows it all the same."""
    world.make_list('-b')
    world.post(mail())
    world.make()
    holds('something was written', not world.web.exists() and not world.site.state.exists())
    world.web.mkdir()
    (world.web / 'index.html').write_text('mine')
    world.make()
    equal('what was there', tree(world.web), {'index.html': b'mine'})
    world.set(archive='open')
    world.make()
    holds('nothing was written', '1.html' in tree(world.web))


def case_killed_closing(world: World) -> None:
    """A run that removes a closed list's pages, killed before each of its writes, ten at least: the next one removes the rest."""
    world.make_list()
    world.post(mail('one'), FILE)
    world.make()
    begin = world.place / 'begin'
    begin.mkdir()
    shutil.copytree(world.web, begin / 'web')
    shutil.copytree(world.site.state, begin / 'state')
    flag(world, 'P')
    k = 1
    while killed(world, k):
        world.make()
        equal(f'killed before write {k}: what is left', tree(world.web), {})
        equal(f'killed before write {k}: what is kept', [name for name in os.listdir(world.site.state) if name != 'cats.lock'], [])
        for name, folder in (('web', world.web), ('state', world.site.state)):
            shutil.rmtree(folder)
            shutil.copytree(begin / name, folder)
        k += 1
    holds(f'there were {k} writes', k > 10)


def several(world: World) -> str:
    """Settings of three lists, of which the last is closed, and the page of all of them."""
    names = {'cats': (), 'dogs': (), 'mice': ('-P',)}
    text = f'[site]\nprogram = {world.program}\nstate = {world.place}/st\nweb = {world.place}/all\ntitle = Lists of <Ex>\ndescription = All that we talk about\n' \
           'search = yes\ntimezone = Europe/Berlin\n'
    for place, (name, letters) in enumerate(names.items()):
        folder = world.place / f'lists/{name}'
        subprocess.run([world.program, folder, 'make', *letters, '--key', '0' * 64, name, 'ex.org', 'o@own.org'], stdout=subprocess.DEVNULL, check=True)
        world.list = folder
        for word in ('first', 'second'):
            stream = mail(f'{word} of {name}', 'the common word\n').replace(b'To: cats@', f'To: {name}@'.encode())
            world.ask('deliver', '0', 'a@b', f'{name}@ex.org', given=stream)
        text += f'[{name}]\nfolder = {folder}\nweb = {world.place}/all/{name}\nsearch = yes\ndescription = About "{name}" & more\n'
    path = world.place / 'site.conf'
    path.write_text(text)
    return str(path)


def case_all_lists(world: World) -> None:
    """The page of all lists names those that are open, with what they are for and their last post; one search looks into all of them."""
    path = several(world)
    done = subprocess.run([TOP / 'site/ezmlm-site', path], capture_output=True, text=True, check=False)
    equal('the run', (done.returncode, done.stdout, done.stderr), (0, '', ''))
    world.web = world.place / 'all'
    page = world.page('index.html')
    valid(world.web, 'index.html')
    for piece in ('Lists of &lt;Ex&gt;', 'href="cats/index.html">cats@ex.org</a>', 'About &#34;dogs&#34; &amp; more', 'dogs@ex.org, 2 posts, the last one <time',
                  'All that we talk about', '<form action="search"'):
        holds(f'the page lacks {piece}', piece in page)
    holds('a closed list is named', 'mice' not in page)
    application = search.Search(path)
    found = ask(application, 'q=common', '/search')[2]
    equal('what is found in all', sorted(part.split('"')[0] for part in found.split('<li><a class="subject" dir="auto" href="')[1:]),
          ['cats/1.html', 'cats/2.html', 'dogs/1.html', 'dogs/2.html'])
    holds('a hit names its list', '<bdi>cats@ex.org</bdi>' in found and 'href="feed.xml"' not in found)
    equal('by rank', ask(application, 'q=common&by=rank', '/search')[2].count('<li>'), found.count('<li>'))
    for query in ('second', 'subject:dogs -first', 'after:2020'):
        holds(f'{query} finds nothing', 'class="hits"' in ask(application, urllib.parse.urlencode({'q': query}), '/search')[2])
    equal('one list', ask(application, 'q=common', '/dogs/search')[2].count('class="subject"'), 2)
    equal('the closed one', ask(application, 'q=common', '/mice/search')[0][:3], '404')
    before = {name: (world.web / name).stat().st_mtime_ns for name in ('index.html', 'style.css')}
    world.list = world.place / 'lists/dogs'
    flag(world, 'P')
    subprocess.run([TOP / 'site/ezmlm-site', path], check=True)
    holds('a list that was closed is named', 'dogs' not in world.page('index.html') and 'dogs' not in ask(application, 'q=common', '/search')[2])
    equal('the style was written again', (world.web / 'style.css').stat().st_mtime_ns, before['style.css'])


def case_pages_of_all(world: World) -> None:
    """Hits of all lists come newest first, twenty a page, each once."""
    path = world.place / 'site.conf'
    text = f'[site]\nprogram = {world.program}\nstate = {world.place}/st\nweb = {world.place}/all\nurl = https://ex.org/lists/\nsearch = yes\n'
    for name in ('cats', 'dogs'):
        world.list, world.count = world.place / name, 0
        world.make_list()
        world.post(*(mail(f'{name} {n}', 'purr\n') for n in range(23)), moment=BEGAN + (30 if name == 'dogs' else 0))
        text += f'[{name}]\nfolder = {world.list}\nweb = {world.place}/web/{name}\nsearch = yes\nurl = https://ex.org/{name}/\n'
    path.write_text(text)
    for site in settings.read(str(path)).sites:
        making.Maker(world.program, site, False).run()
    application = search.Search(str(path))
    hits = []
    for k in (1, 2, 3, 4):
        page = ask(application, f'q=purr&page={k}', '/lists/search')[2]
        hits += [part.split('"')[0] for part in page.split('<li><a class="subject" dir="auto" href="')[1:]]
    equal('all hits', hits, [f'https://ex.org/{name}/{n}.html' for n in range(23, 0, -1) for name in ('dogs', 'cats')])
    equal('another path', ask(application, 'q=purr', '/search')[0][:3], '404')
