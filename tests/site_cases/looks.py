"""Pages as browsers and people take them: valid HTML 5 and Atom, headings in order, landmarks, and the text in w3m and lynx."""

from __future__ import annotations

import pathlib
import re
import shutil
import subprocess
import xml.etree.ElementTree
from typing import Any

from ezmlm_site import pages

from .growing import small_pages
from .world import Skipped, World, equal, holds, mail, tree

ATOM = '{http://www.w3.org/2005/Atom}'


def valid(web: pathlib.Path, name: str) -> Any:
    """A page's tree. A page that html5lib finds at fault is Wrong."""
    try:
        import html5lib  # type: ignore[import]
    except ImportError:
        raise Skipped('python3-html5lib isn\'t installed') from None
    parser = html5lib.HTMLParser(tree=html5lib.getTreeBuilder('etree'), strict=False)
    found = parser.parse((web / name).read_bytes(), transport_encoding='utf-8')
    holds(f'{name} isn\'t valid: {parser.errors[:3]}', not parser.errors)
    return found


def some_posts(world: World) -> None:
    """A list with something of everything."""
    world.make_list()
    world.post(mail('one', 'Hello\nworld\n\n> quoted\n\nname     size\ncat      3\ndog      4\n\n-- \nJo\n'), mail('Re: one', '> x\n' * 30 + 'yes\n'),
               mail('file', '--b\n\ntext\n--b\nContent-Type: application/x-y; name=f.bin\n\nbytes\n--b--\n', more='Content-Type: multipart/mixed; boundary=b\n'),
               mail('', '\n') .replace(b'Subject: ', b'Subject: \xc3\xa9'), *(mail(f'topic {n % 6}') for n in range(14)))
    world.post(mail('later'), moment=1_010_000_000)


def case_valid(world: World) -> None:
    """All pages are valid HTML 5 by html5lib and tidy, with a title, a language, landmarks, and headings in order."""
    some_posts(world)
    world.set(search=True, url='https://ex.org/cats/', description='About <cats>', left_out=frozenset({2}))
    with small_pages():
        world.make()
    names = [name for name in tree(world.web) if name.endswith('.html')]
    for name in names:
        root = valid(world.web, name)
        tags = [str(element.tag).rpartition('}')[2] for element in root.iter()]
        for landmark in ('header', 'main', 'footer', 'h1', 'title'):
            equal(f'{name}: how many {landmark}', tags.count(landmark), 1)
        holds(f'{name} has a script, a style or a frame', not {'script', 'style', 'iframe', 'img', 'object', 'embed'} & set(tags))
        levels = [int(tag[1]) for tag in tags if re.fullmatch('h[1-6]', tag)]
        holds(f'{name}: headings {levels}', all(b <= a + 1 for a, b in zip(levels, levels[1:])))
        ids = [element.get('id') for element in root.iter() if element.get('id')]
        equal(f'{name}: ids that stand twice', len(ids), len(set(ids)))
        texts = [''.join(element.itertext()).strip() for element in root.iter() if str(element.tag).endswith('}a')]
        holds(f'{name}: a link has no text', all(texts))
        holds(f'{name}: inline style or handler', not any(key.startswith('on') or key == 'style' for element in root.iter() for key in element.attrib))
    tidy = shutil.which('tidy')
    if tidy is None:
        raise Skipped('tidy isn\'t installed: the rest holds')
    for name in names:
        done = subprocess.run([str(tidy), '-errors', '-quiet', '-utf8', '--mute', 'PROPRIETARY_ATTRIBUTE', '--warn-proprietary-attributes', 'no', world.web / name],
                              capture_output=True, text=True, check=False)
        holds(f'tidy of {name}: {done.stderr[:300]}', not done.stderr.strip())


def case_feed(world: World) -> None:
    """The feed is Atom (RFC 4287): the last thirty posts, ids that stay, absolute links, and no character that XML forbids."""
    world.make_list()
    world.post(*(mail(f'post {n}') for n in range(1, 34)), b'From: "A & B" <a@b>\nTo: cats@ex.org\nSubject: a<b\0\x0b\xff\n\n]]> & \x01\n')
    world.set(url='https://ex.org/cats/', left_out=frozenset({33}))
    world.make()
    root = xml.etree.ElementTree.parse(world.web / 'feed.xml').getroot()
    entries = root.findall(f'{ATOM}entry')
    equal('the links', [entry.find(f'{ATOM}link').get('href') for entry in entries],  # type: ignore[union-attr]
          [f'https://ex.org/cats/{n}.html' for n in [34, *range(32, 3, -1)]])
    equal('the newest title and author', (entries[0].findtext(f'{ATOM}title'), entries[0].findtext(f'{ATOM}author/{ATOM}name')), ('a<b��ÿ', 'A & B'))
    for path in ('id', 'title', 'updated', 'author', 'link'):
        holds(f'an entry has no {path}', all(entry.find(ATOM + path) is not None for entry in [root, *entries]))
    ids = [entry.findtext(f'{ATOM}id') for entry in entries]
    holds('ids are URNs, and none stands twice', len(set(ids)) == 30 and all(str(each).startswith('urn:uuid:') for each in ids))
    equal('the moment', root.findtext(f'{ATOM}updated'), '2001-09-09T02:19:40Z')
    world.set(url='https://elsewhere.org/')
    world.make()
    moved = xml.etree.ElementTree.parse(world.web / 'feed.xml').getroot()
    equal('ids of a site that moved', [entry.findtext(f'{ATOM}id') for entry in moved.findall(f'{ATOM}entry')], ids)


def case_text_browsers(world: World) -> None:
    """In w3m and lynx a post's lines and links are there, and the index leads on."""
    some_posts(world)
    world.set(title='All about cats')
    world.make()
    browsers = [words for words in (['w3m', '-dump', '-T', 'text/html'], ['lynx', '-dump', '-nolist', '-force_html']) if shutil.which(words[0])]
    if not browsers:
        raise Skipped('neither w3m nor lynx is installed')
    for words in browsers:
        def dumped(name: str) -> str:
            return subprocess.run([*words, world.web / name], capture_output=True, text=True, check=True, encoding='utf-8').stdout
        page = dumped('1.html')
        lines = [line.strip() for line in page.splitlines()]
        for line in ('Hello', 'world', '> quoted', 'name     size', 'cat      3', 'Jo'):
            holds(f'{words[0]} shows no line {line!a}: {page}', line in lines)
        for text in ('one', 'A B', '2001-09-09', 'The whole thread', 'Newer post of the list', 'September 2001', 'Reply to the list'):
            holds(f'{words[0]} shows no {text}', text in page)
        index = dumped('index.html')
        for text in ('All about cats', 'Latest threads', 'later', 'By month', 'January 2002', 'subscribe'):
            holds(f'{words[0]} shows no {text} on the index', text in index)


def luminance(colour: str) -> float:
    """The relative luminance of a colour, as WCAG 2.1 has it."""
    parts = [int(colour[at:at + 2], 16) / 255 for at in (1, 3, 5)]
    linear = [part / 12.92 if part <= 0.04045 else ((part + 0.055) / 1.055) ** 2.4 for part in parts]
    return float(0.2126 * linear[0] + 0.7152 * linear[1] + 0.0722 * linear[2])


def contrast(one: str, other: str) -> float:
    brighter, darker = sorted((luminance(one), luminance(other)), reverse=True)
    return (brighter + 0.05) / (darker + 0.05)


def case_contrast(_: World) -> None:
    """The style's colours have a contrast of 4.5 at least, light and dark; what has focus is outlined, and it prints."""
    equal('the contrast of black and white', round(contrast('#000000', '#ffffff'), 1), 21.0)
    style = pages.OWN.joinpath('style.css').read_text()
    schemes = [dict(re.findall(r'--(\w+): (#[0-9a-f]{6});', text)) for text in re.split(r'@media \(prefers-color-scheme: dark\)', style.partition('* {')[0])]
    equal('how many schemes there are', len(schemes), 2)
    for scheme in schemes:
        for ink in ('ink', 'soft', 'link', 'quote'):
            for paper in ('paper', 'tint'):
                found = contrast(scheme[ink], scheme[paper])
                holds(f'{ink} {scheme[ink]} on {paper} {scheme[paper]} has a contrast of {found:.2f}', found >= 4.5)
        holds('what is marked has too little contrast', contrast(scheme['ink'], scheme['mark']) >= 4.5)
    holds('focus isn\'t seen', 'a:focus-visible' in style and 'outline: none' not in style and 'outline: 0' not in style)
    holds('it has no rules for print', '@media print' in style)
    holds('it loads something', 'url(' not in style and '@import' not in style)
