"""Texts, and the markup that has to come of them."""

from __future__ import annotations

import html.parser

from ezmlm_site import markup

from .world import World, equal, holds

# A text, and the markup of its one paragraph.
ROWS = [
    ('a<b & "c" \'d\'', 'a&lt;b &amp; &#34;c&#34; &#39;d&#39;'),
    ('<script>alert(1)</script>', '&lt;script&gt;alert(1)&lt;/script&gt;'),
    ('&lt;b&gt;', '&amp;lt;b&amp;gt;'),
    ('</p><img src=x onerror=alert(1)>', '&lt;/p&gt;&lt;img src=x onerror=alert(1)&gt;'),
    ('see http://a.org/x?a=1&b=2.', 'see LINK(http://a.org/x?a=1&amp;b=2).'),
    ('(https://a.org/x_(y))', '(LINK(https://a.org/x_(y)))'),
    ('<https://a.org/>', '&lt;LINK(https://a.org/)&gt;'),
    ('FTP://a.org/x', 'LINK(FTP://a.org/x)'),
    ('mailto:cats@ex.org', 'LINK(mailto:cats@ex.org)'),
    ('mailto:jo@…', 'mailto:jo@…'),
    ('https://a.org/?m=jo@…', 'https://a.org/?m=jo@…'),
    ('http://a.org/"onmouseover="alert(1)', 'LINK(http://a.org/)&#34;onmouseover=&#34;alert(1)'),
    ("http://a.org/'x", 'LINK(http://a.org/&#39;x)'),
    ('http://a.org/<b>', 'LINK(http://a.org/)&lt;b&gt;'),
    ('javascript:alert(1)', 'javascript:alert(1)'),
    ('JaVaScRiPt://a.org/%0aalert(1)', 'JaVaScRiPt://a.org/%0aalert(1)'),
    ('data:text/html,<b>', 'data:text/html,&lt;b&gt;'),
    ('vbscript:x file:///etc/passwd', 'vbscript:x file:///etc/passwd'),
    ('xhttp://a.org', 'xhttp://a.org'),
    ('http://', 'http://'),
    ('https:///x', 'https:///x'),
    ('http://a.org/x http://b.org/', 'LINK(http://a.org/x) LINK(http://b.org/)'),
    ('one\ntwo', 'one<br>two'),
]

# A text, and the kinds of its blocks with how many lines each has.
BLOCKS = [
    ('one\ntwo\n\nthree', [('text', 2), ('text', 1)]),
    ('> a\n> b\nc', [('quote', 2), ('text', 1)]),
    ('Jo wrote:\n> a\n>> b\n\nyes', [('text', 1), ('quote', 2), ('text', 1)]),
    ('> - a point\n> + another', [('quote', 2)]),
    ('diff --git a/x b/x\n--- a/x\n+++ b/x\n@@ -1 +1 @@\n-a\n+b\n\nthat is all', [('fixed', 6), ('text', 1)]),
    ('--- x\n+++ y\n@@ -1 +1 @@\n-a\n+b\n-- \n2.39', [('fixed', 5), ('signature', 2)]),
    ('--- a dash of a thought', [('text', 1)]),
    ('name     size\ncat      3\ndog      4', [('fixed', 3)]),
    ('+---+---+\n| a | b |\n+---+---+', [('fixed', 3)]),
    ('    code()', [('fixed', 1)]),
    ('a text with  two spaces\nand none', [('text', 2)]),
    ('hi\n\n-- \nJo\nAt Home', [('text', 1), ('signature', 3)]),
    ('', []),
    ('\n\n \n', []),
]
ELEMENTS = {'p', 'br', 'pre', 'blockquote', 'details', 'summary', 'a'}


class Elements(html.parser.HTMLParser):
    """The elements and attributes of a markup."""

    def __init__(self, text: str) -> None:
        super().__init__()
        self.found: list[tuple[str, dict[str, str | None]]] = []
        self.feed(text)
        self.close()

    def handle_starttag(self, tag: str, attrs: list[tuple[str, str | None]]) -> None:
        self.found.append((tag, dict(attrs)))


def of_links(text: str) -> str:
    """LINK(URL) written out."""
    while 'LINK(' in text:
        before, _, rest = text.partition('LINK(')
        depth, at = 1, 0
        while depth:
            depth += {'(': 1, ')': -1}.get(rest[at], 0)
            at += 1
        url = rest[:at - 1]
        text = f'{before}<a href="{url}" rel="nofollow ugc noopener">{url}</a>{rest[at:]}'
    return text


def case_escapes(_: World) -> None:
    """Texts and their markup: each character that is one is escaped, and what is a link."""
    for text, wanted in ROWS:
        equal(f'the markup of {text!a}', str(markup.marked_up(text)), f'<p dir="auto">{of_links(wanted)}</p>\n')


def case_blocks(_: World) -> None:
    """What is a quote, a patch, a table, a signature, and text."""
    for text, wanted in BLOCKS:
        equal(f'the blocks of {text!a}', [(kind, len(lines)) for kind, lines in markup.blocks(text.split('\n'))], wanted)


def case_folds(_: World) -> None:
    """A quote of twenty lines stands, and one of twenty-one is folded."""
    for count, is_folded in ((20, False), (21, True)):
        found = str(markup.marked_up('> x\n' * count))
        equal(f'whether {count} quoted lines are folded', f'<details><summary>{count} quoted lines</summary>' in found, is_folded)
        holds('the quote is there', found.count('&gt; x') == count)


def case_stops(_: World) -> None:
    """A block of a fixed width is a stop for the Tab key only if it is wider than any page."""
    for line, is_stop in (('    code()', False), ('\t' + 'x' * 112, False), ('\t' + 'x' * 113, True), ('    ' + 'x' * 300, True)):
        equal(f'whether {line[:20]!a}, {len(line)} characters, is a stop', 'tabindex' in str(markup.marked_up(line)), is_stop)


def case_elements(_: World) -> None:
    """Whatever the text, the markup has seven elements alone, and no attribute but those that are written here."""
    pieces = ['<script>', '"', "'", '>', '<', '&', '=', 'http://a.b/', 'mailto:a@b', 'javascript:', ' on', '\n', '\n\n', '> ', '    ', '--- ', '+++ ', '-- ', '|', '\t',
              '@@ -1', '(', ')', 'é', '\u2028', '\xa0', '`', '{{', '{%']
    seed = 1
    for _round in range(3000):
        text = ''
        for _piece in range(seed % 14):
            seed = (seed * 1103515245 + 12345) % 2**31
            text += pieces[seed // 65536 % len(pieces)]
        seed = (seed * 1103515245 + 12345) % 2**31
        for tag, attributes in Elements(str(markup.marked_up(text))).found:
            holds(f'{text!a} makes the element {tag}', tag in ELEMENTS)
            holds(f'{text!a} makes attributes {attributes}', attributes.keys() <= {'href', 'rel', 'dir', 'class', 'tabindex'})
            url = attributes.get('href') or ''
            holds(f'{text!a} makes a link to {url}', tag != 'a' or url.lower().startswith(('http://', 'https://', 'ftp://', 'mailto:')))
