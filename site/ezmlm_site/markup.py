"""The text of a mail as markup. This is the one place where what strangers wrote becomes HTML: each piece of it is escaped here.

What comes out has the elements p, br, pre, blockquote, details, summary and a alone, and an href is a URL of http, https, ftp or mailto.
"""

from __future__ import annotations

import re
from collections.abc import Iterator

from markupsafe import Markup, escape

FOLDED = 20   # a quote of more lines is folded
WIDEST = 120  # characters of a fixed width: a page has room for fewer
LINK = re.compile(r'\b(?:https?://|ftp://|mailto:(?=[^\s<>"@]{1,64}@))[^\s<>"\x00-\x20]{1,2000}', re.IGNORECASE)
SCHEME = re.compile(r'(?:https?|ftp)://[^/?#]|mailto:.', re.IGNORECASE)
QUOTE = re.compile(r'\s{0,3}>')
BEGINS_PATCH = re.compile(r'diff -|Index: \S|@@ -\d|--- \S')
IN_PATCH = re.compile(r'[ +\-@\\]|diff |index |Index: |={3}|new |old |deleted |rename |copy |similarity |dissimilarity |Binary |GIT |$')
# Two columns with three spaces between or a tab, lines of a table, and what is indented as code is.
COLUMNS = re.compile(r'\S {3,}\S|\S ?\t|\s*[|+][-+=|]|\s*\|.*\||\t| {4}|[─-╿]')
MAY_BE_FIXED = re.compile(r' {3}|[\t|+─-╿]')  # without any of these no line is one of COLUMNS


def marked_up(text: str) -> Markup:
    """Text as markup: links live, quotes told apart and folded if they are long, patches and tables in a fixed font.

    The text has been through `words.clean`. It becomes paragraphs at its empty lines; its other line ends stay.
    """
    return Markup(''.join(block(kind, lines) for kind, lines in blocks(text.split('\n'))))


def block(kind: str, lines: list[str]) -> str:
    """One block as markup."""
    if kind == 'fixed':
        return f'<pre{stop(lines)}>{linked(chr(10).join(lines))}</pre>\n'
    markup = linked('\n'.join(lines)).replace('\n', '<br>')
    if kind == 'quote':
        quote = f'<blockquote dir="auto"><p>{markup}</p></blockquote>\n'
        if len(lines) > FOLDED:
            return f'<details><summary>{len(lines)} quoted lines</summary>\n{quote}</details>\n'
        return quote
    of_class = ' class="signature"' if kind == 'signature' else ''
    return f'<p{of_class} dir="auto">{markup}</p>\n'


def stop(lines: list[str]) -> str:
    """What makes a block of lines a stop for the Tab key: only if it is wider than any page, and so scrolls. Browsers that see by themselves
    whether a block scrolls make it a stop in a narrower window too."""
    return ' tabindex="0"' if any(len(line.expandtabs(8)) > WIDEST for line in lines) else ''


def blocks(lines: list[str]) -> Iterator[tuple[str, list[str]]]:
    """The lines in blocks, each of one kind: text, quote, fixed or signature. Empty lines between them are left out."""
    at = 0
    while at < len(lines):
        line = lines[at]
        if not line.strip():
            at += 1
        elif QUOTE.match(line):
            end = run(lines, at, QUOTE)
            yield 'quote', lines[at:end]
            at = end
        elif begins_patch(lines, at):
            end = run(lines, at, IN_PATCH)
            yield 'fixed', trimmed(lines[at:end])
            at = end
        else:
            end = paragraph(lines, at)
            yield kind_of(lines[at:end]), lines[at:end]
            at = end


def run(lines: list[str], at: int, pattern: re.Pattern[str]) -> int:
    """The end of the lines from a place on that match, at a signature at the latest."""
    while at < len(lines) and pattern.match(lines[at]) and lines[at] != '-- ':
        at += 1
    return at


def begins_patch(lines: list[str], at: int) -> bool:
    line = lines[at]
    if not line.startswith(('diff -', 'Index: ', '@@ -', '--- ')) or not BEGINS_PATCH.match(line):
        return False
    return not line.startswith('--- ') or at + 1 < len(lines) and lines[at + 1].startswith('+++ ')


def paragraph(lines: list[str], at: int) -> int:
    """The end of the paragraph that begins at a place: before an empty line, a quote, a patch or a signature."""
    end = at + 1
    while end < len(lines) and lines[end].strip() and lines[end] != '-- ' and not QUOTE.match(lines[end]) and not begins_patch(lines, end):
        end += 1
    return end


def kind_of(lines: list[str]) -> str:
    """Whether a paragraph is a signature, has the look of a table or of code, or is text."""
    if lines[0] == '-- ':
        return 'signature'
    if not MAY_BE_FIXED.search('\n'.join(lines)):
        return 'text'
    columns = sum(1 for line in lines if COLUMNS.match(line) or COLUMNS.search(line, 1))
    return 'fixed' if 2 * columns > len(lines) else 'text'


def trimmed(lines: list[str]) -> list[str]:
    """Lines without the empty ones at their end."""
    end = len(lines)
    while end > 1 and not lines[end - 1].strip():
        end -= 1
    return lines[:end]


def linked(text: str) -> str:
    """Text as markup with its links live."""
    if ':' not in text:
        return str(escape(text))
    pieces: list[str] = []
    at = 0
    for match in LINK.finditer(text):
        url = without_end(match[0])
        if '…' in url or not SCHEME.match(url):
            continue
        shown = escape(url)
        pieces += [str(escape(text[at:match.start()])), f'<a href="{shown}" rel="nofollow ugc noopener">{shown}</a>']
        at = match.start() + len(url)
    return ''.join(pieces) + str(escape(text[at:]))


def without_end(url: str) -> str:
    """A URL without what belongs to the sentence around it: stops at its end, and a bracket that it doesn't open."""
    while url and (url[-1] in '.,;:!?\'*_' or url[-1] in ')]}' and url.count(url[-1]) > url.count('([{'[')]}'.index(url[-1])])):
        url = url[:-1]
    return url
