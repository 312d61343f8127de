"""The piece of a text that a hit shows: around the first place where a term of the query stands, with all such places marked."""

from __future__ import annotations

import re
import unicodedata

from markupsafe import Markup, escape

from . import query, scripts

BEFORE, LENGTH = 100, 320  # characters before the first place, and in all


class Folding(dict[int, int]):
    """Each character in lower case and without its marks, one for one: so places in a folded text are those of the text."""

    def __missing__(self, code: int) -> int:
        folded = unicodedata.normalize('NFD', chr(code))[0].lower()
        self[code] = ord(folded) if len(folded) == 1 else code
        return self[code]


FOLDING = Folding()


def folded(text: str) -> str:
    """A text as the index compares it, of the same length."""
    return text.lower() if text.isascii() else text.translate(FOLDING)


def pattern_of(terms: tuple[query.Term, ...]) -> re.Pattern[str] | None:
    """What finds the terms in a folded text, or None if there are none."""
    found = []
    for term in terms:
        letters = query.LETTERS.findall(folded(term.text))
        begin = '' if scripts.RUN.match(letters[0]) else r'(?<![^\W_])'
        end = '' if term.is_prefix or scripts.LAST.search(letters[-1]) else r'(?![^\W_])'
        found.append(begin + r'[\W_]+'.join(map(re.escape, letters)) + (r'[^\W_]*' if term.is_prefix else end))
    return re.compile('|'.join(found)) if found else None


def cut(text: str, pattern: re.Pattern[str] | None) -> Markup:
    """The piece of a text as markup, everything escaped."""
    low = folded(text)
    first = pattern.search(low) if pattern else None
    begin = max(0, first.start() - BEFORE) if first else 0
    if first and begin:  # at the beginning of a word, if one begins soon
        begin = min(first.start(), text.find(' ', begin, begin + 30) + 1 or begin)
    end = min(len(text), begin + LENGTH)
    pieces = ['…' if begin else '']
    at = begin
    for match in pattern.finditer(low, begin, end) if pattern else ():
        pieces += [str(escape(text[at:match.start()])), f'<mark>{escape(text[match.start():match.end()])}</mark>']
        at = match.end()
    return Markup(''.join([*pieces, str(escape(text[at:end])), '…' if end < len(text) else '']))
