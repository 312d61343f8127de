"""Words of Chinese, Japanese and Korean, which have no spaces between: as pairs of characters, in the index and in queries alike.

A run of such characters c1 c2 c3 is kept as the words `c1c2 c2c3 c3`. So a phrase of pairs finds any two characters or more that stand together, and
a word that begins with a character finds one alone.
"""

from __future__ import annotations

import re

# Han with its marks, kana (whole and half width), bopomofo, Hangul and its letters; no punctuation, which parts words.
CHARACTER = ('々-〇\u3041-\u3096\u309d-\u309f\u30a1-\u30fa\u30fc-\u30ff\u3105-\u312f\u3131-\u318e\u31a0-\u31bf\u31f0-\u31ff㐀-䶿一-鿿'
             '\u1100-\u11ff\ua960-\ua97c가-힣\ud7b0-\ud7fb豈-\ufaff\uff66-\uff9d\uffa0-\uffdc\U00020000-\U0003fffd')
RUN = re.compile(f'[{CHARACTER}]+')
LAST = re.compile(f'[{CHARACTER}]+$')


def pairs(run: str) -> list[str]:
    """The pairs of neighbours in a run of characters."""
    return [run[at:at + 2] for at in range(len(run) - 1)]


def spaced(text: str) -> str:
    """A text as it is kept in the index: its runs as pairs, and everything else as it is."""
    if text.isascii():
        return text
    return RUN.sub(lambda match: f' {" ".join([*pairs(match[0]), match[0][-1]])} ', text)


def asked(word: str) -> tuple[str, bool]:
    """A word or a phrase of a query as words of the index, and whether the last of them is a beginning alone."""
    match = LAST.search(word)
    if not match:
        return spaced(word), False
    if len(match[0]) == 1:
        return f'{spaced(word[:match.start()])} {match[0]}', True
    return ' '.join([spaced(word[:match.start()]), *pairs(match[0])]), False
