"""What the words of `options` ask for."""

from __future__ import annotations

import dataclasses
import getopt

from . import texts
from .config import LETTERS, Configuration
from .lists import USAGE, Refused


@dataclasses.dataclass(frozen=True)
class Asked:
    """What the words ask for: the letters as `make` has them, or those of changes; the values by their options; and whether it is to be done although
    nobody moderates, or what isn't named is lost."""
    letters: str
    is_change: bool
    values: dict[str, str]
    anyway: bool

    def words(self, old: Configuration) -> list[str]:
        """The words by which `make` writes what is asked for."""
        values = [f'{name}={value}' for name, value in self.values.items() if name != '--owner']
        if not self.is_change:
            return [*(f'-{letter}' for letter in self.letters), *values]
        flags = ''.join(next((new for new in self.letters if new.lower() == letter), letter if old.has(letter) else letter.upper())
                        for letter in LETTERS)
        prefix = b'[%b]' % old.local if 'f' in flags and not old.prefix else old.prefix
        kept = words_of(dataclasses.replace(old, flags=flags, prefix=prefix))
        return [word for word in kept if word.partition('=')[0] not in self.values] + values


def asked(words: list[str]) -> Asked:
    """Reads the words. Those that are none of the command's are Refused; values are left to `make`."""
    found: list[tuple[str, str]] = []
    changes, rest = '', list(words)
    try:
        while rest:
            part, rest = getopt.getopt(rest, LETTERS + LETTERS.upper(), ['prefix=', 'max=', 'owner=', 'anyway'])
            found += part
            if rest and (len(rest[0]) < 2 or rest[0][0] != '+' or set(rest[0][1:].lower()) - set(LETTERS)):
                raise getopt.GetoptError(f'{rest[0]} is none of its words')
            changes, rest = changes + (rest[0][1:] if rest else ''), rest[1:]
    except getopt.GetoptError as error:
        raise Refused(USAGE, f'options: {texts.safe(str(error))}') from error
    letters = ''.join(word[1:] for word, _ in found if not word.startswith('--'))
    values = {word: value for word, value in found if word.startswith('--') and word != '--anyway'}
    is_twice = len(set(changes.lower())) < len(changes) or len(values) < sum(word in values for word, _ in found)
    if is_twice or letters and changes or not (letters or changes or values):
        raise Refused(USAGE, 'options: each once, and either -LETTERS, all that are to be set, or +LETTERS, those that change')
    return Asked(changes or letters, not letters, values, ('--anyway', '') in found)


def words_of(config: Configuration) -> list[str]:
    """The words by which `make` writes this configuration."""
    letters = ''.join(letter for letter in LETTERS if config.has(letter) and letter != 'p') + ('' if config.has('p') else 'P')
    words = [f'-{letters or "p"}']
    if config.prefix != (b'[%b]' % config.local if config.has('f') else b''):
        words.append(f'--prefix={config.prefix.decode("ascii")}')
    return [*words, *([f'--max={config.most}'] if config.most != 1_048_576 else [])]


def unnamed(old: Configuration, new: Configuration, wanted: Asked) -> list[str]:
    """What the words would undo though they don't name it: letters that are set, a prefix, a most."""
    lost = [letter for letter in LETTERS if old.has(letter) and not new.has(letter) and letter.upper() not in wanted.letters]
    if '--prefix' not in wanted.values and old.has('f') == new.has('f') and old.prefix != new.prefix:
        lost.append('--prefix')
    return lost + (['--max'] if '--max' not in wanted.values and old.most != new.most else [])
