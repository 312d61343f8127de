"""The stream of items that people write, read exactly as the program reads it: docs/FORMATS.md, "The stream"."""

import dataclasses
import re
from collections.abc import Callable, Iterator

LETTER = re.compile(rb'[DTSARKF]')
DECIMAL = re.compile(rb'0|[1-9][0-9]*')
ADDRESS = re.compile(rb'[!-?A-~]+@[A-Za-z0-9._-]+')


@dataclasses.dataclass(frozen=True)
class Element:
    """What an element may be: of how many bytes at most, and which of these."""
    most: int
    holds: Callable[[bytes], bool]


def number(least: int, most: int) -> Callable[[bytes], bool]:
    """Whether bytes are a number from `least` to `most`, spelled without leading zeros."""
    return lambda text: DECIMAL.fullmatch(text) is not None and least <= int(text) <= most


def anything(text: bytes) -> bool:
    return True


NUMBER = Element(12, number(0, 999_999_999_999))
MOMENT = Element(12, number(0, 253_402_300_799))
ENVELOPE, MESSAGE = Element(1000, anything), Element(33_554_432, anything)
ID, FLOOR = Element(16, number(1, 10**15)), Element(12, number(1, 999_999_999_999))
SET = Element(6, lambda text: text in (b'list', b'digest', b'allow', b'deny', b'mod'))
WHO = Element(400, lambda text: ADDRESS.fullmatch(text) is not None)
KEY = Element(64, lambda text: re.fullmatch(rb'[0-9a-f]{64}', text) is not None)
ELEMENTS = {b'D': (ENVELOPE, ENVELOPE, MESSAGE), b'T': (), b'S': (ID,), b'A': (SET, WHO), b'R': (SET, WHO), b'K': (KEY,), b'F': (FLOOR,)}


@dataclasses.dataclass(frozen=True)
class Given:
    """An item that somebody gives: its letter, its number, and all that follows."""
    letter: bytes
    number: int
    rest: bytes

    def numbered(self, number: int, moment: int) -> bytes:
        """The same item under another number. Its moment stays as it was given."""
        text = b'%d' % number
        return self.letter + b'%d:%b,' % (len(text), text) + self.rest


class Bad(ValueError):
    """The stream can't be read from this place on: `bad AT` or `short AT`."""


class Incomplete(Exception):
    """What is there so far isn't bad, and an element ends later; its place."""

    def __init__(self, place: int) -> None:
        super().__init__(place)
        self.place = place


class Reader:
    """Reads items as their bytes come."""

    def __init__(self) -> None:
        self.text, self.at = bytearray(), 0  # what isn't read yet, and the place of its first byte

    def read(self, more: bytes, is_end: bool) -> Iterator[Given]:
        """The items that are whole with these further bytes. It is Bad when it comes to the first that is bad, or that ends too soon."""
        self.text += more
        done = 0
        try:
            while done < len(self.text):
                given, done = self.item(done)
                yield given
        except Incomplete as error:
            if is_end:
                raise Bad(f'short {self.at + error.place}') from error
        finally:
            del self.text[:done]
            self.at += done

    def item(self, start: int) -> tuple[Given, int]:
        """The item at a place, and where it ends."""
        letter = bytes(self.text[start:start + 1])
        if LETTER.fullmatch(letter) is None:
            raise Bad(f'bad {self.at + start}')
        text, rest = self.element(start + 1, NUMBER)
        end = rest
        for element in (MOMENT, *ELEMENTS[letter]):
            _, end = self.element(end, element)
        return Given(letter, int(text), bytes(self.text[rest:end])), end

    def element(self, start: int, element: Element) -> tuple[bytes, int]:
        """The content of the netstring at a place, and where it ends."""
        at = start
        while (byte := self.text[at:at + 1]).isdigit():
            length = int(self.text[start:at + 1])
            if at > start and self.text[start] == 48 or length > element.most:
                raise Bad(f'bad {self.at + start}')
            at += 1
        if not byte:
            raise Incomplete(start)
        if byte != b':' or at == start:
            raise Bad(f'bad {self.at + start}')
        end = at + 1 + length
        if len(self.text) < end:
            raise Incomplete(start)
        content = bytes(self.text[at + 1:end])
        comma = self.text[end:end + 1]
        if not element.holds(content) or comma not in (b',', b''):
            raise Bad(f'bad {self.at + start}')
        if not comma:
            raise Incomplete(start)
        return content, end + 1
