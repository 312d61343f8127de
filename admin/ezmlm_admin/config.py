"""The configuration of a list."""

from __future__ import annotations

import re
from dataclasses import dataclass

LETTERS = 'bdfghjklmprstu'
CONFIG = re.compile(
    rb'flags (' + b''.join(b'[%c%c]' % (letter, letter - 32) for letter in LETTERS.encode()) + rb')\n'
    rb'local ([!-?A-~]{1,60})\nhost ([a-z0-9._-]{1,255})\nowner ([!-?A-~]+@[a-z0-9._-]+)\n'
    rb'prefix ((?:[!-~](?:[ -~]{0,60}[!-~])?)?)\nmax ([1-9][0-9]{0,7})\n')


@dataclass(frozen=True)
class Configuration:
    """The file `config`: the flags as they stand there, and the values."""
    flags: str
    local: bytes
    host: bytes
    owner: bytes
    prefix: bytes
    most: int  # bytes of a post

    @property
    def address(self) -> bytes:
        return self.local + b'@' + self.host

    def has(self, letter: str) -> bool:
        """Whether the option of this letter, in lower case, is set."""
        return letter in self.flags


def configuration(text: bytes) -> Configuration:
    """The configuration that these bytes spell. Other bytes are a ValueError."""
    found = CONFIG.fullmatch(text)
    if found is None or int(found[6]) > 16_777_216:
        raise ValueError('no configuration')
    return Configuration(found[1].decode('ascii'), found[2], found[3], found[4], found[5], int(found[6]))
