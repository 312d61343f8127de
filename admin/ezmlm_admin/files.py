"""Readers of a list's files, as docs/FORMATS.md has them. Bytes that are none of their kind are a ValueError."""

from __future__ import annotations

import io
import re
from dataclasses import dataclass
from typing import BinaryIO

from ezmlm_agent import program as programs

BUCKETS = 53
ADDRESS = re.compile(rb'[!-?A-~]+@[A-Za-z0-9._-]+')
MEMBER = {1: re.compile(rb'T([^\0]+)\0()'), 2: re.compile(rb'T([^\0]+)\0(0|[1-9][0-9]{0,11})\0')}
NUMBER = re.compile(rb'0|[1-9][0-9]*')
STAGES = {b'n': 'not warned', b'w': 'warned', b'f': 'warning bounced', b'p': 'probed'}


def is_address(text: bytes) -> bool:
    """Whether a list can have this address: RFC 822's addr-spec without quotes, comments and literals, at most 400 bytes."""
    return len(text) <= 400 and ADDRESS.fullmatch(text) is not None


def kept(text: bytes) -> bytes:
    """An address with its host in lower case, as lists keep it."""
    local, at, host = text.rpartition(b'@')
    return local + at + host.lower()


def hash_of(text: bytes) -> int:
    """The hash of a text in lower case, by which addresses and subjects are spread over files (Bernstein's cdb hash, in 32 bits)."""
    found = 5381
    for byte in text.lower():
        found = found * 33 & 0xFFFFFFFF ^ byte
    return found


def bucket(address: bytes) -> str:
    """The name of the file in which an address stands."""
    return chr(64 + hash_of(address) % BUCKETS)


def bucket_names() -> list[str]:
    return [chr(64 + place) for place in range(BUCKETS)]


def number(text: bytes) -> int:
    if NUMBER.fullmatch(text) is None:
        raise ValueError(f'{text!r} is no number')
    return int(text)


def numbers(text: bytes) -> list[int]:
    return [number(part) for part in text.split(b',')] if text else []


def count(text: bytes) -> int:
    """What `num` and `counts/SET` have: a number and LF."""
    if text[-1:] != b'\n':
        raise ValueError('no LF at its end')
    return number(text[:-1])


def pair(text: bytes) -> tuple[int, int]:
    """What `tickets`, `ids` and `dig` have: two numbers with a colon between, and LF."""
    first, _, second = text.partition(b':')
    return number(first), count(second)


def members(text: bytes) -> list[tuple[bytes, int]]:
    """The addresses of a bucket with the moments at which they were added, 0 if that isn't known."""
    layout = 2 if text.startswith(b'layout 2\n') else 1
    at, found = (9 if layout == 2 else 0), []
    while at < len(text):
        one = MEMBER[layout].match(text, at)
        if one is None or not is_address(one[1]):
            raise ValueError(f'no member at {at}')
        found.append((one[1], int(one[2] or 0)))
        at = one.end()
    return found


@dataclass(frozen=True)
class Bounces:
    """What a ledger has of one member: his key, the stage in words, its moment (None if not warned), and the missed numbers with the moment
    of the first of them, 0 if there are none."""
    key: bytes
    stage: str
    moment: int | None
    first: int
    missed: list[int]


def ledger(text: bytes) -> list[Bounces]:
    found = []
    for one in programs.netstrings(text):
        key, first, stage, missed = programs.netstrings(one)
        moment = None if stage == b'n' else number(stage[1:])
        if stage[:1] not in STAGES:
            raise ValueError(f'{stage!r} is no stage')
        found.append(Bounces(key, STAGES[stage[:1]], moment, number(first), numbers(missed)))
    return found


def element(file: BinaryIO, most: int) -> bytes:
    """The content of the next netstring of a file, of at most so many bytes."""
    content = file.read(length(file, most))
    if file.read(1) != b',':
        raise ValueError('no comma')
    return content


def length(file: BinaryIO, most: int) -> int:
    """The length that the next netstring of a file says it has. What is read next is its content."""
    digits = b''
    while (byte := file.read(1)) != b':':
        digits += byte
        if not byte or len(digits) > 18:
            raise ValueError('no netstring')
    if (found := number(digits)) > most:
        raise ValueError(f'{found} is more than {most}')
    return found


@dataclass(frozen=True)
class Held:
    """A held post: when it came, the envelope's sender, and the message, or its first bytes and the length of all."""
    moment: int
    sender: bytes
    size: int
    message: bytes


def held(file: BinaryIO, at_most: int) -> Held:
    """A held post with at most so many bytes of its message."""
    end = file.seek(0, io.SEEK_END)
    file.seek(0)
    moment, sender, size = number(element(file, 12)), element(file, 1000), length(file, 33_554_432)
    if end - file.tell() != size + 1:
        raise ValueError('it has another length')
    return Held(moment, sender, size, file.read(min(size, at_most)))


def entry_head(file: BinaryIO, at_most: int) -> tuple[bytes, bytes, bytes]:
    """The base of the envelope senders of an entry of the queue, its host, and at most so many bytes of its body."""
    base, host, kind = element(file, 1000), element(file, 255), element(file, 1)
    if kind not in (b'v', b'p'):
        raise ValueError(f'{kind!r} is neither v nor p')
    return base, host, file.read(min(length(file, 1 << 40), at_most))
