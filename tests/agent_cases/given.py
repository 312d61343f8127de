"""What operators give: streams that are read as the program reads them."""

import random
import re
import sys

from .world import IS_UNPROVED, TOP, same

sys.path.insert(0, str(TOP / 'agent'))
GOOD = [b'D1:5,10:1000000000,7:w@m.net,11:cats@ex.org,18:Subject: x\n\nhello\n,', b'D1:0,1:0,0:,0:,0:,', b'T1:0,10:1000000000,', b'S2:17,1:1,1:9,',
        b'A1:0,1:1,4:list,5:a@b.c,', b'R12:500000000000,1:1,6:digest,5:a@b.c,', b'K1:1,1:1,64:%b,' % (b'0a' * 32), b'F1:7,1:0,3:999,']
# Elements, each in the place of another one.
ODD = [b'', b'0:', b'00:,', b'1:0', b'01:0,', b'1:1;', b'13:1234567890123,', b'12:999999999999,', b'12:253402300800,', b'2:01,', b'1: ,', b'2:-1,',
       b'x', b':,', b'4:List,', b'5:allow,', b'3:mod,', b'3:a@b,', b'3:@bc,', b'3:ab@,', b'5:a@b@c,', b'4:a@b c', b'5:a b@c,', b'16:1000000000000000,',
       b'16:1000000000000001,', b'17:10000000000000000,', b'64:%b,' % (b'0A' * 32), b'63:%b,' % (b'0' * 63), b'400:%b@b,' % (b'a' * 398),
       b'401:%b@b,' % (b'a' * 399), b'1001:%b,' % (b'a' * 1001), b'33554433:', b'33554432:', b'99999999999999999999:']


def told_by(reader, text, pieces):
    """How many items a reader reads of a stream that comes in pieces, and what it says of the rest."""
    from ezmlm_agent import items
    many, size = 0, max(1, len(text) // pieces)
    try:
        for at in range(0, len(text) + 1, size):
            for _ in reader.read(text[at:at + size], at + size > len(text)):
                many += 1
    except items.Bad as why:
        return many, str(why)
    return many, ''


def case_given_stream(world):
    """A stream that operators give is read as the program reads it: the same items, and the same place if it is bad or short."""
    from ezmlm_agent import items
    rng = random.Random(7)
    world.list()
    streams = [text[:end] for text in GOOD for end in range(len(text))] + [b''.join(GOOD)]
    for text in GOOD:
        parts = [text[:1], *(found[0] for found in re.finditer(rb'(?s)\d+:.*?,(?=\d+:|\Z)', text[1:]))]
        streams += [b''.join([*parts[:at], odd, *parts[at + 1:]]) for at in range(len(parts)) for odd in ODD]
    for _ in range(300):
        text = bytearray(b''.join(rng.choices(GOOD, k=3)))
        for _ in range(rng.randrange(1, 4)):
            text[rng.randrange(len(text))] = rng.choice(b'0123456789:,@.DTSARKFx \n')
        streams.append(bytes(text))
    streams = streams[::4 if IS_UNPROVED else 1]
    for text in streams:
        said = world.run('cats', 'spool', given=text).splitlines()
        stop = [line.removeprefix('- 65 ') for line in said if line.startswith('- ')]
        same(told_by(items.Reader(), text, rng.randrange(1, 5)), (len(said) - len(stop), ''.join(stop)), repr(text[:200]))
    world.note = f'{len(streams)} streams'
