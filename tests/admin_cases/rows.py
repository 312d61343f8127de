"""Rows of the pure functions, with expected values from docs/FORMATS.md, from RFCs, and from other programs."""

import io

from ezmlm_admin import archive, entries, files, metrics, moderating, options, texts, waiting
from ezmlm_admin.config import configuration

from .world import check, same


def refuses(call, *words):
    """Whether a call answers a ValueError."""
    try:
        call(*words)
    except ValueError:
        return True
    return False


def case_rows_of_addresses(world):
    """Addresses, hashes and buckets are those of docs/FORMATS.md."""
    for text in (b'a@b', b'A.b+c@ex.org', b'!~@x_y', b'a' * 396 + b'@b.c'):
        check(files.is_address(text), text)
    for text in (b'', b'a', b'@b', b'a@', b'a@b@c', b'a b@c', b'a@b c', b'\xe9@b', b'a@b\n', b'a@[1]', b'a' * 397 + b'@b.c'):
        check(not files.is_address(text), text)
    same(files.hash_of(b'a@b'), 193_408_742, 'the hash of a@b')
    same((files.bucket(b'a@b'), files.bucket(b'A@B')), (']', ']'), 'its bucket')
    for key, place in ((b'hello', 231), (b'other', 161), (b'', 5)):
        same(files.hash_of(key) % 256, place, key)
    same(files.kept(b'A@B.Org'), b'A@b.org', 'kept')


def case_rows_of_files(world):
    """Buckets, ledgers, counters, held posts and entries are read as docs/FORMATS.md spells them, and other bytes are refused."""
    same(files.members(b'Ta@b\0Tc@d\0'), [(b'a@b', 0), (b'c@d', 0)], 'layout 1')
    same(files.members(b'layout 2\nTa@b\x001700000000\0'), [(b'a@b', 1_700_000_000)], 'layout 2')
    same(files.members(b''), [], 'an absent bucket')
    one = b'3:a@b,4:1234,5:w5678,3:1,7,'
    same(files.ledger(b'%d:%b,' % (len(one), one)), [files.Bounces(b'a@b', 'warned', 5678, 1234, [1, 7])], 'a ledger')
    same((files.pair(b'3:12\n'), files.count(b'0\n')), ((3, 12), 0), 'counters')
    found = files.held(io.BytesIO(b'4:1234,3:a@b,5:hello,'), 2)
    same(found, files.Held(1234, b'a@b', 5, b'he'), 'a held post')
    same(files.entry_head(io.BytesIO(b'5:base-,4:ex.c,1:v,4:body,3:a@b,'), 99), (b'base-', b'ex.c', b'body'), 'an entry')
    for call, text in ((files.members, b'Ta@b'), (files.members, b'layout 2\nTa@b\0'), (files.members, b'Tab\0'),
            (files.members, b'layout 2\nTa@b\x0007\0'),
                       (files.ledger, b'3:abc,'), (files.ledger, b'5:1:a,x,'), (files.pair, b'1:2'), (files.pair, b'1:02\n'),
                       (files.pair, b'12\n'),
                       (files.count, b'1'), (files.count, b'-1\n'), (files.count, b'01\n'), (files.count, b'')):
        check(refuses(call, text), (call.__name__, text))
    for text in (b'4:1234,3:a@b,5:hell,', b'4:1234,3:a@b,5:hello', b'4:1234,3:a@b,5:hello,x', b'', b'4:12x4,3:a@b,0:,', b'999:'):
        check(refuses(lambda text=text: files.held(io.BytesIO(text), 9)), text)
    check(refuses(lambda: files.entry_head(io.BytesIO(b'1:b,1:h,1:x,0:,'), 9)), 'an entry of another kind')


GOOD = b'flags BDFGHJKLMpRSTU\nlocal cats\nhost ex.org\nowner o@own.org\nprefix \nmax 1048576\n'


def case_rows_of_configurations(world):
    """A configuration is read as it is spelled, other spellings are damaged, and its words make it again."""
    found = configuration(GOOD)
    same((found.address, found.has('p'), found.has('m'), found.most), (b'cats@ex.org', True, False, 1_048_576), 'values')
    for old, new in ((b'flags B', b'flags X'), (b'\nmax 1048576', b'\nmax 0'), (b'1048576', b'99999999'), (b'prefix ', b'prefix  x'),
            (b'host ex', b'host Ex'),
                     (b'\nowner o@own.org', b''), (b'max', b'mox'), (b'local cats', b'local c@ts'), (b'576\n', b'576')):
        check(refuses(configuration, GOOD.replace(old, new)), (old, new))
    for letters, more, words in ((b'BDFGHJKLMpRSTU', {}, ['-p']), (b'BDFGHJKLMPRSTU', {}, ['-P']),
            (b'BdfGHJKLMpRSTU', {b'prefix ': b'prefix [cats]'}, ['-df']),
                                 (b'BDfGHJKLmPRSTU', {b'prefix ': b'prefix x y', b'1048576': b'9'}, ['-fmP', '--prefix=x y', '--max=9'])):
        text = GOOD.replace(b'BDFGHJKLMpRSTU', letters)
        for old, new in more.items():
            text = text.replace(old, new)
        same(options.words_of(configuration(text)), words, text)


def case_rows_of_subjects(world):
    """Fields, unfolding, subjects and their keys are those of docs/FORMATS.md, and encoded words those of RFC 2047, section 8."""
    message = b'Subject: one\r\n two\nSUBJECT: three\nX y: no\n\nSubject: body\n'
    same(texts.subject(message), b'one two', 'the first, unfolded')
    same(texts.subject(b' Subject: x\n\n'), b'', 'all body')
    same(texts.subject(b'A: b\nnot a field\nSubject: x\n\n'), b'', 'after the header')
    same(texts.subject(b'Subject: ' + b'x' * 2000 + b'\n\n'), b'x' * 1000, 'long')
    same(texts.field(b'Subject:\t a \t', b'subject'), b'a', 'a last line without LF')
    for subject, key in ((b'Hello', b'hello'), (b' Re:  RE: [Cats]  Hello \t World ', b'hello world'), (b're[12]: x', b'x'),
            (b're[]: x', b're[]: x'),
                         (b'Fwd: FW: AW: x', b'x'), (b'Re:', b''), (b'[cats][cats] x', b'x'), (b'rex: y', b'rex: y'), (b'\xc4 X', b'\xc4 x')):
        same(texts.subject_key(b'[Cats]', subject), key, subject)
    same(texts.subject_key(b'', b'[cats] x'), b'[cats] x', 'without a prefix')
    for text, wanted in ((b'=?ISO-8859-1?Q?a?=', 'a'), (b'=?ISO-8859-1?Q?a?= =?ISO-8859-1?Q?b?=', 'ab'), (b'=?ISO-8859-1?Q?a_b?=', 'a b'),
                         (b'=?utf-8?b?aMOpbGxv?=', 'h\xe9llo'), (b'=?none-such?q?x?=', 'x'), (b'plain', 'plain')):
        same(texts.decoded(text), wanted, text)
    for text in (b'=?utf-8?b?!!!!?=', b'=?hex?q?00?=', b'=?utf-8?q?\xff?=', b'=?' * 300, b'=?punycode?q?' + b'z' * 900 + b'?=', b'=?utf-8?b?a?='):
        check(isinstance(texts.decoded(text), str), text)


def case_rows_of_shown_texts(world):
    """What came from mail is shown without control bytes, and JSON's strings give the bytes back."""
    for text, shown in ((b'a\x1b[2Jb', 'a\\x1b[2Jb'), (b'\xff', '\\xff'), ('\u202eabc', '\\u202eabc'), ('h\xe9', 'h\xe9'),
            (b'a\rb\n', 'a\\rb\\n'),
                        (b'\xc2\x9b', '\\x9b'), ('\ud800', '\\ud800')):
        same(texts.safe(text), shown, text)
    same(texts.safe_lines(b'a\tb\r\nc\x07\n'), 'a\tb\nc\\x07\n', 'lines')
    every = bytes(range(256))
    same(texts.exact(every).encode('utf-8', 'surrogateescape'), every, 'exact')
    for seconds, shown in ((0, '0s'), (59, '59s'), (3600, '1h 0m'), (90061, '1d 1h'), (-5, '0s'), (61, '1m 1s')):
        same(texts.age(seconds), shown, seconds)
    same((texts.date(1_000_000_000), texts.date(0), texts.date(None)), ('2001-09-09T01:46:40Z', '-', '-'), 'dates')
    same(texts.table(('A', 'B'), [(1, 'x'), (22, 'yy')]), ['A   B', '1   x', '22  yy'], 'a table')
    same(texts.table(('A', 'B'), []), [], 'an empty table')


def case_rows_of_cookies(world):
    """A cookie is the front of an HMAC-SHA-256 by the key, each byte as two letters, as openssl computes it."""
    # printf '4:hold,3:mod,10:1700000000,1:7,' | openssl dgst -sha256 -mac HMAC -macopt hexkey:0707..07
    letters = moderating.cookie(b'\x07' * 32, b'hold', b'mod', 1_700_000_000, b'7')
    same(len(letters), 20, 'length')
    same(letters.translate(bytes.maketrans(b'abcdefghijklmnop', b'0123456789abcdef')), b'9ad04b4ffb034bc97bde', 'letters')
    check(refuses(moderating.key_now, b'x' * 33), 'a key of 33 bytes')
    same(moderating.key_now(b'k' * 32 + b'f' * 40), b'k' * 32, 'the key before the former one')


def case_rows_of_kinds(world):
    """What an entry of the queue is stands in its envelope sender."""
    for base, kind in ((b'cats-return-7-', 'post 7'), (b'cats-digest-return-3-', 'digest 3'), (b'cats-return-warn-17.abc-', 'warning'),
                       (b'cats-digest-return-probe-17.abc-', 'probe'), (b'cats-return-', 'mail'), (b'cats-digest-return-', 'mail'),
                       (b'dogs-return-7-', 'mail')):
        same(waiting.kind(b'cats', base), kind, base)


ENTRY = entries.Entry(5, b'a@b', 7, b's,1:x')


def case_rows_of_entries(world):
    """Entries are read as they are spelled, and each piece of a damaged index finds its post."""
    same(ENTRY.text(), b'1:5,3:a@b,1:7,5:s,1:x,\n', 'spelled')
    same(entries.index(ENTRY.text() * 2), [ENTRY] * 2, 'read')
    for text in (b'1:5,3:a@b,1:7,5:s,1:x,', b'2:05,3:a@b,1:7,1:s,\n', b'1:5,2:ab,1:7,1:s,\n', b'1:5,3:a@B,1:7,1:s,\n',
            b'1:5,3:a@b,10:4294967296,1:s,\n',
                 b'01:5,3:a@b,1:7,1:s,\n', b'1:5,3:a@b,1:7,1:s,1:t,\n', b'\n'):
        check(refuses(entries.index, text), text)
    one, two, three = (entries.Entry(n, b'a@b', n, b's') for n in (1, 2, 3))
    same(entries.pieces(one.text() + b'x\n' + three.text()), [one, None, three], 'pieces')
    same((entries.pieces(b''), entries.pieces(one.text()[:-4])), ([], [None]), 'none, and a cut one')
    posts = [entries.Facts(n, b's', None, None, 0) for n in (1, 2, 3)]
    for found, wanted in (([one, None, three], [one, None, three]), ([one, None], [one, None, None]), ([None, three], [None, None, three]),
            ([], [None] * 3),
                          ([one, two, three, None], [one, two, three]), ([None, two, None, None], [None, two, None]),
                          ([two, three], [None, two, three])):
        same(entries.placed(found, posts), wanted, found)
    equal = [entries.Facts(4, b's', None, None, 0)] * 3
    first, last = entries.Entry(1, b'a@b', 4, b's'), entries.Entry(3, b'a@b', 4, b's')
    same(entries.placed([first, None, last], equal), [first, None, last], 'equal posts')


def case_rows_of_moments(world):
    """A lost moment is the file's time, unless the Date is days away from it and stands where the entries around it are."""
    day = 86_400
    for date, written, before, after, wanted in ((None, 500, 0, 900, 500), (1000, 500, 0, 900, 500),
            (100 * day, 900 * day, 99 * day, 101 * day, 100 * day),
                                                 (100 * day, 900 * day, 0, 950 * day, 100 * day),
                                                 (1 * day, 900 * day, 890 * day, 950 * day, 900 * day),
                                                 (1 * day, 900 * day, 500 * day, 600 * day, 1 * day)):
        post = entries.Facts(1, b's', None, date, written)
        same(entries.moment_of(post, before, after)[0], wanted, post)
    same(entries.dated(b'Fri, 21 Nov 1997 09:55:06 -0600'), 880_127_706, 'the Date of RFC 5322, appendix A.1.1')
    for text in (b'', b'yesterday', b'Thu, 99 Foo 99999 99:99:99 +9999', b'\xff', b'Mon, 1 Jan 1900 00:00:00 +0000'):
        same(entries.dated(text), None, text)
    for text, wanted in ((b'From: A <a@B>\n', b'a@b'), (b'From: bad, c@d\n', b'c@d'), (b'From:\n', None), (b'To: a@b\n', None),
            (b'From: "x@y"@z\n', None)):
        same(entries.sender(text), wanted, text)


def case_rows_of_sent_text(world):
    """What the list put before a post is taken off again, and of other posts the fields that would make a loop."""
    lines = texts.head(b'cats', b'ex.org')
    same(lines.splitlines()[0], b'Mailing-List: contact cats-help@ex.org; run by ezmlm', 'its first line')
    same(texts.as_it_came(lines + b'Delivered-To: me\nA: b\n\nx', b'cats', b'ex.org'), b'Delivered-To: me\nA: b\n\nx', 'taken off')
    same(texts.as_it_came(b'Mailing-List: x\n y\nA: b\nDelivered-To: z\n\nMailing-List: c\n', b'cats', b'ex.org'),
            b'A: b\n\nMailing-List: c\n', 'others')


def case_rows_of_labels(world):
    """Labels have backslash, quote and line feed escaped (Prometheus' exposition formats)."""
    same(metrics.labels({'a': 'x\\y"z\nw', 'b': ''}), 'a="x\\\\y\\"z\\nw",b=""', 'labels')
    check(archive.path_of(7) == '0/07' and archive.path_of(12_345) == '123/45', 'paths of posts')
