"""Mails, and what has to be seen of them."""

from __future__ import annotations

import base64
import dataclasses

from ezmlm_site import files, message, words

from .world import World, equal, holds


@dataclasses.dataclass(frozen=True)
class Row:
    """A mail, and what is seen: what isn't None has to be that; `has` and `lacks` are pieces of its text."""
    about: str
    raw: bytes
    author: str | None = None
    subject: str | None = None
    text: str | None = None
    has: tuple[str, ...] = ()
    lacks: tuple[str, ...] = ()
    notes: tuple[str, ...] = ()
    files: tuple[tuple[str, str, bytes], ...] = ()


def mime(kind: str, body: bytes, more: bytes = b'') -> bytes:
    return b'From: a@b\nMIME-Version: 1.0\nContent-Type: %b\n%b\n%b' % (kind.encode(), more, body)


def parts(kind: str, *inner: bytes) -> bytes:
    """A mail of parts, each given with its fields. The LF before a boundary belongs to the boundary (RFC 2046 5.1.1)."""
    return mime(f'multipart/{kind}; boundary="=b="', b''.join(b'--=b=\n%b\n' % part.removesuffix(b'\n') for part in inner) + b'--=b=--\n')


PLAIN = b'Content-Type: text/plain\n\nplain\n'
HTML = b'Content-Type: text/html\n\n<p>of <b>HTML</b>\n'
PNG = b'\x89PNG\r\n\x1a\n' + bytes(9)
PICTURE = b'Content-Type: image/png; name="cat.png"\nContent-Transfer-Encoding: base64\n\n' + base64.b64encode(PNG) + b'\n'
SIGNED = 'This mail is signed; the signature was not checked.'

ROWS = [
    # Names and subjects (RFC 822, RFC 2047).
    Row('a plain mail', b'From: Jo Doe <jo@b>\nSubject: hello\n\nhi\n', 'Jo Doe', 'hello', 'hi'),
    Row('an address alone', b'From: jo@b\n\n', 'jo@b', '', ''),
    Row('an address in brackets', b'From: <jo@b>\n\n', 'jo@b'),
    Row('a name with a comma', b'From: "Doe, Jo" <jo@b>\n\n', 'Doe, Jo'),
    Row('a name with escaped quotes', b'From: "Jo \\"J\\" Doe" <jo@b>\n\n', 'Jo "J" Doe'),
    Row('a name with a bracket in quotes', b'From: "Jo <j> Doe" <jo@b>\n\n', 'Jo <j> Doe'),
    Row('a name in a comment', b'From: jo@b (Jo Doe)\n\n', 'Jo Doe'),
    Row('a name in a comment of an address without an @', b'From: anne at b.org (Anne)\n\n', 'Anne'),
    Row('a comment that is of no address', b'From: Anne (at work)\n\n', 'Anne (at work)'),
    Row('a folded name', b'From: Jo\n  Doe\n <jo@b>\n\n', 'Jo Doe'),
    Row('an encoded name', b'From: =?utf-8?q?J=C3=B6_Doe?= <jo@b>\n\n', 'Jö Doe'),
    Row('an encoded name in quotes', b'From: "=?utf-8?B?SsO2?=" <jo@b>\n\n', 'Jö'),
    Row('a name in bytes of UTF-8', 'From: Jö <jo@b>\n\n'.encode(), 'Jö'),
    Row('a name in bytes of latin-1', 'From: Jö <jo@b>\n\n'.encode('latin-1'), 'Jö'),
    Row('no author', b'Subject: x\n\n', ''),
    Row('an encoded subject', b'Subject: =?iso-8859-1?Q?gr=FC=DFe?=\n\n', subject='grüße'),
    Row('two encoded words have no space between', b'Subject: =?utf-8?q?a?=\n =?utf-8?q?b?= c\n\n', subject='ab c'),
    Row('a character that two encoded words share', b'Subject: =?utf-8?b?4oI=?= =?utf-8?b?rA==?=\n\n', subject='€'),
    Row('an encoded word of a charset that nobody knows', b'Subject: =?x-none?q?gr=C3=BC=C3=9Fe?=\n\n', subject='grüße'),
    Row('an encoded word in base64 without its padding', b'Subject: =?utf-8?b?aGk?=\n\n', subject='hi'),
    Row('an encoded word with a language (RFC 2231)', b'Subject: =?utf-8*en?q?hi?=\n\n', subject='hi'),
    Row('an encoded word that says a tag', b'Subject: =?utf-8?q?=3Cscript=3E?=\n\n', subject='<script>'),
    Row('an encoded word that says a line end', b'Subject: =?utf-8?q?a=0Ab=0D=00c?=\n\n', subject='a b �c'),
    Row('an encoded word of a codec that is no charset', b'Subject: =?hex?q?6869?=\n\n', subject='6869'),
    Row('a subject of 100 KB', b'Subject: ' + b'long ' * 20_000 + b'\n\n', subject='long ' * 99 + 'long…'),
    Row('NUL and a turned direction in a subject', 'Subject: a\0b\u202efdp.exe\n\n'.encode(), subject='a�b�fdp.exe'),
    # Charsets of texts.
    Row('UTF-8', mime('text/plain; charset=utf-8', 'grüße\n'.encode()), text='grüße'),
    Row('latin-1', mime('text/plain; charset=iso-8859-1', 'grüße\n'.encode('latin-1')), text='grüße'),
    Row('a Japanese charset', mime('text/plain; charset=iso-2022-jp', '猫\n'.encode('iso-2022-jp')), text='猫'),
    Row('no charset, and UTF-8', mime('text/plain', 'grüße\n'.encode()), text='grüße'),
    Row('no charset, and windows-1252', mime('text/plain', 'it’s\n'.encode('cp1252')), text='it’s'),
    Row('a charset that lies', mime('text/plain; charset=us-ascii', 'grüße\n'.encode()), text='grüße'),
    Row('UTF-8 that is windows-1252', mime('text/plain; charset=utf-8', 'grüße\n'.encode('cp1252')), text='grüße'),
    Row('a charset that nobody knows', mime('text/plain; charset=x-none', 'grüße\n'.encode()), text='grüße'),
    Row('a charset that is a codec of bytes', mime('text/plain; charset=zlib', b'hi\n'), text='hi'),
    Row('a charset with NUL', mime('text/plain; charset="utf\0-8"', b'hi\n'), text='hi'),
    Row('UTF-7 with tags', mime('text/plain; charset=utf-7', b'+ADw-b+AD4-\n'), text='<b>'),
    Row('NUL and controls', mime('text/plain', b'a\0b\x07c\td\n'), text='a�b�c\td'),
    Row('line ends of CR and LF, and of CR', mime('text/plain', b'a\r\nb\rc\n'), text='a\nb\nc'),
    # Transfer encodings.
    Row('quoted-printable', mime('text/plain; charset=utf-8', b'gr=C3=BC=\n=C3=9Fe=20\n', b'Content-Transfer-Encoding: quoted-printable\n'), text='grüße '),
    Row('base64', mime('text/plain; charset=utf-8', base64.encodebytes('grüße'.encode()), b'Content-Transfer-Encoding: base64\n'), text='grüße'),
    Row('base64 that isn\'t', mime('text/plain', b'not at all!\n', b'Content-Transfer-Encoding: base64\n'), has=('',)),
    Row('a flowed text', mime('text/plain; format=flowed', b'one \ntwo\n> q \n> r\n>> s\n'), text='one two\n> q r\n>> s'),
    Row('a flowed text whose spaces go', mime('text/plain; format=flowed; delsp=yes', b'one \ntwo\n'), text='onetwo'),
    # Parts.
    Row('alternatives', parts('alternative', PLAIN, HTML), text='plain'),
    Row('alternatives, HTML first', parts('alternative', HTML, PLAIN), text='plain'),
    Row('HTML alone', mime('text/html', b'<style>p{}</style><p>of <b>HTML</b><script>alert(1)</script>\n'), has=('of **HTML**',), lacks=('alert', 'p{}', '<')),
    Row('a link in HTML', mime('text/html', b'<a href="https://x.org/y">here</a>'), has=('here', 'https://x.org/y')),
    Row('a script as a link in HTML', mime('text/html', b'<a href="javascript:alert(1)">here</a>'), has=('here',)),
    Row('a text and a picture', parts('mixed', PLAIN, PICTURE), text='plain', files=(('cat.png', 'image/png', PNG),)),
    Row('two texts', parts('mixed', PLAIN, b'\nsecond\n'), text='plain\n\nsecond'),
    Row('a text that is an attachment', parts('mixed', PLAIN, b'Content-Type: text/plain\nContent-Disposition: attachment; filename=a.txt\n\nfile\n'),
        text='plain', files=(('a.txt', 'text/plain', b'file'),)),
    Row('a picture alone', mime('image/png; name=cat.png', base64.b64encode(PNG), b'Content-Transfer-Encoding: base64\n'), text='',
        files=(('cat.png', 'image/png', PNG),)),
    Row('alternatives of which one has a picture', parts('alternative', PLAIN, b'Content-Type: multipart/related; boundary=c\n\n--c\n' + HTML + b'--c\n' + PICTURE
        + b'--c--\n'), text='plain'),
    Row('a mail within a mail', parts('mixed', PLAIN, b'Content-Type: message/rfc822\n\nFrom: x@y\nSubject: inner\n\nFrom here\n'), text='plain',
        files=(('message.eml', 'message/rfc822', b'From: x@y\nSubject: inner\n\nFrom here'),)),
    Row('a part without a name', parts('mixed', PLAIN, b'Content-Type: application/x-thing\n\nbytes\n'), text='plain',
        files=(('application-x-thing', 'application/x-thing', b'bytes'),)),
    Row('a name of RFC 2231', parts('mixed', b'Content-Type: application/pdf\nContent-Disposition: attachment; filename*=utf-8\'\'gr%C3%BC%C3%9Fe.pdf\n\nx\n'),
        files=(('grüße.pdf', 'application/pdf', b'x'),)),
    Row('a name in encoded words', parts('mixed', b'Content-Type: application/pdf; name="=?utf-8?q?gr=C3=BC=C3=9Fe=2Epdf?="\n\nx\n'),
        files=(('grüße.pdf', 'application/pdf', b'x'),)),
    # What mail is signed and encrypted.
    Row('PGP/MIME, signed', parts('signed; protocol="application/pgp-signature"', PLAIN, b'Content-Type: application/pgp-signature; name=s.asc\n\nSIG\n'),
        text='plain', notes=(SIGNED,), files=(('s.asc', 'application/pgp-signature', b'SIG'),)),
    Row('PGP/MIME, encrypted', parts('encrypted', b'Content-Type: application/pgp-encrypted\n\nVersion: 1\n', b'Content-Type: application/octet-stream\n\nX\n'),
        text='', notes=('This mail is encrypted.',),
        files=(('application-pgp-encrypted', 'application/pgp-encrypted', b'Version: 1'), ('application-octet-stream', 'application/octet-stream', b'X'))),
    Row('S/MIME, signed', mime('application/pkcs7-mime; smime-type=signed-data; name=smime.p7m', b'X'), text='',
        notes=('This mail is signed (S/MIME), and its content is an attachment.',), files=(('smime.p7m', 'application/pkcs7-mime', b'X'),)),
    Row('S/MIME, encrypted', mime('application/pkcs7-mime; smime-type=enveloped-data; name=smime.p7m', b'X'), text='',
        notes=('This mail is encrypted (S/MIME), and its content is an attachment.',), files=(('smime.p7m', 'application/pkcs7-mime', b'X'),)),
    Row('OpenPGP in the text, signed', b'\n-----BEGIN PGP SIGNED MESSAGE-----\n\nhi\n', has=('hi',),
        notes=('Its text is signed (OpenPGP); the signature was not checked.',)),
    Row('OpenPGP in the text, encrypted', b'\n-----BEGIN PGP MESSAGE-----\n\nxyz\n', notes=('Its text is encrypted (OpenPGP).',)),
    # What is hardly a mail.
    Row('nothing', b'', '', '', ''),
    Row('a body alone', b'\nhi\n', '', '', 'hi'),
    Row('lines that are no fields', b'no field here\nhi\n', '', '', has=('hi',)),
    Row('a boundary that never comes', mime('multipart/mixed; boundary=x', b'hi\n'), has=('hi',)),
    Row('a boundary that never ends', mime('multipart/mixed; boundary=x', b'--x\n\nhi\n'), text='hi'),
    Row('parts without a boundary', mime('multipart/mixed', b'hi\n'), has=('hi',)),
    Row('alternatives of none', mime('multipart/alternative; boundary=x', b'--x--\n'), has=('',)),
]

NAMES = [
    ('cat.png', '1-cat.png'), ('../../etc/passwd', '1-passwd.bin'), ('..\\..\\a.exe', '1-a_exe.bin'), ('..', '1-file.bin'), ('.htaccess', '1-htaccess.bin'),
    ('', '1-file.bin'), ('a b  c.txt', '1-a_b_c.txt'), ('grüße.pdf', '1-gr_e.pdf'), ('猫.png', '1-file.png'), ('a\0b.html', '1-a_b_html.bin'), ('x/', '1-file.bin'),
    ('a' * 300 + '.tar.gz', '1-' + 'a' * 60 + '.gz'), ('x.tar.gz', '1-x_tar.gz'), ('a.' + 'b' * 300, '1-a_' + 'b' * 58 + '.bin'), ('-rf', '1--rf.bin'),
    ('<script>.html', '1-script_html.bin'), ('"onload=x".png', '1-onload_x.png'), ('%2e%2e%2fx', '1-2e_2e_2fx.bin'), ('a\nb', '1-a_b.bin'), ('con.txt', '1-con.txt'),
    ('\u202egnp.exe', '1-gnp_exe.bin'), ('a.php', '1-a_php.bin'), ('a.php.png', '1-a_php.png'), ('a.PHP', '1-a_PHP.bin'), ('A.PNG', '1-A.png'), ('a.php.', '1-a_php.bin'),
    ('a.php. .', '1-a_php.bin'), ('a.png.', '1-a.png'), ('a.phtml', '1-a_phtml.bin'), ('a.shtml', '1-a_shtml.bin'), ('a.cgi', '1-a_cgi.bin'), ('a.svg', '1-a_svg.bin'),
    ('index.html', '1-index_html.bin'), ('a.png\0.php', '1-a_png_php.bin'), ('.png', '1-png.bin'), ('f.bin', '1-f.bin'), ('a.ｐｈｐ', '1-a.bin'), ('a.php%00.png', '1-a_php_00.png'),
]
# A name as the sender gave it, and the one under which the page has a browser keep the file.
KEPT = [('a.phtml', 'a.phtml'), ('../../etc/passwd', 'passwd'), ('..\\x.exe', 'x.exe'), ('.htaccess', 'htaccess'), ('..', 'file'), ('', 'file'), ('猫.png', '猫.png')]

SHORTENED = [
    # A text, and what it is with addresses shortened and hidden.
    ('mail jo.doe+x@sub.b.net.', 'mail jo.doe+x@….', 'mail …@….'),
    ('<jo@b>', '<jo@…>', '<…@…>'),
    ('"jo doe"@b.net', '"jo doe"@…', '"jo …@…'),
    ('jo@[192.0.2.1]', 'jo@…', '…@…'),
    ('cats@ex.org and CATS-help@EX.ORG', 'cats@ex.org and CATS-help@EX.ORG', 'cats@ex.org and CATS-help@EX.ORG'),
    ('cats@ex.org.evil.net', 'cats@…', '…@…'),
    ('https://a.org/r/2023.1@b.net/', 'https://a.org/r/2023.1@b.net/', 'https://a.org/r/…@…/'),
    ('https://a.org/?m=jo@b.net', 'https://a.org/?m=jo@…', 'https://a.org/?…@…'),
    ('x' * 100 + '@b.net', 'x' * 100 + '@…', 'x' * 36 + '…@…'),
    ('jo@bücher.example', 'jo@…', '…@…'),
    ('a @ b, @home, x@', 'a @ b, @home, x@', 'a @ b, @home, x@'),
]


def case_mails(_: World) -> None:
    """Rows of mails, and what is seen of each."""
    for row in ROWS:
        shown = message.read(row.raw)
        for what in ('author', 'subject', 'text'):
            if getattr(row, what) is not None:
                equal(f'{row.about}: the {what}', getattr(shown, what), getattr(row, what))
        for piece in row.has:
            holds(f'{row.about}: the text lacks {piece!a}: {shown.text!a}', piece in shown.text)
        for piece in row.lacks:
            holds(f'{row.about}: the text has {piece!a}: {shown.text!a}', piece not in shown.text)
        equal(f'{row.about}: the notes', tuple(shown.notes), row.notes)
        equal(f'{row.about}: the attachments', tuple((each.name, each.kind, each.content) for each in shown.attachments), row.files)
        holds(f'{row.about}: it is shown as its source', not shown.is_source)


def case_names_of_files(_: World) -> None:
    """Names of attachments, and the names of their files."""
    for name, wanted in NAMES:
        equal(f'the file of {name!a}', files.safe_name(1, name), wanted)
        holds(f'the file of {name!a} has another kind', wanted.count('.') == 1 and wanted.rpartition('.')[2] in files.KINDS)
    for name, wanted in KEPT:
        equal(f'the name to keep {name!a} under', files.kept_name(name), wanted)


def case_addresses(_: World) -> None:
    """Addresses in a text, shown, shortened and hidden."""
    for text, *wanted in SHORTENED:
        for kind, right in zip(('shown', 'shortened', 'hidden'), (text, *wanted)):
            equal(f'{text!a} with addresses {kind}', words.shortener(kind, 'cats', 'ex.org')(text), right)
