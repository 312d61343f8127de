"""Which signatures of writers survive a list (RFC 6376): the table of docs/RECEIVERS.md, tried by dkimpy."""

import subprocess

import needed

from .receivers import elements, section
from .world import HOST, Skipped, check, library, same

from ezmlm_agent import fields

USUAL = [b'from', b'to', b'subject', b'date', b'message-id', b'mime-version', b'content-type']
MAIL = (b'From: A B <a@w.net>\nTo: cats@ex.org\nSubject: %b\nDate: Mon, 30 Nov 2026 16:52:26 -0000\nMessage-ID: <1@w.net>\n%b\nhi\n')
# What the writer sends: his subject, his other fields, and what his signature covers beside the usual fields.
WRITTEN = {
    'text': (b'hello', b'', []),
    'a marked subject': (b'[cats] hello', b'', []),
    'HTML': (b'hello', b'MIME-Version: 1.0\nContent-Type: text/html\n', []),
    'parts': (b'hello', b'MIME-Version: 1.0\nContent-Type: multipart/mixed; boundary=x\n', []),
    'base64': (b'hello', b'MIME-Version: 1.0\nContent-Type: text/plain\nContent-Transfer-Encoding: base64\n', []),
    'Precedence': (b'hello', b'Precedence: list\n', []),
    'covers Precedence': (b'hello', b'Precedence: list\n', [b'precedence']),
    'covers List-Unsubscribe': (b'hello', b'List-Unsubscribe: <mailto:x@w.net>\n', [b'list-unsubscribe']),
    'covers an absent List-Id': (b'hello', b'', [b'list-id']),
    'covers an absent Reply-To': (b'hello', b'', [b'reply-to']),
}
# Those that survive lists without f and t, with f, with t, and with both.
SURVIVE = {'FT': {'text', 'a marked subject', 'HTML', 'parts', 'base64', 'Precedence', 'covers an absent List-Id', 'covers an absent Reply-To'},
           'fT': {'a marked subject'}, 'Ft': {'HTML', 'parts', 'base64'}, 'ft': set()}
# Of these, those that survive no section that adds such a field.
LIST_ID, ALWAYS = {'covers an absent List-Id'}, set(WRITTEN)


def key(world):
    """A private key, and what the resolver says of it."""
    if lacking := needed.lacking('openssl'):
        raise Skipped(lacking)
    path = world.place / 'key.pem'
    subprocess.run(['openssl', 'genrsa', '-out', path, '2048'], check=True, stderr=subprocess.DEVNULL)
    public = subprocess.run(['openssl', 'rsa', '-in', path, '-pubout'], capture_output=True, check=True).stdout.splitlines()[1:-1]
    return path.read_bytes(), lambda name, timeout=5: b'v=DKIM1; p=' + b''.join(public)


def sent(world, name, mail):
    """The entry that a list makes of a post."""
    queue = world.folder(name) / 'queue'
    said = world.run(name, 'deliver', '0', 'a@w.net', f'cats@{HOST}', given=mail)
    check(' posted ' in said, said)
    path = max(queue.iterdir(), key=lambda path: int(path.name))
    return elements(path.read_bytes())


def case_signatures(world):
    """Writers' signatures survive as docs/RECEIVERS.md has it."""
    dkim = library('python3-dkim', 'dkim')
    private, resolver = key(world)
    for letters, survive in SURVIVE.items():
        world.run(letters, 'make', f'-{letters}', '--prefix', '[cats]', '--key', '0' * 64, 'cats', HOST, 'owner@m.net')
        world.run(letters, 'sub', '0', 'list', 'a@m.net')
        for about, (subject, more, covered) in WRITTEN.items():
            mail = MAIL % (subject, more)
            for form in ((b'relaxed', b'relaxed'), (b'simple', b'simple')):
                mine = dkim.sign(mail, b's', b'w.net', private, canonicalize=form, include_headers=USUAL + covered).replace(b'\r\n', b'\n') + mail
                entry = sent(world, letters, mine)
                for rows, lost in (({}, set()), ({'archive': 'http://x.org/', 'owner': 'yes', 'rewrite_from': 'no'}, set()),
                                   ({'list_id': ''}, LIST_ID),
                                   ({'rewrite_from': 'yes'}, ALWAYS if letters != 'FT' else set()), ({'rewrite_from': 'always'}, ALWAYS)):
                    out = fields.as_handed_on(entry, section(**rows), letters.encode())
                    same(dkim.verify(out, dnsfunc=resolver), about in survive - lost, f'{about} through {letters}, {form}, {rows}')
