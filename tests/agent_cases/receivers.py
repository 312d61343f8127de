"""What receivers look for: the sections of single lists, the fields that they add, and posts in the list's name."""

import base64
import email
import email.policy
import email.utils
import os
import pathlib
import re
import sys

from .checking import checked
from .world import HOST, MEMBERS, TOP, Skipped, check, post, same, until

sys.path.insert(0, str(TOP / 'agent'))
from ezmlm_agent import fields, sections, settings  # noqa: E402

FRONT = (b'Mailing-List: contact cats-help@ex.org; run by ezmlm\nPrecedence: bulk\nList-Post: <mailto:cats@ex.org>\n'
         b'List-Help: <mailto:cats-help@ex.org>\nList-Unsubscribe: <mailto:cats-unsubscribe@ex.org>\n'
         b'List-Subscribe: <mailto:cats-subscribe@ex.org>\nDelivered-To: mailing list cats@ex.org\n')
OWN = b'Mailing-List: contact cats-help@ex.org; run by ezmlm\nPrecedence: bulk\nFrom: cats-help@ex.org\nTo: a@m.net\n'
TO = b'To: cats@ex.org\nSubject: s\n'  # Without these a list refuses a post.
ADDED = {'list-id', 'list-archive', 'list-owner', 'from', 'reply-to'}
DATA = pathlib.Path('/usr/lib/python3.11/test/test_email/data')


def section(**rows):
    return sections.read_one(rows)


def of_post(mail, flags=b'', **rows):
    """What goes out for a post with these bytes after the fields that the program puts in front."""
    return fields.as_handed_on([b'cats-return-1-', b'ex.org', b'v', FRONT + mail, b'a@m.net'], section(**rows), flags)


def added(mail, given):
    """The fields that were put in front, read by `email`. The rest has to be what was given, up to the names of From and Reply-To."""
    at = mail.index(b'Mailing-List: ')
    header, _, body = mail[at:].partition(b'\n\n')
    back = re.sub(rb'(?im)^X-Original-(From|Reply-To):', rb'\1:', header)
    check(back + b'\n\n' + body == given, f'the rest was touched: {mail[:2000]!r}')
    names = {line.partition(b':')[0].decode().lower() for line in mail[:at].splitlines() if line[:1] not in b' \t'}
    check(names <= ADDED, f'another field stands in front: {names}')
    return email.message_from_bytes(mail[:at] + b'\n', policy=email.policy.default)


def case_list_fields(world):
    """List-Id, List-Archive and List-Owner are as RFC 2919 and RFC 2369 show them, and stand once."""
    rows = [({'list_id': 'List Header Mailing List <list-header.nisto.com>'}, b'List-Id: List Header Mailing List <list-header.nisto.com>\n'),
            ({'list_id': '"An internal CMU List" <0Jks9449.list-id.cmu.edu>'}, b'List-Id: An internal CMU List <0Jks9449.list-id.cmu.edu>\n'),
            ({'list_id': "Lena's Personal Joke List <lenas-jokes.da39efc25c530ad145d41b86f7420c3b.021999.localhost>"},
             b"List-Id: Lena's Personal Joke List\n <lenas-jokes.da39efc25c530ad145d41b86f7420c3b.021999.localhost>\n"),
            ({'list_id': '<da39efc25c530ad145d41b86f7420c3b.052000.localhost>'},
             b'List-Id: <da39efc25c530ad145d41b86f7420c3b.052000.localhost>\n'),
            ({'list_id': 'Cats'}, b'List-Id: Cats <cats.ex.org>\n'), ({'list_id': ''}, b'List-Id: <cats.ex.org>\n'),
            ({'list_id': 'a, "b"'}, b'List-Id: "a, \\"b\\"" <cats.ex.org>\n'),
            ({'list_id': 'Kätzchen'}, b'List-Id: =?utf-8?b?' + base64.b64encode('Kätzchen'.encode()) + b'?= <cats.ex.org>\n'),
            ({'archive': 'http://www.host.com/list/archive/'}, b'List-Archive: <http://www.host.com/list/archive/>\n'),
            ({'archive': 'mailto:archive@host.com?subject=index%20list'}, b'List-Archive: <mailto:archive@host.com?subject=index%20list>\n'),
            ({'owner': 'yes'}, b'List-Owner: <mailto:cats-owner@ex.org>\n'), ({'owner': 'no'}, b''), ({}, b''),
            ({'list_id': 'C', 'archive': 'ftp://ftp.host.com/list/', 'owner': 'yes'},
             b'List-Id: C <cats.ex.org>\nList-Archive: <ftp://ftp.host.com/list/>\nList-Owner: <mailto:cats-owner@ex.org>\n')]
    mail = b'From: a@b.c\n\nhi\n'
    for given, wanted in rows:
        same(of_post(mail, **given), wanted + FRONT + mail, f'{given}')
    for there, wanted in ((b'List-Id: X <CATS.ex.org>\n', b''), (b'List-Id: dogs\n <dogs.ex.org>\n', b'List-Id: Cats <cats.ex.org>\n')):
        same(of_post(there + mail, list_id='Cats'), wanted + FRONT + there + mail, f'beside {there}')
    same(of_post(mail + b'List-Id: <cats.ex.org>\n', list_id=''), b'List-Id: <cats.ex.org>\n' + FRONT + mail + b'List-Id: <cats.ex.org>\n',
         'what stands in the body')


def case_wrong_sections(world):
    """A wrong setting of a list is refused by the names of its section and of the setting."""
    rows = [('[list cats]\nlist_id = Cats <cats>', '[list cats]: list_id: <cats> is no id'),
            ('[list cats]\nlist_id = a <b.c> d', 'list_id is neither'),
            ('[list cats]\nlist_id = <' + 'a.' * 128 + 'b>', '255 bytes at most'), ('[list cats]\nlist_id = a\n b', 'list_id has a line\'s end'),
            ('[list cats]\nlist_id = a\x00b', 'list_id has a line\'s end or a control'), ('[list cats]\nlist_id = ' + 'a' * 501, 'longer than 500'),
            ('[list cats]\narchive = x.org/a b', 'archive: \'x.org/a b\' is no URL'), ('[list cats]\narchive = http://x/>\n', 'is no URL'),
            ('[list cats]\narchive =', 'is no URL'), ('[list cats]\nowner = maybe', 'owner: maybe is neither yes nor no'),
            ('[list cats]\nrewrite_from = sometimes', 'rewrite_from: sometimes is neither yes nor no nor always'),
            ('[list cats]\nlistid = x', '[list cats]: unknown listid'),
            ('[lists cats]\nowner = yes', '[lists cats] is neither [agent] nor [list NAME]'),
            ('[list]\nowner = yes', '[list] is neither'), ('[list a/b]\nowner = yes', '[list a/b] is neither'),
            ('[list cats]\nowner = yes\n[list  cats]\nowner = no', 'is there twice'), ('[list cats]\nowner = yes\n[list cats]\n', 'already exists')]
    path = world.settings()
    begun = path.read_text()
    for text, wanted in rows:
        path.write_text(f'{begun}{text}\n')
        try:
            settings.read(str(path))
            check(False, f'{text!r} is taken')
        except ValueError as error:
            check(wanted in str(error) and str(path) in str(error), f'{text!r}: {error}')
    path.write_text(f'{begun}[list cats]\nlist_id = Cats <c.ex.org>\nowner = yes\n[list two words]\n')
    same(dict(settings.read(str(path)).by_list),
         {'cats': sections.Section(sections.ListId('Cats', 'c.ex.org'), '', True, ''), 'two words': sections.Section()}, 'sections')


AUTHORS = [  # RFC 5322 A.1 and A.5, RFC 2047 8, RFC 6854 4, and what others write
    (b'John Doe <jdoe@machine.example>', 'John Doe', ['jdoe@machine.example']),
    (b'"Joe Q. Public" <john.q.public@example.com>', 'Joe Q. Public', ['john.q.public@example.com']),
    (b'"Giant; \\"Big\\" Box" <sysservices@example.net>', 'Giant; "Big" Box', ['sysservices@example.net']),
    (b'Who? <one@y.test>', 'Who?', ['one@y.test']), (b'<boss@nil.test>', 'boss', ['boss@nil.test']),
    (b'jdoe@test.example', 'jdoe', ['jdoe@test.example']),
    (b'Mary Smith <mary@x.test>, jdoe@example.org', 'Mary Smith, jdoe', ['mary@x.test', 'jdoe@example.org']),
    (b'John Doe\n <jdoe@machine.example>', 'John Doe', ['jdoe@machine.example']),
    (b'=?US-ASCII?Q?Keith_Moore?= <moore@cs.utk.edu>', 'Keith Moore', ['moore@cs.utk.edu']),
    (b'=?ISO-8859-1?Q?Keld_J=F8rn_Simonsen?= <keld@dkuug.dk>', 'Keld Jørn Simonsen', ['keld@dkuug.dk']),
    (b'=?ISO-8859-1?Q?Andr=E9?= Pirard <PIRARD@vm1.ulg.ac.be>', 'André Pirard', ['PIRARD@vm1.ulg.ac.be']),
    (b'=?ISO-8859-1?Q?Olle_J=E4rnefors?= <ojarnef@admin.kth.se>', 'Olle Järnefors', ['ojarnef@admin.kth.se']),
    (b'=?ISO-8859-1?Q?a?=\n =?ISO-8859-1?Q?b?= <a@b.c>', 'ab', ['a@b.c']),
    (b'=?ISO-8859-1?Q?a_?= =?ISO-8859-1?Q?b?= <a@b.c>', 'a b', ['a@b.c']),
    (b'=?iso-8859-8?b?7eXs+SDv4SDs+eru?= <nsb@thumper.bellcore.com>', base64.b64decode('7eXs+SDv4SDs+eru').decode('iso-8859-8'),
     ['nsb@thumper.bellcore.com']),
    (b'Ed (the \\) one) <ed@x.org>', None, ['ed@x.org']), (b'"a b"@x.org', 'a b', ['"a b"@x.org']),
    (b'a@[192.0.2.1]', 'a', ['a@[192.0.2.1]']),
    (b'Ceo@bank.test <a@b.c>', 'a', ['a@b.c']),
    (b'Managing Partners:ben@example.com,carol@example.com;', 'ben, carol', ['ben@example.com', 'carol@example.com']),
]


def case_authors(world):
    """A post in the list's name has its writers' names and, first in Reply-To, their addresses; all else keeps its bytes."""
    for value, name, addresses in AUTHORS:
        for more, others in ((b'', []), (b'Reply-To: X <x@y.z>, ' + addresses[0].upper().encode() + b'\n', ['x@y.z'])):
            given = b'X-A: 1\nFrom: ' + value + b'\n' + more + b'Subject: s\n\nFrom: no@b.c\n'
            out = added(of_post(given, rewrite_from='always'), FRONT + given)
            sender, = out['From'].addresses
            same(sender.addr_spec, 'cats@ex.org', f'{value}: whose it is')
            check(name is None or sender.display_name == f'{name} via cats', f'{value}: {sender.display_name!r}')
            same([each.addr_spec for each in out['Reply-To'].addresses], addresses + others, f'{value}: Reply-To')


def case_whose_posts(world):
    """Posts are sent in the list's name with yes if the list marks subjects or adds a trailer, with always in any case, else never."""
    mail = b'From: A B <a@b.c>\n\nhi\n'
    changed = (b'From: "A B via cats" <cats@ex.org>\nReply-To: "A B" <a@b.c>\n' + FRONT + b'X-Original-From: A B <a@b.c>\n\nhi\n')
    for word, flags, wanted in (('yes', b'f', changed), ('yes', b'T', FRONT + mail), ('yes', b't', changed), ('yes', b'BDF', FRONT + mail),
                                ('always', b'FT', changed), ('no', b'ft', FRONT + mail)):
        same(of_post(mail, flags, rewrite_from=word), wanted, f'{word} with {flags}')
    same(of_post(b'From: Cats <CATS@ex.org>\n\nhi\n', rewrite_from='always'), FRONT + b'From: Cats <CATS@ex.org>\n\nhi\n', 'its own')
    same(of_post(b'From: a@b.c, a@b.c, A@B.C\n\n', rewrite_from='always').partition(FRONT)[0],
         b'From: "a, a, A via cats" <cats@ex.org>\nReply-To: a@b.c\n', 'one address often')


BAD = {  # what a stranger may send
    'no From': b'Subject: s\n\nhi\n',
    'two': b'From: a@b.c\nFrom: D <d@e.f>\n\nhi\n',
    'an empty one': b'From:\n\nhi\n',
    'a group': b'From: Grp: a@b.c, D <d@e.f>;\n\nhi\n',
    'an empty group': b'From: undisclosed-recipients:;\n\nhi\n',
    '8-bit': b'From: J\xf6rg <j@x.de>\n\nhi\n',
    'UTF-8': 'From: Jörg <jö@x.de>\n\nhi\n'.encode(),
    '8-bit host': b'From: a@\xff\xfe\n\nhi\n',
    'a subject over lines': b'From: a@b.c\nSubject: =?utf-8?q?a\n =0ABcc=3A_x@y?=\n =?utf-8?q?b?=\n\nhi\n',
    'a first line that is blank': b'\nFrom: a@b.c\n\nhi\n',
    'a first line of a space': b' \nFrom: a@b.c\n\nhi\n',
    'nothing': b'',
    'a line\'s end in a name': b'From: =?utf-8?q?A=0D=0ABcc=3A_x@y.z=0A=0Ahi?= <a@b.c>\n\nhi\n',
    'the same by base64': b'From: =?utf-8?b?QQ0KQmNjOiB4QHkueg==?= <a@b.c>\n\nhi\n',
    'the same by an escape': b'From: \\u000aBcc: x =?utf-8?q?a?= <a@b.c>\n\nhi\n',
    'NUL in a name': b'From: =?utf-8?q?A=00B?= \x00 <a@b.c>\n\nhi\n',
    'CR in a name': b'From: "A\rBcc: x@y.z" <a@b.c>\n\nhi\n',
    'CR in an address': b'From: <a@b.c\rBcc:x>\n\nhi\n',
    'a line separator': b'From: =?utf-8?q?A=E2=80=A8Bcc=3A_x?= <a@b.c>\n\nhi\n',
    'a charset that isn\'t there': b'From: =?x-none?q?=0Aa?= <a@b.c>\n\nhi\n',
    'half a surrogate': b'From: =?utf-8?q?=ED=A0=80?=a@b.c\n\nhi\n',
    'marks of direction': b'From: =?utf-8?q?=E2=80=AEa?= <a\xe2\x80\xae@b.c>\n\nhi\n',
    'no base64': b'From: =?utf-8?b?A?= <a@b.c>\n\nhi\n',
    'quotes': b'From: ' + b'"' * 3999 + b' <a@b.c>\n\nhi\n',
    'parentheses': b'From: ' + b'(' * 3000 + b'a@b.c\n\nhi\n',
    'a header of 100 KB': b'From: a@b.c\n' + (b'X: ' + b'y' * 990 + b'\n') * 100 + b'\nhi\n',
    'a folded header of 100 KB': b'From: a@b.c\nX: y' + b'\n y' * 34000 + b'\n\nhi\n',
    'many From': b'From: a@b.c\n' * 300 + b'\nhi\n',
}
UNREAD = {
    'a From of 100 KB': b'From: ' + b'a@b.c,' * 17000 + b'\n\nhi\n',
    'a header of 300 KB': b'From: a@b.c\n' + b'X: y\n' * 60000 + b'\nhi\n',
    'too many From': b'From: a@b.c\n' * 30000 + b'\nhi\n',
    'colons': b'From: ' + b':' * 4000 + b'\n\nhi\n',
}


def case_bad_posts(world):
    """What strangers write begins no field, and loses nothing; what can't be read isn't changed, and said."""
    for about, mail in BAD.items():
        mail = mail if b'\n\n' in mail else b'\n' + mail  # The program ends each header with an empty line.
        mail = b'\n' + mail if mail[:1] in b' \t' else mail
        out = added(of_post(mail, rewrite_from='always', list_id='Cats'), FRONT + mail)
        same([each.addr_spec for each in out['From'].addresses], ['cats@ex.org'], about)
        same(len(out.get_all('From')), 1, about)
    for about, mail in UNREAD.items():
        try:
            of_post(mail, rewrite_from='always', list_id='Cats')
            check(False, f'{about}: it is changed')
        except fields.Unreadable as error:
            check(str(error), about)
    for mail in (b'', b'\n', b'From: a@b.c\n\nhi\n', OWN.replace(b'cats-help@ex.org\nTo', b'x@y.z\nTo') + b'\nhi\n', FRONT[:60]):
        same(fields.as_handed_on([b'cats-return-', b'ex.org', b'p', mail], section(rewrite_from='always', list_id=''), b''), mail, 'passed on')


def case_answers(world):
    """The list's own answers say that they are, have a Message-ID that is the same at each try, and a charset that is true."""
    rows = [(b'p', b'Subject: help\n\nMail to\n', 'auto-replied', b'utf-8', b''),
            (b'v', b'Subject: bounce warning\n\nM\n', 'auto-generated', b'utf-8', b''),
            (b'v', b'Subject: bounce probe\n\nM\n', 'auto-generated', b'utf-8', b''),
            (b'v', b'Subject: cats Digest Issue 1\n\nT\n', 'auto-generated', b'utf-8', b''),
            (b'p', 'Subject: members of list\n\nö@m.net\n'.encode(), 'auto-replied', b'utf-8', b'Content-Transfer-Encoding: 8bit\n'),
            (b'p', b'Subject: members of list\n\n\xf6@m.net\n', 'auto-replied', b'unknown-8bit', b'Content-Transfer-Encoding: 8bit\n'),
            (b'p', b'Subject: moderate post 1\n\nAccept: x\n\nFrom: a@b.c\n\n\x1b$B$\x1b(B\n', 'auto-replied', b'unknown-8bit', b'')]
    seen = set()
    for letter, mail, word, charset, more in rows:
        entry = [b'cats-return-', b'ex.org', letter, OWN + mail, b'a@m.net']
        out = fields.as_handed_on(entry, section(list_id='Cats', rewrite_from='always'), b'ft')
        same(fields.as_handed_on([*entry, b'b@m.net'], section(list_id='Cats', rewrite_from='always'), b'ft'), out, 'at another try')
        front = out.removesuffix(OWN + mail)
        number, = re.findall(rb'(?m)^Message-ID: <([0-9a-f]{32})@ex\.org>$', front)
        seen.add(number)
        same(front, b'List-Id: Cats <cats.ex.org>\nAuto-Submitted: ' + word.encode() + b'\nMessage-ID: <' + number + b'@ex.org>\nMIME-Version: 1.0\n'
             b'Content-Type: text/plain; charset=' + charset + b'\n' + more, f'{mail}')
    same(len(seen), len(rows), 'Message-IDs')


def case_python_mails(world):
    """All mails of the tests of Python's email go through a list in the list's name, and keep their bytes."""
    mails = sorted(DATA.glob('*.txt'))
    if not mails:
        raise Skipped('libpython3.11-testsuite isn\'t installed')
    folder, sent = world.list(words=['-f', '-t']), 0
    for path in mails:
        before = set(os.listdir(folder / 'queue')) if (folder / 'queue').exists() else set()
        said = world.run('cats', 'deliver', '0', 'w@m.net', f'cats@{HOST}', given=TO + path.read_bytes())
        if ' posted ' not in said:
            continue
        sent += 1
        name, = set(os.listdir(folder / 'queue')) - before
        mail = elements((folder / 'queue' / name).read_bytes())
        out = added(fields.as_handed_on(mail, section(rewrite_from='yes', list_id='Cats', owner='yes', archive='http://x.org/'), b'ft'), mail[3])
        same([each.addr_spec for each in out['From'].addresses], [f'cats@{HOST}'], path.name)
        author = email.utils.parseaddr(str(email.message_from_bytes(mail[3]).get('From', '')))[1]
        if re.fullmatch(r'[\w.-]+@[\w.-]+', author, re.ASCII):
            same(out['Reply-To'].addresses[0].addr_spec, author, f'{path.name}: Reply-To')
    same(sent, len(mails), 'posts')
    world.note = f'{sent} mails'


def elements(text):
    """The contents of a row of netstrings."""
    found = []
    while text:
        length, _, rest = text.partition(b':')
        found.append(rest[:int(length)])
        text = rest[int(length) + 1:]
    return found


def of_lists(world, rows):
    """Gives the file of settings sections of single lists."""
    path, begun = world.place / 'agent.conf', type(world).settings

    def given():
        begun(world)
        path.write_text(path.read_text() + rows)
        return path
    world.settings = given


def case_without_sections(world):
    """Without a section what goes out is what the program wrote, to the byte; a mail for the owner is so in any case."""
    of_lists(world, '[list dogs]\nlist_id = Dogs\nrewrite_from = always\nowner = yes\n')
    for name in ('cats', 'dogs'):
        world.list(name, words=['-f', '-t'])
    # What the lists send is read of their queues before there is an agent.
    for name, to in (('cats', ''), ('cats', '-help'), ('cats', '-subscribe'), ('cats', '-get.1'), ('cats', '-owner'), ('dogs', '-owner')):
        world.run(name, 'deliver', '0', 'w@m.net', f'{name}{to}@{HOST}', given=post(1, name + to) + b'.\n..\n.x\r\n\xff')
    written = [elements(path.read_bytes()) for name in ('cats', 'dogs') for path in (world.folder(name) / 'queue').iterdir()]
    same(len(written), 6, 'entries')
    world.begin()
    check(until(lambda: world.queue('cats') == world.queue('dogs') == 0), 'the queue isn\'t empty')
    wanted = sorted((to.decode(), (mail if mail.endswith(b'\n') else mail + b'\n').replace(b'\n', b'\r\n'))
                    for _, _, _, mail, *many in written for to in many)
    same(sorted((to, bytes(content)) for _, to, content in world.sink.copies), wanted, 'what went out')


def case_with_a_section(world):
    """With a section posts, bad ones too, and answers go out with the fields, to every member and once; the log tells what wasn't read."""
    of_lists(world, '[list cats]\nlist_id = Cats\nrewrite_from = yes\n')
    world.list(words=['-f', '--max', '1048576'])
    world.begin()
    mails = {**BAD, **UNREAD}
    for n, (about, mail) in enumerate(mails.items()):
        reply = world.mail('w@m.net', [f'cats@{HOST}'], f'Received: by mx.ex.org id {n}\n'.encode() + TO + mail)
        check(reply is not None and reply[0].startswith('250'), f'{about}: {reply}')
    world.mail('w@m.net', [f'cats-help@{HOST}'], post(1, 'cats-help'))
    copies = len(mails) * len(MEMBERS) + 1
    check(world.is_out(copies), f'{len(world.sink.copies)} copies, and not {copies}')
    heads = [bytes(content).partition(b'Mailing-List: ')[0] for _, _, content in world.sink.copies]
    same(sum(b'From: ' in head and b'<cats@ex.org>\r\n' in head for head in heads), len(BAD) * len(MEMBERS), 'copies in the list\'s name')
    same(sum(head == b'' for head in heads), len(UNREAD) * len(MEMBERS), 'copies that weren\'t changed')
    check(not any(re.search(rb'(?i)\n(bcc|b):|\0|\r(?!\n)', head) for head in heads), 'a stranger\'s field')
    same(sum(b'Auto-Submitted: auto-replied\r\n' in head for head in heads), 1, 'answers')
    same(world.log().count('goes out as the list wrote it: its '), len(UNREAD), 'lines in the log')


def case_check_tells_sections(world):
    """--check tells what each section does, and warns of lists whose writers' signatures break and of sections without a list."""
    of_lists(world, '[list cats]\nlist_id = Cats\nowner = yes\nrewrite_from = yes\n[list birds]\nrewrite_from = no\n[list dgos]\n')
    world.list('cats', words=['-f'])
    world.list('dogs', words=['-ft'])
    world.list('birds', words=['-t'])
    status, said = checked(world)
    for line in ('[list cats]: List-Id <cats.ex.org>, List-Owner <mailto:cats-owner@ex.org>, posts come from the list, answers have Auto-Submitted',
                 '[list birds]: posts come from their writers, answers', '! dogs: it marks subjects (f) and adds a trailer (t), which breaks',
                 '! [list dgos]: there is no such list in'):
        check('\n' + line in '\n' + said, f'no line {line!r} in {said}')
    same((status, said.count('\n!')), (1, 2), f'the status and the warnings: {said}')
