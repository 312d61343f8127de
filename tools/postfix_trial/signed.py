"""Signed posts through lists under Postfix and opendkim, and a receiver that obeys what the writer's domain says of its mail (DMARC)."""

import email
import email.policy
import re
import shutil
import smtplib
import socket
import subprocess
import time

import dkim
import dns.resolver
from agent_cases.sink import Sink

from .course import Course
from .setting import SINK, SMTPD, TOP, USER, eventually, wait_for

MILTER, RESOLVER = 12528, 12529
WRITER, HOST = 'w.net', 'ex.org'
CONFIGURATION = '''Mode s
Socket inet:{milter}@127.0.0.1
Canonicalization relaxed/relaxed
SenderHeaders List-Post,From
SigningTable refile:{place}/signing
KeyTable {place}/keys
OversignHeaders From
UserID opendkim
Background no
RequireSafeKeys no
'''
CHECK = '''sends_from = 127.0.0.1
resolver = 127.0.0.1:{resolver}
'''
SECTIONS = '''
[list cats]
list_id = Cats
[list fish]
list_id = Fish <fish.lists.ex.org>
archive = https://ex.org/fish/
owner = yes
rewrite_from = yes
[list other]
rewrite_from = always
'''
# The options of each list, and then: whether the writer's signature holds, and whose mail it is.
LISTS = {'cats': ('-FT', True, WRITER), 'dogs': ('-fT', False, WRITER), 'birds': ('-Ft', False, WRITER), 'fish': ('-ft', False, HOST),
         'other': ('-FT', False, HOST)}
HEAD = [b'from', b'to', b'subject', b'date', b'message-id']


class Receiver(Sink):
    """Refuses mail for strict.net as DMARC says (RFC 7489 6.6.2): no signature that holds is of the author's domain, nor is the sender, and that
    domain says `p=reject`."""

    def __init__(self, where, text_of):
        self.text_of, self.refused = text_of, []
        super().__init__(where, verp=False)

    async def handle_DATA(self, server, session, envelope):
        if envelope.rcpt_tos[0].endswith('@strict.net'):
            author = author_of(envelope.content)
            aligned = author in holding(envelope.content, self.text_of) or envelope.mail_from.endswith('@' + author)
            if not aligned and 'p=reject' in self.text_of(f'_dmarc.{author}'):
                self.refused.append((envelope.mail_from, envelope.rcpt_tos[0]))
                return f'550 5.7.1 The policy of {author} is to refuse this'
        return await super().handle_DATA(server, session, envelope)


def author_of(content):
    """The domain in From."""
    message = email.message_from_bytes(content, policy=email.policy.default)
    assert len(message.get_all('From')) == 1
    return message['From'].addresses[0].domain


def holding(content, text_of):
    """The domains of the signatures that hold."""
    found = re.findall(rb'(?im)^DKIM-Signature:(?:[^\r\n]|\r?\n[ \t])*', content)
    domains = [re.search(rb'\bd=\s*([\w.-]+)', each)[1].decode() for each in found]
    return {domain for at, domain in enumerate(domains) if holds(content, at, text_of)}


def holds(content, at, text_of):
    try:
        return dkim.DKIM(content).verify(idx=at, dnsfunc=lambda name, timeout=5: text_of(name.decode().rstrip('.')).encode())
    except dkim.DKIMException:
        return False


class Signed(Course):
    def run(self):
        self.place, self.servers = self.setting.place / 'dkim', []
        self.place.mkdir()
        self.place.chmod(0o755)
        try:
            self.begin()
            for step in (self.posts, self.refusals, self.fields, self.answers, self.checked):
                step()
                print(f'ok      {step.__doc__}', flush=True)
        finally:
            for server in self.servers:
                server.terminate()
                server.wait(60)

    def begin(self):
        for port in (MILTER, RESOLVER):
            with socket.socket() as probe:
                assert probe.connect_ex(('127.0.0.1', port)), f'something listens at {port} already'
        self.setting.begin(lambda: Receiver(('127.0.0.1', SINK), self.text_of))
        self.sink = self.setting.sink
        self.names()
        self.signer()
        for name, (letters, _, _) in LISTS.items():
            self.setting.list(name, ['z@m.net', 's@strict.net'], letters)
        with open(self.setting.place / 'agent.conf', 'a', encoding='ascii') as file:
            file.write(CHECK.format(resolver=RESOLVER) + SECTIONS)
        self.setting.begin_agent()

    def names(self):
        """Makes the keys of both domains, and serves their records."""
        records = {f'_dmarc.{WRITER}': ['v=DMARC1; p=reject'], f'_dmarc.{HOST}': ['v=DMARC1; p=reject'], HOST: ['v=spf1 ip4:127.0.0.1 -all']}
        for domain in (WRITER, HOST):
            folder = self.place / domain
            folder.mkdir()
            subprocess.run(['opendkim-genkey', '-b', '2048', '-d', domain, '-s', 'lists', '-D', folder], check=True)
            records[f'lists._domainkey.{domain}'] = re.findall('"([^"]*)"', (folder / 'lists.txt').read_text())
            shutil.chown(folder / 'lists.private', 'opendkim')
        words = [f'--txt-record={name},' + ','.join(texts) for name, texts in records.items()]
        self.serve('dnsmasq', '--keep-in-foreground', '--conf-file=/dev/null', f'--port={RESOLVER}', '--listen-address=127.0.0.1',
                   '--bind-interfaces', '--no-resolv', '--no-hosts', f'--pid-file={self.place}/dnsmasq.pid', *words)
        wait_for(RESOLVER)

    def signer(self):
        """Starts opendkim, and has Postfix ask it."""
        (self.place / 'conf').write_text(CONFIGURATION.format(milter=MILTER, place=self.place))
        (self.place / 'signing').write_text(f'*@{HOST} lists._domainkey.{HOST}\n')
        (self.place / 'keys').write_text(f'lists._domainkey.{HOST} {HOST}:lists:{self.place}/{HOST}/lists.private\n')
        self.serve('opendkim', '-x', self.place / 'conf')
        wait_for(MILTER)
        subprocess.run(['postconf', '-c', self.setting.place / 'etc', '-e', f'smtpd_milters = inet:127.0.0.1:{MILTER}',
                        'milter_default_action = tempfail'], check=True)
        assert self.setting.postfix('reload').returncode == 0

    def serve(self, *words):
        with open(self.place / f'{words[0]}.log', 'wb') as log:
            self.servers.append(subprocess.Popen(words, stdout=log, stderr=log))

    def text_of(self, name):
        """The text of a TXT record, or an empty one."""
        resolver = dns.resolver.Resolver(configure=False)
        resolver.nameservers, resolver.port = ['127.0.0.1'], RESOLVER
        try:
            return b''.join(resolver.resolve(name, 'TXT')[0].strings).decode()
        except (dns.resolver.NXDOMAIN, dns.resolver.NoAnswer):
            return ''

    def post(self, name):
        """Posts what the writer's domain has signed."""
        mail = (f'From: "W. Writer" <w@{WRITER}>\r\nTo: {name}@{HOST}\r\nSubject: hello {name}\r\nDate: {email.utils.formatdate()}\r\n'
                f'Message-ID: <{name}.{time.time()}@{WRITER}>\r\n\r\nhi\r\n').encode()
        key = (self.place / WRITER / 'lists.private').read_bytes()
        signature = dkim.sign(mail, b'lists', WRITER.encode(), key, canonicalize=(b'relaxed', b'relaxed'), include_headers=HEAD)
        with smtplib.SMTP('127.0.0.1', SMTPD) as smtp:
            smtp.sendmail(f'w@{WRITER}', [f'{name}@{HOST}'], signature + mail)

    def copy(self, name, recipient='z@m.net'):
        """What a recipient has got of a post to a list."""
        def found():
            return [content for _, to, content in list(self.sink.copies) if to == recipient and f'hello {name}'.encode() in content]
        eventually(found, f'{recipient} has no copy of {name}', 120)
        return found()[0]

    def posts(self):
        """the list's signature holds on all posts; the writer's on those that aren't marked, have no trailer and keep their From"""
        for name, (letters, is_held, whose) in LISTS.items():
            self.post(name)
            content = self.copy(name)
            domains = {HOST, WRITER} if is_held else {HOST}
            assert holding(content, self.text_of) == domains, (name, letters, holding(content, self.text_of), content)
            assert author_of(content) == whose, (name, content)

    def refusals(self):
        """a receiver that obeys p=reject takes posts that keep the writer's signature or come from the list, and refuses the others"""
        for name, (_, is_held, whose) in LISTS.items():
            if is_held or whose == HOST:
                self.copy(name, 's@strict.net')
            else:
                eventually(lambda: (f'{name}-return-1-s=strict.net@{HOST}', 's@strict.net') in self.sink.refused, f'{name} is not refused', 120)
                eventually(self.setting.tells(rf'<> {name}-return-1-s=strict.net@ex\.org: 0 bounce,'), f'{name} has no bounce', 120)
        assert len(self.sink.refused) == 2, self.sink.refused

    def fields(self):
        """List-Id and the others are as the sections say, and lists without a section have none"""
        fish = email.message_from_bytes(self.copy('fish'), policy=email.policy.default)
        wanted = {'List-Id': 'Fish <fish.lists.ex.org>', 'List-Archive': '<https://ex.org/fish/>', 'List-Owner': '<mailto:fish-owner@ex.org>',
                  'From': '"W. Writer via fish" <fish@ex.org>', 'Reply-To': '"W. Writer" <w@w.net>', 'X-Original-From': '"W. Writer" <w@w.net>'}
        found = {name: fish[name] for name in wanted}
        assert found == wanted, found
        assert b'\r\nList-Id: Cats <cats.ex.org>\r\n' in self.copy('cats') and b'List-Id' not in self.copy('dogs')

    def answers(self):
        """the list's own answers are signed by its domain, and say that they are automatic"""
        self.setting.send('a@m.net', 'cats-help@ex.org')
        eventually(lambda: any(to == 'a@m.net' for _, to, _ in list(self.sink.copies)), 'no answer', 120)
        content, = (content for _, to, content in self.sink.copies if to == 'a@m.net')
        assert holding(content, self.text_of) == {HOST} and author_of(content) == HOST, content
        assert b'\r\nAuto-Submitted: auto-replied\r\n' in content and content.lower().count(b'\r\nmessage-id:') == 1, content

    def checked(self):
        """--check finds the records of the lists' host and its signature on a post that goes through Postfix, and what is wrong with them"""
        whose, conf = f'{HOST} (birds, cats, dogs and 2 more)', self.setting.place / 'agent.conf'
        self.finds(whose, ('SPF passes for mail from 127.0.0.1 (sends_from)', f'its DMARC policy is reject (_dmarc.{HOST})',
                           f'the DKIM signature of a post of birds (d={HOST}, s=lists) holds'), '')
        conf.write_text(conf.read_text().replace('sends_from = 127.0.0.1', 'sends_from = 192.0.2.9'))
        subprocess.run(['postconf', '-c', self.setting.place / 'etc', '-e', 'smtpd_milters ='], check=True)
        assert self.setting.postfix('reload').returncode == 0
        self.finds(whose, ('SPF says fail for mail from 192.0.2.9 (sends_from)', f'a post of birds has no DKIM signature of {HOST}'), 'warning: ')
        assert not re.search(r'(?m)^birds [1-9].*ezmlm-agent-check', self.setting.agent_log()), 'the list was given such a mail'

    def finds(self, whose, texts, mark):
        """Asserts that --check says this of a host."""
        said = subprocess.run([TOP / 'agent/ezmlm-agent', '--check', self.setting.place / 'agent.conf'], capture_output=True, text=True, check=False,
                              user=USER, group=USER, extra_groups=[])
        for text in texts:
            assert f'\n{mark}{whose}: {text}' in said.stdout, (text, said)
