"""What people do with lists, and what goes wrong between."""

import collections
import fcntl
import os
import re
import signal
import smtplib
import subprocess
import time

from agent_cases.sink import Sink

from .setting import ASKING, SINK, SMTPD, eventually

MANY = 3000  # mails at once for one list
ODD = ['m@m.net', 'A_b+C.d@m.net', 'x=y@m.net', 'a,b@m.net']


class Course:
    """Goes through what people do, and prints each step that went well."""

    def __init__(self, setting):
        self.setting = setting

    def run(self):
        self.setting.begin(lambda: Sink(('127.0.0.1', SINK), verp=False))
        self.sink = self.setting.sink
        self.setting.list('cats', ['z@m.net'], '-d')
        self.setting.list('dogs', ['z@m.net'], '-m')
        self.setting.asked('dogs', 'sub', '0', 'mod', 'mod@m.net')
        self.setting.begin_agent()
        for step in (self.members, self.archive, self.moderation, self.domains, self.refused_here, self.late, self.forged, self.bounces, self.leaving, self.beside, self.kills):
            step()
            print(f'ok      {step.__doc__}', flush=True)

    def mail_for(self, recipient, pattern):
        """The sender of the first mail that the recipient has got of which this is found, and what was found."""
        found = []

        def has_come():
            for copy in list(self.sink.copies):
                match = re.search(pattern, copy[2].decode('utf-8', 'replace'))
                if copy[1] == recipient and match:
                    self.sink.copies.remove(copy)
                    found.append((copy[0], match))
                    return True
            return False
        eventually(has_come, f'no mail to {recipient} with {pattern}; there are {[(s, t) for s, t, _ in self.sink.copies]}')
        return found[0]

    def is_member(self, name, address, kind='list'):
        return address in self.setting.asked(name, 'list', kind).split()

    def members(self):
        """subscribe, confirm"""
        for sender, to, kind in (('a@m.net', 'Cats-Subscribe@ex.org', 'list'), ('b@m.net', 'cats-digest-subscribe@ex.org', 'digest')):
            self.setting.send(sender, to)
            _, found = self.mail_for(sender, r'(?m)^Reply-To: (cats-\S*sc\S+)\r')
            self.setting.send(sender, found[1])
            self.mail_for(sender, 'Subject: welcome')
            eventually(lambda: self.is_member('cats', sender, kind), f'{sender} is no member')

    def archive(self):
        """post, archive"""
        self.setting.send('a@m.net', 'cats@ex.org', 'one', '.dots\r\n..and more')
        sender, found = self.mail_for('a@m.net', r'(?s)Subject: one.*\r\n\r\n(.*)')
        assert sender == 'cats-return-1-a=m.net@ex.org', sender
        assert found[1] == '.dots\r\n..and more\r\n', found[1]
        self.setting.send('a@m.net', 'cats-get.1@ex.org')
        self.mail_for('a@m.net', '--- post 1 of cats@ex.org ---')

    def moderation(self):
        """moderation"""
        self.setting.send('w@m.net', 'dogs@ex.org', 'held')
        _, found = self.mail_for('mod@m.net', r'(?m)^Accept: (dogs-accept-\S+@ex.org)')
        self.setting.send('mod@m.net', found[1])
        self.mail_for('z@m.net', 'Subject: held')

    def domains(self):
        """lists of a local and of a virtual domain, and addresses of no list"""
        for name, host in (('news', 'local.org'), ('talk', 'virtual.org')):
            self.setting.list(name, ['z@m.net'], host=host)
            self.setting.send('w@m.net', f'{name}@{host}', name)
            sender, _ = self.mail_for('z@m.net', f'Subject: {name}')
            assert sender == f'{name}-return-1-z=m.net@{host}', sender
            self.setting.send('w@m.net', f'{name}-help@{host}')
            self.mail_for('w@m.net', f'{name}-subscribe@{host}')
        for recipient in ('nobody-here@local.org', 'newsx@local.org', 'x@virtual.org', 'catsx@ex.org'):
            try:
                self.setting.send('w@m.net', recipient)
            except smtplib.SMTPRecipientsRefused as error:
                assert error.recipients[recipient][0] == 550, error.recipients
            else:
                raise AssertionError(f'{recipient} was taken')

    def refused_here(self):
        """members whom Postfix itself refuses, more than it takes errors of one connection"""
        self.setting.list('fish', [f'm{n}@refused.net' for n in range(30)] + [f'm{n}@m.net' for n in range(70)])
        self.setting.send('w@m.net', 'fish@ex.org', 'fish')
        eventually(lambda: sum(b'Subject: fish' in content for _, _, content in self.sink.copies) == 70 and self.setting.entries('fish') == 0,
                   'not all have it')
        assert self.setting.agent_log().count('refused.net@ex.org: 0 bounce,') == 30, 'not each refusal is a bounce'

    def late(self):
        """a notice that mail is late, and an automatic answer to the confirmation address, aren't given to the list"""
        notice = ('From: MAILER-DAEMON@m.net\r\nTo: x\r\nMIME-Version: 1.0\r\nContent-Type: multipart/report; report-type=delivery-status;'
                  ' boundary=x\r\n\r\n--x\r\nContent-Type: message/delivery-status\r\n\r\nReporting-MTA: dns; m.net\r\n\r\n'
                  'Final-Recipient: rfc822; a@m.net\r\nAction: delayed\r\n\r\n--x--\r\n')
        with smtplib.SMTP('127.0.0.1', SMTPD) as smtp:
            smtp.sendmail('', ['cats-return-1-a=m.net@ex.org'], notice)
        eventually(self.setting.tells('cats - <> cats-return-1-a=m.net@ex.org: weeded delayed'), 'it was not weeded')
        assert not any((self.setting.place / 'lists/cats/bounce').glob('*')), 'a bounce was noted'
        self.setting.send('c@m.net', 'cats-subscribe@ex.org')
        _, found = self.mail_for('c@m.net', r'(?m)^Reply-To: (cats-\S*sc\S+)\r')
        self.setting.send('c@m.net', found[1], 'away\r\nAuto-Submitted: auto-replied')
        eventually(self.setting.tells(f'c@m.net {re.escape(found[1])}: weeded automatic'), 'it was not weeded')
        assert not self.is_member('cats', 'c@m.net'), 'an automatic answer subscribed'

    def forged(self):
        """mail that a list would refuse by its envelope is refused before it is taken, and no bounce goes to its sender"""
        self.setting.list('other', ['z@m.net'], '-uk')
        self.setting.asked('other', 'sub', '0', 'deny', 'z@m.net')
        for sender, recipient in (('z@m.net', 'other@ex.org'), ('forged@m.net', 'other@ex.org'), ('forged@m.net', 'other-nonsense@ex.org'),
                                  ('forged@m.net', 'other-list@ex.org')):
            try:
                self.setting.send(sender, recipient, port=ASKING)
            except smtplib.SMTPRecipientsRefused as error:
                assert error.recipients[recipient][0] == 550, error.recipients
            else:
                raise AssertionError(f'{recipient} of {sender} was taken')
        self.setting.send('y@m.net', 'other-help@ex.org', port=ASKING)
        self.mail_for('y@m.net', 'other-subscribe@ex.org')
        assert not any(to == 'forged@m.net' for _, to, _ in self.sink.copies), 'a bounce went out'
        self.setting.end_agent()
        self.setting.send('y@m.net', 'other-help@ex.org', port=ASKING)  # Nobody answers, and it is taken.
        self.setting.begin_agent()
        self.mail_for('y@m.net', 'other-subscribe@ex.org')

    def bounces(self):
        """a bounce by Postfix, the warning, the probe, dropped; the digest was made"""
        self.sink.refuse = {'a@m.net'}
        self.setting.send('w@m.net', 'cats@ex.org', 'two')
        self.mail_for('z@m.net', 'Subject: two')
        eventually(lambda: any((self.setting.place / 'lists/cats/bounce').glob('*')), 'no bounce came in')
        for days, what in ((12, r'cats-return-warn-\S+: 0 bounce'), (24, r'cats-return-probe-\S+: 0 dropped')):
            self.setting.end_agent()
            self.setting.begin_agent(days)
            eventually(self.setting.tells(what), what)
        eventually(lambda: not self.is_member('cats', 'a@m.net'), 'a was not dropped')
        self.mail_for('b@m.net', 'Subject: cats Digest Issue 1')

    def leaving(self):
        """unsubscribe"""
        self.setting.end_agent()
        self.setting.begin_agent()
        self.sink.refuse = set()
        self.setting.send('z@m.net', 'cats-unsubscribe@ex.org')
        _, found = self.mail_for('z@m.net', r'(?m)^Reply-To: (cats-uc\S+)\r')
        self.setting.send('z@m.net', found[1])
        self.mail_for('z@m.net', 'Subject: goodbye')
        assert not self.is_member('cats', 'z@m.net'), 'z is a member still'

    def posts(self, name):
        return int((self.setting.place / 'lists' / name / 'num').read_text())

    def beside(self):
        """beside 25 mails to a list that another run has, and beside 3,000 mails to one, mail to another list is posted"""
        self.setting.end_agent()
        self.setting.begin_agent()
        for name in ('held', 'busy', 'fair'):
            self.setting.list(name, ['z@m.net'])
        with open(self.setting.place / 'lists/held/lock', encoding='ascii') as lock:
            fcntl.flock(lock, fcntl.LOCK_EX)
            for n in range(25):
                self.setting.send('w@m.net', 'held@ex.org', f'number {n}')
            eventually(self.setting.tells('held: 111 disk: another run has the list'), 'the held list is not tried')
            took = self.other(1)
        eventually(lambda: self.posts('held') == 25, 'not all is posted')
        print(f'        {took:.1f} s beside 25 mails to a held list')
        subprocess.run(['smtp-source', '-s', '20', '-m', str(MANY), '-l', '2048', '-S', 'hello', '-f', 'w@m.net', '-t', 'busy@ex.org',
                        f'127.0.0.1:{SMTPD}'], check=True)
        before = self.posts('busy')
        took = self.other(2)
        assert before < MANY, 'all were posted before'
        print(f'        {took:.1f} s beside {MANY - before} mails that wait for one list')
        eventually(lambda: self.posts('busy') == MANY and self.setting.entries('busy') == 0 and not self.setting.queue(), 'not all is out')

    def other(self, number):
        """Posts to another list. The answer is how many seconds it took."""
        begun = time.monotonic()
        self.setting.send('w@m.net', 'fair@ex.org', f'number {number}')
        eventually(lambda: self.posts('fair') == number, 'the other list waits')
        return time.monotonic() - begun

    def kills(self):
        """400 posts under 20 kills: each once in the archive, and each member has each"""
        folder = self.setting.list('birds', ODD)
        self.setting.end_agent()
        self.setting.begin_agent()
        self.sink.copies.clear()
        for n in range(400):
            self.setting.send('w@m.net', 'birds@ex.org', f'number {n}.')
            if n % 20 == 19:
                time.sleep(0.02 * (n // 20))
                self.setting.end_agent(signal.SIGKILL)
                self.setting.begin_agent()
        eventually(lambda: (folder / 'num').read_text() == '400\n', 'not all is posted')
        eventually(lambda: self.setting.entries('birds') == 0 and not self.setting.queue(), 'not all is out')
        copies = collections.Counter((to.replace('"', ''), re.search(rb'number (\d+)\.', content)[1]) for _, to, content in self.sink.copies)
        wanted = {(member, b'%d' % n) for member in ODD for n in range(400)}
        assert set(copies) == wanted, f'{len(copies)} different copies'
        for sender, to, _ in self.sink.copies:
            named = sender.replace('"', '').rpartition('@')[0].split('-', 3)[3]
            assert named == to.replace('"', '').replace('@', '='), f'{sender} for {to}'
        print(f'        {sum(copies.values()) - len(wanted)} copies of {len(wanted)} twice')
