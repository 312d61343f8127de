"""What the scripts of recipes/postfix.md take, under a real Postfix."""

import os
import pathlib
import re
import shutil
import statistics
import subprocess
import time

from .bench import THREE, Handed, SmtpSink
from .setting import KEY, SMTPD, TOP, USER, eventually

THOUSAND = [f'member{n}@m{n % 100}.net' for n in range(1000)]
FILE = re.compile(r'<!-- file: (\S+) -->\n+```sh\n(.*?)^```$', re.DOTALL | re.MULTILINE)
MAILS = 1_000, 10_000, 100_000
FIRST = 512  # the first number of a mail


class Recipe:
    """Measures the scripts as they were at a revision, if one is named, and as they are."""

    def __init__(self, setting, posts, before):
        self.setting, self.posts, self.before = setting, posts, before

    def run(self):
        self.setting.begin(SmtpSink)
        # sendmail(1) and postdrop(1) read this folder, and it is the trial's in this mount namespace alone.
        subprocess.run(['mount', '--bind', self.setting.place / 'etc', '/etc/postfix'], check=True)
        self.handed = Handed(self.setting.place / 'log')
        versions = [('now', (TOP / 'recipes/postfix.md').read_text())]
        if self.before:
            shown = subprocess.run(['git', '-C', TOP, 'show', f'{self.before}:recipes/postfix.md'], stdout=subprocess.PIPE, text=True, check=True)
            versions.insert(0, (self.before, shown.stdout))
        for name, page in versions:
            home = self.home(name, page)
            self.many_posts(name, home)
            self.one_post(name, home)
            self.numbers(name, home, 40 if '{key:0:40}' in page else 64)

    def home(self, name, page):
        """Takes a home with the page's scripts and two lists."""
        home = self.setting.place / 'recipes' / name
        for file, text in FILE.findall(page):
            path = home / file
            path.parent.mkdir(parents=True, exist_ok=True)
            path.write_text(text)
            path.chmod(0o755)
        (home / 'lists').mkdir()
        subprocess.run(['chown', '-R', f'{USER}:', home], check=True)
        link = self.setting.place / 'recipe'
        link.unlink(missing_ok=True)
        link.symlink_to(home)
        for list_name, members in (('cats', THREE), ('dogs', THOUSAND)):
            self.ezmlm(home, list_name, 'make', '--key', KEY, list_name, 'small.org', 'owner@m.net')
            items = b''.join(b'A1:0,1:1,4:list,%d:%b,' % (len(member), member.encode()) for member in members)
            self.ezmlm(home, list_name, 'spool', given=items)
        return home

    def as_user(self, *words, given=b''):
        environment = {'PATH': '/usr/sbin:/usr/bin:/sbin:/bin', 'EZMLM': str(self.setting.program)}
        return subprocess.run(words, input=given, stdout=subprocess.PIPE, check=True, env=environment, user=USER, group=USER, extra_groups=[])

    def ezmlm(self, home, name, *words, given=b''):
        self.as_user(self.setting.program, home / 'lists' / name, *words, given=given)

    def posted(self, home, name, many):
        """Gives a list posts of 2 KB, and waits until it has them. The answer is how many seconds it took."""
        begun = time.monotonic()
        subprocess.run(['smtp-source', '-s', str(min(many, 20)), '-m', str(many), '-l', '2048', '-S', 'hello', '-f', 'w@m.net',
                        '-t', f'{name}@small.org', f'127.0.0.1:{SMTPD}'], check=True)
        eventually(lambda: (home / 'lists' / name / 'num').read_text() == f'{many}\n', 'not all is posted', 3600)
        return time.monotonic() - begun

    def out(self, home, name, copies):
        """Hands on what a list has to send. The answers are the seconds until Postfix has it, and until the sink does."""
        before, begun = self.handed.count(), time.monotonic()
        self.as_user(home / 'bin/list-out', home / 'lists' / name)
        took = time.monotonic() - begun
        eventually(lambda: self.handed.count() - before >= copies, 'not all is out', 3600)
        return took, time.monotonic() - begun

    def many_posts(self, name, home):
        came = self.posted(home, 'cats', self.posts)
        gone, there = self.out(home, 'cats', 3 * self.posts)
        print(f'{name}: {self.posts} posts to 3: posted in {came:.1f} s, handed on in {gone:.1f} s, delivered in {there:.1f} s; '
              f'end to end {came + there:.1f} s, load {os.getloadavg()[0]:.1f}', flush=True)

    def one_post(self, name, home):
        self.posted(home, 'dogs', 1)
        gone, there = self.out(home, 'dogs', 1000)
        print(f'{name}: one post to 1,000: handed on in {gone:.1f} s, delivered in {there:.1f} s, load {os.getloadavg()[0]:.1f}', flush=True)

    def numbers(self, name, home, letters):
        """Measures list-number among so many mails, whose keys have so many letters."""
        for many in MAILS:
            folder = home / f'lists/mails-{many}'
            numbers = pathlib.Path(f'{folder}.numbers')
            numbers.mkdir()
            for number in range(FIRST, FIRST + many):
                key = f'{number:0{letters}x}'
                os.symlink(key, numbers / str(number))
                os.symlink(str(number), numbers / key)
            os.symlink(str(FIRST + many - 1), numbers / 'last')
            subprocess.run(['chown', '-h', USER, numbers], check=True)
            took = []
            for n in range(7):
                begun = time.monotonic()
                said = self.as_user(home / 'bin/list-number', folder, f'{n:0{letters}d}').stdout
                took.append(time.monotonic() - begun)
                assert said == b'%d\n' % (FIRST + many + n), said
            print(f'{name}: list-number among {many:,} mails: {1000 * statistics.median(took):.0f} ms, load {os.getloadavg()[0]:.1f}', flush=True)
            shutil.rmtree(numbers)
