"""Postfix, lists and the agent in a folder of their own."""

import fcntl
import os
import pathlib
import re
import shutil
import signal
import smtplib
import socket
import subprocess
import sys
import time

TOP = pathlib.Path(__file__).resolve().parent.parent.parent
SMTPD, SINK, ASKING = 12525, 12526, 12527  # where mail comes in, where it goes, and where it comes in if the policy service allows it
USER = 'list'  # who has the lists and runs the agent
KEY = '0' * 63 + '1'

MAIN = '''compatibility_level = 3.6
queue_directory = {place}/spool
data_directory = {place}/data
command_directory = /usr/sbin
daemon_directory = /usr/lib/postfix/sbin
mail_owner = postfix
setgid_group = postdrop
myhostname = mx.ex.org
mynetworks = 127.0.0.0/8
inet_interfaces = 127.0.0.1
inet_protocols = ipv4
maillog_file = {place}/log
maillog_file_prefixes = {place}
alias_maps =
relayhost = [127.0.0.1]:{sink}
message_size_limit = 40000000
smtpd_client_connection_count_limit = 0
smtpd_recipient_restrictions = check_recipient_access regexp:{place}/etc/refused
default_destination_concurrency_limit = 20
minimal_backoff_time = 2s
queue_run_delay = 2s
maximal_backoff_time = 4s
ezmlm_destination_recipient_limit = 1
mlmmj_destination_recipient_limit = 1
recipe_destination_recipient_limit = 1

transport_maps = regexp:{place}/etc/lists
smtpd_authorized_verp_clients = 127.0.0.0/8, [::1]/128
mydestination = local.org
local_recipient_maps = proxy:unix:passwd.byname $alias_maps regexp:{place}/etc/lists
virtual_mailbox_domains = virtual.org
virtual_mailbox_maps = regexp:{place}/etc/lists
relay_domains = ex.org, mlm.org, small.org
relay_recipient_maps = regexp:{place}/etc/lists
'''
MASTER = '''127.0.0.1:{smtpd} inet n - n - - smtpd
127.0.0.1:{asking} inet n - n - - smtpd
  -o {{ smtpd_recipient_restrictions = reject_unauth_destination, check_policy_service unix:ezmlm/policy }}
  -o smtpd_policy_service_default_action=DUNNO
pickup unix n - n 60 1 pickup
cleanup unix n - n - 0 cleanup
qmgr unix n - n 300 1 qmgr
rewrite unix - - n - - trivial-rewrite
bounce unix - - n - 0 bounce
defer unix - - n - 0 bounce
trace unix - - n - 0 bounce
verify unix - - n - 1 verify
flush unix n - n 1000? 0 flush
proxymap unix - - n - - proxymap
proxywrite unix - - n - 1 proxymap
smtp unix - - n - - smtp
relay unix - - n - - smtp
showq unix n - n - - showq
error unix - - n - - error
retry unix - - n - - error
discard unix - - n - - discard
local unix - n n - - local
virtual unix - n n - - virtual
ezmlm unix - - {chroot} - - lmtp
  -o lmtp_line_length_limit=0
anvil unix - - n - 1 anvil
scache unix - - n - 1 scache
postlog unix-dgram n - n - 1 postlogd
recipe unix - n n - 1 pipe
  user={user} null_sender=
  argv=/usr/bin/env EZMLM={program} {place}/recipe/bin/list-in {place}/recipe/lists/$nexthop $queue_id $sender $recipient
mlmmj unix - n n - - pipe
  flags=ORhu user=nobody argv=/usr/bin/mlmmj-receive -F -L {place}/mlmmj/$nexthop
'''
LISTS = r'''/^(cats|dogs|birds|fish|held|busy|fair|other)(-.*)?@ex\.org$/ ezmlm:unix:ezmlm/lmtp
/^news(-.*)?@local\.org$/ ezmlm:unix:ezmlm/lmtp
/^talk(-.*)?@virtual\.org$/ ezmlm:unix:ezmlm/lmtp
/^cats(\+.*)?@mlm\.org$/ mlmmj:cats
/^dogs(\+.*)?@mlm\.org$/ mlmmj:dogs
/^cats(-.*)?@small\.org$/ recipe:cats
/^dogs(-.*)?@small\.org$/ recipe:dogs
'''
REFUSED = r'''/@refused\.net$/ 550 5.1.1 No such user
'''


class Setting:
    def __init__(self, program, place, chroot='y'):
        self.program, self.place, self.chroot = program, place, chroot
        self.agent = self.sink = None

    def postfix(self, *words):
        return subprocess.run(['postfix', '-c', self.place / 'etc', *words], capture_output=True, text=True, check=False)

    def begin(self, sink):
        """Starts Postfix. `sink` starts what takes its mail."""
        for port in (SMTPD, SINK, ASKING):
            with socket.socket() as probe:
                if probe.connect_ex(('127.0.0.1', port)) == 0:
                    sys.exit(f'something listens at {port} already')
        self.place.chmod(0o755)
        for name in ('etc', 'spool', 'data', 'lists', 'state', 'mlmmj'):
            (self.place / name).mkdir()
        shutil.chown(self.place / 'data', 'postfix')
        values = {'place': self.place, 'smtpd': SMTPD, 'sink': SINK, 'asking': ASKING, 'chroot': self.chroot, 'user': USER, 'program': self.program}
        for name, text in (('main.cf', MAIN.format(**values)), ('master.cf', MASTER.format(**values)), ('lists', LISTS), ('refused', REFUSED)):
            (self.place / 'etc' / name).write_text(text)
        shutil.copy('/etc/postfix/dynamicmaps.cf', self.place / 'etc')
        begun = self.postfix('start')
        if begun.returncode:
            sys.exit(f'postfix: {begun.stderr}')
        self.sink = sink()
        for port in (SMTPD, SINK):
            wait_for(port)
        for name in ('lists', 'state'):
            shutil.chown(self.place / name, USER, USER)
            (self.place / name).chmod(0o700)
        (self.place / 'spool/ezmlm').mkdir()
        shutil.chown(self.place / 'spool/ezmlm', USER, 'postfix')
        (self.place / 'spool/ezmlm').chmod(0o2750)
        (self.place / 'agent.conf').write_text(f'[agent]\nprogram = {self.program}\nlists = {self.place}/lists\nstate = {self.place}/state\n'
                                               f'listen = {self.place}/spool/ezmlm/lmtp\nmta = 127.0.0.1:{SMTPD}\nname = mx.ex.org\n'
                                               f'policy = {self.place}/spool/ezmlm/policy\n')

    def begin_agent(self, days=0):
        """Starts the agent, with a clock that is so many days ahead and with timed runs every few seconds then."""
        ahead = f'import sys, time; real = time.time; time.time = lambda: real() + {86400 * days}; sys.path.insert(0, "{TOP}/agent"); ' \
                f'from ezmlm_agent import __main__, mailing; mailing.HOUR = {3 if days else 3600}; __main__.main(["{self.place}/agent.conf"])'
        socket_path = self.place / 'spool/ezmlm/lmtp'
        for name in ('lmtp', 'policy'):
            socket_path.with_name(name).unlink(missing_ok=True)
        with open(self.place / 'agent.log', 'a', encoding='ascii') as log:
            self.agent = subprocess.Popen(['/usr/bin/python3', '-P', '-c', ahead], stderr=log, user=USER, group=USER, extra_groups=[])
        eventually(socket_path.with_name('policy').exists, 'the agent makes no socket')

    def end_agent(self, number=signal.SIGTERM):
        self.agent.send_signal(number)
        self.agent.wait(900)

    def end(self):
        if self.agent and self.agent.poll() is None:
            self.end_agent()
        self.postfix('stop')
        if self.sink:
            self.sink.stop()

    def asked(self, name, *words, given=b''):
        """What the program says, run by the user who has the lists."""
        return subprocess.run([self.program, self.place / 'lists' / name, *words], input=given, stdout=subprocess.PIPE, check=False,
                              user=USER, group=USER, extra_groups=[]).stdout.decode()

    def list(self, name, members, *letters, host='ex.org'):
        """Makes a list."""
        self.asked(name, 'make', *letters, '--key', KEY, name, host, 'owner@m.net')
        now = b'%d' % time.time()
        self.asked(name, 'spool', given=b''.join(b'A1:0,%d:%b,4:list,%d:%b,' % (len(now), now, len(m), m.encode()) for m in members))
        return self.place / 'lists' / name

    def send(self, sender, recipient, subject='hello', body='hi', to=None, port=SMTPD):
        with smtplib.SMTP('127.0.0.1', port) as smtp:
            smtp.sendmail(sender, [recipient], f'From: {sender}\r\nTo: {to or recipient}\r\nSubject: {subject}\r\n\r\n{body}\r\n')

    def queue(self):
        """How many mails Postfix has."""
        return sum(1 for kind in ('active', 'incoming', 'deferred') for path in (self.place / 'spool' / kind).rglob('*') if is_file(path))

    def log(self):
        return (self.place / 'log').read_text(errors='replace')

    def agent_log(self):
        return (self.place / 'agent.log').read_text()

    def entries(self, name):
        """How many entries a list's queue has when no run has it, or None if a run was stopped and left its log."""
        folder = self.place / 'lists' / name
        with open(folder / 'lock', encoding='ascii') as lock:
            fcntl.flock(lock, fcntl.LOCK_EX)
            if (folder / 'log').stat().st_size > 1:
                return None
            return len(os.listdir(folder / 'queue')) if (folder / 'queue').exists() else 0

    def tells(self, pattern):
        return lambda: re.search(pattern, self.agent_log()) is not None


def is_file(path):
    try:
        return path.is_file()
    except OSError:
        return False


def wait_for(port):
    def listens():
        with socket.socket() as probe:
            return probe.connect_ex(('127.0.0.1', port)) == 0
    eventually(listens, f'nobody listens at {port}')


def eventually(holds, what, seconds=900):
    end = time.monotonic() + seconds
    while not holds():
        if time.monotonic() > end:
            raise AssertionError(what)
        time.sleep(0.02)
