"""What tools/try-exim and tools/try-opensmtpd do on their new machine once its page was followed: mail to the lists, and from them.

    mta_trial.py exim|opensmtpd

The transfer agent listens at 127.0.0.1:25, and all its mail for other hosts comes into the Maildir /root/sink, with the envelope's sender
and recipient in the fields X-MailFrom and X-RcptTo. Each line names a case and says how it ended; the status is 0 if none failed.
"""

import email
import email.message
import pathlib
import re
import smtplib
import subprocess
import sys
import time
from collections.abc import Callable

SINK = pathlib.Path('/root/sink')
LISTS = '/var/lib/ezmlm/lists'
LATEST = {'exim': ['exim4', '-qff'], 'opensmtpd': ['smtpctl', 'schedule', 'all']}
REFUSED = {'exim': b'Unrouteable address', 'opensmtpd': b'Invalid recipient'}
LOG = {'exim': (['cat', '/var/log/exim4/mainlog'], r'=> cats <cats@ex\.org> R=ezmlm T=ezmlm C="250 2\.0\.0 posted 1"'),
       'opensmtpd': (['journalctl', '-u', 'opensmtpd', '-o', 'cat'],
                     r'result=TempFail stat=.*554 5\.6\.0 The message has no subject\.(?s:.*)result=Ok stat=Delivered')}
MEMBERS = 300
PATIENCE = 90  # seconds


class Failed(Exception):
    """What wasn't as it has to be."""


def taken() -> list[email.message.Message]:
    """The mails that came to the sink."""
    return [email.message_from_bytes(path.read_bytes()) for folder in ('new', 'cur') for path in (SINK / folder).glob('*')]


def until(what: str, call: Callable[[], object]) -> None:
    """Waits until a call answers with something."""
    end = time.monotonic() + PATIENCE
    while not call():
        if time.monotonic() > end:
            raise Failed(f'it was not so in {PATIENCE} seconds: {what}')
        time.sleep(0.5)


def mails(to: str, subject: str) -> list[email.message.Message]:
    """The mails at the sink for this recipient whose subject has this text."""
    return [mail for mail in taken() if mail['X-RcptTo'] == to and subject in str(mail['Subject'])]


def send(sender: str, to: str, *lines: str) -> None:
    """Sends a mail to the transfer agent by SMTP, as another host does: from an address that isn't the host's own."""
    with smtplib.SMTP('127.0.0.1', 25, local_hostname='mail.m.net', source_address=('127.0.0.2', 0)) as agent:
        agent.sendmail(sender, [to], '\r\n'.join((f'From: {sender or "MAILER-DAEMON@m.net"}', f'To: {to}', *lines, '')))


def program(name: str, *words: str) -> str:
    """What the program prints of a list. A command that meets a run of the agent's is given again."""
    for _ in range(PATIENCE):
        run = subprocess.run(['runuser', '-u', 'lists', '--', 'ezmlm', f'{LISTS}/{name}', *words], capture_output=True, text=True,
                             check=False)
        if run.returncode != 111:
            break
        time.sleep(1)
    return run.stdout


def logged(text: str) -> bool:
    """Whether the agent's log has a text."""
    return text in subprocess.run(['journalctl', '-u', 'ezmlm-agent', '-o', 'cat'], capture_output=True, text=True, check=False).stdout


def subscribes() -> None:
    send('A_B@m.net', 'Cats-Subscribe@ex.org', 'Subject: x')
    until('a mail asks to confirm', lambda: mails('A_B@m.net', 'confirm subscribe'))
    confirm = str(mails('A_B@m.net', 'confirm subscribe')[0]['Reply-To'])
    if not re.fullmatch(r'cats-sc\.[0-9]+\.[a-p]{20}-A_B=m\.net@ex\.org', confirm):
        raise Failed(f'the address to confirm is {confirm}')
    send('A_B@m.net', confirm, 'Subject: x')
    until('the new member is welcomed', lambda: mails('A_B@m.net', 'welcome'))
    if program('cats', 'list', 'list') != 'A_B@m.net\nyou@ex.net\n':
        raise Failed(f'the members are {program("cats", "list", "list")!r}')


def posts() -> None:
    text = 'x' * 5000
    send('you@ex.net', 'cats@ex.org', 'Subject: first', 'Message-ID: <1@ex.net>', '', text, '..', 'From me')
    for who, sender in (('you@ex.net', 'cats-return-1-you=ex.net@ex.org'), ('A_B@m.net', 'cats-return-1-A_B=m.net@ex.org')):
        until(f'{who} has the post', lambda who=who: mails(who, 'first'))  # type: ignore[misc]
        (mail,) = mails(who, 'first')
        if mail['X-MailFrom'] != sender:
            raise Failed(f'the copy to {who} came from {mail["X-MailFrom"]}')
        if str(mail.get_payload()).split() != [text, '..', 'From', 'me']:
            raise Failed(f'the copy to {who} has the text {mail.get_payload()!r}')


def refused_addresses(words: bytes) -> None:
    for address in ('catsx@ex.org', 'nosuch@ex.org'):
        try:
            send('you@ex.net', address, 'Subject: x')
        except smtplib.SMTPRecipientsRefused as error:
            code, text = error.recipients[address]
            if not 500 <= code < 600 or words not in text:
                raise Failed(f'{address} was answered {error.recipients}') from error
        else:
            raise Failed(f'{address} was taken')


def unsubscribes_unknown() -> None:
    send('', 'cats-return-1-nobody=m.net@ex.org', 'Subject: failed')
    until('a bounce of nobody is ignored', lambda: logged('cats-return-1-nobody=m.net@ex.org: 0 ignored'))


def refuses_early() -> None:
    send('you@ex.net', 'cats@ex.org', 'X-Other: x', '', 'no subject')
    sentence = '5.6.0 The message has no subject.'
    until('the writer hears why', lambda: any(sentence in ' '.join(mail.as_string().split())
                                              for mail in taken() if mail['X-RcptTo'] == 'you@ex.net'))


def refuses_late() -> None:
    send('you@ex.net', 'cats@ex.org', 'X-Other: x', '', 'no subject')
    until('the list refuses it', lambda: logged('you@ex.net cats@ex.org: 100 nosubject'))
    time.sleep(5)
    waiting = subprocess.run(['smtpctl', 'show', 'queue'], capture_output=True, text=True, check=False).stdout
    if '|you@ex.net|cats@ex.org|' not in waiting or any('no subject' in mail.as_string() for mail in taken()):
        raise Failed(f'it does not wait: {waiting}')


def second_list() -> None:
    program('dogs', 'sub', '0', 'list', 'd@m.net')
    send('you@ex.net', 'dogs@ex.org', 'Subject: woof', '', 'hi')
    until('the second list has sent its post', lambda: mails('d@m.net', 'woof'))


def put_off(latest: list[str]) -> None:
    subprocess.run(['systemctl', 'stop', 'ezmlm-agent.*'], check=True)
    send('you@ex.net', 'cats@ex.org', 'Subject: later', '', 'hi')
    time.sleep(5)
    subprocess.run(['systemctl', 'start', 'ezmlm-agent'], check=True)
    until('the agent is there', pathlib.Path('/var/lib/ezmlm/in/lmtp').exists)
    time.sleep(1)
    subprocess.run(latest, check=False)
    until('the post that was put off came', lambda: mails('you@ex.net', 'later'))


def to_many() -> None:
    members = ''.join(f'A1:0,10:1000000000,4:list,{len(who)}:{who},' for who in (f'many{n}@m.net' for n in range(MEMBERS)))
    while subprocess.run(['runuser', '-u', 'lists', '--', 'ezmlm', f'{LISTS}/cats', 'spool'], input=members, text=True, check=False,
                         stdout=subprocess.DEVNULL).returncode:
        time.sleep(1)
    send('you@ex.net', 'cats@ex.org', 'Subject: to many', '', 'hi')
    begun = time.monotonic()
    until('each member has a copy', lambda: sum('to many' in str(mail['Subject']) for mail in taken()) == MEMBERS + 2)
    print(f'        {MEMBERS + 2} copies came within {time.monotonic() - begun:.0f} s')


def whole(log: list[str], line: str) -> None:
    until('the queue is empty', lambda: not program('cats', 'queue'))
    if not re.search(line, subprocess.run(log, capture_output=True, text=True, check=False).stdout):
        raise Failed('the log doesn\'t tell what the page says')
    if program('cats', 'check') != f'ok 3 {MEMBERS + 2} 0 0 0 0 0 0\n':
        raise Failed(f'check says {program("cats", "check")}')


def main() -> None:
    agent = sys.argv[1]
    cases: list[tuple[str, Callable[[], None]]] = [
        ('somebody subscribes, in capitals, and confirms', subscribes),
        ('a post with a long line goes to each member, from a sender that names the member', posts),
        ('addresses of no list are refused at once', lambda: refused_addresses(REFUSED[agent])),
        ('a bounce comes to the list', unsubscribes_unknown),
        ('a refused post comes back with a sentence', refuses_early) if agent == 'exim' else
        ('a refused post waits, and its writer hears nothing yet', refuses_late),
        ('a list that is added later gets its mail', second_list),
        ('mail waits while the agent is stopped, and comes then', lambda: put_off(LATEST[agent])),
        ('a post to 302 members is delivered without a run of the queue', to_many),
        ('the list is whole, and its queue empty', lambda: whole(*LOG[agent]))]
    failed = 0
    for name, case in cases:
        try:
            case()
            print(f'ok      {agent}: {name}', flush=True)
        except (Failed, OSError, smtplib.SMTPException, ValueError) as error:
            failed += 1
            print(f'FAILED  {agent}: {name}: {error}', flush=True)
    sys.exit(1 if failed else 0)


if __name__ == '__main__':
    main()
