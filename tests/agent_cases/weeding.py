"""Weeding: notices of delay and automatic answers, which no member is dropped for, and which ask nothing of a list."""

import os
import subprocess
import sys

from . import corpora, notices
from .world import HOST, TOP, Skipped, begins, check, post, same, until

sys.path.insert(0, str(TOP / 'agent'))
from ezmlm_agent import weed  # noqa: E402

# What of the corpora isn't given to a list, and why. All the others are bounces, or are named below. What isn't recognised is an answer, a
# challenge, two mails of spammers, and a person's mail about reservations.
WEEDED = {
    'flufl.bounce': dict.fromkeys(('dsn_05.txt', 'dsn_06.txt', 'dsn_07.txt', 'dsn_08.txt', 'dsn_17.txt', 'simple_03.txt', 'simple_21.txt',
                                   'simple_22.txt', 'simple_28.txt', 'simple_35.txt', 'simple_40.txt'), 'delayed') |
    {'qmail_08.txt': 'automatic', 'groupwise_03.txt': 'unrecognised'},
    'BounceParser': {'warning-8.msg': 'delayed', 'aol-vacation.msg': 'automatic', 'polish-autoreply.msg': 'automatic', 'warning-6.msg': 'automatic',
                     'autoreply.msg': 'unrecognised', 'bluebottle.msg': 'unrecognised', 'spam-bogus-email-in-report.msg': 'unrecognised',
                     'spam-with-image.msg': 'unrecognised'},
}
# Answers that are taken for bounces all the same: a service asks the sender to sign up by a report whose `Action` is `failed`.
TAKEN = {'flufl.bounce': set(), 'BounceParser': {'boxbe-cr.msg', 'boxbe-cr2.msg'}}


def report(*actions, fields='', copy='Subject: hello\n\nhi\n', kind='message/delivery-status'):
    """A report as RFC 3464 has it, with a paragraph for each recipient."""
    said = ''.join(f'\nFinal-Recipient: rfc822;louisl@larry.slip.umd.edu\nAction: {action}\nStatus: 4.0.0\n' for action in actions)
    return (f'From: Mail Delivery Subsystem <MAILER-DAEMON@cs.utk.edu>\nSubject: Returned mail\n{fields}MIME-Version: 1.0\n'
            'Content-Type: multipart/report; report-type=delivery-status;\n boundary="foo.bar"\n\n--foo.bar\n\nSome words.\n\n'
            f'--foo.bar\ncontent-type: {kind}\n\nReporting-MTA: dns; cs.utk.edu\n{said}\n'
            f'--foo.bar\ncontent-type: message/rfc822\n\n{copy}\n--foo.bar--\n').encode()


def said(*fields, body='Gone fishing.'):
    return '\n'.join((*fields, '', body, '')).encode()


AWAY = 'From: b@m.net', 'Subject: Re: hello'
COMPLAINT = b'''From: <abusedesk@example.com>
Date: Thu, 8 Mar 2005 17:40:36 EDT
Subject: FW: Earn money
To: <abuse@example.net>
MIME-Version: 1.0
Content-Type: multipart/report; report-type=feedback-report;
     boundary="part1_13d.2e68ed54_boundary"

--part1_13d.2e68ed54_boundary
Content-Type: text/plain; charset="US-ASCII"
Content-Transfer-Encoding: 7bit

This is an email abuse report for an email message received from IP
192.0.2.2 on Thu, 8 Mar 2005 14:00:00 EDT.

--part1_13d.2e68ed54_boundary
Content-Type: message/feedback-report

Feedback-Type: abuse
User-Agent: SomeGenerator/1.0
Version: 1

--part1_13d.2e68ed54_boundary
Content-Type: message/rfc822
Content-Disposition: inline

From: <somespammer@example.net>
Subject: Earn money

Spam Spam Spam
--part1_13d.2e68ed54_boundary--
'''  # RFC 5965 B.1, shortened
BOUNCES = [
    # The examples of RFC 3464, appendix E: one recipient, several, a foreign system, and one that is late.
    (report('failed'), None),
    (report('failed', 'delayed', 'failed'), None),
    (report('failed', fields='Auto-Submitted: auto-replied\n'), None),
    (report('delayed'), 'delayed'),
    # Each other action, and their spellings.
    (report('delivered'), 'delayed'), (report('relayed', 'expanded'), 'delayed'), (report('Delayed (will be retried)'), 'delayed'),
    (report('delivered', 'failed'), None), (report('lost'), None), (report(), None),
    (report('delayed', kind='Message/Delivery-Status; charset=us-ascii'), 'delayed'),
    (report('delayed', kind='message/global-delivery-status'), 'delayed'),
    # A bounce of a mail that has a notice of delay in it, and a notice that isn't first in its mail.
    (report('failed', copy=report('delayed').decode()), None),
    (b'Content-Type: multipart/mixed; boundary=x\n\n--x\n' + report('delayed') + b'\n--x\n\nThe footer of a list.\n--x--\n', 'delayed'),
    # Answers of machines, and mail of persons.
    (said(*AWAY, 'Auto-Submitted: auto-replied'), 'automatic'), (said(*AWAY, 'auto-submitted:\n AUTO-Generated; x=y'), 'automatic'),
    (said(*AWAY, 'Auto-Submitted: (by a (rule)) auto-replied (vacation)'), 'automatic'),
    (said(*AWAY, 'Auto-Submitted: (a \\) b) no'), 'unrecognised'), (said(*AWAY, 'Auto-Submitted: no (((a) b) c)'), 'unrecognised'),
    (said(*AWAY, 'Auto-Submitted: no'), 'unrecognised'), (said(*AWAY), 'unrecognised'), (said(*AWAY, 'Auto-Submitted:'), 'unrecognised'),
    (said('From: b@m.net', 'Precedence: bulk', 'Subject: Out of Office: hello'), 'automatic'),
    (said('From: b@m.net', 'Precedence: junk', 'Subject: =?UTF-8?B?QWJ3ZXNlbmhlaXRzbm90aXo=?='), 'automatic'),
    (said('From: b@m.net', 'Precedence: auto_reply', 'Subject: =?iso-8859-1?Q?R=E9ponse_automatique?='), 'automatic'),
    (said('From: b@m.net', 'Subject: Out of office'), 'automatic'), (said('From: b@m.net', 'Precedence: list', 'Subject: Hello'), 'unrecognised'),
    # Bounces without a report part, which say that a machine sent them.
    (said('From: Mailer-Daemon@m.net', 'Subject: Mail failed', 'Auto-Submitted: auto-replied'), None),
    (said('From: <>', 'Auto-Submitted: auto-replied'), None), (said('From: b@m.net', 'Precedence: bulk', 'Subject: User unknown'), None),
    (said(*AWAY, 'Auto-Submitted: auto-generated (failure)'), None),
    (said(*AWAY, 'X-Failed-Recipients: b@m.net', 'Auto-Submitted: auto-replied'), None),
    (said('From: Mailer-Daemon@m.net', 'Subject: Warning: message 1 delayed 24 hours', 'Auto-Submitted: auto-replied'), 'delayed'),
    # Complaints (RFC 5965) aren't expected at a return address, and challenges are answers of machines if they say so.
    (COMPLAINT, 'automatic'),
    (said('From: b@m.net', 'Subject: Please confirm that you are a person', 'Auto-Submitted: auto-replied'), 'automatic'),
    # What no parser is glad of.
    (b'', 'unrecognised'), (b'\n', 'unrecognised'), (b'\0\xff' * 1000, 'unrecognised'), (report('delayed')[:-40], 'delayed'),
    (report('failed').replace(b'\n', b'\r\n'), None), (report('delayed').replace(b'\n', b'\r\n'), 'delayed'),
    (b'Content-Type: multipart/report; boundary=\n\n--\n', None), (b'Content-Type: multipart/report\n\n--x\n', None),
    (b''.join(b'Content-Type: multipart/mixed; boundary=b%d\n\n--b%d\n' % (n, n) for n in range(5000)), 'unrecognised'),
    (b'Subject: =?x-none?B?!!!?=\nPrecedence: bulk\n\n', 'unrecognised'), (b'Auto-Submitted: \xff\xfe\n\n', 'automatic'),
    # Beyond the first 64 KiB of a header nothing is looked at, and a comment that doesn't end is none.
    (b'From: b@m.net\nX: ' + b'x' * 70_000 + b'\nX-Failed-Recipients: b@m.net\n\n', 'unrecognised'),
    (said('From: b@m.net', 'Auto-Submitted: ' + '(' * 20_000 + ')' * 20_000 + ' no'), 'unrecognised'),
    (said('From: b@m.net', 'Auto-Submitted: (no'), 'automatic'),
]
REQUESTS = [
    (said(*AWAY), None), (said(*AWAY, 'Auto-Submitted: no'), None), (said(*AWAY, 'Auto-Submitted: No (a person)'), None),
    (said(*AWAY, 'Auto-Submitted: auto-replied'), 'automatic'), (said(*AWAY, 'Auto-Submitted: auto-notified'), 'automatic'),
    (said(*AWAY, 'Auto-Submitted: x-new'), 'automatic'), (said(*AWAY, 'Auto-Submitted: no', 'Auto-Submitted: auto-replied'), 'automatic'),
    (said('Subject: Vacation', 'Precedence: bulk'), 'automatic'), (said(*AWAY, body='Auto-Submitted: auto-replied'), None),
    (said(*AWAY, 'Precedence: auto_reply'), 'automatic'), (said(*AWAY, 'X-Autoreply: yes'), 'automatic'),
    (said('Subject: Automatic reply: hello', 'X-Auto-Response-Suppress: All'), 'automatic'), (report('failed'), 'automatic'),
    (said(*AWAY, 'X-Auto-Response-Suppress: All'), None), (said('Subject: Vacation'), None),
]


def case_weed_rows(world):
    """Which mail is weeded: the examples of RFC 3464, each action, machines' answers by RFC 3834, and what no parser is glad of."""
    for place, rows in ((weed.Place.BOUNCES, BOUNCES), (weed.Place.OTHER, REQUESTS)):
        for mail, wanted in rows:
            same(weed.verdict(mail, place), wanted, f'{place.name}: {mail[:300]!a}')
    for mail, wanted in BOUNCES:
        same(weed.verdict(mail, weed.Place.COOKIE), None if wanted == 'unrecognised' else wanted, f'to a cookie: {mail[:300]!a}')
    for place in (weed.Place.LIST, weed.Place.OWNER):
        same((weed.verdict(REQUESTS[3][0], place), weed.verdict(COMPLAINT, place)), (None, None), place.name)
    rows = [(None, 'LIST'), ('return-1-a=b', 'BOUNCES'), ('Digest-Return-', 'BOUNCES'), ('return', 'OTHER'), ('return-warn-1.x-a=b', 'COOKIE'),
            ('digest-return-Probe-1.x-a=b', 'COOKIE'), ('return-warning', 'BOUNCES'), ('owner', 'OWNER'), ('help', 'OTHER'),
            ('', 'OTHER'), ('digest-subscribe', 'OTHER'), ('accept-1.x', 'OTHER')]
    for rest, wanted in rows:
        same(weed.place_of(rest).name, wanted, str(rest))
    long = report('delayed', copy='x' * 30_000_000)
    same(weed.verdict(long, weed.Place.BOUNCES), 'delayed', 'a notice with a long copy')


def case_weed_notices(world):
    """The notices of some twenty systems are bounces or delays as they say, and absent persons' answers and receipts are none."""
    rows = list(notices.rows())
    for name, mail, wanted in rows:
        same(weed.verdict(mail, weed.Place.BOUNCES), wanted, name)
    check(len({name for name, *_ in rows}) == len(rows), 'two have one name')
    world.note = f'{len(rows)} notices. '


def case_weed_corpora(world):
    """Of the bounces in Debian's corpora none is weeded, and of their delays and automatic answers all except two that are named."""
    absent = []
    for name, fetch in (('flufl.bounce', corpora.flufl), ('BounceParser', corpora.bounceparser)):
        try:
            mails = corpora.mails(name, fetch)
        except corpora.Absent as why:
            absent.append(f'{name}: {why}')
            continue
        found = {file: verdict for file, mail in mails.items() if (verdict := weed.verdict(mail, weed.Place.BOUNCES))}
        same(found, WEEDED[name], name)
        check(TAKEN[name] <= mails.keys() - found.keys(), f'{name}: {sorted(TAKEN[name] - mails.keys())} is not there')
        world.note += f'{name}: {len(mails)} mails, {len(found)} weeded, {len(TAKEN[name])} answers taken. '
    if absent:
        raise Skipped('; '.join(absent))


def bounced(world, kind='bounce'):
    """How many files of the list's ledger of bounces there are, when no run has the list."""
    return world.settled('cats', lambda folder: len(list((folder / kind).glob('*'))))


def case_weeded_bounces(world):
    """What comes to a return address and tells of no failure is answered 250, logged, and no bounce; what tells of one is."""
    world.list(words=['-d'])
    world.begin()
    world.post()
    check(world.is_out(3), 'the post did not go out')
    away = said(*AWAY, 'Auto-Submitted: auto-replied')
    for local in ('cats-return-1-a=m.net', 'Cats-Return-1-b=m.net', 'cats-digest-return-1-c=m.net', 'cats-return-'):
        same(world.mail('', [f'{local}@{HOST}'], report('delayed')), ['250 2.0.0 weeded delayed'], local)
        same(world.mail('b@m.net', [f'{local}@{HOST}'], away), ['250 2.0.0 weeded automatic'], local)
    same((bounced(world), bounced(world, 'digest/bounce')), (0, 0), 'bounces')
    same(world.mail('', [f'cats-return-1-a=m.net@{HOST}'], report('failed')), ['250 2.0.0 bounce'], 'a bounce')
    same(bounced(world), 1, 'bounces')
    same(world.mail('b@m.net', [f'cats-return-1-b=m.net@{HOST}'], said(*AWAY)), ['250 2.0.0 weeded unrecognised'], 'a person\'s answer')
    same(bounced(world), 1, 'bounces')
    check(world.tells(f'cats - <> cats-return-1-a=m.net@{HOST}: weeded delayed',
                      f'cats - b@m.net cats-return-@{HOST}: weeded automatic'), 'the log does not tell it')


def moderated(world):
    """A list with a moderator and a post that waits for him. The answer is the address by which he accepts it."""
    world.list(words=['-m'])
    world.run('cats', 'sub', '0', 'mod', 'mod@m.net')
    world.begin()
    same(world.post(), '250 2.0.0 held 1', 'a post')
    return asked(world, 'mod@m.net', b'Accept: ')


def asked(world, recipient, field):
    """The address that stands in a field of a mail to the recipient."""
    def found():
        return [line[len(field):].split(b'@')[0].decode() for _, to, mail in list(world.sink.copies) if to == recipient
                for line in mail.split(b'\r\n') if line.startswith(field)]
    check(until(found), f'no {field!r} came to {recipient}')
    return found()[0]


def case_weeded_requests(world):
    """An automatic answer confirms nothing, accepts nothing and gets no help; mail for the list and its owner is given."""
    accept = moderated(world)
    away = said(*AWAY, 'To: cats@ex.org', 'Auto-Submitted: auto-replied')
    same(world.mail('mod@m.net', [f'{accept}@{HOST}'], away), ['250 2.0.0 weeded automatic'], 'to accept')
    same(world.posts(), 0, 'posts')
    same(world.mail('n@m.net', [f'cats-subscribe@{HOST}'], post(2)), ['250 2.0.0 asked'], 'a request')
    confirm = asked(world, 'n@m.net', b'Reply-To: ')
    same(world.mail('n@m.net', [f'{confirm}@{HOST}'], away), ['250 2.0.0 weeded automatic'], 'to confirm')
    check('n@m.net' not in world.run('cats', 'list', 'list'), 'an automatic answer subscribed')
    check(until(lambda: world.queue() == 0), 'the queue stays')
    copies = len(world.sink.copies)
    for n in range(50):
        same(world.mail(f'm{n}@m.net', [f'cats-help@{HOST}'], away), ['250 2.0.0 weeded automatic'], 'to help')
    same((world.queue(), len(world.sink.copies)), (0, copies), 'what was sent')
    begins(world.mail('m@m.net', [f'cats-owner@{HOST}'], away)[0], '250 2.0.0 owner', 'to the owner')
    begins(world.mail('m@m.net', [f'cats@{HOST}'], away)[0], '250 2.0.0 held 2', 'to the list')
    same(world.mail('n@m.net', [f'{confirm}@{HOST}'], post(3)), ['250 2.0.0 subscribed'], 'a person confirms')
    same(world.mail('mod@m.net', [f'{accept}@{HOST}'], post(4)), ['250 2.0.0 posted 1'], 'a person accepts')


def case_weed_settings(world):
    """weed = no gives the list what comes; auto_posts = refuse refuses posts that a machine sent, and those alone."""
    world.rows.update(weed='no', auto_posts='refuse')
    world.list()
    world.begin()
    begins(world.post(subject='a\nAuto-Submitted: auto-generated'), '550 5.7.1 This list takes no posts that a machine sent', 'a machine\'s post')
    same(world.post(), '250 2.0.0 posted 1', 'a person\'s')
    check(world.is_out(3), 'it did not go out')
    same(world.mail('', [f'cats-return-1-a=m.net@{HOST}'], report('delayed')), ['250 2.0.0 bounce'], 'a notice of delay')
    same(world.mail('m@m.net', [f'cats-help@{HOST}'], said(*AWAY, 'Auto-Submitted: auto-replied')), ['250 2.0.0 help'], 'an answer')
    same((world.posts(), bounced(world)), (1, 1), 'posts and bounces')


def case_weed_as_a_command(world):
    """weed.py as a command says the same by its status, for hosts without the agent."""
    for local, mail, wanted in (('cats-return-1-a=b', report('delayed'), (0, b'weeded delayed\n')), ('cats-return-1-a=b', report('failed'), (1, b'')),
                                ('cats-help', REQUESTS[3][0], (0, b'weeded automatic\n')), ('cats', REQUESTS[3][0], (1, b''))):
        done = subprocess.run([TOP / 'agent/ezmlm_agent/weed.py', 'cats', f'{local}@{HOST}'], input=mail, stdout=subprocess.PIPE, check=False)
        same((done.returncode, done.stdout), wanted, local)
    check(os.access(TOP / 'agent/ezmlm_agent/weed.py', os.X_OK), 'it can not be run')
