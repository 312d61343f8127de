"""One list never holds up another: what hangs, is broken, busy or flooded with requests is that list's alone."""

import asyncio
import collections
import contextlib
import logging
import os
import re
import sys
import threading
import time

from .sink import never
from .world import HASTY, HOST, IS_UNPROVED, LONG, TOP, Client, begins, check, held, post, same, until

sys.path.insert(0, str(TOP / 'agent'))
from ezmlm_agent import mailing, retrying  # noqa: E402

MANY = [200 if IS_UNPROVED else 600]  # mails that come for one list
# The agent that waits for a look at a folder for a second alone, and for which the folder `dogs` is of a disk that is gone.
GONE = ('/usr/bin/python3', '-c', '''
import sys, time
sys.path.insert(0, sys.argv[1])
from ezmlm_agent import __main__, aside, folder, lists
def blocks(call):
    return lambda path, *words: time.sleep(3600) if path.name == 'dogs' else call(path, *words)
folder.address, lists.seen = blocks(folder.address), blocks(lists.seen)
aside.Aside.call.__kwdefaults__['seconds'] = 1
__main__.main(sys.argv[2:])
''', TOP / 'agent')
# The agent that says which folders it reads.
TELLING = ('/usr/bin/python3', '-c', '''
import sys
sys.path.insert(0, sys.argv[1])
from ezmlm_agent import __main__, lists
seen = lists.seen
def telling(path):
    print('reads', path.name, file=sys.stderr, flush=True)
    return seen(path)
lists.seen = telling
__main__.main(sys.argv[2:])
''', TOP / 'agent')


@contextlib.contextmanager
def given(calls):
    """What these calls answer, as they do so, each in a thread. At the end all have."""
    answers = {}
    threads = [threading.Thread(target=lambda n=n, call=call: answers.update({n: call()})) for n, call in enumerate(calls)]
    for thread in threads:
        thread.start()
    yield answers
    for thread in threads:
        thread.join()


def case_beside_a_held_list(world):
    """Beside 25 mails to a list that another run has, one to another list is answered at once. The 25 are put off when their patience is
    over, and given again each counts once."""
    world.rows['patience'] = 5
    world.list()
    world.list('dogs')
    world.begin()
    check(until(lambda: world.post(100, to='dogs') == '250 2.0.0 posted 1'), 'the other list is not served')
    with held(world.folder()):
        with given([lambda n=n: world.post(n) for n in range(25)]) as answers:
            check(until(lambda: world.post(101, to='dogs') == '250 2.0.0 posted 2'), 'the other list waits')
            early = len(answers)
        same(set(answers.values()), {'451 4.3.0 111 disk: another run has the list'}, 'the replies for the held list')
        check(early < 25, 'the other list waited for all 25')
    for n in range(25):
        check(until(lambda n=n: (world.post(n) or '').startswith('250')), 'a mail is not taken when it comes again')
    same((world.posts(), world.posts('dogs')), (25, 2), 'posts')


def case_beside_large_mails(world):
    """Large mails to a list that another run has leave room in memory for other lists."""
    world.rows.update(patience=20, memory=4)
    for name in ('cats', 'dogs'):
        world.list(name, words=['--max', '16777216'])
    world.begin()
    large = ('x' * 99 + '\n') * 4500
    with held(world.folder()):
        with given([lambda n=n: world.post(n, body=large if n else 'hi') for n in range(1)]) as first:
            check(world.tells('cats: 111 disk'), 'the held list is not tried')
            with given([lambda n=n: world.post(n + 1, body=large) for n in range(8)]) as answers:
                check(until(lambda: sum((reply or '').startswith('452 4.3.1') for reply in answers.values()) >= 6), 'they fill the memory')
                same(world.post(100, to='dogs', body=large * 3), '250 2.0.0 posted 1', 'a large mail to another list')
    check(all(reply.startswith('45') for reply in [*first.values(), *answers.values()]), f'replies: {first} {answers}')


def case_beside_a_busy_list(world):
    """Beside many mails to one list, one to another waits for none of them."""
    world.rows['patience'] = LONG
    world.list(members=[])
    world.list('dogs', members=[])
    world.begin()

    def sends(first):
        with Client(world.place / 'lmtp') as client:
            return [client.mail('w@m.net', [f'cats@{HOST}'], post(n))[0] for n in range(first, MANY[0], 50)]
    with given([lambda first=first: sends(first) for first in range(50)]) as answers:
        check(until(lambda: world.log().count('cats@ex.org: 0 posted') >= 50), 'none is posted')
        same(world.post(1, to='dogs'), '250 2.0.0 posted 1', 'the other list')
        posted = world.log().count('cats@ex.org: 0 posted')
    check(posted < MANY[0] - 50, f'the other list was answered when {posted} of {MANY[0]} were')
    same(collections.Counter(reply[:16] for replies in answers.values() for reply in replies), {'250 2.0.0 posted': MANY[0]}, 'replies')
    same(world.posts(), MANY[0], 'posts')


def case_beside_hanging_runs(world):
    """Beside as many runs of the program that hang as go at once, another list is served. The mails of those that hang are put off, and the
    agent ends when it is told to."""
    names = ['h1', 'h2', 'h3', 'h4', 'h5']
    world.rows['patience'] = 5
    for name in [*names, 'cats']:
        world.list(name)
    world.stands_in()
    (world.place / 'hangs').write_text(' '.join(names))
    world.begin()
    with given([lambda name=name: world.post(1, to=name) for name in names]) as answers:
        check(until(lambda: world.post(1) == '250 2.0.0 posted 1'), 'the other list waits')
        early = len(answers)
    check(early < 5, 'the other list waited for all that hang')
    same(set(answers.values()), {'451 4.3.0 75 the list is at work for too long'}, 'the replies of those that hang')
    check(world.is_out(3), 'the other list\'s post does not go out')
    same(world.end(), 0, 'the status')
    (world.place / 'hangs').unlink()
    world.begin()
    for name in names:
        check(until(lambda name=name: world.post(1, to=name) == '250 2.0.0 posted 1'), f'the mail to {name} is lost, or counts twice')


def case_beside_a_pipe(world):
    """A pipe in the place of a list's configuration keeps nobody waiting: that list's mail is put off, other mail is taken, and SIGTERM ends
    the agent."""
    world.list()
    (world.list('dogs') / 'config').unlink()
    os.mkfifo(world.folder('dogs') / 'config')
    world.begin()
    same(world.post(1), '250 2.0.0 posted 1', 'another list')
    begins(world.post(2, to='dogs'), '451 4.3.0 a list can\'t be read', 'the list with the pipe')
    check(world.tells('dogs: ', 'config is no file'), 'the log does not tell it')
    (world.folder() / 'config').rename(world.place / 'config')
    os.mkfifo(world.folder() / 'config')
    # A run that goes on takes mail for a second.
    check(until(lambda: world.post(time.monotonic()).startswith('451 4.3.0')), 'a list that was served before takes mail')
    same(world.end(), 0, 'the status')


def case_beside_a_disk_that_is_gone(world):
    """Looks at a folder that never end keep nobody waiting, and SIGTERM ends the agent."""
    world.list()
    world.list('dogs')
    world.begin()
    same(world.post(1, to='dogs'), '250 2.0.0 posted 1', 'before')
    world.end()
    world.begin(words=GONE)
    check(until(lambda: world.post(1) == '250 2.0.0 posted 1'), 'another list waits')
    begins(world.post(2, to='dogs'), '451 4.3.0 the list dogs can\'t be read now', 'the list that is gone')
    begins(world.post(2, to='birds'), '550', 'an address of no list')
    check(world.tells('dogs: it takes longer than 1 seconds'), 'the log does not tell it')
    same(world.end(), 0, 'the status')


def case_beside_other_folders(world):
    """A folder without a list is read once, and again only when it becomes another; a list that is made in it is served at once."""
    world.list()
    (world.place / 'lists/lost+found').mkdir(mode=0o700)
    world.folder('birds').mkdir()
    (world.place / 'lists/a file').touch()
    world.begin(words=TELLING)
    same(world.post(1), '250 2.0.0 posted 1', 'a post')
    for n in range(50):
        begins(world.post(n, to='dogs'), '550', 'an address of no list')
    check(world.log().count('reads birds') <= 2, f'it was read {world.log().count("reads birds")} times')
    same(world.log().count('reads lost+found'), 0, 'reads of lost+found')
    world.list('birds')
    same(world.post(1, to='birds'), '250 2.0.0 posted 1', 'a list that was made in it')


def case_spread_timed_runs(world):
    """The timed runs of many lists don't come at once, and none comes at the start before mail."""
    minutes = collections.Counter(mailing.own_second(f'list{n}') // 60 for n in range(1500))
    check(len(minutes) == 60 and max(minutes.values()) < 60, f'timed runs by minutes: {sorted(minutes.values())}')
    names = [f'list{n}' for n in range(12)]
    for name in names:
        world.list(name)
    world.begin()
    for name in names:
        same(world.post(1, to=name), '250 2.0.0 posted 1', name)
    many = world.log().count(': 0 timed')
    check(many <= 4, f'{many} timed runs in the first seconds')
    world.end()
    world.begin(words=HASTY)
    check(world.tells(*(f'{name}: 0 timed' for name in names), times=2), 'a list has no timed runs')


def case_one_timer(world):
    """A list of which something stays wrong has one timer, whose pauses double up to fifteen minutes, and says it when it changes and once
    an hour."""
    woken = []

    async def fails():
        again = retrying.Again(lambda: woken.append(1))
        pauses = []
        for _ in range(6):
            for _ in range(100):
                again.failed()
            pauses.append(again.timer.when() - asyncio.get_running_loop().time())
            again.timer.cancel()
            again.due()
        again.worked()
        again.failed()
        pauses.append(again.timer.when() - asyncio.get_running_loop().time())
        again.worked()
        return [round(pause, -1) for pause in pauses]
    same(asyncio.run(fails()), [60, 120, 240, 480, 900, 900, 60], 'pauses')
    same(len(woken), 6, 'times that it was tried')
    lines = []
    handler = logging.Handler()
    handler.emit = lambda record: lines.append(record.getMessage())
    logger = logging.getLogger('ezmlm-agent')
    logger.addHandler(handler)
    logger.propagate, logger.level = False, logging.INFO
    try:
        said = retrying.Said('cats')
        for why in ('75 num', '75 num', '111 disk', '111 disk', '75 num'):
            said.say(why)
        said.next = 0
        said.say('75 num')
        said.worked()
        said.worked()
    finally:
        logger.removeHandler(handler)
        logger.propagate = True
    same(lines, ['cats: 75 num', 'cats: 111 disk', 'cats: 75 num', 'cats: 75 num', 'cats: it works again'], 'what is said')


def case_broken_list(world):
    """A list that stays broken says so once, whatever comes to it, and that it works again."""
    folder = world.list()
    world.list('dogs')
    world.begin(words=HASTY)
    check(world.tells('cats: 0 timed'), 'there is no timed run')
    with held(folder):
        (folder / 'num').rename(folder / 'aside')
    for n in range(10):
        begins(world.post(n), '451 4.3.0 75 num', 'a mail')
    # A timed run reads no `num`, so the list works again if one comes in between.
    log = world.log()
    told, mended = log.count(f'cats: 75 num: this file is damaged ({folder}/num): put a backup'), log.count('cats: it works again')
    check(1 <= told <= 1 + mended, f'{told} lines tell it, and {mended} that it works again')
    (folder / 'aside').rename(folder / 'num')
    check(until(lambda: world.post(1) == '250 2.0.0 posted 1'), 'the mended list is not served')
    check(world.tells('cats: it works again'), 'the log does not tell that it works')


def case_beside_refused_requests(world):
    """Answers to requests in the names of addresses that are refused leave the queue at once, with a bounce if the list learns from it."""
    world.list(members=['a@m.net'])
    strangers = {f's{n}@m.net' for n in range(100)}
    world.sink.refuse = strangers | {'a@m.net'}
    world.begin()
    for n, stranger in enumerate(sorted(strangers)):
        same(world.mail(stranger, [f'cats-help@{HOST}'], post(n)), ['250 2.0.0 help'], 'a request')
    same(world.post(1000), '250 2.0.0 posted 1', 'a post')
    check(world.is_out(0), 'the queue stays')
    same(world.settled('cats', lambda folder: len(os.listdir(folder / 'bounce'))), 1, 'bounces of the member')
    same(world.log().count(': 0 bounce,'), 1, 'bounces that the list was given')
    same(len(world.sink.asked), 101, 'recipients that were tried')


def case_refused_by_policy(world):
    """A refusal that may be of this host as a whole makes no bounce while nothing was taken."""
    world.list(members=['a@m.net'])
    world.sink.refuse, world.sink.refusal = {'a@m.net'}, '554 5.7.1 Relay access denied'
    world.begin()
    same(world.post(1), '250 2.0.0 posted 1', 'a post')
    check(world.tells('entry 1 is tried again'), 'it was not tried')
    same((world.queue(), world.log().count(': 0 bounce,')), (1, 0), 'entries and bounces')
    same(world.mail('b@m.net', [f'cats-help@{HOST}'], post(2)), ['250 2.0.0 help'], 'a request')
    check(world.is_out(1), 'the queue stays when other mail was taken')
    same(world.log().count(': 0 bounce,'), 1, 'bounces')


def case_fresh_before_tried(world):
    """Entries that are put off, however many, keep no new one waiting."""
    world.list(members=['a@m.net'])
    strangers = {f's{n}@m.net' for n in range(60)}
    world.sink.defer = set(strangers)
    world.begin()
    for n, stranger in enumerate(sorted(strangers)):
        same(world.mail(stranger, [f'cats-help@{HOST}'], post(n)), ['250 2.0.0 help'], 'a request')
    check(until(lambda: len(set(re.findall(r'entry \d+ is tried again', world.log()))) >= 60), 'not all were tried')
    world.sink.defer = set()
    # Those that are tried again hang now.
    world.sink.holds = lambda recipients: recipients[0] in strangers
    check(until(lambda: world.sink.waiting == 4), 'none is tried again')
    same(world.post(1000), '250 2.0.0 posted 1', 'a post')
    check(until(lambda: 'a@m.net' in world.sink.recipients()), 'the post waits')
    same(world.sink.waiting, 4, 'entries that are tried again and hang')
    world.sink.holds = never
    check(world.is_out(61), f'{len(world.sink.copies)} copies')
    check(world.sink.recipients().count('a@m.net') == 1, 'the post came not once')
