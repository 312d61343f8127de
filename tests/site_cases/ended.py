"""What has an end: a mail, a list's turn, a query, and the queries of one address."""

from __future__ import annotations

import os
import pathlib
import pickle
import signal
import subprocess
import sys
import time
from collections.abc import Iterator

from ezmlm_site import crowd, message, reading, search, turns, worker

from .searching import ask, made
from .world import TOP, World, Wrong, equal, holds, mail

SLOW = b'From: A B <a@b>\nSubject: slow\n\nthe source\n'


def spin(_: bytes) -> bytes:
    while True:
        pass


def grow(_: bytes) -> int:
    return len(bytes(2 ** 30))


def die(_: bytes) -> bytes:
    os.kill(os.getpid(), signal.SIGSEGV)
    return b''


def stranger(_: bytes) -> object:
    return pathlib.PurePosixPath('/etc')


def twice(content: bytes) -> bytes:
    return content * 2


def is_ended(made_of: worker.Worker, place: int) -> bool:
    try:
        made_of.call(place, b'x')
    except worker.Ended:
        return True
    return False


def case_worker(_: World) -> None:
    """Work that doesn't end, takes too much memory, dies or answers with another's class is ended, and the next piece is answered."""
    beside = worker.Worker((twice, spin, grow, die, stranger), (message.Shown,), seconds=0.3)
    try:
        for place in (1, 2, 3, 4):
            equal(f'work {place} is ended', is_ended(beside, place), True)
            equal(f'the next piece after work {place}', beside.call(0, b'ab'), b'abab')
        big = os.urandom(9_000_000)
        holds('a big piece is another', beside.call(0, big) == big * 2)
        process = beside.process
        begun = time.process_time()
        for _round in range(100):
            beside.call(0, b'x')
        equal('pieces have one process', beside.process, process)
        holds('they took too long', time.process_time() - begun < 5)
    finally:
        beside.close()
    equal('what is refused', pickle.loads(pickle.dumps(stranger(b''))), pathlib.PurePosixPath('/etc'))  # so that the fourth one is refused by its class
    holds('a process is left', not children_of(os.getpid()))


def children_of(process: int) -> list[int]:
    found = pathlib.Path(f'/proc/{process}/task/{process}/children').read_text().split()
    return [int(child) for child in found if not pathlib.Path(f'/proc/{child}/stat').read_text().rpartition(')')[2].split()[0] == 'Z']


def case_worker_alone(world: World) -> None:
    """The process ends when the one that forked it is killed, and holds none of its files."""
    code = 'import os, sys, time; from ezmlm_site import worker; w = worker.Worker((len,), ()); open_file = open(sys.argv[1], "w"); w.call(0, b"x"); ' \
           'print(w.process, flush=True); time.sleep(60)'
    with subprocess.Popen(['/usr/bin/python3', '-P', '-c', code, world.place / 'held'], env=os.environ | {'PYTHONPATH': str(TOP / 'site')}, stdout=subprocess.PIPE,
                          text=True) as parent:
        process = int(parent.stdout.readline())  # type: ignore[union-attr]
        held = {os.readlink(f'/proc/{process}/fd/{name}') for name in os.listdir(f'/proc/{process}/fd')}
        holds(f'it holds {held}', str(world.place / 'held') not in held)
        parent.kill()
    end = time.monotonic() + 20
    while os.path.exists(f'/proc/{process}') and time.monotonic() < end:
        time.sleep(0.05)
    holds('it is still there', not os.path.exists(f'/proc/{process}'))


def case_slow_mail(_: World) -> None:
    """A mail that takes too long is shown as its source, with its fields and a note; if its fields do too, its source alone. The next one is read."""
    reader = reading.Reader(seconds=0.3)
    kept = reader.worker.work
    try:
        for work, author in (((spin, message.read_as_source), 'A B'), ((spin, spin), '')):
            reader.close()
            reader.worker.work = work
            shown = reader.read(SLOW)
            equal('what is shown', (shown.author, shown.is_source, shown.text), (author, True, SLOW.decode()))
            holds(f'its notes are {shown.notes}', len(shown.notes) == 1 and 'takes too long' in shown.notes[0])
        reader.close()
        reader.worker.work = kept
        equal('the next one', reader.read(SLOW), message.read(SLOW))
    finally:
        reader.close()


def case_turns(world: World) -> None:
    """A list that isn't done in its turn, one that can't be done and one whose process dies keep no other from being done."""
    def do(name: str) -> bool:
        if name == 'slow':
            subprocess.run(['sleep', '60'], check=False)
        if name == 'dead':
            os.kill(os.getpid(), signal.SIGKILL)
        if name == 'wrong':
            raise ValueError('so')
        (world.place / name).write_text('done')
        return name != 'failed'
    said = world.place / 'said'
    kept = os.dup(2)
    with open(said, 'wb') as file:
        os.dup2(file.fileno(), 2)
        try:
            begun = time.monotonic()
            failed = turns.go_over(['slow', 'dead', 'one', 'wrong', 'slow', 'two', 'failed', 'three'], do, 1.5)
            took = time.monotonic() - begun
        finally:
            os.dup2(kept, 2)
            os.close(kept)
            sys.stderr.flush()
    equal('how many failed', failed, 3)
    holds(f'it took {took} seconds', took < 20)
    for name in ('one', 'two', 'three'):
        holds(f'{name} wasn\'t done', (world.place / name).exists())
    text = said.read_text()
    holds(f'it said {text}', text.count('isn\'t done after 2 seconds') == 2 and 'ended by signal 9' in text and 'ValueError: so' in text)
    holds('a process is left', not children_of(os.getpid()))


def case_turn(world: World) -> None:
    """A list that is done over several turns, each killed at its end, is in the end as if made at once; the others are done in the first."""
    world.make_list()
    world.post(*(mail(f'topic {n % 50}', 'text\n' * 200) for n in range(250)))
    path = world.place / 'site.conf'
    path.write_text(f'[site]\nprogram = {world.program}\n[cats]\nfolder = {world.list}\nweb = {world.web}\nstate = {world.place}/st\nsource = yes\n')
    runs = 0
    while runs < 15:
        runs += 1
        done = subprocess.run([TOP / 'site/ezmlm-site', '--turn', f'{0.6 * 1.4 ** runs}', path], capture_output=True, text=True, check=True)
        if not done.stderr:
            break
        holds(f'it said {done.stderr}', 'the next run goes on' in done.stderr)
    holds(f'it was done in {runs} runs', 1 < runs < 15)
    world.set(state=world.place / 'st')
    found = {str(each.relative_to(world.web)): each.read_bytes() for each in world.web.rglob('*') if each.is_file()}
    equal('what differs', [name for name, content in world.anew().items() if found.get(name) != content], [])


def case_query_limits(world: World) -> None:
    """Too many words, ORs and beginnings are refused in words, and so are those that are too short."""
    application = made(world)
    for query, why in (('+'.join(f'w{n}' for n in range(13)), '12 words'), ('+OR+'.join(f'w{n}' for n in range(7)), 'OR at most 5'), ('aa*+bb*+cc*', '* at most 2'),
                       ('a*', 'at least 2 letters'), ('+OR+'.join(f'{letter}*' for letter in 'abcdefghijk'), 'has'), ('-cat', 'must'), ('(-cat)', 'must')):
        status, _, page = ask(application, f'q={query}')
        holds(f'{query} is answered {status} {page[-900:]}', status.startswith('400') and why in page)


def of_address(application: search.Search, address: str, forwarded: str = '') -> str:
    told: list[str] = []
    environ = {'REQUEST_METHOD': 'GET', 'PATH_INFO': '/cats/search', 'QUERY_STRING': 'q=cat', 'REMOTE_ADDR': address}
    application(environ | ({'HTTP_X_FORWARDED_FOR': forwarded} if forwarded else {}), lambda status, _: told.append(status))
    return told[0][:3]


def case_crowd(world: World) -> None:
    """An address has thirty queries and then one a second, and two at once; another one is answered meanwhile."""
    application = made(world)
    answers = [of_address(application, '192.0.2.1') for _ in range(40)]
    holds(f'the answers are {answers}', 30 <= answers.count('200') <= 32 and answers[-1] == '429')
    equal('another address', of_address(application, '192.0.2.2'), '200')
    equal('one behind a server, that says another too', of_address(application, '127.0.0.1', '192.0.2.2, 192.0.2.1'), '429')
    equal('an address that is asked for by its own field', of_address(application, '192.0.2.1', '192.0.2.9'), '429')
    crowd_of = crowd.Crowd()
    with crowd_of.counted('a'), crowd_of.counted('a'), crowd_of.counted('b'):
        try:
            with crowd_of.counted('a'):
                raise Wrong('a third one at once is taken')
        except crowd.TooMany:
            pass
    with crowd_of.counted('a'), crowd_of.counted(''), crowd_of.counted(''), crowd_of.counted(''):
        pass
    for n in range(crowd.MOST_KEPT + 10):
        with crowd_of.counted(str(n)):
            pass
    holds('too many addresses are kept', len(crowd_of.left) <= crowd.MOST_KEPT and not crowd_of.busy)
    for environ, wanted in addresses():
        equal(f'the address of {environ}', crowd.address_of(environ), wanted)


def addresses() -> Iterator[tuple[dict[str, str], str]]:
    yield {'REMOTE_ADDR': '192.0.2.7'}, '192.0.2.7'
    yield {'REMOTE_ADDR': '', 'HTTP_X_FORWARDED_FOR': '10.0.0.1, 192.0.2.7'}, '192.0.2.7'
    yield {'REMOTE_ADDR': '192.0.2.7', 'HTTP_X_FORWARDED_FOR': '10.0.0.1'}, '192.0.2.7'
    yield {'REMOTE_ADDR': '127.0.0.1', 'HTTP_X_FORWARDED_FOR': '192.0.2.7'}, '192.0.2.7'
    yield {'REMOTE_ADDR': '2001:db8:1:2:3:4:5:6'}, '2001:db8:1:2::'
    yield {'REMOTE_ADDR': '::ffff:192.0.2.7'}, '192.0.2.7'
    yield {}, ''
    yield {'REMOTE_ADDR': '', 'HTTP_X_FORWARDED_FOR': 'x' * 9999}, ''


def case_no_address(world: World) -> None:
    """Without an address none is refused, since one for all would keep all from searching."""
    application = made(world)
    equal('the answers', {of_address(application, '') for _ in range(50)}, {'200'})
