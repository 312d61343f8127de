"""ezmlm-agent [--check] SETTINGS: gives the lists of a host their mail, and hands on what they send."""

import argparse
import asyncio
import contextlib
import fcntl
import logging
import os
import pathlib
import resource
import signal
import sys
import threading
from collections.abc import Callable, Iterable
from typing import TYPE_CHECKING, NoReturn, TextIO

from . import VERSION, asking, check, listening, lists, lmtp, mailing, mails, notify, policy, program, reloading, room, settings, smtp, \
    standing, status, tended, wire

if TYPE_CHECKING:
    from . import hosts

log = logging.getLogger('ezmlm-agent')
LOOKS = 60  # seconds between two looks for lists
ORDERS = 'give', 'configure', 'forget_host', 'status', 'go_on_from', 'take_copy'  # what operators ask
ENDING = 60  # seconds until what is in hand at the end is left as it is
LAST = 90    # seconds after a signal at which the agent ends, whatever hangs: the unit has 120
DESCRIPTORS = 65536
SWITCH = 0.0005  # seconds: threads wait for runs of the program and for the disk, and each is soon served


class Shown(logging.Formatter):
    """What a line of the log says, without a byte that ends it or moves a terminal's cursor."""

    def format(self, record: logging.LogRecord) -> str:
        text = super().format(record)
        return text if text.isprintable() else ''.join(char if char.isprintable() else wire.printable(char) for char in text)


class Agent:
    def __init__(self, chosen: settings.Settings, path: str) -> None:
        self.settings, self.path = chosen, path
        self.exchange = smtp.Exchange(chosen.mta, chosen.name, chosen.connections)
        size = chosen.memory << 20
        self.shared = mails.Shared(chosen, program.Program(chosen.program, chosen.runs), self.exchange, wire.Room(size), wire.Room(size))
        self.lists = lists.Lists(chosen, self.take_up)
        self.server = lmtp.Server(chosen.name, self.lists.find, size, chosen.replies, room.Rooms(chosen))
        self.policy = policy.Policy(self.lists.find, self.server.replies)
        self.listener = listening.Listener()
        self.standing = standing.Standing(self.lists, self.exchange)
        self.reading: asyncio.Task[None] | None = None  # the settings, anew
        self.ended = asyncio.Event()
        self.hosts = hosts_of(chosen, lambda: self.lists.served.values())

    def take_up(self, folder: pathlib.Path) -> mailing.MailingList:
        found = self.hosts.take_up(folder, self.shared) if self.hosts else mailing.MailingList(folder, self.shared)
        found.start()
        return found

    async def run(self) -> None:
        """Serves until it is ended by a signal."""
        loop = asyncio.get_running_loop()
        loop.set_exception_handler(tended.unexpected)
        for number in (signal.SIGTERM, signal.SIGINT):
            loop.add_signal_handler(number, self.ended.set)
        loop.add_signal_handler(signal.SIGHUP, self.hang_up)
        if self.hosts:
            self.hosts.end = self.ended
        if self.hosts and (why := await self.hosts.begin()):
            sys.exit(f'ezmlm-agent: {why}')
        await self.listen()
        for name in self.listener.unknown():
            log.error('ezmlm-agent.socket has a socket at %s, which no setting names', name)
        log.info('mail comes in at %s', self.settings.listen)
        notify.tell('READY=1')
        notify.feed()
        tending = [tended.begun('what is done every minute', self.tend, self.ended.is_set),
                   tended.begun('the look whether the transfer agent is there', self.look, self.ended.is_set)]
        await self.ended.wait()
        log.info('stops')
        notify.tell('STOPPING=1')
        last = threading.Timer(LAST, self.leave)
        last.daemon = True
        last.start()
        for task in tending:
            task.cancel()
        self.listener.close()
        self.policy.stop()
        await self.stop()
        if self.hosts and self.hosts.why:
            sys.exit(f'ezmlm-agent: {self.hosts.why}')

    async def listen(self) -> None:
        """Listens where the settings say, and ends the agent if nobody can. A monitor that can't ask is no reason for that."""
        try:
            for address, serve in ((self.settings.listen, self.server.serve), (self.settings.policy, self.policy.serve)):
                if address:
                    await self.listener.listen(address, serve)
        except OSError as error:
            sys.exit(f'ezmlm-agent: {address}: {error}')
        try:
            await self.listener.listen(self.settings.status, self.standing.serve)
        except OSError as error:
            log.error('no monitor can ask at %s: %s', self.settings.status, error)

    def hang_up(self) -> None:
        """SIGHUP came. One that comes while the settings are read is the same."""
        if self.reading is None or self.reading.done():
            self.reading = asyncio.create_task(self.read_anew())

    async def read_anew(self) -> None:
        """Reads the settings anew. Wrong ones are told, and nothing is changed."""
        notify.tell('RELOADING=1')
        try:
            after = await asyncio.to_thread(settings.read, self.path)
            self.settings, changed, stays = reloading.merged(self.settings, after)
            self.take(self.settings)
            log.info('the settings were read anew: %s', f'{", ".join(changed)} changed' if changed else 'nothing that counts at once changed')
            if stays:
                log.warning('%s changed, and count%s from a new start on', ', '.join(stays), 's' * (len(stays) == 1))
        except ValueError as error:
            log.error('the settings stay as they were: %s', error)
        finally:
            notify.tell('READY=1')

    def take(self, chosen: settings.Settings) -> None:
        """Gives these settings to what goes by them."""
        self.shared.settings = self.lists.settings = chosen
        self.shared.program.path = program.Program(chosen.program, 1).path
        self.server.name, self.server.replies.most = chosen.name, chosen.replies
        self.exchange.goes_to(chosen.mta, chosen.name)
        for found in self.lists.served.values():
            found.settings, found.queue.section = chosen, chosen.by_list.get(found.folder.name)
            found.queue.changed.set()

    async def tend(self) -> None:
        """What is done every minute."""
        while True:
            try:
                await self.lists.look(again=True)
            except Exception as error:  # Whatever it is, mail goes on.
                log.error('the lists can\'t be looked at: %s: %s', type(error).__name__, error)
            self.exchange.close_unused()
            if self.hosts:
                self.hosts.look()
            await asyncio.sleep(LOOKS)

    async def look(self) -> None:
        """Sees every minute whether the transfer agent is there, so that a monitor hears of it though no mail goes out."""
        while True:
            await self.exchange.look()
            await asyncio.sleep(LOOKS)

    async def stop(self) -> None:
        """Ends after what is in hand. What hangs then is left: nothing is lost by it."""
        served = list(self.lists.served.values())
        for found in served:
            found.hurry()
        await self.server.stop()
        ends = [asyncio.create_task(found.stop()) for found in served]
        if ends:
            _, hang = await asyncio.wait(ends, timeout=ENDING)
            for found in served:
                found.abandon()
            if hang:
                log.warning('%d lists have something in hand that hangs, and are left', len(hang))
        if self.hosts:
            await self.hosts.stop()
        self.exchange.close_unused(0)


    def leave(self) -> NoReturn:
        """Ends at once, and says what is left. Nothing is lost by it: mail that wasn't answered comes again."""
        lists = sum(found.is_stuck() for found in list(self.lists.served.values()))
        log.warning('ends, and leaves %d connections, %d lists with something in hand, and %d threads', len(self.server.sessions), lists,
                    threading.active_count() - 1)
        end_now()


def end_now() -> NoReturn:
    """Ends without waiting for threads and tasks, which Python would do."""
    logging.shutdown()
    with contextlib.suppress(OSError):
        sys.stderr.flush()
    os._exit(0)


def hosts_of(chosen: settings.Settings, lists: Callable[[], Iterable[mailing.MailingList]]) -> 'hosts.Hosts | None':
    """What belongs to other hosts that have the same lists, if any have. psycopg is needed for these alone."""
    if not chosen.history:
        return None
    try:
        from . import hosts
    except ModuleNotFoundError as error:
        raise ValueError(f'history wants the package python3-psycopg: {error}') from error
    return hosts.Hosts(chosen, lists)


def words_of(words: list[str]) -> argparse.Namespace:
    parser = argparse.ArgumentParser(prog='ezmlm-agent', description='Gives the lists of a host their mail, and hands on what they send.')
    parser.add_argument('--check', action='store_true', help='look whether the settings, the lists and the transfer agent are in order, and end')
    ways = parser.add_mutually_exclusive_group()
    ways.add_argument('--give', nargs=2, metavar=('SETTINGS', 'LIST'), help='give a list that several hosts have the items of standard input')
    ways.add_argument('--configure', nargs=3, metavar=('SETTINGS', 'LIST', 'FILE'), help='give a list that several hosts have a configuration')
    ways.add_argument('--forget-host', nargs=2, metavar=('SETTINGS', 'NAME'), help='forget a host that is gone for good')
    ways.add_argument('--go-on-from', nargs=2, metavar=('SETTINGS', 'LIST'), help='have a list\'s history go on from this host\'s copy')
    ways.add_argument('--take-copy', nargs=3, metavar=('SETTINGS', 'LIST', 'FOLDER'), help='put a copy of another host in the place of this one\'s')
    ways.add_argument('--status', nargs='+', metavar=('SETTINGS', 'LIST'), help='tell how the lists stand, with the status of a monitor\'s plugin')
    parser.add_argument('--version', action='version', version=f'ezmlm-agent {VERSION}')
    parser.add_argument('settings', metavar='SETTINGS', nargs='?', help='a file of settings; ezmlm-agent(8) tells what is in it')
    asked = parser.parse_args(words)
    asked.order, given = next(((name, rest) for name in ORDERS if (rest := getattr(asked, name))), ('', []))
    if bool(given) == (asked.settings is not None) or given and asked.check:
        parser.error('SETTINGS come once, and one word before them at most')
    if asked.order == 'status' and len(given) > 2:
        parser.error('--status takes SETTINGS and one LIST at most')
    asked.settings, asked.rest = (given[0], given[1:]) if given else (asked.settings, [])
    return asked


def main(words: list[str]) -> NoReturn:
    handler = logging.StreamHandler(sys.stderr)
    handler.setFormatter(Shown('%(message)s'))
    logging.basicConfig(level=logging.INFO, handlers=[handler])
    asked = words_of(words)
    try:
        chosen = settings.read(asked.settings)
    except ValueError as error:
        print(f'ezmlm-agent: {error}', file=sys.stderr)
        sys.exit(settings.WRONG)
    if asked.order:
        sys.exit(ordered(chosen, asked.order, asked.rest))
    if asked.check:
        sys.exit(asyncio.run(check.check(chosen)))
    os.umask(0o077)
    most = resource.getrlimit(resource.RLIMIT_NOFILE)[1]
    resource.setrlimit(resource.RLIMIT_NOFILE, (most if 0 <= most < DESCRIPTORS else DESCRIPTORS, most))
    sys.setswitchinterval(SWITCH)
    with alone(chosen.state):
        asyncio.run(run(chosen, asked.settings))
    sys.exit(0)


def ordered(chosen: settings.Settings, order: str, words: list[str]) -> int:
    """Does what an operator asks. The answer is the status."""
    name, seen = (words[0] if words else None), status.look(chosen, words[0] if words else None) if order == 'status' else ({}, [])
    if order == 'status' and not chosen.history:
        return asyncio.run(status.status(chosen, None, name, seen))
    try:
        from . import deciding, giving, servers
    except ModuleNotFoundError as error:
        print(f'ezmlm-agent: this wants the package python3-psycopg: {error}', file=sys.stderr)
        return settings.WRONG
    try:
        match order:
            case 'give':
                return asyncio.run(giving.give(chosen, words[0], sys.stdin.buffer))
            case 'configure':
                return asyncio.run(giving.configure(chosen, words[0], words[1]))
            case 'status':
                return asyncio.run(status.status(chosen, giving.opened(chosen), name, seen))
            case 'go_on_from':
                return asyncio.run(deciding.go_on_from(chosen, words[0]))
            case 'take_copy':
                return asyncio.run(deciding.take_copy(chosen, words[0], words[1]))
            case _:
                return asyncio.run(giving.forget_host(chosen, words[0]))
    except giving.Refused as error:
        print(f'ezmlm-agent: {error}', file=sys.stderr)
        return error.status
    except servers.Lost as error:
        if order == 'status':
            return status.report([], [*seen[1], (asking.CRITICAL, '', f'the history can\'t be reached: {error}')])
        print(f'ezmlm-agent: the history can\'t be reached, or changed: {error}', file=sys.stderr)
        return giving.LATER
    except ValueError as error:
        print(f'ezmlm-agent: {error}', file=sys.stderr)
        return settings.WRONG


def alone(state: pathlib.Path) -> TextIO:
    """Keeps other agents of the same state away, as long as what it answers is open."""
    try:
        state.mkdir(parents=True, exist_ok=True)
        lock = open(state / 'lock', 'w', encoding='ascii')
        fcntl.flock(lock, fcntl.LOCK_EX | fcntl.LOCK_NB)
    except BlockingIOError:
        sys.exit('ezmlm-agent: another agent runs')
    except OSError as error:
        sys.exit(f'ezmlm-agent: {error}')
    return lock


async def run(chosen: settings.Settings, path: str) -> None:
    try:
        agent = Agent(chosen, path)
    except ValueError as error:
        print(f'ezmlm-agent: {error}', file=sys.stderr)
        sys.exit(settings.WRONG)
    await agent.run()
    end_now()


if __name__ == '__main__':
    main(sys.argv[1:])
