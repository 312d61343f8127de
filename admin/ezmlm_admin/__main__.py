"""ezmlm-admin [--json] FOLDER WORD ..: daily questions about a list."""

from __future__ import annotations

import io
import json
import os
import pathlib
import shutil
import sys
from collections.abc import Callable
from dataclasses import dataclass

from . import apart, lists, members, metrics, moderating, monitoring, options, rebuild, scrub, texts, waiting
from .lists import MEMORY, NO_PERMISSION, USAGE, MailingList, Refused, Said

VERSION = 'ezmlm-admin 0.1'
STOPPED = 130  # by the terminal's interrupt, as shells have it
# Each word with its further words, how many these are at least and at most, what it does, and the call.
WORDS: dict[str, tuple[str, int, int, str, Callable[..., Said]]] = {
    'member': ('ADDRESS', 1, 1, 'in which sets an address is, since when, and its bounces', members.member),
    'bounces': ('[SET]', 0, 1, 'whose mail bounces', members.bounces),
    'held': ('[TICKET]', 0, 1, 'the posts that wait for a moderator, or one of them whole', waiting.held),
    'accept': ('TICKET', 1, 1, 'posts a held post', moderating.accept),
    'reject': ('TICKET', 1, 1, 'gives a held post back to its author', moderating.reject),
    'queue': ('', 0, 0, 'what is still to be sent', waiting.queue),
    'aside': ('', 0, 0, 'what the agent doesn\'t try any more, since the transfer agent hangs up on it', apart.aside),
    'again': ('ENTRY', 1, 1, 'has the agent try such an entry again', apart.again),
    'digest': ('', 0, 0, 'what the next digest has, and when it is due', waiting.digest),
    'options': ('[+LETTERS | -LETTERS] [--prefix TEXT] [--max BYTES] [--owner ADDRESS] [--anyway]', 0, 99, 'tells the options, or changes them',
                options.options),
    'rebuild': ('[NEW]', 0, 1, 'writes the archive\'s num, indexes and threads anew, or the whole list in the folder NEW', rebuild.rebuild),
}
MONITORS: dict[str, tuple[str, Callable[..., Said]]] = {
    'watch': ('a line and a status for a monitor', monitoring.watch),
    'metrics': ('what Prometheus asks for', metrics.metrics),
    'scrub': ('which files changed although no run of the program wrote them, by sums of the last time; --repair COPY takes them from a copy '
              'of the list, and --anew takes all as they are', scrub.scrub),
}
HELP = '''usage: ezmlm-admin [--json] [--program PATH] [--agent SETTINGS] FOLDER WORD ..
       ezmlm-admin [--json] [--program PATH] watch | metrics | scrub LISTS ..

FOLDER is a list's folder. Run it as the user that the list belongs to.

{}

LISTS are folders of lists, or folders that have such. --json says the same for programs. --program is the program, if it isn't `ezmlm` on PATH.
LISTS may be the agent's SETTINGS: then all lists of it are watched. --agent names these for aside and again, and for lists that several hosts
have, which are changed by their history, if not /etc/ezmlm-agent.conf.
The status is 0; 64 or 65 for wrong words, 75 for no list or a damaged file, 77 for the wrong user, 100 for no, 111 for a list that another
run holds and for a disk that fails; of watch 0 to 3. See ezmlm-admin(8).'''


def help_text() -> str:
    rows = [(f'{word} {more}'.strip(), about) for word, (more, _, _, about, _) in WORDS.items()]
    rows += [(f'{word} LISTS ..', about) for word, (about, _) in MONITORS.items()]
    return HELP.format('\n'.join(f'  {left}\n      {about}' if len(left) > 24 else f'  {left:<24}  {about}' for left, about in rows))


@dataclass(frozen=True)
class Command:
    """A command line: the word, the folders or the folder, what follows the word, whether JSON is asked for, the program, and
    the agent's settings."""
    word: str
    folders: list[str]
    rest: list[str]
    is_json: bool
    program: str | None
    settings: str | None = None

    def run(self) -> Said:
        """Does what is asked."""
        if self.word in MONITORS:
            if not self.folders:
                raise Refused(USAGE, f'usage: ezmlm-admin {self.word} LISTS ..')
            return MONITORS[self.word][1](self.folders, program(self.program), lists.WAIT)
        chosen = MailingList(pathlib.Path(self.folders[0]), program(self.program))
        chosen.settings = pathlib.Path(self.settings or chosen.settings)
        return WORDS[self.word][4](chosen, *self.rest)


def command(words: list[str]) -> Command | str:
    """The command that the words are, or a text that is asked for. Other words are Refused. --json and --help may stand anywhere."""
    left, path, conf = [word for word in words if word != '--json'], None, None
    is_json = len(left) < len(words)
    if '--help' in left:
        return help_text()
    while left and left[0].startswith('-'):
        match left.pop(0):
            case '-h':
                return help_text()
            case '--version':
                return VERSION
            case '--program' if left:
                path = left.pop(0)
            case '--agent' if left:
                conf = monitoring.AGENT = left.pop(0)
            case word:
                raise Refused(USAGE, f'{word} is none of its words; see ezmlm-admin --help')
    if left[1:2] and left[1] in MONITORS and left[0] not in MONITORS:
        left[:2] = left[1], left[0]
    if left[:1] and left[0] in MONITORS:
        return Command(left[0], left[1:], [], is_json, path)
    if len(left) < 2 or left[1] not in WORDS:
        raise Refused(USAGE, f'{left[1]} is none of its words; see ezmlm-admin --help' if left[1:] else
                      "name the list's folder and what is wanted; see ezmlm-admin --help")
    more, least, most, _, _ = WORDS[left[1]]
    if not least <= len(left) - 2 <= most:
        raise Refused(USAGE, f'usage: ezmlm-admin FOLDER {left[1]} {more}'.rstrip())
    return Command(left[1], left[:1], left[2:], is_json, path, conf)


def main(words: list[str]) -> int:
    """The exit status of a command line, when what it has to say is printed."""
    for stream in (sys.stdout, sys.stderr):
        if isinstance(stream, io.TextIOWrapper):
            stream.reconfigure(errors='backslashreplace')
    os.umask(0o077)
    is_plugin = words[:1] == ['watch']
    try:
        asked = command(words)
        if isinstance(asked, str):
            return told([asked], 0)
        is_plugin = asked.word == 'watch'
        said = asked.run()
        return told([json.dumps(said.data, indent=1)] if asked.is_json else said.lines, said.status)
    except Refused as error:
        return refused(error.status, str(error), is_plugin)
    except PermissionError as error:
        return refused(NO_PERMISSION, f'{error}: run it as the user that the list belongs to', is_plugin)
    except OSError as error:
        return refused(lists.DISK, str(error), is_plugin)
    except KeyboardInterrupt:
        return STOPPED


def told(lines: list[str], status: int) -> int:
    """Prints lines, and answers the status. Whoever reads them may have stopped."""
    try:
        print(*lines, sep='\n', end='\n' if lines else '', flush=True)
    except BrokenPipeError:
        os.dup2(os.open(os.devnull, os.O_WRONLY), sys.stdout.fileno())
    return status


def refused(status: int, why: str, is_plugin: bool) -> int:
    """Says why nothing was answered. Whoever runs a plugin reads standard output, and takes 3 for what isn't known."""
    if is_plugin:
        return told([f'EZMLM UNKNOWN - {monitoring.plain(why)}'], monitoring.UNKNOWN)
    print(f'ezmlm-admin: {texts.safe(why)}', file=sys.stderr)
    return status


def program(path: str | None) -> str:
    """The path of the program. It is Refused if there is none."""
    found = shutil.which(path or 'ezmlm')
    if found is None:
        raise Refused(MEMORY, f'there is no program {path or "ezmlm on PATH"}: --program PATH names it')
    return os.path.abspath(found)


if __name__ == '__main__':
    sys.exit(main(sys.argv[1:]))
