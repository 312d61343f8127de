"""Does what the program does, but if files of a folder tell it to, it loses what it says, is killed, says nothing, or says something
else.

    stand_in.py FOLDER PROGRAM WORD ..

A file of the name `says` has what is said of each post, and one of the name `hangs` has the folders of lists whose runs hang. Each other one
counts for one run.
"""

import os
import pathlib
import re
import signal
import subprocess
import sys
import time

PLACE, PROGRAM, WORDS = pathlib.Path(sys.argv[1]), sys.argv[2], sys.argv[3:]


def is_told(word):
    try:
        (PLACE / word).unlink()
    except FileNotFoundError:
        return False
    return True


def killed(holds, **more):
    """Runs the program until this holds, kills it, and ends as it did."""
    with subprocess.Popen([PROGRAM, *WORDS], **more) as run:
        while run.poll() is None and not holds(run):
            pass
        run.kill()
    os.kill(os.getpid(), signal.SIGKILL)


def says(file):
    """Runs the program, and says what is in a file of each post, as long as it is there. A line that has no other after it ends it."""
    with subprocess.Popen([PROGRAM, *WORDS], stdout=subprocess.PIPE) as run:
        for line in run.stdout:
            if file.exists():
                line = re.sub(rb'0 posted \d+', file.read_bytes(), line)
            sys.stdout.buffer.write(line)
            sys.stdout.buffer.flush()
            if line.split()[1] not in (b'0', b'100'):
                run.kill()
    sys.exit(run.returncode)


if WORDS[1:] == ['spool']:
    if (PLACE / 'hangs').exists() and pathlib.Path.cwd().name in (PLACE / 'hangs').read_text().split():
        time.sleep(3600)
    if is_told('move'):
        pathlib.Path.cwd().rename(PLACE / 'aside')
    if (PLACE / 'says').exists():
        says(PLACE / 'says')
    if is_told('lose'):
        # It answers a batch at once, which is in the list then.
        killed(lambda run: run.stdout.readline(), stdout=subprocess.PIPE)
    if is_told('kill'):
        killed(lambda _: os.stat(WORDS[0] + '/log').st_size > 1)
    if is_told('mute'):
        sys.exit(0)
    if is_told('bad'):
        print('- 65 bad 7')
        sys.exit(65)
    if is_told('babble'):
        print('hello')
        sys.exit(0)
os.execv(PROGRAM, [PROGRAM, *WORDS])
