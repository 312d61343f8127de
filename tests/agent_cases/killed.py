"""The agent killed at each step, on both sides."""

import collections
import signal

from .world import HOST, IS_UNPROVED, MEMBERS, TOP, World, check, post, until

STRIDE = [21 if IS_UNPROVED else 7]
PARTS = 4  # which are run beside one another

# The agent as it is killed at the N-th step: each callback of its loop, each side of a transaction and of a run of the program.
KILLED = '''
import asyncio, os, signal, sys
sys.path.insert(0, sys.argv[1])
from ezmlm_agent import __main__, folder, notes, program
left = [int(sys.argv[2])]
def step():
    left[0] -= 1
    if left[0] == 0:
        os.kill(os.getpid(), signal.SIGKILL)
def counted(call, after):
    def counting(*words, **more):
        step()
        try:
            return call(*words, **more)
        finally:
            if after:
                step()
    return counting
asyncio.events.Handle._run = counted(asyncio.events.Handle._run, False)
notes.Notes.transaction = counted(notes.Notes.transaction, True)
folder.settled = counted(folder.settled, True)
program.answer_of = counted(program.answer_of, True)
__main__.main(sys.argv[3:])
'''


def killed_at(world, step):
    """Whether the agent came to this step, and whether a copy went out twice."""
    world.list()
    world.begin(words=('/usr/bin/python3', '-c', KILLED, TOP / 'agent', str(step)))
    first = world.post()
    if first is not None:
        until(lambda: world.agent.poll() is not None or len(world.sink.copies) >= 3 and world.queue() == 0)
    was_killed = world.end() == -signal.SIGKILL
    world.begin()
    again = world.mail('w@m.net', [f'cats@{HOST}'], post())
    is_sent = until(lambda: len(world.sink.copies) >= 3 and world.queue() == 0)
    copies = collections.Counter(recipient for _, recipient, _ in world.sink.copies)
    holds = again == ['250 2.0.0 posted 1'] and world.posts() == 1 and is_sent and set(copies) == set(MEMBERS)
    check(holds and set(copies.values()) in ({1}, {2}), f'at step {step}: {first}, {again}, {world.posts()} posts, copies {copies}')
    return was_killed, set(copies.values()) == {2}


def case_killed(world, part):
    """Killed at a step: a mail that is given again is posted once, and each member has it once, or at most twice by one transaction."""
    step, steps, doubled, was_killed = 1 + part * STRIDE[0], 0, 0, True
    while was_killed:
        trial = World(world.program)
        try:
            was_killed, twice = killed_at(trial, step)
        except Exception:
            print(trial.log())
            raise
        finally:
            trial.close()
        steps, doubled = steps + 1, doubled + twice
        step += PARTS * STRIDE[0]
    world.note = f'{steps - 1} kills from step {1 + part * STRIDE[0]} on, each {PARTS * STRIDE[0]} steps; {doubled} times a copy went out twice'
