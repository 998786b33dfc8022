"""A pool of processes in which scenes run side by side, each when its turn comes. What they tell comes in their order, whichever ends
first."""
import contextlib
import io
import multiprocessing
import os
import sys
from concurrent.futures import ProcessPoolExecutor

from scenes.running import outcome
from scenes.turns import ALONE, FIRST, NEXT, turn

# The scenes of this run. A process of the pool has them from its beginning, since calls can't be sent to it.
SCENES = []
WIPED = "\r\x1b[K"


def processors():
    return len(os.sched_getaffinity(0))


def ended(at, how):
    """How a scene ended, and what it told."""
    with turn(f"{part()}: {SCENES[at][0]}", how), contextlib.redirect_stdout(io.StringIO()) as told:
        end = outcome(*SCENES[at])
    return end, told.getvalue()


def part():
    """The part of the tests that this process works for."""
    return os.path.basename(sys.argv[0])


def show(text):
    """Shows on a terminal what is being done, on a line that the next one wipes."""
    if sys.stderr.isatty():
        print(f"{WIPED}{text}", end="", file=sys.stderr, flush=True)


def run_all(beside, alone, jobs, is_long=lambda name: False):
    """Runs the first scenes, so many at once and the long ones first, and then the others, each with nothing beside it. Tells of
    each in this order, and gives how they ended."""
    SCENES[:] = [*beside, *alone]
    ends = []

    def tell(at, end, told):
        show("")
        print(told, end="", flush=True)
        ends.append(end)
        if at + 1 < len(SCENES):
            show(f"{at + 1} of {len(SCENES)} scenes are done: {SCENES[at + 1][0]}"[:79])

    with ProcessPoolExecutor(jobs, mp_context=multiprocessing.get_context("fork")) as pool:
        order = sorted(range(len(beside)), key=lambda at: not is_long(beside[at][0]))
        begun = {at: pool.submit(ended, at, FIRST if is_long(beside[at][0]) else NEXT) for at in order}
        for at in range(len(beside)):
            tell(at, *begun[at].result())
    for at in range(len(beside), len(SCENES)):
        tell(at, *ended(at, ALONE))
    show("")
    return ends
