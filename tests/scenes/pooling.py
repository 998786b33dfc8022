"""The pool of tests/program: that scenes run side by side and are told of in their order, that some run alone, and what a
terminal shows meanwhile."""
import os
import subprocess
import sys
import tempfile
from pathlib import Path

from scenes.pool import WIPED
from scenes.running import SECONDS, TOP, Failed, named

# Two scenes that wait for one another, of which the second ends first; a long one, for which the first waits; and two that must be
# alone.
SCRIPT = """
import sys, time
from pathlib import Path
sys.path.insert(0, sys.argv[1])
sys.dont_write_bytecode = True
from scenes.pool import run_all
from scenes.running import Failed, Skipped, status_of
room = Path(sys.argv[2])

def wait_for(name):
    for _ in range(3000):
        if (room / name).exists():
            return
        time.sleep(0.01)
    raise Failed(f"{name} has not begun")

def first():
    wait_for("long")
    (room / "first").touch()
    wait_for("second ended")
    raise Skipped("it is the first")

def second():
    wait_for("first")
    (room / "second ended").touch()
    raise Failed("it is the second")

def alone():
    (room / "alone").mkdir()
    time.sleep(0.1)
    (room / "alone").rmdir()

beside = [("first", first), ("second", second), ("third", lambda: None), ("long", (room / "long").touch)]
sys.exit(status_of(run_all(beside, [("alone", alone), ("alone too", alone)], int(sys.argv[3]), lambda name: name == "long")))
"""
TOLD = "skipped: first: it is the first\nFAILED: second: it is the second\n4 passed, 1 failed, 1 skipped\n"


def run_script(stderr):
    with tempfile.TemporaryDirectory() as folder:
        words = [sys.executable, "-c", SCRIPT, TOP / "tests", Path(folder), "2"]
        return subprocess.run(words, stdin=subprocess.DEVNULL, stdout=subprocess.PIPE, stderr=stderr, text=True, timeout=SECONDS)


def scenes_run_side_by_side_and_are_told_of_in_their_order(_program):
    ended = run_script(subprocess.PIPE)
    if (ended.stdout, ended.stderr, ended.returncode) != (TOLD, "", 1):
        raise Failed(f"they end with {ended.returncode} and tell {ended.stdout!r} and {ended.stderr!r}")


def a_terminal_shows_how_many_scenes_are_done(_program):
    ours, theirs = os.openpty()
    try:
        ended, shown = run_script(theirs), os.read(ours, 65536).decode()
    finally:
        os.close(ours), os.close(theirs)
    lines = [f"{at} of 6 scenes are done: {name}" for at, name in enumerate(("second", "third", "long", "alone", "alone too"), 1)]
    wanted = "".join(f"{WIPED}{line}{WIPED}" for line in lines)
    if ended.stdout != TOLD or shown != f"{WIPED}{wanted}{WIPED}":
        raise Failed(f"it shows {shown!r}, and tells {ended.stdout!r}")


scenes = named(scenes_run_side_by_side_and_are_told_of_in_their_order, a_terminal_shows_how_many_scenes_are_done)
