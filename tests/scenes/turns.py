"""Turns: the parts of tests/run, each of which has a pool of processes, work in no more of them at once than all together may.

tests/run names a socket in HOSTEXT_TURNS. Who begins a scene connects there, says on a line how it wants its turn and what it will be
at, and waits for a byte. The turn ends with the connection, and so also where the process is killed. A part that runs by itself
waits for nothing.
"""
import contextlib
import os
import socket

# Taken out of the environment, since what a scene starts works in the turn of that scene.
NAME = os.environ.pop("HOSTEXT_TURNS", None)
# How a turn is wanted: before others, since it is a long one; as it comes; or with nothing beside it.
FIRST, NEXT, ALONE = "first", "next", "alone"
MOST_SAID = 200


def address(name):
    """A socket that stands in no folder, so that nothing is left of it."""
    return f"\0{name}"


@contextlib.contextmanager
def turn(what, how=NEXT):
    """Waits for a turn, and has it for what is done within."""
    if NAME is None:
        yield
        return
    with socket.socket(socket.AF_UNIX) as asked:
        asked.connect(address(NAME))
        asked.sendall(f"{how} {what}".replace("\n", " ").encode()[:MOST_SAID] + b"\n")
        if not asked.recv(1):
            raise SystemExit("tests/run has ended")
        yield
