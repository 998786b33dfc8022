"""Runs the parts of tests/run side by side: parts.py JOBS PART ..

A PART is a command with its words. One that ends with the word --jobs gets JOBS as the next, and takes turns by itself, for each of its
scenes (turns.py); any other has one turn for all of it. No more than JOBS turns are had at once. What a part writes is shown once it has
ended, and the parts before it. A part that counts nothing has failed, and so has one that fails and counts no failure.

All that is made for a while stands in two folders, which go at the end, and no process is left: also where a signal ends it.
"""
import contextlib
import os
import re
import selectors
import shutil
import signal
import socket
import subprocess
import sys
import tempfile
import time
from pathlib import Path
from typing import Callable, NamedTuple

sys.dont_write_bytecode = True
TOP = Path(__file__).resolve().parent.parent.parent
sys.path[:1] = [str(TOP / "tests"), str(TOP / "tools")]

import ending
from processes import adopt, running
from scenes import turns
from scenes.pool import show

COUNTED = re.compile(rb"(\d+) passed, (\d+) failed(?:, (\d+) skipped)?")
BETWEEN, WIDTH = 0.2, 79
# How long processes may take to end before they are killed, and how long it may take until none is left.
SECONDS_TO_END, SECONDS_TO_GO = 2, 10


class Turn(NamedTuple):
    """A turn that is waited for or had: how it was wanted, what for, and what begins it."""

    how: str
    what: str
    begin: Callable


class Turns:
    """The turns of all parts, of which so many are had at once; one that is wanted alone is the last."""

    def __init__(self, most):
        self.most, self.had, self.waiting, self.ended = most, {}, {}, 0

    def ask(self, key, turn):
        self.waiting[key] = turn
        self.give()

    def end(self, key):
        self.waiting.pop(key, None)
        self.ended += self.had.pop(key, None) is not None
        self.give()

    def give(self):
        while (key := self.next()) is not None:
            self.had[key] = self.waiting.pop(key)
            self.had[key].begin()

    def next(self):
        """Whose turn it is, of those who wait."""
        if len(self.had) >= self.most or any(turn.how == turns.ALONE for turn in self.had.values()):
            return None
        order = turns.FIRST, turns.NEXT, turns.ALONE
        key = min(self.waiting, key=lambda key: order.index(self.waiting[key].how), default=None)
        return None if key is not None and self.waiting[key].how == turns.ALONE and self.had else key


class Part:
    """A part: its words, its process, what it wrote, and its status once it has ended."""

    def __init__(self, line, jobs, room):
        self.words = line.split()
        self.takes_turns = self.words[-1] == "--jobs"
        self.words += [str(jobs)] if self.takes_turns else []
        self.out, self.told = (tempfile.TemporaryFile(dir=room) for _ in range(2))
        self.process, self.status = None, None

    def start(self, around):
        """Starts it in a group of its own, so that a terminal interrupts tests/run alone. Scenes end tools by signals, so none is ignored there."""
        try:
            self.process = subprocess.Popen(self.words, stdin=subprocess.DEVNULL, stdout=self.out, stderr=self.told, env=around, cwd=TOP, start_new_session=True, preexec_fn=ending.heed)
        except OSError as error:
            self.told.write(f"tests/run: {self.words[0]}: {error.strerror}\n".encode())
            self.status = 127

    def show(self):
        """Shows what it wrote, and gives what it counted: how many passed, failed and were skipped."""
        written, told = (text.read() for text in (self.out, self.told) if not text.seek(0))
        sys.stdout.buffer.write(f"== {self.words[0]}\n".encode() + written)
        sys.stdout.flush()
        sys.stderr.buffer.write(told)
        sys.stderr.flush()
        counts = [found for line in written.splitlines() if (found := COUNTED.match(line))]
        passed, failed, skipped = (int(count or 0) for count in counts[-1].groups()) if counts else (0, 0, 0)
        return passed, failed or int(not counts or self.status != 0), skipped


class Runner:
    """Runs parts, and answers those that ask for turns."""

    def __init__(self, jobs, rooms):
        self.turns, self.rooms, self.parts, self.due, self.said = Turns(jobs), rooms, [], 0, ""
        self.selector, self.socket = selectors.DefaultSelector(), socket.socket(socket.AF_UNIX)
        name = os.path.basename(rooms[0])
        self.socket.bind(turns.address(name))
        self.socket.listen(socket.SOMAXCONN)
        self.selector.register(self.socket, selectors.EVENT_READ)
        self.around = {**os.environ, "TMPDIR": rooms[0], "HOSTEXT_ROOM": rooms[-1], "HOSTEXT_TURNS": name}

    def run(self, parts):
        """Runs parts to their end, and gives the sums of what they counted."""
        self.parts = parts
        for part in parts:
            if part.takes_turns:
                part.start(self.around)
            else:
                self.turns.ask(part, Turn(turns.FIRST, part.words[0], lambda part=part: part.start(self.around)))
        sums = [0, 0, 0]
        for at, part in enumerate(parts):
            while part.status is None:
                self.wait(at)
            self.say("")
            sums = [sum(pair) for pair in zip(sums, part.show())]
        return sums

    def wait(self, shown):
        """Waits for what happens next, for a while, and says on a terminal what the parts are at."""
        for key, _ in self.selector.select(BETWEEN):
            if key.fileobj is self.socket:
                asking, _ = self.socket.accept()
                self.selector.register(asking, selectors.EVENT_READ, bytearray())
            else:
                self.hear(key.fileobj, key.data)
        for number, status in reaped():
            for part in self.parts:
                if part.process and part.process.pid == number:
                    part.status = os.waitstatus_to_exitcode(status)
        for part in self.parts:
            if part.status is not None and part in self.turns.had:
                self.turns.end(part)
        if time.monotonic() >= self.due:
            self.due = time.monotonic() + BETWEEN
            at = ", ".join(turn.what for turn in self.turns.had.values()) or "none"
            self.say(f"{shown} of {len(self.parts)} parts are shown, {self.turns.ended} scenes have ended; at {at}"[:WIDTH])

    def say(self, text):
        if text != self.said:
            show(text)
            self.said = text

    def hear(self, asking, said):
        """Reads what one asks for, or that its turn has ended."""
        with contextlib.suppress(ConnectionError):
            more = asking.recv(turns.MOST_SAID + 1)
            if more and b"\n" not in said:
                said += more
                if b"\n" in said:
                    how, _, what = said.decode(errors="replace").strip().partition(" ")
                    self.turns.ask(asking, Turn(how, what, lambda: begin(asking)))
                return
        self.selector.unregister(asking)
        asking.close()
        self.turns.end(asking)


def begin(asking):
    """Tells one that its turn has come, or finds later that it is gone."""
    with contextlib.suppress(ConnectionError):
        asking.sendall(b".")


def reaped():
    """The numbers and statuses of the processes that have ended, those among them that others left behind."""
    with contextlib.suppress(ChildProcessError):
        while (found := os.waitpid(-1, os.WNOHANG))[0]:
            yield found


def end_all():
    """Ends all processes below this one, at first so that they can put away what they made."""
    began = time.monotonic()
    while (found := running()) and time.monotonic() < began + SECONDS_TO_GO:
        for number in found:
            with contextlib.suppress(ProcessLookupError, PermissionError):
                os.kill(number, signal.SIGTERM if time.monotonic() < began + SECONDS_TO_END else signal.SIGKILL)
        time.sleep(0.05)
        list(reaped())


@contextlib.contextmanager
def rooms():
    """Two folders for what is made for a while, one of them in memory where there is such a file system. They go at the end."""
    made = []
    try:
        ending.hold()
        for place in (None, *["/dev/shm"] * os.access("/dev/shm", os.W_OK)):
            made.append(tempfile.mkdtemp(prefix="hostext-tests-", dir=place))
            os.chmod(made[-1], 0o755)
        ending.let_go()
        yield made
    finally:
        ending.ignore()
        end_all()
        for room in made:
            shutil.rmtree(room, ignore_errors=True)


def main():
    jobs, *lines = sys.argv[1:]
    adopt()
    ending.catch()
    try:
        with rooms() as made:
            passed, failed, skipped = Runner(int(jobs), made).run([Part(line, jobs, made[0]) for line in lines])
    except ending.Stopped as stopped:
        show("")
        return 128 + stopped.args[0]
    print(f"{passed} passed, {failed} failed, {skipped} skipped")
    return 1 if failed else 0


if __name__ == "__main__":
    sys.exit(main())
