"""A store that is tended: its folder `active`, the lock of one run, what hostext(1) says of it, and the tool that shows it."""
import fcntl
import json
import os
import re
import subprocess
from contextlib import contextmanager

import asking
import attempts
import ending
import trials
from active import ACTIVE, folder_in, lock
from entries import Refused, shown
from reading import program

LOCK = "tend"
MARK = re.compile(rb"marked ([0-9]+)\n")
NO_MARK = b"refused 37 "
MOST_MARKS = 16


class NotDone(Refused):
    """A command that wasn't done, with its status."""

    def __init__(self, words, status, said):
        reason = os.fsdecode(said).strip() or f"its status is {status}"
        super().__init__(f"{' '.join(shown(word) for word in words)}: {reason}")
        self.status = status


def beside(name):
    """A tool that stands beside this module."""
    return os.path.join(os.path.dirname(os.path.realpath(__file__)), name)


class Tended:
    """A store that one run tends at a time."""

    def __init__(self, store, root, tells, depot="."):
        self.store, self.root, self.tells, self.depot = store, root, tells, depot
        self.program, self.activate = program(), os.environ.get("HOSTEXT_ACTIVATE") or beside("activate")
        self.folder = os.open(store, os.O_RDONLY | os.O_DIRECTORY)
        self.active, self.locks, self.around = None, [], os.environ
        # what the host says of the store, and whether a version was taken back
        self.settings, self.failed = None, False

    def open(self, makes):
        """Opens the folder `active`, and gives whether it is there. It may be made."""
        if not makes and ACTIVE not in os.listdir(self.folder):
            return False
        self.active = folder_in(self.folder, ACTIVE, shown(os.path.join(self.store, ACTIVE)))
        return True

    def lock(self):
        """Waits until no other run tends the store. What this one starts over the store holds the lock too, until it has ended."""
        handle = os.open(LOCK, os.O_RDWR | os.O_CREAT | os.O_NOFOLLOW | os.O_NONBLOCK, 0o600, dir_fd=self.active)
        lock(handle, fcntl.LOCK_EX, self.tells)
        self.locks.append(handle)

    @contextmanager
    def store_locked(self):
        """Keeps others from changing the store between two commands. Nothing is written in `active` meanwhile, whose lock comes first."""
        if os.environ.get("HOSTEXT_LOCK") == "no":
            yield
            return
        handle = os.open(self.store, os.O_RDONLY | os.O_DIRECTORY)
        try:
            fcntl.flock(handle, fcntl.LOCK_EX)
            self.locks.append(handle)
            self.around = {**os.environ, "HOSTEXT_LOCK": "no"}
            yield
        finally:
            self.around = os.environ
            self.locks = [lock for lock in self.locks if lock != handle]
            os.close(handle)

    # What is asked of hostext, and done by it.

    def run(self, *words):
        """The status of a program over the store, and what it writes."""
        with ending.started(words, stdin=subprocess.DEVNULL, stdout=subprocess.PIPE, pass_fds=self.locks, env=self.around) as child:
            written = child.communicate()[0]
        return child.returncode, written

    def command(self, *words):
        return self.run(self.program, self.store, self.depot, *words)

    def done(self, *words):
        """What a command writes that has to be done."""
        status, written = self.command(*words)
        if status:
            raise NotDone(words, status, written)
        return written

    def say(self, written):
        """Hands on what a command wrote."""
        os.write(1, written)

    def generation(self):
        return asking.current(self.folder)

    def marks(self):
        """The marks of the store, the youngest first."""
        return [int(line.split()[0]) for line in self.done("history").splitlines()]

    def mark(self):
        """Marks the host, where no other mark has to go for that."""
        if len(self.marks()) >= MOST_MARKS:
            raise Refused(f"the store has {MOST_MARKS} marks, and one more would take the oldest away: drop one by `forget`")
        written = self.done("mark")
        self.say(written)
        return int(MARK.fullmatch(written)[1])

    def forget(self, mark):
        """Drops a mark, if it is there still."""
        status, written = self.command("forget", str(mark))
        if status and not written.startswith(NO_MARK):
            raise NotDone(("forget", str(mark)), status, written)

    def has_changed(self, mark):
        """Whether anything is other than at a mark."""
        return bool(self.done("history", "--changes", str(mark)))

    # How far an update is.

    def attempt(self):
        return None if self.active is None else attempts.read(self.active)

    def go_to(self, attempt):
        attempts.write(self.active, attempt)

    def end(self):
        attempts.end(self.active)

    def begin_trial(self, number):
        with attempts.locked(self.active):
            trials.begin(self.active, number)

    def end_trial(self):
        with attempts.locked(self.active):
            trials.end(self.active)

    # What is shown.

    def shown(self):
        """The generation that the host shows; nothing where it shows none."""
        words = self.activate, self.store, "status", "--json"
        status, written = self.run(*words)
        if status:
            raise NotDone(("activate", *words[2:]), status, written)
        try:
            return shown_in(json.loads(written))
        except (ValueError, KeyError, TypeError, AttributeError):
            raise Refused("activate status --json: it tells of no generation") from None

    def make(self):
        """Has all made that showing the store wants."""
        self.activated("make")

    def show(self, settings, mark=None):
        """Shows the store as it is, or a mark of it, and has the service manager look at the units that are there now."""
        options = [f"--mark={mark}"] if mark else []
        options += [f"--root={self.root}"] if self.root != "/" else []
        options += ["--confext"] if settings.Confext else []
        options += [] if settings.Suid else ["--no-suid"]
        self.activated("switch", *options)
        if self.root == "/" and os.path.isdir("/run/systemd/system"):
            status, _ = self.run("systemctl", "daemon-reload")
            if status:
                self.tells.tell(f"systemctl daemon-reload: its status is {status}")

    def activated(self, *words):
        status, written = self.run(self.activate, self.store, *words)
        self.say(written)
        if status:
            raise NotDone(("activate", *words), status, b"")


def shown_in(status):
    """The generation of a status in JSON: the oldest of those that stand at hierarchies, or where none is merged that which was noted."""
    places = [int(place["generation"]) for place in status["shown"]]
    if places:
        return min(places)
    return status["now"] if not any(status["merged"].values()) else None
