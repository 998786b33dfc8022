"""Runs of `hostext_publish` tried as hard as commands are, for tests/hostile: each call of the system that fails, each folder that a stop
may leave of OUT, and each sync that is left out. A table by run, so that a later one is a row."""
import hashlib
import os
import random
import re
import shutil
import subprocess
from dataclasses import dataclass, field

from scenes.helping import without_help
from scenes.failing import LINES, TOLD, TRIED_AGAIN, may_be_ignored, ways
from scenes.running import Failed, shortened
from scenes.stopped import EMPTY, WATCHED, events
from scenes.stops import Disk, File
from scenes.traces import calls_of, concerning, straced
from scenes.uses import owned_tree

SECONDS = 10
# What the store has.
FILES = {"etc/none": b"", "usr/a": b"abc", "usr/sub/large": b"0123456789" * 7_000}
SUMS = "SHA256SUMS"
STATUSES = {"store": 5, "out": 6, "standard output": 4}
TOLD_SO = {**LINES, 6: "hostext: out fault"}
# Why a sync can be left out, and no stop shows it: a run begins with syncs of what others left, and here that is nothing; a folder is
# synced anew once all names in it are given; and a rename that a stop undoes leaves the old manifest, whatever name the new one has.
SYNCED = "nothing in the folder is unsynced"
ONCE_MORE = "the folder is synced once more before the switch"
NO_NAME = "what is renamed needs no name of its own"


def listed(**contents):
    return "".join(f"{hashlib.sha256(content).hexdigest()}  {name}\n" for name, content in contents.items()).encode()


@dataclass(frozen=True)
class Run:
    """A run as it is tried: its words, what it writes, and what stands in OUT before."""

    words: str
    reply: bytes
    before: dict = field(default_factory=dict, hash=False, compare=False)

    name, long, has_stops = "hostext_publish", False, True

    @property
    def title(self):
        return f"`hostext_publish {self.words}` over {', '.join(self.before) or 'nothing'}"

    @property
    def is_refused(self):
        return self.reply.startswith(b"refused ")

    @property
    def resource(self):
        return self.words.split(" ")[1]

    @property
    def asked(self):
        return self.words.split(" ")[2]

    def is_ours(self, path):
        """Whether a path is one that the run may make or remove before it switches."""
        ours = f"{self.resource}/{SUMS}.next", f"{self.resource}/{self.asked}.tree", f"{self.resource}/{self.asked}"
        return any(path == one or path.startswith(f"{one}/") for one in ours)


# The large file is appended in two pieces, and the empty one in none. An old manifest has its last newline or lacks it.
USR = b"published 2 70003\n"
RUNS = [
    Run("/usr r x", USR),
    Run("/usr/a r/s y", b"published 1 3\n"),
    Run("/usr r x", USR, {f"r/{SUMS}": listed(other=b"other")[:-1], "r/other": b"other", "r/x/sub/left": b"left", "r/x.tree": b"left", f"r/{SUMS}.next": b"left", "s/stays": b""}),
    Run("/etc r x", b"published 1 0\n", {f"r/{SUMS}": listed(other=b"other"), "r/other": b"other", "r/x": b"a file is left over"}),
    Run("/usr/a r x", b"refused 34 listed x\n", {f"r/{SUMS}": listed(x=b"x"), "r/x": b"x", f"r/{SUMS}.next": b"left"}),
    Run("/gone r x", b"refused 8 no-entry /gone\n", {"r/x/left": b"left"}),
]


def standing(folder):
    """Each path in a folder, with the bytes of its file, or nothing for a folder."""
    return {str(path.relative_to(folder)): path.read_bytes() if path.is_file() else None for path in sorted(folder.rglob("*"))}


class Yard:
    """A store that has the files, and folders in which is published."""

    def __init__(self, program, place, folder):
        self.program, self.place, self.folder = program, place, folder
        place.resource("host", owned_tree(FILES), FILES)
        for command in "init x86-64 system", "import-fs host /":
            if place.run(*command.split(" "))[2]:
                raise Failed(f"`{command}` isn't done")
        self.store = standing(place.store)
        self.out = folder / "out"

    def words(self, run, out=None):
        return [self.program, self.place.store, out or self.out, *run.words.split(" ")]

    def lay(self, run):
        """OUT as the run finds it."""
        if self.out.exists():
            shutil.rmtree(self.out)
        self.out.mkdir()
        for path, content in run.before.items():
            (self.out / path).parent.mkdir(parents=True, exist_ok=True)
            (self.out / path).write_bytes(content)

    def publish(self, run, out=None):
        ended = subprocess.run(self.words(run, out), stdin=subprocess.DEVNULL, capture_output=True, timeout=SECONDS)
        return ended.stdout, ended.returncode

    def ends(self, run):
        """What stands in OUT before the run, and after it."""
        self.lay(run)
        before = standing(self.out)
        expected(self.publish(run), (run.reply, int(run.is_refused)))
        return before, standing(self.out)


def expected(found, wanted):
    if found != wanted:
        raise Failed(f"it ends with {shortened(found)}, and not {shortened(wanted)}")


class Judge:
    """What may stand in OUT where a run failed or was stopped: all as before but for what is left over, or all as after it. Of a rename
    that was stopped the old name may stand beside the new one."""

    def __init__(self, yard, run):
        self.yard, self.run = yard, run
        self.before, self.after = yard.ends(run)
        self.manifest = f"{run.resource}/{SUMS}"
        self.seen = {}

    def is_new(self, found):
        return not self.run.is_refused and found.get(self.manifest) == self.after[self.manifest]

    def looks(self, found):
        """What is other than it may be; nothing where all is as it may."""
        if self.is_new(found):
            beside = {f"{self.manifest}.next": found[self.manifest]} if f"{self.manifest}.next" in found else {}
            wanted = {**self.after, **beside}
            lost = {path for path in found.keys() | wanted.keys() if found.get(path, b"-") != wanted.get(path, b"-")}
            return f"the new manifest stands, and of the rest {shortened(sorted(lost))} is other" if lost else None
        ways = [self.run.resource[:at] for at in range(len(self.run.resource) + 1) if (self.run.resource + "/")[at : at + 1] == "/"]
        lost = [
            path
            for path in sorted(found.keys() | self.before.keys())
            if not self.run.is_ours(path) and found.get(path, b"-") != self.before.get(path, b"-") and not (path in ways and found.get(path, b"-") is None)
        ]
        return f"the old manifest stands, and of the rest {shortened(lost)} is other" if lost else None

    def settles(self, out, found):
        """The same words given again do the rest."""
        is_new = self.is_new(found)
        wanted = f"refused 34 listed {self.run.asked}\n".encode() if is_new else self.run.reply
        ended = self.yard.publish(self.run, out)
        if ended != (wanted, int(wanted.startswith(b"refused "))):
            return f"the same words end with {shortened(ended)} then"
        if is_new or self.run.is_refused:
            return None if standing(out) == found else "a refused run changes something"
        return None if standing(out) == self.after else f"the same words leave {shortened(standing(out))}"

    def tells(self, out, is_told=False):
        """What is wrong with a folder. Once the reply was written, or begun, the manifest is the new one."""
        found = standing(out)
        if is_told and not self.run.is_refused and not self.is_new(found):
            return "it was told as done, and the old manifest stands"
        return self.looks(found) or self.settles(out, found)


# Calls that fail.


def endings(run, call, way):
    """The statuses with which a run may end where the call fails so."""
    done = int(run.is_refused)
    if call.on == "standard error" or may_be_ignored(call) or (way == "EINTR" and call.name in TRIED_AGAIN):
        return (done,)
    return (STATUSES[call.on], done) if way == "EINTR" else (STATUSES[call.on],)


class FailingRun:
    """A run whose calls fail, and the folders at which was looked."""

    def __init__(self, yard, run):
        self.yard, self.use, self.judge = yard, run, Judge(yard, run)
        self.devices = {os.fspath(yard.place.store): "store", os.fspath(yard.out): "out"}
        written, _, status, lines = self.traced()
        expected((written, status), (run.reply, int(run.is_refused)))
        self.calls = concerning(calls_of(lines, self.devices))
        self.seen = set()

    def traced(self, *options, around=None):
        self.yard.lay(self.use)
        return straced(self.yard.words(self.use), self.yard.folder / "calls", *options, around=around)

    def tries(self, short):
        for number, call in enumerate(self.calls):
            found = ways(call)
            yield from ((call, way) for way in ((found[number % len(found)],) if short else found))

    def fail(self, call, way):
        inject = ["-e", f"trace={call.name}", "-e", f"inject={call.name}:error={way}:when={call.number}"]
        written, told, status, lines = self.traced(*inject, around={**os.environ, "HOSTEXT_EXPLAIN": "yes"})
        told = without_help(told)
        if not (failed := [line for line in lines if "(INJECTED)" in line]):
            raise Failed("the call isn't made")
        if call.place not in failed[0]:
            raise Failed(f"another call is made: {failed[0]}")
        if status not in (allowed := endings(self.use, call, way)):
            raise Failed(f"it ends with {status} {shortened(told)}, and not {' or '.join(map(str, allowed))}")
        self.wrote(written, told.decode().splitlines(), status, call)
        if standing(self.yard.place.store) != self.yard.store:
            raise Failed("the store is other than before")
        folder = frozenset(standing(self.yard.out).items())
        if (folder, status == 4) not in self.seen:
            self.seen.add((folder, status == 4))
            if wrong := self.judge.tells(self.yard.out, status in (0, 4)):
                raise Failed(wrong)

    def wrote(self, written, told, status, call):
        """The reply where it is done or refused; else the line of its status, and a second one where a folder failed."""
        if status not in TOLD_SO:
            return expected((written, told), (self.use.reply, []))
        if written and not (status == 4 and self.use.reply.startswith(written)):
            raise Failed(f"with {status} it writes {shortened(written)}")
        reason = rf"hostext: ({TOLD.get(call.name, '.*')}) .*: .*"
        wanted = [re.escape(TOLD_SO[status]), *([reason if call.name not in ("statx", "newfstatat", "fstat") else "hostext: .*"] if status in (5, 6) else [])]
        if len(told) != len(wanted) or not all(map(re.fullmatch, wanted, told)):
            raise Failed(f"it tells {shortened(told)}")


# Stops, and syncs that are left out.


class RunStory:
    """A run that is stopped: what it did in OUT, call by call."""

    def __init__(self, yard, run):
        self.yard, self.use, self.judge = yard, run, Judge(yard, run)
        yard.lay(run)
        self.folder = yard.folder / "kept"
        shutil.copytree(yard.out, self.folder)
        options = ["-xx", "-s", "1000000", "-e", f"trace={WATCHED}"]
        written, _, status, lines = straced(yard.words(run), yard.folder / "calls", *options)
        expected((written, status), (run.reply, int(run.is_refused)))
        self.events = list(events(str(yard.out), lines))

    def moments(self, without=None):
        """After each call what it is, whether the reply was begun, and the disk; where the sync of this number is left out."""
        disk, is_told = Disk(self.folder), False
        yield "the first call", is_told, disk
        for at, event in enumerate(self.events):
            if at != without:
                disk.do(*event)
            is_told = is_told or event[0] == "reply"
            if event[0] != "open":
                yield self.text(at), is_told, disk

    def text(self, at):
        call, *what = self.events[at]
        if call in ("write", "sync"):
            return f"call {at + 1}, {call} {self.place(at) or 'OUT'}"
        return " ".join([f"call {at + 1}, {call}", *map(str, what[: 1 if call == "make" else 2])])

    def place(self, at):
        """The path to which the handle of an event leads."""
        return next(event[1] for event in reversed(self.events[:at]) if event[0] in ("make", "open") and event[2] == self.events[at][1])

    def syncs(self):
        return [at for at, event in enumerate(self.events) if event[0] == "sync"]

    def needless(self, at):
        """Why nothing shows where the sync of this number is left out, or nothing."""
        disk = Disk(self.folder)
        for event in self.events[:at]:
            disk.do(*event)
        node = disk.handles[self.events[at][1]]
        if isinstance(node, File):
            return None if node.content else EMPTY
        if not node.done:
            return SYNCED
        switch = next(number for number, event in enumerate(self.events) if event[0] == "rename")
        later = [other for other in self.syncs() if other > at and self.place(other) == self.place(at)]
        if any(other < switch for other in later):
            return ONCE_MORE
        return NO_NAME if later else None

    def folders(self, shapes, draws, seed, without=None):
        """Each shape that a stop may leave, with whether the reply was begun by then, and the moment when it comes first."""
        found, rng = {}, random.Random(seed)
        for after, is_told, disk in self.moments(without):
            for number in sorted(disk.left(shapes, draws, rng)):
                found.setdefault((number, is_told), after)
        return found

    def wrong(self, shapes, key):
        """What is wrong with a shape."""
        number, is_told = key
        out = self.yard.folder / "stopped"
        shapes.build(number, out)
        try:
            return self.judge.tells(out, is_told)
        finally:
            shutil.rmtree(out)
