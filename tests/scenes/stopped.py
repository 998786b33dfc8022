"""A command is stopped at each call that it made on a real store folder: each folder that a stop there may leave is built, and the
store in it has to be whole, as before the command or after it, and the command has to work on it."""
import random
import re
import shutil
import subprocess
from dataclasses import dataclass

from scenes.failing import stray
from scenes.running import Failed, shortened
from scenes.stops import Disk, File, Shapes
from scenes.traces import straced

WATCHED = "openat,creat,mkdir,mkdirat,write,pwrite64,writev,fsync,fdatasync,ftruncate,rename,renameat,renameat2,unlink,unlinkat,rmdir"
WATCHED += ",link,linkat,symlink,symlinkat,close"
LINE = re.compile(r"\d+ +(\w+)\((.*)\) += (\d+)")
# How long a look may take.
SECONDS = 30
# How many folders are looked at where the first that shows something ends it.
FEW = 20
# Why a sync can be left out, and no stop shows it. The first is the one with which a store is opened: a command before may have
# been killed between its switch and the sync after it, so that a stop leads back to the store before that. A change syncs the store
# folder once more before it switches and replies, and a refused command doesn't.
SAFE = "what the switch before may lead back to stays until the next sync"
REFUSED = "what a refused command wrote is left over"
EMPTY = "the file has no bytes"


def unescaped(text):
    return bytes.fromhex(text.replace("\\x", ""))


def events(store, lines):
    """What a command did to what stands in its store folder: the calls of the model of a stop. A call that the model hasn't
    is told."""
    ours = set()
    for line in lines:
        found = LINE.match(line)
        if not found:
            continue
        name, inner, given = found.groups()
        texts = [unescaped(text) for text in re.findall(r'"([^"]*)"', inner)]
        paths = [text.decode(errors="replace") for text in texts] if name != "write" else []
        below = [path.removeprefix(store).strip("/") for path in paths if path == store or path.startswith(f"{store}/")]
        handle = int(given) if name == "openat" else int(re.match(r"\d*", inner)[0] or -1)
        if name == "openat":
            ours.discard(handle)
            if below:
                ours.add(handle)
                yield ("make" if "O_CREAT" in inner else "open"), below[0], handle
        elif name == "close":
            ours.discard(handle)
        elif name == "write" and handle == 1:
            yield ("reply",)
        elif name == "write" and handle in ours:
            yield "write", handle, texts[0][: int(given)]
        elif name == "fsync" and handle in ours:
            yield "sync", handle
        elif name in ("mkdir", "rename", "unlink", "rmdir") and below:
            yield ("remove" if name in ("unlink", "rmdir") else name), *below
        elif below or handle in ours:
            raise Failed(f"the model of a stop has no {name}")


def made(room, use, command):
    """The calls of a command on the store folder of a room."""
    options = ["-xx", "-s", "1000000", "-e", f"trace={WATCHED}"]
    words = [room.place.program, room.place.store, room.place.depot, *command.split(" ")]
    written, _, status, lines = straced(words, room.folder / "calls", *options, source=use.source)
    if status > 1:
        raise Failed(f"`{command}` ends with {status}: {shortened(written)}")
    return list(events(str(room.place.store), lines))


@dataclass
class Moment:
    """A moment at which a command is stopped: after which of its calls, how many of its steps have replied by then, and the disk
    as it is."""

    after: str
    told: int
    disk: Disk


class Story:
    """A command that is stopped. Where a command before it made its store, that was killed before its last sync, so that its
    switch may be undone too."""

    def __init__(self, room, use):
        self.room, self.use = room, use
        self.is_killed = bool(use.before) and not callable(use.before[-1])
        first = use.before[:-1] if self.is_killed else use.before
        self.folder = room.stored(first)
        self.killed = killed(made(room, use, use.before[-1])) if self.is_killed else []
        room.stored(use.before)
        self.events = made(room, use, use.command)
        befores = [first, use.before] if self.is_killed else [use.before]
        # What a look shows of each state in which the store may be, by its `current`; and that of the store after each step.
        self.states = {current_of(room.stored(before)): room.look(use, before) for before in [*befores, *dict.fromkeys(use.stores[1:])]}
        self.steps = [current_of(room.stored(store)) for store in use.stores]

    def moments(self, without=None):
        """Each moment, where the sync of this number is left out."""
        disk = Disk(self.folder)
        for event in self.killed:
            disk.do(*event)
        disk.handles.clear()
        told = 0
        yield Moment("the first call", told, disk)
        for at, event in enumerate(self.events):
            if at != without:
                disk.do(*event)
            told = min(told + (event[0] == "reply"), len(self.use.steps))
            if event[0] != "open":
                yield Moment(self.text(at), told, disk)

    def text(self, at):
        """An event for who reads it, with the path that its handle leads to."""
        call, *what = self.events[at]
        if call in ("write", "sync"):
            made = next(event for event in reversed(self.events[:at]) if event[0] in ("make", "open") and event[2] == what[0])
            return f"call {at + 1}, {call} {made[1] or 'the store folder'}"
        return " ".join([f"call {at + 1}, {call}", *map(str, what[: 1 if call == "make" else 2])])

    def number(self, at):
        """The number of the moment after an event."""
        return 1 + sum(event[0] != "open" for event in self.events[:at])

    def syncs(self):
        return [at for at, event in enumerate(self.events) if event[0] == "sync"]

    def needless(self, at):
        """Why nothing shows where the sync of this number is left out, or nothing."""
        is_first, is_refused = at == self.syncs()[0], self.use.reply.startswith(b"refused ")
        if is_refused and not is_first:
            return REFUSED
        if is_first and not is_refused and len(self.syncs()) > 1 and ("remove", self.generation()) not in self.events:
            return SAFE
        disk = Disk(self.folder)
        for event in self.killed:
            disk.do(*event)
        for event in self.events[:at]:
            disk.do(*event)
        node = disk.handles[self.events[at][1]]
        return EMPTY if isinstance(node, File) and not node.content else None

    def generation(self):
        """The folder of the generation that was the current one before the switch before."""
        return (next(iter(self.states)) or b"").decode().strip() if self.is_killed else ""

    def state(self, shapes, number, told):
        """The state that a look at a shape has to show: that which its `current` names, which is none before those of the steps that
        were told."""
        current, states = shapes.at(number, "current"), list(self.states)
        possible = states[states.index(self.steps[told]) :] if told else states
        return current if current in possible else possible[-1]


def current_of(store):
    current = store / "current"
    return current.read_bytes() if current.exists() else None


def killed(events):
    """The calls of a command that was killed right after it switched."""
    switched = max(at for at, event in enumerate(events) if event[0] == "rename")
    return events[: switched + 1]


def folders(story, shapes, draws, seed):
    """Each shape that a stop may leave, with how many steps were told by then, and the moment when it comes first."""
    found, rng = {}, random.Random(seed)
    for moment in story.moments():
        for number in sorted(moment.disk.left(shapes, draws, rng)):
            found.setdefault((number, moment.told), moment.after)
    return found


def left_out(story, shapes, good, at, draws, seed):
    """Whether a look finds something where the sync of this number is left out, and how many folders were looked at. Those that
    stops leave anyway are known to be good. The last moments come first, since in them the least else isn't durable."""
    fresh, rng = {}, random.Random(seed)
    for number, moment in enumerate(story.moments(at)):
        left = moment.disk.left(shapes, draws, rng) if number >= story.number(at) else ()
        fresh.update(((shape, moment.told), number) for shape in left if (shape, moment.told) not in good)
    keys = sorted(fresh, key=lambda key: (-fresh[key], key))
    for start in range(0, len(keys), FEW):
        if looked(story, shapes, keys[start : start + FEW]):
            return True, min(start + FEW, len(keys))
    return False, len(keys)


def lines_of(use):
    """The lines of a batch that runs what a look runs."""
    for command in use.commands:
        yield use.source if command == "batch" else f"{command}\n".encode()


def looked(story, shapes, batch):
    """Builds folders, and gives what was other than it had to be, by the shape and how many steps were told by then."""
    failed = {}
    for number, told in batch:
        folder = story.room.folder / "stopped"
        shapes.build(number, folder)
        try:
            if why := wrong(story, folder, story.state(shapes, number, told)):
                failed[number, told] = why
        finally:
            shutil.rmtree(folder)
    return failed


def wrong(story, folder, state):
    """What is wrong with a store folder in which this state has to stand. One process runs all commands, each of which by itself wrote
    what the state has."""
    words = [story.room.place.program, folder, story.room.place.depot, "batch"]
    ended = subprocess.run(words, input=b"".join(lines_of(story.use)), capture_output=True, timeout=SECONDS)
    looks = story.states[state]
    wanted = b"".join(written for written, _ in looks)
    if (ended.stdout, ended.returncode) != (wanted, 0):
        return f"a look ends with {ended.returncode} and {shortened(differing(ended.stdout, wanted))}"
    return f"at the end are left over {', '.join(left)}" if (left := stray(folder)) else None


def differing(found, wanted):
    """Two texts from the line on in which they differ."""
    at = next((at for at, pair in enumerate(zip(found, wanted)) if pair[0] != pair[1]), min(len(found), len(wanted)))
    start = found.rfind(b"\n", 0, at) + 1
    return found[start:], wanted[start:]
