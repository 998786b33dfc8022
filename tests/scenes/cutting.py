"""Cuts of power, one round: a random list of commands runs on a file system whose writes are recorded, and the images that cuts leave
of it are mounted and looked at."""
import collections
import ctypes
import itertools
import os
import random
import select
import shutil
import signal
import subprocess
import time
from contextlib import contextmanager
from dataclasses import dataclass
from pathlib import Path

from scenes.failing import stray
from scenes.mounting import LIBC, copied, lacks, mounted
from scenes.recording import WAYS, Images, Record, drawn_way, recorded
from scenes.running import SECONDS, Failed, Skipped, shortened
from scenes.wandering import PUBLISHED, Host, Story

MIB = 1 << 20


@dataclass(frozen=True)
class FileSystem:
    """A file system: its name here and its type, how one is made, with which options it is mounted, and the size of its disk."""

    name: str
    kind: str
    making: tuple
    options: str
    size: int

    def make(self, path):
        with open(path, "wb") as file:
            file.truncate(self.size)
        ended = subprocess.run([*self.making, path], stdin=subprocess.DEVNULL, capture_output=True, timeout=SECONDS)
        if ended.returncode:
            raise Failed(f"{self.making[0]} ends with {ended.returncode}: {shortened(ended.stderr)}")

    def is_known(self):
        """Whether the running system has it."""
        return any(line.split()[-1] == self.kind for line in Path("/proc/filesystems").read_text().splitlines())

    def why_not(self):
        """What is missing for it, or nothing."""
        if missing := lacks(self.making[0], "fallocate"):
            return f"there is no {missing}"
        if not self.is_known() and shutil.which("modprobe"):
            subprocess.run(["modprobe", "-q", self.kind])
        return None if self.is_known() else f"the system has no {self.kind}"


EXT4 = "mkfs.ext4", "-q", "-F", "-b", "4096", "-J", "size=4", "-E", "lazy_itable_init=0,lazy_journal_init=0,nodiscard"
FILE_SYSTEMS = {
    one.name: one
    for one in (
        FileSystem("ext4", "ext4", EXT4, "data=ordered", 48 * MIB),
        FileSystem("xfs", "xfs", ("mkfs.xfs", "-q", "-K"), "", 304 * MIB),
        FileSystem("btrfs", "btrfs", ("mkfs.btrfs", "-q", "--nodiscard"), "", 128 * MIB),
        FileSystem("ext4-writeback", "ext4", EXT4, "data=writeback", 48 * MIB),
        FileSystem("ext4-journal", "ext4", EXT4, "data=journal", 48 * MIB),
    )
}
USUAL = "ext4", "xfs", "btrfs"
# What is left out of the programs' syncs in a control.
CONTROLS = {"all syncs": "all", "the last sync of the store folder": "last"}
# Under which images are counted, too, whose record began with another one.
AGAIN = "after another cut"
# How many commands are recorded, how many a list has beside them, and how many of these run on a disk that a cut left; how deep such
# disks go; and how often a host is set up first.
COMMANDS, MORE, MOST_AGAIN, DEEPEST, SET_UP = 16, 8, 4, 2, 0.7
# So many commands run together, by turns at random: one by itself, more as a batch.
TOGETHER = 1, 1, 5


@dataclass
class Beginning:
    """The disk with which a recording begins: its file, which of the states may stand there, and how many cuts came before."""

    base: Path
    least: int
    most: int
    cuts: int


# Beside the commands.


def disturb(folder, rng):
    """Writes, syncs, renames and removes files, and syncs the whole file system at times."""
    handle = os.open(folder, os.O_RDONLY)
    while True:
        path, what = folder / f"n{rng.randrange(6)}", rng.randrange(8)
        if what < 5:
            file = os.open(path, os.O_RDWR | os.O_CREAT, 0o600)
            os.pwrite(file, rng.randbytes(rng.randrange(1, 9_000)), rng.randrange(40_000))
            if what < 2:
                os.fsync(file)
            os.close(file)
        elif what == 5 and path.exists():
            path.rename(folder / f"n{rng.randrange(6)}")
        elif what == 6:
            path.unlink(missing_ok=True)
        elif what == 7:
            LIBC.syncfs(ctypes.c_int(handle))
        time.sleep(rng.uniform(0, 0.02))


@contextmanager
def disturbed(folder, rng):
    """Another process writes there meanwhile."""
    folder.mkdir(exist_ok=True)
    child = os.fork()
    if not child:
        try:
            disturb(folder, rng)
        finally:
            os._exit(1)
    try:
        yield
    finally:
        os.kill(child, signal.SIGKILL)
        status = os.waitpid(child, 0)[1]
    if os.waitstatus_to_exitcode(status) != -signal.SIGKILL:
        raise Failed("the process beside the commands failed")


# The recording.


def piece_of(child):
    """What a process writes next, or nothing at its end. One that is too slow is ended."""
    if not select.select([child.stdout], [], [], SECONDS)[0]:
        child.kill()
        raise Failed(f"a batch had written nothing after {SECONDS} seconds")
    return os.read(child.stdout.fileno(), 1 << 16)


class Told:
    """At which count of events each command was begun, and acknowledged."""

    def __init__(self, first):
        self.first, self.begun, self.acknowledged, self.end = first, [], [], 0

    def states(self, place, beginning):
        """Between which states the one stands that a cut after so many events leaves."""
        done = sum(at <= place for at in self.acknowledged)
        begun = sum(at < place for at in self.begun)
        least = self.first + done if done else min(beginning.least, self.first)
        return least, max(least, self.first + begun, 0 if done else beginning.most)


class Round:
    """A list of commands, recorded on one file system, and its images."""

    def __init__(self, system, tools, programs, folder, name, control=None, keep=None):
        self.system, self.folder, self.name, self.keep, self.rng = system, folder, name, keep, random.Random(name)
        self.recorder, self.library = tools
        self.programs, self.around = programs, {"LD_PRELOAD": os.fspath(self.library), "UNSYNCED": CONTROLS[control]} if control else {}
        memory = folder / "memory"
        memory.mkdir()
        self.story = Story(programs, memory, self.rng, COMMANDS + MORE, self.rng.random() < SET_UP)
        self.at, self.counts = folder / "mounted", collections.Counter()
        self.at.mkdir()

    def host(self, around=None):
        return Host(self.programs, self.story.depot, self.at, around)

    def beginning(self):
        """A new disk, which has the folders, and the host where one is set up."""
        base = self.folder / "new"
        self.system.make(base)
        try:
            with mounted(base, self.at, self.system.kind, self.system.options):
                for name in "store", "out":
                    (self.at / name).mkdir()
                for command, reply in zip(self.story.set_up, self.story.replies):
                    self.replied(command, self.host().run(command), reply)
        except OSError as error:
            raise Skipped(f"{self.system.name} isn't mounted here: {error}") from None
        subprocess.run(["fallocate", "--dig-holes", base], check=True)
        return Beginning(base, len(self.story.set_up), len(self.story.set_up), 0)

    def state_found(self, host, least, most):
        """Which state stands, of those that may."""
        try:
            found = host.state()
        except OSError as error:
            raise Failed(f"it can't be read: {error}") from None
        for number in range(most, least - 1, -1):
            if self.story.states[number].is_in(found):
                return number
        known = [number for number, state in enumerate(self.story.states) if state.is_in(found)]
        told = self.story.told(known[-1]) if known else f"none: {found.current} {shortened(found.look)}, out {sorted(found.out)}"
        raise Failed(f"it has {told}, and is to have one from {self.story.told(least)}, to {self.story.told(most)}")

    def record(self, beginning, folder):
        """Runs commands from the state on that stands; gives the record and what was told when."""
        with recorded(self.recorder, beginning.base, folder) as recorder:
            with mounted(recorder.disk, self.at, self.system.kind, self.system.options, is_direct=True):
                told = Told(self.state_found(self.host(), beginning.least, beginning.most))
                count = MOST_AGAIN if beginning.cuts else COMMANDS
                with disturbed(self.at / "noise", self.rng):
                    self.run(range(told.first, min(told.first + count, len(self.story.commands) - 1)), recorder, told)
                told.end = recorder.count()
        record = Record(recorder.record)
        recorder.record.unlink()
        return record, told

    def run(self, numbers, recorder, told):
        """Runs commands: each by itself, or several as a batch."""
        waiting = list(numbers)
        while waiting:
            lines = list(itertools.takewhile(self.may_be_a_line, waiting[: self.rng.choice(TOGETHER)]))
            if len(lines) > 1:
                self.run_batch(lines, recorder, told)
            else:
                self.run_one(waiting[0], recorder, told)
            waiting = waiting[max(1, len(lines)) :]

    def may_be_a_line(self, number):
        return not self.story.commands[number].startswith(PUBLISHED)

    def run_one(self, number, recorder, told):
        told.begun.append(recorder.count())
        ended = self.host(self.around).run(self.story.commands[number])
        told.acknowledged.append(recorder.count())
        self.replied(self.story.commands[number], ended, self.story.replies[number])

    def run_batch(self, numbers, recorder, told):
        """A line is acknowledged when its reply was read, and all of them are begun when the first is."""
        host, wanted = self.host(self.around), [self.story.replies[number][0] for number in numbers]
        source = "".join(f"{self.story.commands[number]}\n" for number in numbers).encode()
        told.begun += [recorder.count()] * len(numbers)
        child = subprocess.Popen(host.words("batch"), stdin=subprocess.PIPE, stdout=subprocess.PIPE, stderr=subprocess.STDOUT, env=host.around)
        child.stdin.write(source)
        child.stdin.close()
        written, done = b"", 0
        while piece := piece_of(child):
            count, written = recorder.count(), written + piece
            while done < len(numbers) and len(written) >= len(b"".join(wanted[: done + 1])):
                told.acknowledged.append(count)
                done += 1
        child.stdout.close()
        self.replied("batch", (written, child.wait(SECONDS)), (b"".join(wanted), 0))

    def replied(self, command, found, wanted):
        if found != wanted:
            raise Failed(f"`{command}` ends with {shortened(found)}, and not {shortened(wanted)}")

    # Images.

    def places(self, told, beginning, count):
        """After how many events the power is cut: anywhere, or right when a command was acknowledged; and where a cut came before, half of
        them before the first command is."""
        first, rising = told.begun[0], []
        for _ in range(count):
            if beginning.cuts and self.rng.random() < 0.5:
                rising.append(self.rng.randint(0, told.acknowledged[0]))
            elif self.rng.random() < 0.25:
                rising.append(self.rng.choice(told.acknowledged))
            else:
                rising.append(self.rng.randint(first, told.end))
        return sorted(rising)

    def images(self, beginning, count, is_enough=lambda wrong: False):
        """Records a list, and looks at so many images of it; what was told of those that are wrong, and the disks that two others are."""
        folder, wrong, coming = self.folder / "recording", [], []
        folder.mkdir()
        record, told = self.record(beginning, folder)
        made = Images(beginning.base, record, folder)
        again = self.rng.sample(range(count), min(2, count)) if beginning.cuts < DEEPEST else ()
        for number, place in enumerate(self.places(told, beginning, count)):
            way, (least, most) = drawn_way(self.rng), told.states(place, beginning)
            image = made.cut(place, way, self.rng)
            self.counts[way] += 1
            self.counts[AGAIN] += beginning.cuts > 0
            kept = self.folder / f"image-{self.looked()}"
            if number in again or self.keep:
                copied(image, kept)
            if why := self.wrong(image, least, most):
                wrong.append(f"{kept.name}, cut {beginning.cuts + 1} after {place} of {told.end} events, {way}: {why}")
                if self.keep:
                    copied(kept, self.keep / f"{self.name}-{kept.name}")
            elif number in again:
                coming.append(Beginning(kept, least, most, beginning.cuts + 1))
                continue
            kept.unlink(missing_ok=True)
            if is_enough(wrong):
                break
        shutil.rmtree(folder)
        return wrong, coming

    def looked(self):
        """At how many images was looked."""
        return sum(self.counts[way] for way in WAYS)

    def wrong(self, image, least, most):
        """What is wrong with an image, or nothing."""
        try:
            self.look(image, least, most)
        except (Failed, OSError) as reason:
            return str(reason)
        return None

    def all_images(self, count):
        """Looks at so many images, two of five on disks that a cut left; what was told of those that are wrong."""
        wrong, waiting = self.images(self.beginning(), count - 2 * (count // 5))
        while waiting and self.looked() < count:
            more, coming = self.images(waiting.pop(), count // 5)
            wrong, waiting = wrong + more, waiting + coming
        return wrong

    def look(self, image, least, most):
        """Mounts an image, and looks at it; the next command does its work on it."""
        with mounted(image, self.at, self.system.kind, self.system.options):
            self.goes_on(self.state_found(self.host(), least, most))

    def goes_on(self, number):
        command, host = self.story.commands[number], self.host()
        ended = host.run(command)
        if ended != self.story.replies[number]:
            raise Failed(f"in {self.story.told(number)}, `{command}` ends with {shortened(ended)}, and not {shortened(self.story.replies[number])}")
        self.state_found(host, number + 1, number + 1)
        befores = self.story.states[number].current, self.story.states[number + 1].current
        if befores[0] and befores[0] != befores[1] and (found := stray(host.store)):
            raise Failed(f"after `{command}` are left over {', '.join(found)}")
