"""Each request for memory that a command makes is refused once, by a library that is loaded before the one of C."""
import os
import shutil
import subprocess
from pathlib import Path

from scenes.failing import LINES, Failing
from scenes.running import Failed, Skipped, shortened
from scenes.sites import SECONDS, TOLD_SO, Judge, expected, standing

SOURCE = Path(__file__).with_name("refuse.c")
OUT_OF_MEMORY = "hostext: out of memory"
# What a run that publishes tells where it was done and found no memory to count.
UNCOUNTED = b"hostext: couldn't tell how many of these files only their owner may read\n"
# So many requests at most are refused of a use in the short run.
FEW = 12


def library(folder):
    """The library, which is made in this folder."""
    if not shutil.which("cc"):
        raise Skipped("there is no cc")
    made = folder / "refuse.so"
    if not made.exists():
        subprocess.run(["cc", "-O1", "-shared", "-fPIC", "-o", made, SOURCE], check=True)
    return made


class Refused:
    """A program whose requests for memory are counted, or one of which is refused."""

    def __init__(self, folder):
        self.folder, self.library = folder, library(folder)

    def run(self, words, source=b"", **around):
        own = {**os.environ, "LD_PRELOAD": os.fspath(self.library), **around}
        own.pop("HOSTEXT_EXPLAIN", None)
        try:
            ended = subprocess.run(words, env=own, input=source, capture_output=True, timeout=SECONDS)
        except subprocess.TimeoutExpired:
            raise Failed(f"it had not ended after {SECONDS} seconds") from None
        return ended.stdout, ended.stderr, ended.returncode

    def count(self, words, source=b""):
        """How many requests a run makes, and how it ends."""
        file = self.folder / "sizes"
        ended = self.run(words, source, SIZES=os.fspath(file))
        return len(file.read_text().splitlines()), ended

    def refuse(self, number, words, source=b""):
        return self.run(words, source, REFUSED=str(number))


def chosen(count, short):
    """The numbers of the requests that are refused: all, or in the short run a few of them."""
    return range(1, count + 1, -(-count // FEW) if short else 1)


class Refusing(Failing):
    """A command whose requests for memory are refused. Either it ends out of memory, and the line whose reply is not there was not carried
    out; or a device or a stream could not do without, which is told as its fault; or it does without."""

    def __init__(self, room, use):
        self.room, self.use = room, use
        self.states = room.states(use)
        self.words = [room.place.program, room.place.store, room.place.depot, *use.command.split(" ")]
        self.memory = Refused(room.folder)
        room.stored(use.before)
        self.count, (written, told, status) = self.memory.count(self.words, use.source)
        if (written, told, status) != (use.reply, b"", self.done):
            raise Failed(f"{use.title} ends with {status}: {shortened(written)} {shortened(told)}")
        self.seen = set()

    @property
    def done(self):
        return 1 if self.use.reply.startswith(b"refused ") and not self.use.lines else 0

    def refuse(self, number):
        """Refuses a request, and looks at what comes of it; how it ended."""
        self.room.stored(self.use.before)
        written, told, status = self.memory.refuse(number, self.words, self.use.source)
        lines = {**LINES, 7: OUT_OF_MEMORY}
        if status not in (*lines, self.done) or told.decode() != (f"{lines[status]}\n" if status in lines else ""):
            raise Failed(f"it ends with {status} {shortened(told)}")
        self.wrote(written, told, status)
        self.stands(self.left(status, self.use.replied(written)))
        return status

    def wrote(self, written, told, status):
        if status != 7:
            super().wrote(written, told, status)
        elif not self.use.reply.startswith(written) or not (self.use.name == "cat" or self.is_whole(written)):
            raise Failed(f"out of memory, it writes {shortened(written)}")

    def left(self, status, done):
        return [self.states[min(done, len(self.states) - 1)]] if status == 7 else super().left(status, done)


class RefusingRun:
    """The same of a run that publishes, which may have switched when it is out of memory: its line is made after that."""

    def __init__(self, yard, run):
        self.yard, self.run, self.judge = yard, run, Judge(yard, run)
        self.memory = Refused(yard.folder)
        yard.lay(run)
        self.count, ended = self.memory.count(yard.words(run))
        expected(ended, (run.reply, b"", int(run.is_refused)))
        self.seen = set()

    def refuse(self, number):
        self.yard.lay(self.run)
        written, told, status = self.memory.refuse(number, self.yard.words(self.run))
        lines = {**TOLD_SO, 7: OUT_OF_MEMORY}
        if status not in lines:
            expected((written, told.replace(UNCOUNTED, b"", 1), status), (self.run.reply, b"", int(self.run.is_refused)))
        elif told.decode() != f"{lines[status]}\n" or (written and not (status == 4 and self.run.reply.startswith(written))):
            raise Failed(f"it ends with {status} {shortened(told)}, and writes {shortened(written)}")
        if standing(self.yard.place.store) != self.yard.store:
            raise Failed("the store is other than before")
        self.stands(status)
        return status

    def stands(self, status):
        found = standing(self.yard.out)
        key = frozenset(found.items()), status in (0, 4)
        if key not in self.seen:
            self.seen.add(key)
            if wrong := self.judge.tells(self.yard.out, status in (0, 4)):
                raise Failed(wrong)
