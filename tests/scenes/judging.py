"""Runs the program on hostile inputs and judges what came of it. No run may crash, hang or take much memory, and what it says on
standard error has to be well formed, whatever the input is."""
import os
import re
import shutil
import subprocess
import sys
from pathlib import Path
from typing import NamedTuple

from scenes.running import Failed, shortened
from scenes.stores import Place

STARTER = Path(__file__).with_name("starter.py")
# The time of the processor that a run may take, and that of the clock, which other processes take too.
SECONDS, CLOCK_SECONDS = 2, 20
# The memory that it may take: so many bytes, and so many times its input.
LEAST_BYTES, TIMES = 32 << 20, 20
HOME, GENERATION = re.compile(rb"^f [0-9:]+ [0-9]+ [0-9a-f]{64} ([0-9]+) [0-9a-f]{5} ", re.M), re.compile(r"g-[1-9][0-9]*")
REASON = rb"(hostext: [^\x00-\x1f\x7f]+\n)?"
# What helps after a refusal of a line of a batch.
HELP = rb"(?:hostext: line [1-9][0-9]*: [^\x00-\x1f\x7f]+\n)*"
TOLD = {
    0: rb"",
    1: REASON,
    2: rb"hostext: usage ([1-9][0-9]*)\n" + REASON,
    3: rb"hostext: read fault\n",
    4: rb"hostext: write fault\n",
    5: rb"hostext: disk fault\n" + REASON,
    6: rb"hostext: depot fault\n" + REASON,
    7: rb"hostext: out of memory\n",
    8: rb"hostext: bad store\n" + REASON,
    9: rb"hostext: unfinished\n" + REASON,
    10: rb"hostext: input too long\n",
}
TOLD = {status: HELP + told for status, told in TOLD.items()}


class Ended(NamedTuple):
    written: bytes
    told: bytes
    status: int


def stands(folder, above=""):
    """Each path below a folder, with the bytes of its file, or nothing for a folder."""
    found = {}
    with os.scandir(folder) as entries:
        for entry in entries:
            path = f"{above}{entry.name}"
            if entry.is_dir(follow_symlinks=False):
                found[path] = None
                found |= stands(entry.path, f"{path}/")
            else:
                with open(entry.path, "rb") as file:
                    found[path] = file.read()
    return found


def put(folder, files):
    """Makes a folder of these paths anew."""
    shutil.rmtree(folder, ignore_errors=True)
    folder.mkdir()
    for path in sorted(files):
        if files[path] is None:
            (folder / path).mkdir()
        else:
            (folder / path).write_bytes(files[path])


class Bench(Place):
    """A store, a depot and the program that is tried on them. `kept` is what the store is put back to."""

    def __init__(self, program, folder, clock_seconds=CLOCK_SECONDS):
        super().__init__(program, folder)
        self.streams = [Path(folder, name) for name in ("input", "output", "error")]
        command = [sys.executable, "-I", "-S", STARTER, str(clock_seconds), *self.streams]
        self.starter = subprocess.Popen(command, stdin=subprocess.PIPE, stdout=subprocess.PIPE, text=True)
        self.kept = {}

    def __enter__(self):
        return self

    def __exit__(self, *_):
        self.starter.stdin.close()
        self.starter.wait()
        self.starter.stdout.close()

    def make(self, *commands):
        """Makes the store that inputs are tried on, by commands that have to be done."""
        for command in commands:
            ended = self.tried(command.split(" "))
            if ended.status:
                raise Failed(f"`{command}` ends with {ended}")
        self.kept = stands(self.store)

    def tried(self, words, source=b"", size=0):
        """What comes of the program with these words after STORE and DEPOT, where its input has so many bytes."""
        self.streams[0].write_bytes(source)
        command = b"\x00".join(os.fsencode(word) for word in (self.program, self.store, self.depot, *words))
        print(command.hex(), file=self.starter.stdin, flush=True)
        status = checked_use(self.starter.stdout.readline(), max(size, len(source)))
        return check_end(Ended(self.streams[1].read_bytes(), self.streams[2].read_bytes(), status))

    def batch(self, lines, size=0):
        """What comes of a batch of these lines."""
        return self.tried(["batch"], b"".join(line + b"\n" for line in lines), size)

    def left_overs(self, found):
        """Names of the store that are left-overs: `next`, and generations that are neither the current one nor that of a home."""
        index = self.kept[f"{self.kept['current'].decode().strip()}/index"]
        needed = {self.kept["current"].strip(), *(b"g-" + number for number in HOME.findall(index))}
        names = {path.partition("/")[0] for path in found}
        return {name for name in names if name == "next" or (GENERATION.fullmatch(name) and name.encode() not in needed)}

    def expect_kept(self, begun=False, **changed):
        """That the store is byte for byte what it was, but for these files, which were put there. Where a change was begun, left-overs
        of before may have gone, and others may be there."""
        found, wanted = stands(self.store), {**self.kept, **changed}
        passed_over = self.left_overs({**found, **wanted}) if begun else ()
        other = [path for path in {*found, *wanted} if found.get(path, 0) != wanted.get(path, 0) and path.partition("/")[0] not in passed_over]
        if other:
            raise Failed(f"the store is another than before at {', '.join(sorted(other)[:5])}")

    def restore(self):
        put(self.store, self.kept)


def checked_use(line, size):
    """The status of what was started, which ended in time and took little memory."""
    if line == "late\n":
        raise Failed("it had not ended in time, and was killed")
    if not line:
        raise RuntimeError("what starts the program has ended")
    status, seconds, peak = line.split()
    if float(seconds) > SECONDS:
        raise Failed(f"it took {seconds} seconds of the processor")
    if int(peak) << 10 > LEAST_BYTES + TIMES * size:
        raise Failed(f"it took {int(peak) << 10:,} bytes of memory, of an input of {size:,}")
    return int(status)


def check_end(ended):
    if ended.status not in TOLD:
        raise Failed(f"it ended with {ended.status}, and wrote {shortened(ended.told)}")
    if not re.fullmatch(TOLD[ended.status], ended.told):
        raise Failed(f"with {ended.status} it wrote {shortened(ended.told)} on standard error")
    return ended


def expect(ended, written, status=0):
    """That it wrote this and nothing else, and ended so."""
    if (ended.written, ended.status) == (written, status):
        return
    at = len(os.path.commonprefix([ended.written, written]))
    raise Failed(f"it ended with {ended.status} and wrote {shortened(ended.written[at:])} after {at} bytes, and not {status} and {shortened(written[at:])}")
