"""Records what a file system writes, and when it flushes, on a loop device over the file of tests/scenes/recorder.c; and makes of a
record the images that a cut of power may leave.

A cut leaves all writes that an answered flush covers. Of the later ones it leaves all (`whole`), or some of them, whichever came first
(`lost`), or some of their pieces of 4 KiB (`torn`).
"""
import mmap
import os
import shutil
import struct
import subprocess
import time
from contextlib import contextmanager
from pathlib import Path

from scenes.mounting import copied, unmount
from scenes.running import SECONDS, Failed, Skipped, shortened

SOURCES = Path(__file__).parent
HEADER = Path("/usr/include/fuse3/fuse_lowlevel.h")
WRITE, HEAD = 0, struct.Struct("<3Q")
PIECE = 4096
WAYS = {"whole": 3, "lost": 5, "torn": 2}
# How many of the writes that may be lost stay.
SHARES = 0.1, 0.5, 0.9


def compiled(folder):
    """The recorder, and the library that leaves out syncs, as they were compiled in a folder."""
    if not shutil.which("cc"):
        raise Skipped("there is no cc")
    if not HEADER.exists():
        raise Skipped(f"there is no {HEADER}, which the package libfuse3-dev has")
    recorder, library = folder / "recorder", folder / "unsynced.so"
    for words in (
        [SOURCES / "recorder.c", "-D_FILE_OFFSET_BITS=64", f"-I{HEADER.parent}", "-o", recorder, "-lfuse3"],
        [SOURCES / "unsynced.c", "-shared", "-fPIC", "-o", library, "-ldl"],
    ):
        ended = subprocess.run(["cc", "-O1", *words], capture_output=True)
        if ended.returncode:
            raise Failed(f"{words[0].name} isn't compiled: {shortened(ended.stderr)}")
    return recorder, library


class Recorder:
    """A recorder that runs. `disk` is its file, which begins with the bytes of a base."""

    def __init__(self, program, base, folder):
        self.base, self.record, self.at, counter = base, folder / "record", folder / "recorder", folder / "count"
        self.at.mkdir()
        self.disk = self.at / "disk"
        counter.write_bytes(bytes(8))
        with open(counter, "r+b") as file:
            self.counter = mmap.mmap(file.fileno(), 8)
        self.process = subprocess.Popen([program, base, self.record, counter, self.at], stdin=subprocess.DEVNULL)
        late = time.monotonic() + SECONDS
        while not self.disk.exists():
            if self.process.poll() is not None or time.monotonic() > late:
                self.process.kill()
                raise Failed(f"the recorder doesn't begin, and ends with {self.process.wait()}")
            time.sleep(0.002)

    def count(self):
        """How many events were recorded so far."""
        return int.from_bytes(self.counter[:8], "little")

    def end(self):
        unmount(self.at)
        if self.process.wait(SECONDS):
            raise Failed(f"the recorder ends with {self.process.returncode}")


@contextmanager
def recorded(program, base, folder):
    recorder = Recorder(program, base, folder)
    try:
        yield recorder
    finally:
        recorder.end()


class Record:
    """The events of a recorder: of each write where it begins and its bytes, and of each flush how many events it covers."""

    def __init__(self, path):
        self.bytes = memoryview(path.read_bytes())
        self.writes, self.covered, at, number, covered = {}, [0], 0, 0, 0
        while at < len(self.bytes):
            kind, place, size = HEAD.unpack_from(self.bytes, at)
            at += HEAD.size
            if kind == WRITE:
                self.writes[number] = place, self.bytes[at : at + size]
                at += size
            else:
                covered = max(covered, place)
            number += 1
            self.covered.append(covered)

    def between(self, first, end):
        return [self.writes[number] for number in range(first, end) if number in self.writes]


def pieces(place, content):
    """A write in pieces that don't reach over a border of 4 KiB."""
    at = 0
    while at < len(content):
        size = PIECE - (place + at) % PIECE
        yield place + at, content[at : at + size]
        at += size


def left(writes, way, rng):
    """Those writes, or pieces of them, that a cut leaves of the writes that no flush covers."""
    if way == "whole":
        return writes
    share = rng.choice(SHARES)
    loose = [piece for write in writes for piece in pieces(*write)] if way == "torn" else writes
    return [one for one in loose if rng.random() < share]


class Images:
    """The images that cuts leave of a record. Their places come in rising order, and each takes the place of the one before."""

    def __init__(self, base, record, folder):
        self.record, self.firm, self.image, self.done = record, folder / "firm", folder / "image", 0
        copied(base, self.firm)

    def cut(self, place, way, rng):
        """The image that a cut leaves after so many events."""
        covered = self.record.covered[place]
        if covered < self.done:
            raise Failed("the places of cuts don't rise")
        put(self.firm, self.record.between(self.done, covered))
        self.done = covered
        # a loop device may still have the image before
        self.image.unlink(missing_ok=True)
        copied(self.firm, self.image)
        put(self.image, left(self.record.between(covered, place), way, rng))
        return self.image


def put(path, writes):
    file = os.open(path, os.O_WRONLY | os.O_CLOEXEC)
    try:
        for place, content in writes:
            os.pwrite(file, content, place)
    finally:
        os.close(file)


def drawn_way(rng):
    return rng.choices(list(WAYS), list(WAYS.values()))[0]
