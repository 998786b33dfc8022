"""What tests/power-cuts rests on: which images a cut makes of a record, which states it may leave, and that nothing stays of a run, however
it ends."""
import contextlib
import os
import random
import signal
import subprocess
import tempfile
import time
from pathlib import Path

from scenes.cutting import Beginning, Told
from scenes.devices import become_nobody
from scenes.mounting import why_not
from scenes.recording import HEAD, PIECE, Images, Record
from scenes.running import SECONDS, TOP, Failed, Skipped, expect, named, shortened
from scenes.stores import ROOM

TEST = TOP / "tests/power-cuts"
SIZE = 8 * PIECE
# Writes, each by where it begins and its bytes, and flushes, each by how many events it covers. The third write isn't answered when the
# second flush is asked for.
EVENTS = [(0, b"a" * PIECE), (PIECE, b"b" * PIECE), 2, (0, b"c" * 2 * PIECE), 3, (2 * PIECE + 512, b"d" * PIECE)]


def record_of(events, path):
    """A record as the recorder writes it."""
    with open(path, "wb") as file:
        for event in events:
            file.write(HEAD.pack(1, event, 0) if isinstance(event, int) else HEAD.pack(0, event[0], len(event[1])) + event[1])
    return Record(path)


def images_of(place, way, folder):
    """The images of forty draws."""
    record = record_of(EVENTS, folder / "record")
    (folder / "base").write_bytes(bytes(SIZE))
    found = set()
    for seed in range(40):
        images = Images(folder / "base", record, folder)
        found.add(images.cut(place, way, random.Random(seed)).read_bytes())
    return found


def filled(*parts):
    return b"".join(parts).ljust(SIZE, b"\0")


def same(what, found, wanted):
    if found != wanted:
        raise Failed(f"{what} are {shortened(found)}, and not {shortened(wanted)}")


def a_cut_keeps_what_a_flush_covers(_program):
    a, b, c = (letter * PIECE for letter in (b"a", b"b", b"c"))
    rows = [
        *((0, "whole", {filled()}), (2, "whole", {filled(a, b)}), (2, "lost", {filled(), filled(a), filled(bytes(PIECE), b), filled(a, b)})),
        *((3, "lost", {filled(a, b)}), (4, "whole", {filled(c, c)}), (4, "lost", {filled(a, b), filled(c, c)})),
        *((5, "lost", {filled(a, b), filled(c, c)}), (5, "torn", {filled(a, b), filled(a, c), filled(c, b), filled(c, c)})),
    ]
    with tempfile.TemporaryDirectory(dir=ROOM) as folder:
        for place, way, wanted in rows:
            same(f"the images after {place} events, {way},", images_of(place, way, Path(folder)), wanted)


def a_write_is_torn_at_borders_of_4_kib(_program):
    with tempfile.TemporaryDirectory(dir=ROOM) as folder:
        found = {image[2 * PIECE :] for image in images_of(6, "torn", Path(folder))}
    first, last = bytes(512) + b"d" * (PIECE - 512), b"d" * 512
    wanted = {bytes(PIECE), first, bytes(PIECE) + last, first + last}
    same("the ends of torn images", found, {end.ljust(SIZE - 2 * PIECE, b"\0") for end in wanted})


def a_state_is_acknowledged_or_begun(_program):
    """Commands that are begun and acknowledged after these counts of events, the last two by one batch; then a disk on which states 3 to 5
    may stand, of which the fourth was found."""
    new, again = Beginning(None, 0, 0, 0), Beginning(None, 3, 5, 1)
    rows = [
        *((new, 0, 0, (0, 0)), (new, 0, 10, (0, 0)), (new, 0, 11, (0, 1)), (new, 0, 20, (1, 1)), (new, 0, 21, (1, 3)), (new, 0, 30, (2, 3)), (new, 0, 99, (3, 3))),
        *((again, 4, 0, (3, 5)), (again, 4, 11, (3, 5)), (again, 4, 20, (5, 5)), (again, 4, 21, (5, 7)), (again, 4, 99, (7, 7))),
    ]
    for beginning, first, place, wanted in rows:
        told = Told(first)
        told.begun, told.acknowledged = [10, 20, 20], [20, 30, 40]
        same(f"the states after {place} events", told.states(place, beginning), wanted)


def backing():
    """The files of loop devices. One that goes meanwhile has none."""
    for path in Path("/sys/block").glob("loop*/loop/backing_file"):
        with contextlib.suppress(OSError):
            yield path.read_text()


def until(what, is_so):
    late = time.monotonic() + SECONDS / 2
    while not is_so():
        if time.monotonic() > late:
            raise Failed(f"after {SECONDS / 2:.0f} seconds {what}")
        time.sleep(0.02)


def stands(folder):
    """Whether a loop device stands on a file below a folder."""
    return any(folder in path for path in backing())


def begun(folder):
    words = [TEST, "--short", "--jobs", "1", "--file-system", "ext4"]
    return subprocess.Popen(words, env={**os.environ, "TMPDIR": folder}, stdout=subprocess.PIPE, start_new_session=True)


def an_end_by_a_signal_leaves_nothing(_program):
    if reason := why_not():
        raise Skipped(reason)
    with tempfile.TemporaryDirectory() as folder:
        signals = {os.fspath(Path(folder, number.name)): number for number in (signal.SIGINT, signal.SIGTERM, signal.SIGKILL)}
        for place in signals:
            os.mkdir(place)
        runs = {place: begun(place) for place in signals}
        try:
            for place, run in runs.items():
                ends_without_a_trace(run, signals[place], place)
        finally:
            for run in runs.values():
                run.kill()
                run.communicate()


def ends_without_a_trace(run, number, folder):
    """Ends a run once a file system of it is mounted."""
    until("nothing is mounted", lambda: stands(folder) or run.poll() is not None)
    if run.poll() is not None:
        raise Skipped(run.stdout.readline().decode().rstrip().removeprefix("skipped: "))
    run.send_signal(number)
    run.communicate(timeout=SECONDS)
    if run.returncode != (-number if number == signal.SIGKILL else 128 + number):
        raise Failed(f"at signal {number} it ends with {run.returncode}")
    until(f"signal {number} leaves a loop device", lambda: not stands(folder))
    left = os.listdir(folder)
    if left and number != signal.SIGKILL or any(os.listdir(f"{folder}/{name}") for name in left):
        raise Failed(f"signal {number} leaves {left}")


def who_may_not_mount_is_told_so(_program):
    if os.geteuid():
        raise Skipped("only root can become another user")
    ended = subprocess.run([TEST, "--short"], preexec_fn=become_nobody, capture_output=True)
    lines = ended.stdout.decode().splitlines()
    expect((lines[0], ended.stderr, ended.returncode), ("skipped: power cuts on ext4: only root may mount", b"", 0))
    if not lines[-1].startswith("0 passed, 0 failed, 9 skipped: "):
        raise Failed(f"it ends with {lines[-1]}")


scenes = named(
    *(a_cut_keeps_what_a_flush_covers, a_write_is_torn_at_borders_of_4_kib, a_state_is_acknowledged_or_begun, an_end_by_a_signal_leaves_nothing),
    who_may_not_mount_is_told_so,
)
