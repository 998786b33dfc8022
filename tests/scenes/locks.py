"""Commands that work on one store at the same time: a change has the store for itself, and readers share it."""
import fcntl
import os
import select
import shutil
import signal
import subprocess
import tempfile
import threading
import time
from contextlib import contextmanager

from scenes.running import ABC, COMPARE, LAYER, SECONDS, Failed, Skipped, expect, named, run, shortened, tree_text
from scenes.stores import DONE, FAULTS, HOST, ROOM, Place, digest, in_a_place
from scenes.uses import SAMPLE

WAITING = b"hostext: waiting for another command on this store\n"
REPLACED = "the folder was replaced while this waited or worked"
# As long as no command takes that doesn't wait.
SOON = 0.3


@contextmanager
def locked(folder, how=fcntl.LOCK_EX):
    """Holds the lock on a folder."""
    handle = os.open(folder, os.O_RDONLY)
    try:
        fcntl.flock(handle, how)
        yield
    finally:
        os.close(handle)


def start(place, *words, **streams):
    """Starts a command over the folders of a place."""
    found = [os.fsencode(word) for word in (place.program, place.store, place.depot, *words)]
    streams = {"stdin": subprocess.DEVNULL, "stdout": subprocess.PIPE, "stderr": subprocess.PIPE, **streams}
    return subprocess.Popen(found, **streams)


def ended(child):
    written, told = child.communicate(timeout=SECONDS)
    return written, told, child.returncode


def waits(child):
    """That a command has not ended soon, and tells that it waits."""
    try:
        child.wait(SOON)
    except subprocess.TimeoutExpired:
        return
    raise Failed(f"it didn't wait: {child.communicate()}")


def only(line, found):
    """That standard error is empty, or that line."""
    if found not in (b"", line):
        raise Failed(f"standard error is {shortened(found)}")


def changes_that_are_started_together_are_all_done(place):
    """Eight imports of different trees, twenty times, while readers look on."""
    names = "abcdefgh"
    texts = {name: tree_text(f"f 644 3 {ABC} {name}") for name in names}
    for name in names:
        place.resource(name, texts[name], {name: b"abc"})
    whole = tree_text(*(line for name in names for line in (f"d 755 {name}", f"f 644 3 {ABC} {name}/{name}")))
    for _ in range(20):
        for path in sorted(place.store.rglob("*"), reverse=True):
            path.rmdir() if path.is_dir() else path.unlink()
        place.expect(("init x86-64 system", DONE))
        going = [start(place, "import-fs", name, f"/{name}") for name in names]
        readers = [threading.Thread(target=reads, args=(place, going, faults := [])) for _ in range(2)]
        for reader in readers:
            reader.start()
        for child in going:
            written, told, status = ended(child)
            only(WAITING, told)
            expect((written, b"", status), (DONE, b"", 0))
        for reader in readers:
            reader.join()
        if faults:
            raise Failed(faults[0])
        place.expect(("tree", whole), ("check", b"ok 8 24\n"))


def reads(place, going, faults):
    """Reads a store until all changes ended: it has to be whole each time."""
    while any(child.returncode is None for child in going) and not faults:
        for words in ("tree", "check"):
            written, told, status = run(place.program, [os.fsencode(word) for word in (place.store, place.depot, words)])
            if status or told not in (b"", WAITING) or not written.startswith((b"hostext-tree 1\n", b"ok ")):
                faults.append(f"`{words}` beside changes ends with {status}: {shortened(written)} {shortened(told)}")


def a_change_waits_for_readers_and_for_another_change(place):
    place.resource("host", HOST, {"usr/a": b""})
    place.expect(("init x86-64 system", DONE))
    for how in fcntl.LOCK_SH, fcntl.LOCK_EX:
        with locked(place.store, how):
            child = start(place, "import-fs", "host", "/")
            waits(child)
        expect(ended(child), (DONE, WAITING, 0))


def a_reader_waits_for_a_change_alone(place):
    place.expect(("init x86-64 system", DONE))
    with locked(place.store, fcntl.LOCK_SH):
        place.expect(("tree", tree_text()), ("check", b"ok 0 0\n"), ("cat /a", b"refused 8 no-entry /a\n"), ("sysext list", b"refused 5 no-host-release\n"))
    for words, written, status in (("tree",), tree_text(), 0), (("check",), b"ok 0 0\n", 0), (("sysext", "status"), b"unmerged\n", 0):
        with locked(place.store):
            child = start(place, *words)
            waits(child)
        expect(ended(child), (written, WAITING, status))


def what_looks_at_no_store_takes_no_lock(place):
    with locked(place.store):
        expect(place.run("tree", "now"), (b"", b"hostext: usage 2\n", 2))
        expect(place.run("compare", "1", "2"), (b"less\n", b"", 0))
        expect(place.run("sample", "1"), (SAMPLE, b"", 0))
        expect(run(place.program, [os.fsencode(place.store), b".", b"layer"], tree_text()), (tree_text(), b"", 0))
        expect(run(place.program, [*COMPARE, b"1", b"1"]), (b"equal\n", b"", 0))
        expect(run(place.program, LAYER, tree_text()), (tree_text(), b"", 0))
        for option in b"--help", b"--version":
            if run(place.program, [option])[2]:
                raise Failed(f"{option} is not done")


def a_holder_that_is_killed_frees_the_lock(place):
    place.expect(("init x86-64 system", DONE))
    with full_pipe() as pipe:
        holder = start(place, "remove", "/nothing", stdout=pipe)
        until_taken(place.store)
        child = start(place, "tree")
        waits(child)
        holder.send_signal(signal.SIGKILL)
        holder.wait()
    expect(ended(child), (tree_text(), WAITING, 0))


@contextmanager
def full_pipe():
    """A pipe that takes nothing more, so that who writes to it stays there."""
    read, write = os.pipe()
    try:
        os.set_blocking(write, False)
        while True:
            os.write(write, b"x" * 4096)
    except BlockingIOError:
        os.set_blocking(write, True)
        yield write
    finally:
        os.close(read)
        os.close(write)


def until_taken(folder):
    """Waits until somebody holds a folder for themselves."""
    deadline = time.monotonic() + SECONDS
    while is_free(folder):
        if time.monotonic() > deadline:
            raise Failed("the command takes no lock")
        time.sleep(0.01)


def is_free(folder):
    """Whether nobody holds a folder for themselves. The kernel's list tells it: with a lock of ours the command would wait for us."""
    place = os.stat(folder).st_ino
    with open("/proc/locks") as held:
        rows = [line.split() for line in held]
    return not any(row[1] == "FLOCK" and row[3] == "WRITE" and row[5].endswith(f":{place}") for row in rows if "->" not in row)


def stores_do_not_wait_for_one_another(place):
    with tempfile.TemporaryDirectory(dir=ROOM) as folder:
        other = Place(place.program, folder)
        with locked(place.store):
            other.expect(("init x86-64 system", DONE), ("tree", tree_text()), ("check", b"ok 0 0\n"))


def without_a_lock_nothing_waits(place):
    around = {**os.environ, "HOSTEXT_LOCK": "no"}
    with locked(place.store):
        for words, written in (("init", "x86-64", "system"), DONE), (("tree",), tree_text()):
            expect(ended(start(place, *words, env=around)), (written, b"", 0))
        child = start(place, "tree", env={**os.environ, "HOSTEXT_LOCK": "yes"})
        waits(child)
    expect(ended(child), (tree_text(), WAITING, 0))


def what_reads_a_reply_may_change_the_store(place):
    """A reader gives its lock back before it writes, and its reply is more than a pipe takes."""
    count = 4_000
    names = [f"{at:04}-{'x' * 60}" for at in range(count)]
    place.resource("many", tree_text(*(f"d 755 {name}" for name in names)))
    place.expect(("init x86-64 system", DONE), ("import-fs many /", DONE))
    script = '"$0" "$1" "$2" tree | (read -r first; read -r kind mode name; "$0" "$1" "$2" remove "/$name"; cat >"$3")'
    rest = place.store.with_name("rest")
    words = ["sh", "-c", script, place.program, place.store, place.depot, rest]
    found = subprocess.run(words, stdin=subprocess.DEVNULL, capture_output=True, timeout=SECONDS)
    expect((found.stdout, found.stderr, found.returncode), (DONE, b"", 0))
    if rest.stat().st_size < 200_000 or rest.read_bytes() != tree_text(*(f"d 755 {name}" for name in names)).split(b"\n", 2)[2]:
        raise Failed("the rest of the reply is not that of before")
    place.expect((f"remove /{names[0]}", f"refused 8 no-entry /{names[0]}\n".encode()), (f"remove /{names[1]}", DONE))


def a_file_that_is_shown_is_held_to_its_end(place):
    content = b"".join(b"%d\n" % at for at in range(100_000))
    place.resource("large", tree_text(f"f 644 {len(content)} {digest(content)} a"), {"a": content})
    place.expect(("init x86-64 system", DONE), ("import-fs large /", DONE))
    shows = start(place, "cat", "/a")
    select.select([shows.stdout], [], [], SECONDS)
    child = start(place, "remove", "/a")
    waits(child)
    expect(ended(shows), (content, b"", 0))
    expect(ended(child), (DONE, WAITING, 0))


def exchanged(folder):
    """A copy takes the place of a folder, which goes on under another name, as where somebody makes a backup."""
    old = folder.with_name("old")
    folder.rename(old)
    shutil.copytree(old, folder)
    return old


def who_waited_for_a_folder_that_was_replaced_changes_nothing(place):
    place.resource("host", HOST, {"usr/a": b""})
    place.expect(("init x86-64 system", DONE))
    around = {**os.environ, "HOSTEXT_EXPLAIN": "yes"}
    for words in ("import-fs", "host", "/"), ("tree",):
        with locked(place.store):
            child = start(place, *words, env=around)
            waits(child)
            old = exchanged(place.store)
        before = place.stands()
        written, told, status = ended(child)
        why = os.fsencode(f"hostext: lock {place.store}: {REPLACED}\n")
        expect((written, told, status), (b"", WAITING + FAULTS[5] + why, 5))
        place.holds(before)
        shutil.rmtree(old)


def a_folder_that_is_replaced_while_a_change_is_written_is_not_switched(place):
    """Each sync takes its time, so that the folder is exchanged after the lock was taken and before the rename."""
    if not shutil.which("strace"):
        raise Skipped("there is no strace")
    place.resource("host", HOST, {"usr/a": b""})
    place.expect(("init x86-64 system", DONE))
    words = ["strace", "-f", "-o", "/dev/null", "-e", "trace=fsync,fdatasync", "-e", "inject=fsync,fdatasync:delay_enter=300000"]
    words += [place.program, place.store, place.depot, "import-fs", "host", "/"]
    child = subprocess.Popen(words, stdin=subprocess.DEVNULL, stdout=subprocess.PIPE, stderr=subprocess.PIPE)
    until_taken(place.store)
    exchanged(place.store)
    written, told, status = ended(child)
    expect((written, told, status), (b"", FAULTS[5], 5))
    if (place.store / "current").read_bytes() != b"g-1\n":
        raise Failed("what stands there now was switched")
    place.expect(("tree", tree_text()))


CALLS = [
    *(who_waited_for_a_folder_that_was_replaced_changes_nothing, a_folder_that_is_replaced_while_a_change_is_written_is_not_switched),
    *(changes_that_are_started_together_are_all_done, a_change_waits_for_readers_and_for_another_change, a_reader_waits_for_a_change_alone),
    *(what_looks_at_no_store_takes_no_lock, a_holder_that_is_killed_frees_the_lock, stores_do_not_wait_for_one_another),
    *(without_a_lock_nothing_waits, what_reads_a_reply_may_change_the_store, a_file_that_is_shown_is_held_to_its_end),
]
scenes = named(*map(in_a_place, CALLS))
