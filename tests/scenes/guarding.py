"""tools/fetch against others: who may read what it writes, what runs that are ended leave, what others put where it writes, and servers
that are slow, or that would have it take all memory."""
import fcntl
import os
import re
import signal
import stat
import subprocess
import sys
import time

from scenes.breaking import hears_interrupts, wait_for
from scenes.devices import become_nobody
from scenes.running import ABC, SECONDS, Failed, Skipped, expect, named, shortened, tree_text
from scenes.serving import around, expect_depot, expect_like, fetch, fetch_words, manifest_of, publish, serving, stands, told
from scenes.stores import digest, in_a_place
from scenes.tools import beside

FINE = b"", b"", 0
NOBODY = 65_534
OUT = {"foo": b"foo"}, [("x", tree_text("d 755 a", f"f 644 3 {ABC} a/b", f"f 644 3 {ABC} c"), {"a/b": b"abc", "c": b"abc"})]
READS = "import os, sys; [os.open(path, os.O_RDONLY) for path in sys.argv[1:]]"


def need_root():
    if os.getuid() != 0:
        raise Skipped("it wants root, to become nobody")


# Modes.


def under(umask):
    return lambda: os.umask(umask)


def expect_modes(depot, files, folders):
    for path in (depot, *depot.rglob("*")):
        mode, wanted = stat.S_IMODE(path.lstat().st_mode), folders if path.is_dir() else files
        if mode != wanted:
            raise Failed(f"{path.name} has the mode {mode:o}, and not {wanted:o}")


def what_is_fetched_is_its_owners_whatever_the_umask(place):
    """But with --public. A part that one run began gets the mode of the run that ends it."""
    published = publish(beside(place, "out"), *OUT)
    with serving(published) as served:
        for umask in 0o000, 0o022, 0o077:
            depot = beside(place, f"own{umask}")
            expect(fetch(place, served.url, depot, preexec_fn=under(umask)), FINE)
            expect_modes(depot, 0o600, 0o700)
            expect_like(depot, published)
            public = beside(place, f"public{umask}")
            expect(fetch(place, "--public", served.url, public, preexec_fn=under(umask)), FINE)
            expect_modes(public, 0o666 & ~umask, 0o777 & ~umask)
        part = beside(place, "part")
        for words, begun, mode in (("--public",), 0o600, 0o644), ((), 0o666, 0o600):
            (part / ".fetch").mkdir(parents=True, mode=0o700)
            (part / ".fetch" / digest(b"foo")).write_bytes(b"fo")
            (part / ".fetch" / digest(b"foo")).chmod(begun)
            expect(fetch(place, *words, served.url, part, "foo", preexec_fn=under(0o022))[2:], (0,))
            if stat.S_IMODE((part / "foo").stat().st_mode) != mode:
                raise Failed("a part keeps the mode that it was begun with")
            (part / "foo").unlink()


def nobody_else_can_read_what_is_fetched(place):
    need_root()
    python = next((found for found in ("/usr/bin/python3", sys.executable) if runs_for_nobody(found)), None)
    if not python:
        raise Skipped("nobody can run python3 here")
    with serving(publish(beside(place, "out"), *OUT)) as served:
        for umask in 0o000, 0o022:
            depot = beside(place, f"depot{umask}")
            # the folder was there before, and others may enter it
            depot.mkdir()
            for path in place.store.parent, depot:
                path.chmod(0o755)
            expect(fetch(place, served.url, depot, preexec_fn=under(umask)), FINE)
            for path in stands(depot):
                if (depot / path).is_file() and subprocess.run([python, "-c", READS, depot / path], preexec_fn=become_nobody, capture_output=True).returncode == 0:
                    raise Failed(f"nobody reads {path} under the umask {umask:o}")


def runs_for_nobody(python):
    try:
        return subprocess.run([python, "-c", ""], preexec_fn=become_nobody, capture_output=True, timeout=SECONDS).returncode == 0
    except (OSError, subprocess.SubprocessError):
        return False


# Ends.


def begun(place, *words, **more):
    """A run whose temporary files would stand in a folder of the scene."""
    beside(place, "tmp").mkdir(exist_ok=True)
    return subprocess.Popen(fetch_words(place, *words), stdout=subprocess.PIPE, stderr=subprocess.PIPE, env=around(TMPDIR=os.fspath(beside(place, "tmp")), **more), preexec_fn=hears_interrupts)


def ended_by(place, child, number, status, said):
    child.send_signal(number)
    written, told_last = child.communicate(timeout=SECONDS)
    expect((written, told_last, child.returncode), (b"", said, status))
    if os.listdir(beside(place, "tmp")):
        raise Failed(f"it leaves {os.listdir(beside(place, 'tmp'))}")


STOPS = (signal.SIGINT, 130, told("interrupted")), (signal.SIGTERM, 143, told("terminated")), (signal.SIGHUP, 129, told("terminated")), (signal.SIGKILL, -signal.SIGKILL, b"")


def a_run_that_is_ended_leaves_parts_alone(place):
    """While a file comes, and while nothing of one has come."""
    published = publish(beside(place, "out"), {"foo": b"x" * 300_000})

    def stalls(request):
        request.head("200 OK", "Content-Length: 300000")
        request.send(b"x" * size)
        time.sleep(SECONDS)

    with serving(published) as served:
        served.odd["foo"] = stalls
        room, part = place.depot / ".fetch", place.depot / ".fetch" / digest(b"x" * 300_000)
        for size in 200_000, 0:
            for number, status, said in STOPS:
                served.forget()
                child = begun(place, served.url, place.depot)
                wait_for(lambda: "foo" in served.asked and part.exists() and (not size or part.stat().st_size > 100_000))
                ended_by(place, child, number, status, said)
                if number != signal.SIGKILL and stands(place.depot).keys() != ({".fetch", f".fetch/{part.name}"} if size else set()):
                    raise Failed(f"after {status} and {size:,} bytes there stand {sorted(stands(place.depot))}")
                subprocess.run(["find", place.depot, "-mindepth", "1", "-delete"], check=True)
        if room.exists():
            raise Failed("the room stays")


def a_run_that_is_ended_while_a_signature_is_looked_at_leaves_nothing(place):
    published, bin = publish(beside(place, "out"), {"foo": b"foo"}), beside(place, "bin")
    (published / "SHA256SUMS.gpg").write_bytes(b"signature")
    bin.mkdir()
    (bin / "gpgv").write_text("#!/bin/sh\ntouch \"$ASKED\"\nexec sleep 100\n")
    (bin / "gpgv").chmod(0o755)
    ring, asked = beside(place, "ring"), beside(place, "asked")
    ring.touch()
    with serving(published) as served:
        for number, status, said in STOPS:
            child = begun(place, "--keyring", ring, served.url, place.depot, PATH=f"{bin}:{os.environ['PATH']}", ASKED=os.fspath(asked))
            wait_for(asked.exists)
            ended_by(place, child, number, status, said)
            asked.unlink()
        if stands(place.depot).keys() - {".fetch"}:
            raise Failed(f"in the depot stand {sorted(stands(place.depot))}")


def what_a_kill_left_goes_with_the_next_run_in_the_same_place(place):
    """But for parts that have something, though one resource alone is fetched. A pipe in the room is not waited for."""
    room, part = place.depot / ".fetch", digest(b"a part")
    room.mkdir(mode=0o700)
    for name in "copy", "SHA256SUMS", "SHA256SUMS.gpg":
        (room / name).write_bytes(b"left")
    (room / digest(b"empty")).touch()
    os.mkfifo(room / digest(b"foo"))
    (room / digest(b"link")).symlink_to("../../elsewhere")
    (room / part).write_bytes(b"a p")
    with serving(publish(beside(place, "out"), {"foo": b"foo", "bar": b"bar"})) as served:
        expect(fetch(place, served.url, place.depot, "foo", timeout=20)[2:], (0,))
    if os.listdir(room) != [part]:
        raise Failed(f"there stay {sorted(os.listdir(room))}")


def a_depot_that_goes_while_a_run_waits_is_made_anew(place):
    published, moved = publish(beside(place, "out"), {"foo": b"foo"}), beside(place, "moved")
    with serving(published) as served:
        handle = os.open(place.depot, os.O_RDONLY)
        fcntl.flock(handle, fcntl.LOCK_EX)
        child = begun(place, served.url, place.depot)
        wait = b"fetch: waiting for another fetch into this depot\n"
        expect((child.stderr.readline(),), (wait,))
        place.depot.rename(moved)
        os.close(handle)
        expect((*child.communicate(timeout=SECONDS), child.returncode), FINE)
    expect_like(place.depot, published)
    expect_depot(moved, {})


# Others in the depot.


def a_room_of_somebody_else_is_refused(place):
    """Whoever may write in a depot may make the room first, with files that would become his manifest."""
    need_root()
    room = place.depot / ".fetch"
    place.depot.chmod(0o1777)
    with serving(publish(beside(place, "out"), {"foo": b"foo"})) as served:
        room.mkdir()
        for owner, mode, said in (NOBODY, 0o700, "it belongs to another user"), (0, 0o730, "others may write in it"), (0, 0o702, "others may write in it"):
            os.chown(room, owner, -1)
            room.chmod(mode)
            expect(fetch(place, served.url, place.depot), (b"", told(f"{room}: {said}"), 4))
        room.chmod(0o700)
        (room / digest(b"foo")).write_bytes(b"fo")
        os.chown(room / digest(b"foo"), NOBODY, -1)
        expect(fetch(place, served.url, place.depot), FINE)
    owners = {path.name: path.stat().st_uid for path in place.depot.rglob("*")}
    if owners != {"foo": 0, "SHA256SUMS": 0}:
        raise Failed(f"the owners are {owners}")


def a_pipe_that_takes_a_files_place_is_not_waited_for(place):
    """A file of the depot is exchanged for a pipe after it was looked at."""
    swaps = beside(place, "swaps")
    swaps.mkdir()
    (swaps / "sitecustomize.py").write_text(SWAPS)
    with serving(publish(beside(place, "out"), {"foo": b"foo"})) as served:
        expect(fetch(place, served.url, place.depot), FINE)
        found = fetch(place, served.url, place.depot, env=around(PYTHONPATH=os.fspath(swaps)), timeout=20)
    expect(found, (b"", told(f"{place.depot}/foo: It is no file"), 4))


SWAPS = """import os
stat = os.stat

def swapping(path, *words, **named):
    found = stat(path, *words, **named)
    if path == b"foo":
        os.unlink(path, dir_fd=named["dir_fd"])
        os.mkfifo(path, dir_fd=named["dir_fd"])
    return found

os.stat = swapping
"""


# Servers.


def in_haste(place, seconds=1, span=2, least=4_000):
    """The copy of the tool with less patience."""
    fetch_words(place)
    path = beside(place, "impatient") / "web.py"
    text = path.read_text()
    for known, small in ("SECONDS = 30\n", f"SECONDS = {seconds}\n"), ("SPAN, LEAST = 60, 61_440\n", f"SPAN, LEAST = {span}, {least}\n"):
        if known not in text:
            raise Failed(f"tools/web.py has no line {known}")
        text = text.replace(known, small)
    path.write_text(text)


def for_ever(piece, pause, *head):
    """An answer that goes on with this until the client hangs up."""

    def call(request):
        request.wfile.write(b"".join(head))
        while True:
            request.wfile.write(piece)
            time.sleep(pause)

    return call


OK = b"HTTP/1.1 200 OK\r\n"
CHUNKED = OK + b"Transfer-Encoding: chunked\r\n\r\n"
TOO_SLOW = "less than 4,000 bytes of it come in 2 seconds"
# What is shown, the answer, and which lines may be told of it.
ENDLESS = [
    ("answers of 100", for_ever(b"HTTP/1.1 100 Continue\r\n\r\n", 0), "more than 15 answers come before the one that was asked for"),
    ("answers of 100 that are slow", for_ever(b"HTTP/1.1 100 Continue\r\n\r\n", 0.5), f"the head of the answer takes too long|timed out|{TOO_SLOW}"),
    ("a head that is slow", for_ever(b"x", 0.3, OK, b"X: "), f"the head of the answer takes too long|timed out|{TOO_SLOW}"),
    ("a body that is slow", for_ever(b"x", 0.2, OK, b"Content-Length: 9000\r\n\r\n"), TOO_SLOW),
    ("a body without a length that is slow", for_ever(b"x", 0.2, OK, b"\r\n"), TOO_SLOW),
    ("chunks that are slow", for_ever(b"1\r\nx\r\n", 0.2, CHUNKED), TOO_SLOW),
    ("a trailer without an end", for_ever(b"X: y\r\n" * 1_000, 0, CHUNKED, b"3\r\nfoo\r\n0\r\n"), "the answer has too much beside its body"),
    ("a line of a chunk without an end", for_ever(b"x" * 1_000, 0, CHUNKED, b"3;"), r"got more than 65536 bytes when reading chunk size|IncompleteRead\(0 bytes read\)"),
]


def no_server_holds_a_run_for_ever(place):
    """A few bytes at a time, or what is no part of a file. The depot is free afterwards."""
    in_haste(place)
    published = publish(beside(place, "out"), {"foo": b"x" * 9_000})
    with serving(published) as served:
        for name, answer, lines in ENDLESS:
            for path in "foo", "SHA256SUMS":
                served.odd = {path: answer}
                written, said, status = fetch(place, served.url, place.depot, timeout=30)
                if (written, status) != (b"", 3) or not re.fullmatch(f"fetch: {re.escape(served.url)}/{path}: ({lines})\n", said.decode()):
                    raise Failed(f"{name}, of {path}: it ends with {status} and tells {shortened(said)}")
        served.odd = {}
        expect(fetch(place, served.url, place.depot), FINE)
    expect_like(place.depot, published)


def a_server_that_is_cut_again_and_again_has_to_be_fast_enough(place):
    """Each answer brings a byte, so that a run would go on as long as the file is long."""
    in_haste(place)
    with serving(publish(beside(place, "out"), {"foo": b"x" * 1_000_000})) as served:

        def one_byte(request):
            time.sleep(0.01)
            request.serve_up_to(1)

        served.odd["foo"] = one_byte
        expect(fetch(place, served.url, place.depot, timeout=30), (b"", told(f"{served.url}/foo: {TOO_SLOW}"), 3))


def a_slow_server_that_is_fast_enough_is_waited_for(place):
    """It takes longer than a span, with answers of 100 before, and pauses."""
    in_haste(place, seconds=20)
    published = publish(beside(place, "out"), {"foo": b"x" * 20_000})

    def paused(request):
        request.wfile.write(b"HTTP/1.1 100 Continue\r\n\r\n" * 5)
        request.head("200 OK", "Content-Length: 20000")
        for _ in range(20):
            request.send(b"x" * 1_000)
            time.sleep(0.25)

    with serving(published) as served:
        served.odd["foo"] = paused
        expect(fetch(place, served.url, place.depot), FINE)
    expect_like(place.depot, published)


# Memory.


MEASURED = """import resource, subprocess, sys
status = subprocess.run(sys.argv[1:]).returncode
print(resource.getrusage(resource.RUSAGE_CHILDREN).ru_maxrss)
sys.exit(status)
"""
NAMES, MOST_MEMORY = 30, 300_000


def measured(place, *words):
    """What a run tells, its status, and the most kilobytes that it takes."""
    ended = subprocess.run([sys.executable, "-c", MEASURED, *fetch_words(place, *words)], env=around(), capture_output=True, timeout=SECONDS)
    return ended.stderr, ended.returncode, int(ended.stdout)


def one_text_under_many_names_takes_little_memory(place):
    """Thirty names with one digest, of a text of 20 MB. And a text of as many bytes that is nothing but short lines."""
    lines = [f"f 644 1 {at:064x} {at:06}" for at in range(240_000)]
    text = tree_text(*lines)
    published = publish(beside(place, "out"), {"x.tree": text})
    (published / "SHA256SUMS").write_bytes(manifest_of({f"x{at}.tree": text for at in range(NAMES)}))
    for at in range(NAMES):
        os.link(published / "x.tree", published / f"x{at}.tree")
    short = publish(beside(place, "short"), {"y.tree": b"hostext-tree 1\n" + b"a\n" * 10_000_000})
    for folder, line in (published, "x0.tree: with it the directories list more than 1,048,576 entries; name the resources that are wanted"), (short, "y.tree: with it the directories list more than 1,048,576 entries; name the resources that are wanted"):
        with serving(folder) as served:
            said, status, kilobytes = measured(place, served.url, place.depot)
            expect((said, b"", status), (told(line), b"", 1))
            if kilobytes > MOST_MEMORY or sum(path.endswith(".tree") for path in served.asked) != 1:
                raise Failed(f"it takes {kilobytes:,} kB, and asks for {len(served.asked)} files")


CALLS = [
    *(what_is_fetched_is_its_owners_whatever_the_umask, nobody_else_can_read_what_is_fetched),
    *(a_run_that_is_ended_leaves_parts_alone, a_run_that_is_ended_while_a_signature_is_looked_at_leaves_nothing),
    *(what_a_kill_left_goes_with_the_next_run_in_the_same_place, a_depot_that_goes_while_a_run_waits_is_made_anew),
    *(a_room_of_somebody_else_is_refused, a_pipe_that_takes_a_files_place_is_not_waited_for),
    *(no_server_holds_a_run_for_ever, a_server_that_is_cut_again_and_again_has_to_be_fast_enough, a_slow_server_that_is_fast_enough_is_waited_for),
    one_text_under_many_names_takes_little_memory,
]
scenes = named(*map(in_a_place, CALLS))
