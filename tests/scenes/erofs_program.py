"""The command line of `hostext_erofs`: its words and their places, what is refused and in which order, how it ends where a device fails or a
store is none, its lock, and that it reads the index alone.

The program is the one that HOSTEXT_EROFS names, or else what the launcher `hostext_erofs` would run."""
import fcntl
import os
import pty
import random
import re
import resource
import shutil
import signal
import subprocess
import threading
import time

from scenes.devices import become_nobody
from scenes.erofs_trees import HOME, STAMP, index_of, index_text, put_store, random_tree, same_images, written_image
from scenes.erofs_writing import image_of
from scenes.helping import rows
from scenes.locks import REPLACED, WAITING, ended, exchanged, locked, only, start, waits
from scenes.reasons import EXPLAIN, SEE, explains
from scenes.running import ABC, SECONDS, VERSION, Failed, Skipped, directories, expect, imager, named, run, shortened, tree_text
from scenes.stores import DONE, EMPTY_INDEX, FAULTS, digest, in_a_place, what_stands

HELP = b"hostext_erofs STORE [--mark=G] [--time=SECONDS]\n"
WORDS = "the words are [--mark=G] [--time=SECONDS], in this order, where G is the number of a mark, and SECONDS one from 0 to 9223372036854775807"
CALL = "it is called as hostext_erofs STORE [--mark=G] [--time=SECONDS], or with --help or --version alone"
HELPS = "What helps after the refusal of an EROFS image"
SEED, KILLS, ROUNDS, PIECE = 72, 40, 20, 65_536
LONG = 4_096
DIRECTORY, FILE = (b"d", (b"755",)), (b"f", (b"644", *STAMP))


def link(length):
    return b"l", (b"%d" % length, b"t" * length)


def words_of(place, *words, store=None):
    return [os.fsencode(word) for word in (imager(), store or place.store, *words)]


def ran(place, *words, store=None, **more):
    """What a run wrote and told, and its status."""
    return run(imager(), words_of(place, *words, store=store)[1:], **more)


def started(place, *words, **more):
    streams = {"stdin": subprocess.DEVNULL, "stdout": subprocess.PIPE, "stderr": subprocess.PIPE, **more}
    return subprocess.Popen(words_of(place, *words), **streams)


def told(place, *words, store=None, before=None, around=EXPLAIN):
    """What a run that writes nothing tells, line by line, and its status."""
    child = subprocess.run(words_of(place, *words, store=store), env=around, stdin=subprocess.DEVNULL, capture_output=True, timeout=SECONDS, preexec_fn=before)
    if child.stdout:
        raise Failed(f"it writes {shortened(child.stdout)}")
    return child.stderr.decode().splitlines(), child.returncode


def refused(place, line, *words):
    """That a run is refused by this line, and the store stays as it is."""
    before = what_stands(place.store)
    try:
        expect(ran(place, *words), (f"refused {line}\n".encode(), b"", 1))
    except Failed as reason:
        raise Failed(f"{words}: {reason}") from None
    if what_stands(place.store) != before:
        raise Failed("the store folder changed")


def wanted_image(place, time=0):
    return image_of(index_of(place.store).host.root.entries, time)


# Words.


def words_that_ask_nothing_are_usage(place):
    """Each option stands once at most, and they stand in this order."""
    put_store(place, 9, {(b"a",): FILE}, past={1: {}, 8: {(b"b",): FILE}})
    for words, number, word in (
        (("",), 1, ""),
        (("/",), 1, "/"),
        (("--mark",), 1, "--mark"),
        (("--mark", "8"), 1, "--mark"),
        *(((f"--mark={mark}",), 1, f"--mark={mark}") for mark in ("", "0", "08", "-8", "+8", " 8", "8 ", "8x", "g-8", "4294967296", "18446744073709551624")),
        *(((f"--time={time}",), 1, f"--time={time}") for time in ("", "01", "-1", "+1", "1 ", "1.5", "now", "9223372036854775808", "18446744073709551616")),
        (("--Mark=8",), 1, "--Mark=8"),
        (("--help",), 1, "--help"),
        (("--version", "--time=1"), 1, "--version"),
        (("--mark=8", "--mark=8"), 2, "--mark=8"),
        (("--time=1", "--mark=8"), 2, "--mark=8"),
        (("--time=1", "--time=1"), 2, "--time=1"),
        (("--mark=8", ""), 2, ""),
        (("--mark=8", "--time=x"), 2, "--time=x"),
        (("--mark=8", "--time=1", "--mark=8"), 3, "--mark=8"),
        (("--mark=8", "--time=1", "x"), 3, "x"),
        (("--time=1", "a\x1b[31m"), 2, "a\\u{1b}[31m"),
    ):
        reason = f"{WORDS}: not `{word}`"
        explains(told(place, *words), f"usage {number}", reason, 2)
        explains(told(place, *words, store="gone"), f"usage {number}", reason, 2)


def words_without_a_store_are_usage(place):
    around = {name: value for name, value in os.environ.items() if name != "HOSTEXT_EXPLAIN"}
    for words in [], [b"\xff"], ["store", b"\xff"], ["store", b"--mark=1\xff"]:
        child = subprocess.run([imager(), *words], env=around, stdin=subprocess.DEVNULL, capture_output=True, timeout=SECONDS, cwd=place.store)
        expect((child.stdout, child.stderr, child.returncode), (b"", b"hostext: usage 1\n", 2))
    child = subprocess.run([imager()], env=EXPLAIN, stdin=subprocess.DEVNULL, capture_output=True, timeout=SECONDS)
    explains((child.stderr.decode().splitlines(), child.returncode), "usage 1", CALL, 2)


def the_least_and_the_greatest_numbers_are_taken(place):
    put_store(place, 4_294_967_295, {(b"a",): FILE}, past={1: {}, 4_294_967_294: {(b"b",): FILE}})
    for time in 0, 1, 2**63 - 1:
        same_images(written_image(place, f"--time={time}"), wanted_image(place, time))
    same_images(written_image(place, "--mark=1"), image_of({}))
    same_images(written_image(place, "--mark=4294967294", "--time=9"), image_of({(b"b",): FILE}, 9))
    refused(place, "37 no-mark 4294967295", "--mark=4294967295")


def the_help_is_one_line_and_the_version_that_of_the_other_programs(_place):
    for word, wanted in (b"--help", HELP), (b"--version", b"hostext_erofs" + VERSION.removeprefix(b"hostext")):
        expect(run(imager(), [word]), (wanted, b"", 0))
        with open("/dev/full", "wb") as full:
            expect(run(imager(), [word], stdout=full)[1:], (b"hostext: write fault\n", 4))


# Refusals.


def refusals_come_in_their_order(place):
    refused(place, "1 no-store")
    refused(place, "1 no-store", "--mark=3")
    long = {(b"l",): link(LONG)}
    put_store(place, 9, long, past={3: {(b"a",): FILE}, 4: long})
    for mark in 1, 9, 10:
        refused(place, f"37 no-mark {mark}", f"--mark={mark}")
    refused(place, "38 link /l")
    refused(place, "38 link /l", "--mark=4", "--time=1")
    same_images(written_image(place, "--mark=3"), image_of({(b"a",): FILE}))


def the_least_path_of_a_long_link_is_told(place):
    """By the order of paths, in which `a/b` comes before `a-`. One byte less is shown."""
    entries = {(b"a",): DIRECTORY, (b"a", b"b c"): link(LONG - 1), (b"a", "ü".encode()): link(LONG), (b"a-",): link(LONG), (b"b",): FILE}
    put_store(place, 1, entries)
    refused(place, "38 link /a/ü")
    put_store(place, 1, {**entries, (b"a", "ü".encode()): link(1)})
    refused(place, "38 link /a-")
    put_store(place, 1, {**entries, (b"a", "ü".encode()): link(1), (b"a-",): link(LONG - 1)})
    same_images(written_image(place), wanted_image(place))


def what_lies_under_a_view_is_not_looked_at(place):
    """A link there that is too long is seen by nobody."""
    text = index_text({(b"usr",): DIRECTORY}).replace(b"attached 0\n", b"sysext 1\nn tool\nattached 0\n")
    hidden = b"lower 2\nd 755 usr\nl %d %b usr/l\n" % (LONG, b"t" * LONG)
    place.index(1, text.replace(b"lower 0\n", hidden))
    same_images(written_image(place), image_of({(b"usr",): DIRECTORY}))


def each_refusal_says_what_helps_there(place):
    said = rows(HELPS)

    def refuses(row, *words):
        child = subprocess.run(words_of(place, *words), env=EXPLAIN, stdin=subprocess.DEVNULL, capture_output=True, timeout=SECONDS)
        number, word = row.split(" ", 1)
        if child.returncode != 1 or not child.stdout.decode().startswith(f"refused {number} {word.strip('`')}"):
            raise Failed(f"{words} ends with {child.returncode}: {shortened(child.stdout)}")
        wanted = f"hostext: {said.pop(row)}\n"
        if child.stderr.decode() != wanted:
            raise Failed(f"{words} tells {shortened(child.stderr)}, and not {shortened(wanted)}")

    refuses("1 `no-store`")
    put_store(place, 1, {(b"l",): link(LONG)})
    refuses("37 `no-mark`", "--mark=1")
    refuses("38 `link`")
    if said:
        raise Failed(f"no run is refused by {', '.join(said)}")


# Devices.


def an_output_that_fails_is_a_write_fault(place):
    """Full, closed, or read by nobody, whatever is written."""
    fault = b"hostext: write fault\n", 4
    for entries in None, {}, {(b"l",): link(LONG)}, {(b"%05d" % at,): FILE for at in range(2_000)}:
        if entries is not None:
            put_store(place, 1, entries)
        with open("/dev/full", "wb") as full:
            expect(ran(place, stdout=full)[1:], fault)
        expect(ran(place, stdout=None, before=lambda: os.close(1))[1:], fault)
        reading, writing = os.pipe()
        os.close(reading)
        try:
            expect(ran(place, stdout=writing)[1:], fault)
        finally:
            os.close(writing)


def a_reader_that_stops_in_the_middle_makes_a_write_fault(place):
    put_store(place, 1, {(b"%05d" % at,): FILE for at in range(20_000)})
    child = started(place)
    begin = child.stdout.read(PIECE + 1)
    child.stdout.close()
    found = child.stderr.read(), child.wait(SECONDS)
    child.stderr.close()
    if begin != wanted_image(place)[: PIECE + 1] or found != (b"hostext: write fault\n", 4):
        raise Failed(f"it ends with {shortened(found)}")


def a_closed_or_full_standard_error_changes_no_status(place):
    expect(ran(place, "x", stderr=None, before=lambda: os.close(2)), (b"", None, 2))
    with open("/dev/full", "wb") as full:
        expect(ran(place, "x", stderr=full), (b"", None, 2))


def a_store_folder_that_fails_is_told(place):
    gone = place.store.with_name("gone")
    explains(told(place, store=gone), "disk fault", f"open {gone}: No such file or directory", 5)
    put_store(place, 1, {(b"a",): FILE})
    current, index = place.store / "current", place.store / "g-1/index"
    for path in current, index:
        kept = path.read_bytes()
        path.unlink()
        path.symlink_to("elsewhere")
        explains(told(place), "disk fault", f"read {path}: a link below the store folder is not followed", 5)
        path.unlink()
        os.mkfifo(path)
        expect(ran(place), (b"", FAULTS[5], 5))
        path.unlink()
        path.write_bytes(kept)
    same_images(written_image(place), wanted_image(place))


def a_store_that_may_not_be_read_is_told(place):
    if os.getuid() != 0:
        raise Skipped("it wants root, to become nobody")
    put_store(place, 1, {(b"a",): FILE})
    program = place.store.with_name("program")
    shutil.copy(imager(), program)
    for path, mode in (place.store.parent, 0o755), (place.store, 0o755), (place.store / "current", 0o600):
        path.chmod(mode)
    child = subprocess.run([program, place.store], env=EXPLAIN, stdin=subprocess.DEVNULL, capture_output=True, timeout=SECONDS, preexec_fn=become_nobody)
    explains((child.stderr.decode().splitlines(), child.returncode), "disk fault", f"read {place.store}/current: Permission denied", 5)


def a_store_that_is_none_is_told(place):
    for current in b"g-x\n", b"g-0\n", b"g-4294967296\n", b"g-1", b"g-01\n", b"", b"g-2\n":
        shutil.rmtree(place.store)
        place.index(1, EMPTY_INDEX)
        (place.store / "current").write_bytes(current)
        before = place.stands()
        for words in (), ("--mark=1",):
            expect(ran(place, *words), (b"", FAULTS[8], 8))
        place.holds(before)
    text = index_text({(b"a",): FILE})
    for faulty, line in (b"", 1), (text + b"\n", text.count(b"\n") + 1), (text.replace(b"attached 0", b"attached x"), 7), (text.replace(b"lower 0", b"lower 1"), 12):
        place.index(1, faulty)
        explains(told(place), "bad store", f"line {line} of the index that {place.store}/current names is faulty; {SEE}", 8)
    (place.store / "current").write_bytes(b"g-x\n")
    explains(told(place), "bad store", f"{place.store}/current names no generation; {SEE}", 8)


def no_file_of_the_store_is_read_but_its_index(place):
    """Homes that are gone or damaged change nothing. Each piece that is written has at most 65,536 bytes."""
    put_store(place, 1, {(b"%05d" % at,): FILE for at in range(5_000)}, {HOME: b"abc"})
    wanted = written_image(place)
    for damage in (lambda home: home.write_bytes(b"abd"), lambda home: home.chmod(0), lambda home: home.unlink(), lambda home: home.parent.rmdir()):
        damage(place.store / "g-1/000/00")
        same_images(written_image(place), wanted)
    if not shutil.which("strace"):
        raise Skipped("there is no strace")
    calls = place.store.with_name("calls")
    words = ["strace", "-f", "-o", calls, "-e", "trace=open,openat,openat2,write,writev,pwrite64", *words_of(place)]
    child = subprocess.run(words, stdin=subprocess.DEVNULL, capture_output=True, timeout=SECONDS)
    same_images(child.stdout, wanted)
    traced = calls.read_text(errors="replace")
    pieces = [int(size) for size in re.findall(r"\bwritev?\(1, .* = (\d+)$", traced, re.M)]
    if sum(pieces) != len(wanted) or max(pieces) > PIECE or len(pieces) > len(wanted) // PIECE + 2:
        raise Failed(f"an image of {len(wanted)} bytes is written in pieces of {pieces}")
    if re.search(r'open\w*\(.*"(?:[^"]*/)?000(?:/00)?"', traced):
        raise Failed("a home is looked at")


def the_reason_is_told_to_a_terminal(place):
    ours, theirs = pty.openpty()
    around = {name: value for name, value in os.environ.items() if name != "HOSTEXT_EXPLAIN"}
    child = subprocess.run(words_of(place, "x"), env=around, stdin=subprocess.DEVNULL, stdout=subprocess.PIPE, stderr=theirs, timeout=SECONDS)
    os.close(theirs)
    found = os.read(ours, 4096).decode().splitlines()
    os.close(ours)
    explains((found, child.returncode), "usage 1", f"{WORDS}: not `x`", 2)


def too_little_memory_is_told(place):
    """Under each limit the image comes whole, or memory ran out, and what was written is a beginning of it; where a limit is too narrow
    even to start the program, nothing is asked of it. One limit at least shows each of the two."""
    put_store(place, 1, {(b"%06d" % at,): FILE for at in range(60_000)})
    wanted, found = written_image(place), set()
    for limit in (2**at * part for at in range(20, 29) for part in (2, 3)):
        written, line, status = ran(place, before=lambda limit=limit: resource.setrlimit(resource.RLIMIT_AS, (limit, limit)))
        if status == 0:
            same_images(written, wanted)
        elif status == 7:
            expect((b"", line, status), (b"", b"hostext: out of memory\n", 7))
            if not wanted.startswith(written):
                raise Failed(f"under {limit:,} bytes other bytes are written")
        elif 7 in found or written:
            raise Failed(f"under {limit:,} bytes it ended with {status}, {shortened(line)}")
        found.add(status)
    if not {0, 7} <= found:
        raise Failed(f"no limit shows each of the two: {sorted(found)}")


# Beside others.


def readers_share_the_store_and_a_change_is_waited_for(place):
    put_store(place, 1, {(b"a",): FILE})
    wanted = wanted_image(place)
    with locked(place.store, fcntl.LOCK_SH):
        same_images(written_image(place), wanted)
    with locked(place.store):
        child = started(place)
        waits(child)
    expect(ended(child), (wanted, WAITING, 0))
    with locked(place.store):
        expect(ended(started(place, env={**os.environ, "HOSTEXT_LOCK": "no"})), (wanted, b"", 0))
        expect(ran(place, "x"), (b"", b"hostext: usage 1\n", 2))
        expect(run(imager(), [b"--help"]), (HELP, b"", 0))


def images_beside_changes_are_those_of_before_or_after(place):
    """Two writers of images beside a line of changes, twenty times."""
    texts = {name: tree_text(f"f 644 3 {ABC} {name}") for name in "abcdef"}
    for name, text in texts.items():
        place.resource(name, text, {name: b"abc"})
    place.expect(("init x86-64 system", DONE))
    for _ in range(ROUNDS):
        seen, images, faults = [wanted_image(place)], [], []
        writers = [threading.Thread(target=writes, args=(place, images, faults, at)) for at in range(2)]
        for writer in writers:
            writer.start()
        for words in *(("import-fs", name, f"/{name}") for name in texts), *(("remove", f"/{name}") for name in texts):
            expect_change(start(place, *words))
            seen.append(wanted_image(place))
        for writer in writers:
            writer.join()
        if faults or any(image not in seen for image in images):
            raise Failed(faults[0] if faults else "an image is of no generation")


def expect_change(child):
    written, line, status = ended(child)
    only(WAITING, line)
    expect((written, b"", status), (DONE, b"", 0))


def writes(place, images, faults, at):
    for _ in range(6 + at):
        written, line, status = ran(place)
        if status or line not in (b"", WAITING):
            faults.append(f"an image beside changes ends with {status}: {shortened(line)}")
        images.append(written)


def who_reads_an_image_may_change_the_store(place):
    """The lock is given back before anything is written, and the image is more than a pipe takes."""
    place.resource("many", directories(2_000))
    place.expect(("init x86-64 system", DONE), ("import-fs many /", DONE))
    wanted, out = written_image(place), place.store.with_name("out")
    script = '"$0" "$2" | (head -c 1000 >"$4"; "$1" "$2" "$3" remove /000001; cat >>"$4")'
    words = ["sh", "-c", script, imager(), place.program, place.store, place.depot, out]
    child = subprocess.run(words, stdin=subprocess.DEVNULL, capture_output=True, timeout=SECONDS)
    expect((child.stdout, child.stderr, child.returncode), (DONE, b"", 0))
    same_images(out.read_bytes(), wanted)
    if written_image(place) == wanted:
        raise Failed("nothing was removed")


def who_waited_for_a_folder_that_was_replaced_writes_nothing(place):
    put_store(place, 1, {(b"a",): FILE})
    with locked(place.store):
        child = started(place, env=EXPLAIN)
        waits(child)
        exchanged(place.store)
    why = os.fsencode(f"hostext: lock {place.store}: {REPLACED}\n")
    expect(ended(child), (b"", WAITING + FAULTS[5] + why, 5))


def a_kill_leaves_the_store_as_it_is_and_frees_it(place):
    put_store(place, 3, {(b"%05d" % at,): FILE for at in range(20_000)}, {HOME: b"abc"})
    before, began = what_stands(place.store), time.monotonic()
    wanted = written_image(place)
    whole, chance, cut = time.monotonic() - began, random.Random(SEED), 0
    for _ in range(KILLS):
        with place.store.with_name("out").open("wb") as out:
            child = started(place, stdout=out)
            time.sleep(chance.random() * whole)
            child.send_signal(signal.SIGKILL)
            child.communicate(timeout=SECONDS)
        written = place.store.with_name("out").read_bytes()
        if not wanted.startswith(written):
            raise Failed("other bytes are written before a kill")
        cut += written != wanted
        with locked(place.store, fcntl.LOCK_EX | fcntl.LOCK_NB):
            pass
    if not cut or what_stands(place.store) != before:
        raise Failed("no kill came before the end of a run" if not cut else "the store folder changed")


def images_are_the_same_each_time(place):
    """Whoever writes them, where and when."""
    for at in range(ROUNDS):
        put_store(place, 7, random_tree(random.Random(SEED + at))[0])
        other = place.store.with_name("other")
        shutil.copytree(place.store, other)
        found = {ran(place, store=store, before=before)[0] for store in (place.store, other) for before in (None, lambda: os.umask(0o777), lambda: os.chdir("/"))}
        shutil.rmtree(other)
        if {digest(image) for image in found} != {digest(wanted_image(place))}:
            raise Failed(f"tree {at} has {len(found)} images")


CALLS = [
    *(words_that_ask_nothing_are_usage, words_without_a_store_are_usage, the_least_and_the_greatest_numbers_are_taken),
    *(the_help_is_one_line_and_the_version_that_of_the_other_programs, refusals_come_in_their_order, the_least_path_of_a_long_link_is_told),
    *(what_lies_under_a_view_is_not_looked_at, each_refusal_says_what_helps_there, an_output_that_fails_is_a_write_fault),
    *(a_reader_that_stops_in_the_middle_makes_a_write_fault, a_closed_or_full_standard_error_changes_no_status, a_store_folder_that_fails_is_told),
    *(a_store_that_may_not_be_read_is_told, a_store_that_is_none_is_told, no_file_of_the_store_is_read_but_its_index),
    *(the_reason_is_told_to_a_terminal, too_little_memory_is_told, readers_share_the_store_and_a_change_is_waited_for),
    *(images_beside_changes_are_those_of_before_or_after, who_reads_an_image_may_change_the_store),
    *(who_waited_for_a_folder_that_was_replaced_writes_nothing, a_kill_leaves_the_store_as_it_is_and_frees_it, images_are_the_same_each_time),
]
scenes = named(*map(in_a_place, CALLS))
