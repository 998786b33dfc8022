"""Batches over real folders: what a list of commands writes and leaves, how long its source may be, when it locks the store, and
that a kill leaves the tree after its first lines."""
import os
import random
import shutil
import signal
import subprocess
import tempfile
import time

from scenes.locks import WAITING, ended, start, waits
from scenes.running import ABC, Failed, expect, named, run, shortened, tree_text
from scenes.stores import DONE, INIT, digest, in_a_place
from scenes.words import MOST_SOURCE

SEED, KILLS = 11, 100


def batch(place, *lines, source=None):
    """What a batch of these lines writes on each stream, and its status."""
    given = "".join(f"{line}\n" for line in lines).encode() if source is None else source
    return run(place.program, [os.fsencode(place.store), os.fsencode(place.depot), b"batch"], given)


def what_a_batch_leaves_the_next_commands_find(place):
    """The commands after it are new processes over the same folders."""
    text = tree_text("d 755 usr", f"f 644 3 {ABC} usr/a")
    place.resource("host", text, {"usr/a": b"abc"})
    expect(batch(place, "init x86-64 system", "import-fs host /", "cat /usr/a", "tree /"), (DONE + DONE + b"abc" + text, b"", 0))
    place.expect(("cat /usr/a", b"abc"), ("remove /usr", DONE), ("tree /", tree_text()))


def a_batch_goes_on_after_each_line_that_is_not_done(place):
    source = b"\n# nothing\n \t \ninit\tx86-64  system \ncompare 1\nlayer\nbatch\nsample 1\nremove /x\ntre\xff\ncompare \xff \xfe\r\ncheck"
    replies = b"done\nusage 3\nusage 1\nusage 1\nusage 1\nrefused 8 no-entry /x\nusage 1\nequal\nok 0 0\n"
    expect(batch(place, source=source), (replies, b"", 0))
    place.expect(("tree", tree_text()))


def a_batch_without_a_command_looks_at_the_store_all_the_same(place):
    for source in b"", b"\n", b"# nothing":
        expect(batch(place, source=source), (b"", b"", 0))
    place.holds({})
    (place.store / "current").write_bytes(b"g-x\n")
    expect(batch(place, source=b""), (b"", b"hostext: bad store\n", 8))
    place.store.joinpath("current").unlink()
    place.store.rmdir()
    expect(batch(place, source=b""), (b"", b"hostext: disk fault\n", 5))


def a_source_has_a_greatest_length(place):
    place.expect(("init x86-64 system", DONE))
    before = place.stands()
    line = b"init x86-64 initrd\n"
    expect(batch(place, source=line + b"\n" * (MOST_SOURCE + 1 - len(line))), (b"", b"hostext: input too long\n", 10))
    with open("/dev/zero", "rb") as endless:
        words = [os.fsencode(word) for word in (place.store, place.depot, "batch")]
        expect(run(place.program, words, stdin=endless), (b"", b"hostext: input too long\n", 10))
    place.holds(before)
    expect(batch(place, source=b"\n" * MOST_SOURCE), (b"", b"", 0))
    expect(batch(place, source=b"\n" * (MOST_SOURCE - 6) + b"check\n"), (b"ok 0 0\n", b"", 0))
    place.holds(before)


def a_source_that_fails_leaves_the_store_alone(place):
    place.expect(("init x86-64 system", DONE))
    before, words = place.stands(), [os.fsencode(word) for word in (place.store, place.depot, "batch")]
    folder = os.open(place.depot, os.O_RDONLY)
    try:
        expect(run(place.program, words, stdin=folder), (b"", b"hostext: read fault\n", 3))
    finally:
        os.close(folder)
    expect(run(place.program, words, stdin=None, before=lambda: os.close(0)), (b"", b"hostext: read fault\n", 3))
    place.holds(before)


def a_line_of_the_greatest_length_is_read(place):
    """Its words are no command, and its fault stands at the first that is too many."""
    words = b"check " + b"x " * ((MOST_SOURCE - 6) // 2)
    expect(batch(place, source=words), (b"usage 2\n", b"", 0))
    digits = (MOST_SOURCE - 10) // 2
    expect(batch(place, source=b"compare %b %b\n" % (b"1" * digits, b"2" * digits)), (b"less\n", b"", 0))


def a_batch_whose_output_is_not_taken_stops(place):
    """The line whose reply failed was done, and none after it was."""
    place.resource("one", tree_text(f"f 644 3 {ABC} a"), {"a": b"abc"})
    place.expect(("init x86-64 system", DONE))
    words = [os.fsencode(word) for word in (place.store, place.depot, "batch")]
    with open("/dev/full", "wb") as full:
        found = run(place.program, words, b"import-fs one /b\nimport-fs one /c\n", stdout=full)
    expect(found, (None, b"hostext: write fault\n", 4))
    place.expect(("tree", tree_text("d 755 b", f"f 644 3 {ABC} b/a")))


def others_wait_while_a_batch_works(place):
    count = 20_000
    with tempfile.TemporaryFile() as source:
        source.write(b"init x86-64 system\n" + b"compare 1 2\n" * count)
        source.seek(0)
        worker = start(place, "batch", stdin=source)
    first = os.read(worker.stdout.fileno(), 5)
    others = [start(place, "tree"), start(place, "remove", "/a")]
    for other in others:
        waits(other)
    expect(ended(worker), (DONE[len(first) :] + b"less\n" * count, b"", 0))
    expect(ended(others[0]), (tree_text(), WAITING, 0))
    expect(ended(others[1]), (b"refused 8 no-entry /a\n", WAITING, 1))


def a_batch_whose_source_has_not_ended_holds_nothing(place):
    worker = start(place, "batch", stdin=subprocess.PIPE)
    worker.stdin.write(b"init x86-64 system\ncheck\n")
    worker.stdin.flush()
    waits(worker)
    place.expect(("tree", b"refused 1 no-store\n"), ("init x86-64 initrd", DONE), ("tree", tree_text()))
    expect(ended(worker), (b"refused 2 store-exists\nok 0 0\n", b"", 0))


def files_of(at):
    """Those that the change with this number brings, which no other brings."""
    return {f"f{number:02}": b"file %d of change %d" % (number, at) for number in range(10)}


def entries_of(at, above=""):
    return [f"f 644 {len(content)} {digest(content)} {above}{path}" for path, content in files_of(at).items()]


def changes(count):
    """Lines that each change the tree; and of the tree before all and after each its text, and what `check` writes: of five lines
    the last removes what the third brought."""
    lines, brought, states = [], set(), [(tree_text(), b"ok 0 0\n")]
    for at in range(count):
        if at % 5 == 4:
            lines.append(f"remove /d{at - 2}")
            brought.remove(at - 2)
        else:
            lines.append(f"import-fs r{at} /d{at}")
            brought.add(at)
        states.append(state_of(brought))
    return lines, states


def state_of(brought):
    text, sizes = [], []
    for at in sorted(brought, key=str):
        text += [f"d 755 d{at}", *entries_of(at, f"d{at}/")]
        sizes += map(len, files_of(at).values())
    return tree_text(*text), f"ok {len(sizes)} {sum(sizes)}\n".encode()


def killed(place, lines, seconds):
    """What a batch of these lines wrote that was killed after so many seconds."""
    with tempfile.TemporaryFile() as source, tempfile.TemporaryFile() as replies:
        source.writelines(lines)
        source.seek(0)
        child = start(place, "batch", stdin=source, stdout=replies)
        time.sleep(seconds)
        child.send_signal(signal.SIGKILL)
        child.communicate()
        replies.seek(0)
        return replies.read()


def a_kill_at_any_moment_leaves_the_tree_after_the_first_lines(place):
    """At least those whose replies were written, and at most one more; then the other lines go through."""
    lines, states = changes(50)
    source = [f"{line}\n".encode() for line in lines]
    for at in range(len(lines)):
        place.resource(f"r{at}", tree_text(*entries_of(at)), files_of(at))
    place.expect((" ".join(INIT), DONE))
    began = time.monotonic()
    expect(batch(place, *lines), (DONE * len(lines), b"", 0))
    whole, rng, seen = time.monotonic() - began, random.Random(SEED), set()
    for _ in range(KILLS):
        shutil.rmtree(place.store)
        place.store.mkdir()
        place.expect((" ".join(INIT), DONE))
        replies = killed(place, source, rng.random() * whole)
        told = len(replies) // len(DONE)
        found = place.run("tree")[0], place.run("check")[0]
        if replies != DONE * told or found not in states[told : told + 2]:
            raise Failed(f"after {told} replies `tree` and `check` write {shortened(found)}")
        done = states.index(found)
        seen.add(done)
        expect(batch(place, *lines[done:]), (DONE * (len(lines) - done), b"", 0))
        place.expect(("tree", states[-1][0]), ("check", states[-1][1]))
    if len(seen) < 10:
        raise Failed(f"the kills left only the trees after {sorted(seen)} lines")


CALLS = [
    *(what_a_batch_leaves_the_next_commands_find, a_batch_goes_on_after_each_line_that_is_not_done),
    *(a_batch_without_a_command_looks_at_the_store_all_the_same, a_source_has_a_greatest_length),
    *(a_source_that_fails_leaves_the_store_alone, a_line_of_the_greatest_length_is_read, a_batch_whose_output_is_not_taken_stops),
    *(others_wait_while_a_batch_works, a_batch_whose_source_has_not_ended_holds_nothing),
    a_kill_at_any_moment_leaves_the_tree_after_the_first_lines,
]
scenes = named(*map(in_a_place, CALLS))
