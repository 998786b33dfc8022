"""tools/fetch where things break: connections, servers, disks and the process itself. What has come stays, the next run goes on with
it, and the depot's manifest is at each moment the old one or the new one, with all that it lists."""
import itertools
import os
import random
import re
import shutil
import signal
import subprocess
import time
from concurrent.futures import ThreadPoolExecutor

from scenes.running import ABC, SECONDS, Failed, Skipped, expect, named, tree_text
from scenes.serving import around, expect_depot, expect_like, fetch, fetch_words, publish, serving, stands, told
from scenes.stores import digest, in_a_place
from scenes.tools import beside, limited_to, tool_of_nobody

FINE = b"", b"", 0
CUTS, KILLS, AT_ONCE = 50, 20, 4


def large(chance):
    """A resource of two files of some hundred thousand bytes, and one in a file."""
    files = {name: chance.randbytes(300_000) for name in ("a", "b")}
    text = tree_text(*(f"f 644 {len(content)} {digest(content)} {name}" for name, content in files.items()))
    return {"foo": chance.randbytes(400_000)}, [("x", text, files)]


def whole_once(served, *paths):
    """That each of these files went out whole, and no byte of it twice."""
    sizes = {path: os.path.getsize(served.folder / path) for path in paths}
    sent = {path: served.sent[path] for path in paths}
    if sent != sizes:
        raise Failed(f"of files with {sizes} bytes the server sent {sent}")


def a_connection_that_is_cut_fifty_times_costs_no_byte_twice(place):
    """Each of the first answers ends after some bytes, wherever three requests at once are by then."""
    chance = random.Random(7)
    published = publish(beside(place, "out"), *large(chance))
    with serving(published) as served:
        left = itertools.count(CUTS, -1)

        def cut(request):
            if next(left) <= 0:
                return request.serve()
            return request.serve_up_to(chance.randrange(1, 30_000))

        served.odd = dict.fromkeys(("foo", "x/a", "x/b"), cut)
        expect(fetch(place, "--jobs", "3", served.url, place.depot), FINE)
        if len(served.asked) < CUTS:
            raise Failed(f"the server was asked {len(served.asked)} times")
        whole_once(served, *served.odd)
    expect_like(place.depot, published)


def a_run_that_is_stopped_is_gone_on_with(place):
    """By Ctrl-C and by a kill, each once half of a file has come."""
    published = publish(beside(place, "out"), {"foo": random.Random(8).randbytes(400_000)})
    with serving(published) as served:
        for stop, status, said in (signal.SIGINT, 130, told("interrupted")), (signal.SIGKILL, -signal.SIGKILL, b""):
            half = 100_000 if stop == signal.SIGINT else 200_000

            def stalls(request, half=half):
                content, start = request.content(), request.start()
                request.head("206 Partial Content" if start else "200 OK", *([f"Content-Range: bytes {start}-399999/400000"] if start else []), f"Content-Length: {400_000 - start}")
                request.send(content[start:half])
                time.sleep(SECONDS)

            served.odd["foo"] = stalls
            child = subprocess.Popen(fetch_words(place, served.url, place.depot), stderr=subprocess.PIPE, env=around(), preexec_fn=hears_interrupts)
            wait_for(lambda: served.sent.get("foo") == half)
            part = place.depot / ".fetch" / digest((published / "foo").read_bytes())
            wait_for(lambda: part.exists() and part.stat().st_size > half - 70_000)
            child.send_signal(stop)
            told_last = child.communicate(timeout=SECONDS)[1]
            if (child.returncode, told_last) != (status, said):
                raise Failed(f"it ends with {child.returncode} and tells {told_last}")
            served.sent["foo"] = part.stat().st_size
        served.odd.clear()
        expect(fetch(place, served.url, place.depot), FINE)
        whole_once(served, "foo")
    expect_like(place.depot, published)


def hears_interrupts():
    """Whatever started these tests may have them ignored, as a shell does of what runs in its background."""
    signal.signal(signal.SIGINT, signal.SIG_DFL)


def wait_for(holds):
    end = time.monotonic() + SECONDS
    while not holds():
        if time.monotonic() > end:
            raise Failed("what was waited for didn't come")
        time.sleep(0.005)


def cut_once(rest):
    """An answer that is cut after 20,000 bytes, and another kind of answer after that."""
    times = itertools.count()
    return lambda request: rest(request) if next(times) else request.serve_up_to(20_000)


def whole(request):
    request.head("200 OK", f"Content-Length: {len(request.content())}")
    request.send(request.content())


def no_such_range(request):
    return request.head("416 Range Not Satisfiable", "Content-Length: 0") if request.start() else request.serve()


def another_range(request):
    if not request.start():
        return request.serve()
    request.head("206 Partial Content", "Content-Range: bytes 0-99/40000", "Content-Length: 100")
    return request.send(request.content()[:100])


def fails_first(status):
    times = itertools.count()
    return lambda request: request.serve() if next(times) else request.head(status, "Content-Length: 0")


def other_bytes_first(request_count=itertools.count()):
    """The first bytes are of another file, so what two answers give together isn't the listed one."""

    def answer(request):
        if next(request_count):
            return request.serve()
        request.head("200 OK", f"Content-Length: {len(request.content())}")
        request.send(b"x" * 20_000)
        return request.hang_up()

    return answer


def what_a_server_says_to_a_second_request_is_looked_at(place):
    content = random.Random(9).randbytes(40_000)
    published = publish(beside(place, "out"), {"foo": content})
    with serving(published) as served:
        for answer, sent in (
            (cut_once(whole), 60_000),
            (cut_once(no_such_range), 60_000),
            (cut_once(another_range), 60_100),
            (fails_first("503 Busy"), 40_000),
            (fails_first("500 Broken"), 40_000),
            (other_bytes_first(), 80_000),
        ):
            served.odd["foo"] = answer
            served.forget()
            (place.depot / "foo").unlink(missing_ok=True)
            expect(fetch(place, served.url, place.depot), FINE)
            if served.asked.count("foo") < 2 or served.sent["foo"] != sent:
                raise Failed(f"it asked {served.asked.count('foo')} times, and {served.sent['foo']:,} bytes were sent, and not {sent:,}")
            expect_like(place.depot, published)


def a_cut_that_no_length_tells_is_gone_on_with(place):
    """The size of the file is listed, so what ends before it was cut."""
    content = random.Random(13).randbytes(40_000)
    published = publish(beside(place, "out"), {}, [("x", tree_text(f"f 644 40000 {digest(content)} a"), {"a": content})])

    def without_a_length(request):
        start = request.start()
        request.head("206 Partial Content" if start else "200 OK", "Connection: close", *([f"Content-Range: bytes {start}-39999/40000"] if start else []))
        request.send(content[start : start + 15_000])
        request.hang_up()

    with serving(published) as served:
        served.odd["x/a"] = without_a_length
        expect(fetch(place, served.url, place.depot), FINE)
        whole_once(served, "x/a")
    expect_like(place.depot, published)


def a_manifest_that_is_cut_is_asked_for_anew(place):
    """The rest may be that of another manifest by then, so no part of it is asked for."""
    published, times = publish(beside(place, "out"), {"foo": b"foo"}), itertools.count()
    with serving(published) as served:
        served.odd["SHA256SUMS"] = lambda request: request.serve() if next(times) else request.serve_up_to(30)
        expect(fetch(place, served.url, place.depot), FINE)
        ranges = [head.get("Range") for path, head in served.heads if path == "/SHA256SUMS"]
        if ranges != [None, None]:
            raise Failed(f"the manifest was asked for with the ranges {ranges}")
    expect_like(place.depot, published)


def a_server_that_does_not_answer_is_told(place):
    published = publish(beside(place, "out"), {"foo": b"foo"})
    with serving(published) as served:
        url = served.url
        for answer, said in (
            (lambda request: request.head("503 Busy", "Content-Length: 0"), "the server answers 503"),
            (lambda request: request.head("404 Gone \x1b", "Content-Length: 0"), "the server answers 404 Gone \\x1b"),
            (lambda request: request.head("200 OK", "Content-Length: 3") or request.hang_up(), "the connection was cut"),
            (lambda request: request.hang_up(), "Remote end closed connection without response"),
        ):
            served.odd["foo"] = answer
            expect(fetch(place, url, place.depot), (b"", told(f"{url}/foo: {said}"), 3))
            expect_depot(place.depot, {})
    expect(fetch(place, url, place.depot), (b"", told(f"{url}/SHA256SUMS: Connection refused"), 3))


STOPS = """import itertools, os, signal
calls, at, how = itertools.count(1), int(os.environ["STOP_AT"]), os.environ["STOP_BY"]

def counted(call):
    def counting(*words, **options):
        if next(calls) == at:
            if how == "kill":
                os.kill(os.getpid(), signal.SIGKILL)
            raise OSError(28, "No space left on device")
        return call(*words, **options)
    return counting

for name in "mkdir", "write", "fsync", "rename", "unlink", "ftruncate":
    setattr(os, name, counted(getattr(os, name)))
"""
OLD = {"foo_1": b"one"}, [("x_1", tree_text("d 755 a", f"f 644 3 {ABC} a/b"), {"a/b": b"abc"})]
NEW = {"foo_2": b"two"}, [("x_2", tree_text("d 755 a", f"f 644 3 {ABC} a/b", f"f 644 3 {digest(b'new')} a/c"), {"a/b": b"abc", "a/c": b"new"})]


def stopping(place, at, how):
    """The environment in which the tool is stopped at one of the calls that write."""
    return around(PYTHONPATH=os.fspath(beside(place, "stops")), STOP_AT=str(at), STOP_BY=how)


def has_all_of(depot, old, new):
    """That the manifest is the old one or the new one, that all it lists stands in the depot, and that each tree text which stands
    there has its files."""
    found = stands(depot)
    which = old if found.get("SHA256SUMS") == old["SHA256SUMS"] else new
    texts = tuple(path.removesuffix("tree").replace(".", "/") for path in found if path.endswith(".tree"))
    wanted = {**{path: content for path, content in {**old, **new}.items() if path.startswith(texts)}, **which}
    if lost := [path for path, content in wanted.items() if content is not None and found.get(path) != content]:
        raise Failed(f"the depot lacks {lost}")
    return which is new


class Before:
    """Depots that have the old resources, and a server that has the new ones."""

    def __init__(self, place, served):
        self.place, self.served = place, served
        self.folder = publish(beside(place, "before"), *OLD)
        self.old, self.new = stands(self.folder), stands(served.folder)
        (beside(place, "stops")).mkdir()
        (beside(place, "stops") / "sitecustomize.py").write_text(STOPS)
        fetch_words(place)

    def run(self, name, call):
        """A call with such a depot: what comes of it, and whether the manifest is the new one then. The next run does the rest."""
        depot = beside(self.place, f"depot-{name}")
        shutil.copytree(self.folder, depot)
        outcome = call(fetch_words(self.place, "--jobs", "1", self.served.url, depot))
        is_new = has_all_of(depot, self.old, self.new)
        expect(fetch(self.place, self.served.url, depot), FINE)
        has_all_of(depot, self.new, {})
        if (depot / ".fetch").exists():
            raise Failed(f"after a next run .fetch has {sorted(os.listdir(depot / '.fetch'))}")
        return outcome, is_new


def stopped_at_each_call(place, how, check):
    """Stops the tool at a call that writes, then at the next one, until it ends by itself: some at once. The very first makes the folder
    that is there, and it doesn't matter how that fails."""
    with serving(publish(beside(place, "out"), *NEW)) as served, ThreadPoolExecutor(AT_ONCE) as threads:
        before, stopped = Before(place, served), {}

        def stop_at(at):
            return before.run(at, lambda words: subprocess.run(words, env=stopping(place, at, how), capture_output=True, timeout=SECONDS))

        for first in itertools.count(2, AT_ONCE):
            for at, (ended, is_new) in zip(itertools.count(first), threads.map(stop_at, range(first, first + AT_ONCE))):
                if ended.returncode:
                    stopped[at] = is_new
                    check(at, ended)
            if first + AT_ONCE - 1 not in stopped:
                break
        if len(stopped) < 20 or set(stopped.values()) != {False, True}:
            raise Failed(f"it was stopped at these calls, after some of which the manifest was new: {stopped}")


def a_kill_at_each_call_leaves_the_old_manifest_or_the_new_one(place):
    def check(at, ended):
        if ended.returncode != -signal.SIGKILL:
            raise Failed(f"at call {at} it ends with {ended.returncode} and tells {ended.stderr}")

    stopped_at_each_call(place, "kill", check)


def a_disk_that_is_full_at_any_call_is_told(place):
    def check(at, ended):
        if ended.returncode != 4 or not re.fullmatch(b"fetch: [^\n]*: No space left on device\n", ended.stderr):
            raise Failed(f"at call {at} it ends with {ended.returncode} and tells {ended.stderr}")

    stopped_at_each_call(place, "full", check)


def a_kill_at_any_time_leaves_the_old_manifest_or_the_new_one(place):
    """Some way into the longest of some runs, by the clock."""
    chance = random.Random(10)
    with serving(publish(beside(place, "out"), *NEW)) as served, ThreadPoolExecutor(AT_ONCE) as threads:
        before = Before(place, served)
        began = time.monotonic()
        before.run("whole", lambda words: subprocess.run(words, env=around(), check=True, timeout=SECONDS))
        longest = time.monotonic() - began

        def killed(words):
            child = subprocess.Popen(words, env=around(), stderr=subprocess.DEVNULL)
            time.sleep(chance.uniform(0, longest))
            child.kill()
            child.wait()

        list(threads.map(lambda at: before.run(at, killed), range(KILLS)))


NOTES = """import os
notes = open(os.environ["NOTES"], "a", buffering=1)
fsync, rename, mkdir = os.fsync, os.rename, os.mkdir

def path_of(folder, name=""):
    return os.path.join(os.readlink(f"/proc/self/fd/{folder}"), os.fsdecode(name))

def noting_fsync(handle):
    fsync(handle)
    print("fsync", path_of(handle), file=notes)

def noting_rename(old, new, src_dir_fd, dst_dir_fd):
    rename(old, new, src_dir_fd=src_dir_fd, dst_dir_fd=dst_dir_fd)
    print("rename", path_of(src_dir_fd, old), path_of(dst_dir_fd, new), file=notes)

def noting_mkdir(name, mode=0o777, *, dir_fd=None):
    mkdir(name, mode, dir_fd=dir_fd)
    if dir_fd is not None and name != b".fetch":
        print("mkdir", path_of(dir_fd, name), file=notes)

os.fsync, os.rename, os.mkdir = noting_fsync, noting_rename, noting_mkdir
"""


def check_syncs(calls):
    """That each file was synced before it was renamed, each folder with a new name before the manifest came, and all at the end. Gives
    the names that came, in their order."""
    synced, changed, came = set(), set(), []
    for call, *paths in calls:
        if call == "fsync":
            synced.add(paths[0])
            changed.discard(os.path.join(paths[0], ""))
            continue
        if call == "rename" and paths[0] not in synced or (paths[-1].endswith("/SHA256SUMS") and changed):
            raise Failed(f"at {call} {paths} these were synced: {synced}, and not {changed}")
        synced.discard(paths[0])
        changed.add(os.path.join(os.path.dirname(paths[-1]), ""))
        came += [os.path.basename(paths[-1])] * (call == "rename")
    if changed:
        raise Failed(f"at the end these weren't synced: {changed}")
    return came


def what_comes_is_synced_before_the_manifest(place):
    tree = "x_2", tree_text("d 755 a", f"f 644 3 {ABC} a/b", f"f 644 3 {ABC} a/c"), {"a/b": b"abc", "a/c": b"abc"}
    published = publish(beside(place, "out"), {"foo_2": b"two"}, [tree])
    folder, notes = beside(place, "notes"), beside(place, "notes") / "notes"
    folder.mkdir()
    (folder / "sitecustomize.py").write_text(NOTES)
    with serving(published) as served:
        expect(fetch(place, served.url, place.depot, env=around(PYTHONPATH=os.fspath(folder), NOTES=os.fspath(notes))), FINE)
    came = check_syncs([[word.removesuffix("/") for word in line.split()] for line in notes.read_text().splitlines()])
    if came != ["b", "c", "x_2.tree", "foo_2", "SHA256SUMS"]:
        raise Failed(f"there came {came}")


def a_file_that_may_not_be_so_long_is_told(place):
    published = publish(beside(place, "out"), {"foo": b"x" * 100_000})
    part = place.depot / ".fetch" / digest(b"x" * 100_000)
    with serving(published) as served:
        expect(fetch(place, served.url, place.depot, preexec_fn=limited_to(30_000)), (b"", told(f"{part}: File too large"), 4))
        served.forget()
        expect(fetch(place, served.url, place.depot), FINE)
        if served.sent["foo"] != 70_000:
            raise Failed(f"the server sent {served.sent['foo']:,} bytes more")
    expect_like(place.depot, published)


def a_depot_that_cannot_be_written_is_told(place):
    published = publish(beside(place, "out"), {"foo": b"foo"})
    with serving(published) as served:
        depot = beside(place, "file")
        depot.touch()
        expect(fetch(place, served.url, depot), (b"", told(f"{depot}: File exists"), 4))
        if os.getuid() != 0:
            raise Skipped("it wants root, to become nobody")
        for path in place.store.parent, place.depot:
            path.chmod(0o755)
        expect(tool_of_nobody(place, "fetch", served.url, place.depot), (b"", told(f"{place.depot}/.fetch: Permission denied"), 4))


def what_bars_the_way_is_told_and_links_are_not_followed(place):
    """What is told comes before anything is fetched or replaced. A link at the place of a file is replaced, and its target stays."""
    published = publish(beside(place, "out"), {"foo": b"foo"}, [("x", tree_text("d 755 a", f"f 644 3 {ABC} a/b"), {"a/b": b"abc"})])
    outside, depot = beside(place, "outside"), place.depot
    outside.mkdir()
    (outside / "kept").write_bytes(b"kept")
    with serving(published) as served:
        for make, path, said in (
            (lambda: (depot / "x").symlink_to(outside), "x/a/b", "Not a directory"),
            (lambda: (depot / "x").write_bytes(b""), "x/a/b", "Not a directory"),
            (lambda: ((depot / "x").mkdir(), (depot / "x/a").symlink_to(outside)), "x/a/b", "Not a directory"),
            (lambda: (depot / "x/a/b").mkdir(parents=True), "x/a/b", "Is a directory"),
        ):
            make()
            expect(fetch(place, served.url, depot), (b"", told(f"{depot}/{path}: {said}"), 4))
            if {"foo", "SHA256SUMS"} & set(served.asked[1:]) or stands(outside) != {"kept": b"kept"}:
                raise Failed(f"it asked for {served.asked}, and outside stand {stands(outside)}")
            served.forget()
            subprocess.run(["find", depot, "-mindepth", "1", "-delete"], check=True)
        (depot / "x/a").mkdir(parents=True)
        for path in "foo", "x.tree", "x/a/b", "SHA256SUMS":
            (depot / path).symlink_to(outside / "kept")
        expect(fetch(place, served.url, depot), FINE)
        (depot / "SHA256SUMS.gpg").symlink_to(outside / "kept")
        (depot / ".fetch").symlink_to(outside)
        expect(fetch(place, served.url, depot), (b"", told(f"{depot}/.fetch: Not a directory"), 4))
        (depot / ".fetch").unlink()
        (depot / "SHA256SUMS.gpg").unlink()
    expect_like(depot, published)
    if stands(outside) != {"kept": b"kept"}:
        raise Failed(f"outside stand {stands(outside)}")


CALLS = [
    *(a_connection_that_is_cut_fifty_times_costs_no_byte_twice, a_run_that_is_stopped_is_gone_on_with),
    *(what_a_server_says_to_a_second_request_is_looked_at, a_cut_that_no_length_tells_is_gone_on_with),
    *(a_manifest_that_is_cut_is_asked_for_anew, a_server_that_does_not_answer_is_told),
    *(a_kill_at_each_call_leaves_the_old_manifest_or_the_new_one, a_disk_that_is_full_at_any_call_is_told),
    *(a_kill_at_any_time_leaves_the_old_manifest_or_the_new_one, what_comes_is_synced_before_the_manifest, a_file_that_may_not_be_so_long_is_told),
    *(a_depot_that_cannot_be_written_is_told, what_bars_the_way_is_told_and_links_are_not_followed),
]
scenes = named(*map(in_a_place, CALLS))
