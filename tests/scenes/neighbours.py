"""pack, unpack and tree-text beside others: those who change a folder meanwhile, signals and kills, and other runs in the same place.

A neighbour's change comes at a moment of its own: Python is started with a hook that does it once, where the first file is read, or the
program is a script that does it before the files come."""
import os
import shutil
import signal
import subprocess
import sys
import time

from scenes.devices import NOBODY
from scenes.keeping import mode_of, need_root
from scenes.progress import LONG, Plain, Terminal, screen
from scenes.running import ABC, SECONDS, Failed, expect, named, shortened, tree_text
from scenes.stores import DONE, in_a_place
from scenes.tools import TOOLS, as_it_was, beside, holds_nothing, left, script, text_of, tool

HOOK = """import hashlib, os, time
first = hashlib.sha256
def once(*words, **options):
    hashlib.sha256 = first
    {}
    return first(*words, **options)
hashlib.sha256 = once
"""
FINE = b"", b"", 0


def hooked(place, does):
    """The environment of a tool that does something once, where it reads the first file."""
    folder = beside(place, "hook")
    folder.mkdir(exist_ok=True)
    (folder / "sitecustomize.py").write_text(HOOK.format(does))
    around = {name: value for name, value in os.environ.items() if name != "HOSTEXT_PROGRESS"}
    return {**around, "HOSTEXT": str(place.program), "PYTHONPATH": str(folder)}


def theirs(folder):
    """A folder of two users' files."""
    (folder / "z").mkdir(parents=True)
    for path in "a", "z/shadow":
        (folder / path).write_bytes(b"abc")
    return folder


def readers(place, folder):
    """The tools that read a folder, with their words."""
    return ("pack", (folder, place.depot, "r")), ("tree-text", (folder,))


def a_directory_that_is_swapped_meanwhile_is_not_entered(place):
    """For a link to a folder of secrets, and for that folder itself."""
    for puts in "os.symlink({secrets!r}, {z!r})", "os.rename({secrets!r}, {z!r})":
        for name, words in readers(place, beside(place, "folder")):
            folder, secrets = theirs(beside(place, "folder")), beside(place, "secrets")
            secrets.mkdir()
            (secrets / "shadow").write_bytes(b"secret")
            z = str(folder / "z")
            around = hooked(place, f"os.rename({z!r}, {z + '.old'!r}); " + puts.format(secrets=str(secrets), z=z))
            expect(tool(place, name, *words, env=around), (b"", f"{name}: {z}: it changed meanwhile\n".encode(), 1))
            holds_nothing(place.depot)
            shutil.rmtree(folder)
            shutil.rmtree(secrets, ignore_errors=True)


def a_file_that_is_swapped_meanwhile_is_not_read(place):
    """For a link to a secret, and for a pipe, which would hold the tool up."""
    secret = beside(place, "secret")
    secret.write_bytes(b"secret")
    for puts, reason in (f"os.symlink({str(secret)!r}, ", "it changed meanwhile"), ("os.mkfifo(", "it is no file"):
        for name, words in readers(place, beside(place, "folder")):
            folder = theirs(beside(place, "folder"))
            shadow = str(folder / "z/shadow")
            around = hooked(place, f"os.unlink({shadow!r}); {puts}{shadow!r})")
            expect(tool(place, name, *words, env=around), (b"", f"{name}: {shadow}: {reason}\n".encode(), 1))
            holds_nothing(place.depot)
            shutil.rmtree(folder)


def nothing_is_changed_where_somebody_leads_the_folder_of_a_run_elsewhere(place):
    """It is renamed, and in its place comes one that leads to a folder of somebody else."""
    place.resource("r", tree_text("d 777 d", f"f 644 3 {ABC} d/a"), {"d/a": b"abc"})
    place.expect(("init x86-64 system", DONE), ("import-fs r /", DONE))
    parent, victim = beside(place, "parent"), beside(place, "victim")
    for path in parent, victim, victim / "d":
        path.mkdir(mode=0o700)
    (victim / "d/kept").touch()
    moves = f'cd "{parent}" && for room in .unpack-*; do mv "$room" moved && mkdir "$room" "$room/depot" && ln -s "{victim}" "$room/tree"; done'
    fake = script(beside(place, "fake"), f'[ $3 = tree ] || ({moves})\nexec "{place.program}" "$@"')
    around = {**os.environ, "HOSTEXT": str(fake)}
    found = tool(place, "unpack", place.store, "/", parent / "out", env=around)
    if mode_of(victim / "d") != 0o700 or left(victim) != ["d"] or left(victim / "d") != ["kept"]:
        raise Failed(f"the folder of somebody else has changed: {mode_of(victim / 'd'):o} {left(victim)}")
    expect(found, FINE)
    if (parent / "out").is_symlink() or text_of(place, parent / "out") != tree_text("d 777 d", f"f 644 3 {ABC} d/a"):
        raise Failed("what was unpacked is something else")
    if left(parent / "moved"):
        raise Failed(f"what was moved has {left(parent / 'moved')}")


def root_unpacks_in_no_folder_in_which_everybody_may_write(place):
    need_root()
    place.expect(("init x86-64 system", DONE))
    parent = beside(place, "parent")
    parent.mkdir()
    parent.chmod(0o777)
    told = f"unpack: {parent}: everybody may write in it, and it isn't sticky\n".encode()
    for out in parent / "out", parent:
        expect(tool(place, "unpack", place.store, "/", out), (b"", told, 1))
        holds_nothing(parent)
    parent.chmod(0o1777)
    expect(tool(place, "unpack", place.store, "/", parent / "out"), FINE)


class Slow:
    """A tool that waits where it reads the first file, until it is let go."""

    def __init__(self, place, name, *words, stderr=subprocess.PIPE):
        self.here, self.go = beside(place, f"here-{name}"), beside(place, f"go-{name}")
        for path in self.here, self.go:
            path.unlink(missing_ok=True)
        does = f"open({str(self.here)!r}, 'w').close(); [time.sleep(0.01) for _ in iter(lambda: os.path.exists({str(self.go)!r}), True)]"
        self.child = subprocess.Popen([TOOLS / name, *words], env=hooked(place, does), stdout=subprocess.PIPE, stderr=stderr)
        until = time.monotonic() + SECONDS
        while not self.here.exists():
            if self.child.poll() is not None or time.monotonic() > until:
                self.child.kill()
                raise Failed(f"{name} reads no file: {self.child.communicate()}")
            time.sleep(0.01)

    def end(self, number=None):
        """What it wrote, and its status, once it was let go or got a signal."""
        if number:
            self.child.send_signal(number)
        else:
            self.go.touch()
        written, told = self.child.communicate(timeout=SECONDS)
        return written, told or b"", self.child.returncode


def made(place):
    """A folder that is packed, and a store that has it; and of each tool the words, and where nothing may be left."""
    folder, out = theirs(beside(place, "folder")), beside(place, "out")
    place.resource("r", text_of(place, folder), {"a": b"abc", "z/shadow": b"abc"})
    place.expect(("init x86-64 system", DONE), ("import-fs r /", DONE))
    depot = beside(place, "packed")
    depot.mkdir()
    return ("pack", (folder, depot, "r"), depot), ("unpack", (place.store, "/", out), out.parent), ("tree-text", (folder,), folder)


def hidden(folder):
    return [name for name in left(folder) if name.startswith(".")]


def a_signal_leaves_nothing_behind(place):
    for name, words, folder in made(place):
        for is_there in (False, True) if name == "unpack" else (False,):
            if is_there:
                words[2].mkdir()
            stood = left(folder) if name == "pack" else []
            for number, status in (signal.SIGINT, 130), (signal.SIGTERM, 143), (signal.SIGHUP, 129):
                expect(Slow(place, name, *words).end(number), (b"", b"", status))
                if hidden(folder) or (name == "pack" and left(folder) != stood) or (name == "unpack" and words[2].exists() != is_there):
                    raise Failed(f"after {name} was ended by {number} there stand {left(folder)}")
                if is_there:
                    holds_nothing(words[2])


def a_signal_that_was_ignored_at_the_start_stays_so(place):
    name, words, _ = made(place)[0]
    before = signal.signal(signal.SIGINT, signal.SIG_IGN)
    try:
        slow = Slow(place, name, *words)
    finally:
        signal.signal(signal.SIGINT, before)
    slow.child.send_signal(signal.SIGINT)
    expect(slow.end(), FINE)


def what_a_kill_left_goes_with_the_next_run(place):
    pack, unpack, _ = made(place)
    for (name, words, folder), is_there in (pack, False), (unpack, False), (unpack, True):
        out = words[2] if name == "unpack" else None
        if is_there:
            shutil.rmtree(out)
            out.mkdir()
        place_of_it = out if is_there else folder
        Slow(place, name, *words).end(signal.SIGKILL)
        if len(hidden(place_of_it)) != 1:
            raise Failed(f"a killed {name} leaves {left(place_of_it)}")
        expect(tool(place, name, *words), FINE)
        if hidden(place_of_it):
            raise Failed(f"the next {name} leaves {left(place_of_it)}")


def the_folder_of_a_run_that_goes_on_stays(place):
    (_, (folder, depot, _), _), (_, (store, path, out), _), _ = made(place)
    for name, first, second in ("pack", (folder, depot, "slow"), (folder, depot, "r")), ("unpack", (store, path, out), (store, path, beside(place, "other"))):
        slow = Slow(place, name, *first)
        expect(tool(place, name, *second), FINE)
        if len(hidden(depot if name == "pack" else out.parent)) != 1:
            raise Failed(f"beside a run of {name} stand {left(depot)}, {left(out.parent)}")
        expect(slow.end(), FINE)
    if left(depot) != ["r", "r.tree", "slow", "slow.tree"] or left(out) != ["a", "z"]:
        raise Failed(f"there stand {left(depot)} and {left(out)}")


TAKES = """import fcntl, os, pathlib
first = fcntl.flock
def once(*words):
    fcntl.flock = first
    [path.rmdir() for path in pathlib.Path({!r}).glob(".pack-*")]
    return first(*words)
fcntl.flock = once
"""


def a_folder_that_went_before_it_was_locked_is_made_anew(place):
    """As another run takes it away that looks for what was left."""
    folder, depot = theirs(beside(place, "folder")), beside(place, "packed")
    around = hooked(place, "")
    (beside(place, "hook") / "sitecustomize.py").write_text(TAKES.format(str(depot)))
    expect(tool(place, "pack", folder, depot, "r", env=around), FINE)
    if left(depot) != ["r", "r.tree"] or (depot / "r.tree").read_bytes() != text_of(place, folder):
        raise Failed(f"there stand {left(depot)}")


def what_came_to_stand_there_meanwhile_stays(place):
    """A run that ends first has the name, and the other one leaves nothing."""
    (_, (folder, depot, resource), _), *_ = made(place)
    slow = Slow(place, "pack", folder, depot, resource)
    shutil.rmtree(folder / "z")
    expect(tool(place, "pack", folder, depot, resource), FINE)
    stands = (depot / "r.tree").read_bytes()
    (folder / "z").mkdir()
    told, status = f"pack: {folder}/z: it changed meanwhile\n", 1
    expect(slow.end(), (b"", told.encode(), status))
    second = Slow(place, "pack", theirs(beside(place, "more")), depot, "s")
    expect(tool(place, "pack", folder, depot, "s"), FINE)
    shutil.rmtree(depot / "s")
    (depot / "s/a").mkdir(parents=True)
    expect(second.end(), (b"", f"pack: {depot}/s: Directory not empty\n".encode(), 1))
    if left(depot) != ["r", "r.tree", "s", "s.tree"] or (depot / "r.tree").read_bytes() != stands or left(depot / "s") != ["a"]:
        raise Failed(f"there stand {left(depot)}")


def what_no_run_left_stays(place):
    """A link, a file, a folder with something else in it, one that others may enter, and one of another user."""
    folder, depot, elsewhere = theirs(beside(place, "folder")), beside(place, "packed"), beside(place, "elsewhere")
    elsewhere.mkdir(mode=0o700)
    depot.mkdir()
    (depot / ".pack-link").symlink_to(elsewhere)
    (depot / ".pack-file").touch()
    (depot / ".pack-more/keep").mkdir(parents=True)
    (depot / ".pack-more").chmod(0o700)
    (depot / ".pack-open").mkdir()
    (depot / ".pack-open").chmod(0o755)
    if os.getuid() == 0:
        (depot / ".pack-other").mkdir(mode=0o700)
        os.chown(depot / ".pack-other", NOBODY, NOBODY)
    stood = left(depot)
    (depot / ".pack-gone/files").mkdir(parents=True)
    (depot / ".pack-gone").chmod(0o700)
    expect(tool(place, "pack", folder, depot, "r"), FINE)
    if left(depot) != [*stood, "r", "r.tree"] or not (depot / ".pack-more/keep").exists():
        raise Failed(f"of {stood} there stand {left(depot)}")


def deep(folder):
    """A folder with a file at a path of 16 names of 255 bytes, made by handles."""
    folder.mkdir()
    name, handle = "n" * 255, os.open(folder, os.O_RDONLY)
    lines = []
    for depth in range(1, 16):
        os.mkdir(name, 0o755, dir_fd=handle)
        below = os.open(name, os.O_RDONLY, dir_fd=handle)
        os.close(handle)
        handle = below
        lines.append(f"d 755 {'/'.join([name] * depth)}")
    with open(os.open(name, os.O_WRONLY | os.O_CREAT, 0o644, dir_fd=handle), "wb") as file:
        file.write(b"abc")
    os.close(handle)
    return tree_text(*lines, f"f 644 3 {ABC} {'/'.join([name] * 16)}")


def paths_that_no_call_takes_are_packed_and_unpacked(place):
    """A path of 4,095 bytes stands below a folder, so that the whole path is longer than the system's calls take."""
    folder, out, fake, text = (beside(place, name) for name in ("folder", "out", "fake", "text"))
    written = deep(folder)
    if text_of(place, folder) != written:
        raise Failed("the tree text is another one")
    expect(tool(place, "pack", folder, place.depot, "r"), FINE)
    if (place.depot / "r.tree").read_bytes() != written:
        raise Failed("the packed text is another one")
    text.write_bytes(written)
    around = {**os.environ, "HOSTEXT": str(script(fake, f'[ $3 = tree ] && exec cat "{text}"\nprintf abd'))}
    told = f"unpack: /{'/'.join(['n' * 255] * 16)}: the tree changed meanwhile\n".encode()
    expect(tool(place, "unpack", place.store, "/", out, env=around), (b"", told, 1))
    as_it_was(place, out, False)
    script(fake, f'[ $3 = tree ] && exec cat "{text}"\nprintf abc')
    expect(tool(place, "unpack", place.store, "/", out, env=around), FINE)
    if text_of(place, out) != written:
        raise Failed("what was unpacked is something else")


MEASURE = """import sys
sys.path.insert(0, {tools!r})
import texts
text = b"hostext-tree 1\\n" + {text}
try:
    texts.read_tree(text)
except texts.Faulty:
    pass
with open("/proc/self/status") as status:
    print(next(int(line.split()[1]) // 1024 for line in status if line.startswith("VmHWM")))
"""
MANY = 'b"".join(b"d 755 %b\\n" % b"/".join([b"bb"] * at) for at in range(1, 64)) + b"".join(b"l 1 a %b/%05d\\n" % (b"/".join([b"bb"] * 63), at) for at in range(100_000)) + b"end\\n"'


def a_text_of_20_megabytes_takes_a_small_multiple_of_memory(place):
    """Of many empty lines, of many short ones, and of many long paths. What its parent took counts for nothing."""
    for text in 'b"\\n" * 20_000_000', 'b"d 755 a\\n" + b"ab\\n" * 7_000_000', MANY:
        measured = subprocess.run([sys.executable, "-B", "-c", MEASURE.format(tools=str(TOOLS), text=text)], capture_output=True, timeout=SECONDS)
        if measured.returncode or int(measured.stdout) > 200:
            raise Failed(f"the text {text[:40]} takes {measured.stdout} MiB {measured.stderr}")


def progress_is_told_on_a_terminal_alone(place):
    lines = {"pack": "read 1 files, 0.0 MB", "unpack": "wrote 1 files, 0.0 MB", "tree-text": "read 1 files, 0.0 MB"}
    for name, words, _ in made(place):
        for told, options, is_told in (Terminal(), (), True), (Plain(), (), False), (Terminal(), ("--quiet",), False):
            slow = Slow(place, name, *options, *words, stderr=told.theirs)
            time.sleep(LONG)
            written, _, status = slow.end()
            expect((b"", b"", status), FINE)
            found = told.end()
            if (f"\r{name}: {lines[name]}".encode() in found) != is_told or (not is_told and found):
                raise Failed(f"{name} {options} tells {shortened(found)}")
            if screen(found) != [""]:
                raise Failed(f"on the terminal there is left {screen(found)}")
            for path in words[-1:] if name == "unpack" else (words[1] / "r.tree", words[1] / "r") if name == "pack" else ():
                shutil.rmtree(path) if path.is_dir() else path.unlink()


CALLS = [
    *(a_directory_that_is_swapped_meanwhile_is_not_entered, a_file_that_is_swapped_meanwhile_is_not_read),
    *(nothing_is_changed_where_somebody_leads_the_folder_of_a_run_elsewhere, root_unpacks_in_no_folder_in_which_everybody_may_write),
    *(a_signal_leaves_nothing_behind, a_signal_that_was_ignored_at_the_start_stays_so, what_a_kill_left_goes_with_the_next_run),
    *(the_folder_of_a_run_that_goes_on_stays, what_came_to_stand_there_meanwhile_stays, a_folder_that_went_before_it_was_locked_is_made_anew, what_no_run_left_stays, paths_that_no_call_takes_are_packed_and_unpacked),
    *(a_text_of_20_megabytes_takes_a_small_multiple_of_memory, progress_is_told_on_a_terminal_alone),
]
scenes = named(*map(in_a_place, CALLS))
