"""What scenes share: running the program, comparing what came of it, and the texts that they are run on."""
import functools
import os
import shutil
import subprocess
from pathlib import Path

TOP = Path(__file__).resolve().parent.parent.parent
SECONDS = 120

LAYER = [b".", b".", b"layer"]
COMPARE = [b".", b".", b"compare"]
MOST_ENTRIES = 262_144

# What `--version` writes.
LICENCES = b"SPDX-License-Identifier: MIT OR Apache-2.0\n"
VERSION = b"hostext 0.3.0\nproved with rattle-kit-13f logic dac8208d650f15bf\n" + LICENCES

# The digests of no byte, and of `abc`.
EMPTY = "e3b0c44298fc1c149afbf4c8996fb92427ae41e4649b934ca495991b7852b855"
ABC = "ba7816bf8f01cfea414140de5dae2223b00361a396177a9cb410ff61f20015ad"


class Skipped(Exception):
    """This machine lacks what a scene needs."""


class Failed(Exception):
    """Something else came of a scene than it expects."""


@functools.cache
def found(name):
    return subprocess.run([TOP / "tools/program", name], stdin=subprocess.DEVNULL, stdout=subprocess.PIPE)


def program_of(name):
    """The file that is run for the name of a program: the one that the environment names, as HOSTEXT_PUBLISH for hostext_publish; or
    else the one that was built here, or is carried, or is proved and built first."""
    if given := os.environ.get(name.upper()):
        return Path(given).resolve()
    if found(name).returncode and not shutil.which("rt"):
        raise Skipped("there is no rt")
    if found(name).returncode:
        raise Failed(f"there is no {name}")
    return Path(os.fsdecode(found(name).stdout).rstrip("\n"))


def publisher():
    """The program that publishes."""
    return program_of("hostext_publish")


def imager():
    """The program that writes EROFS images."""
    return program_of("hostext_erofs")


def named(*calls):
    """Scenes that are functions of the program, each named by what it shows."""
    return lambda program: ((call.__name__.replace("_", " "), lambda call=call: call(program)) for call in calls)


def tree_text(*lines, version=1):
    return "".join(f"{line}\n" for line in (f"hostext-tree {version}", *lines, "end")).encode()


def removing(*lines):
    """The text of a tree that has a whiteout or an opaque directory."""
    return tree_text(*lines, version=2)


def owned(*lines):
    """The text of a tree that has an owner or a capability."""
    return tree_text(*lines, version=3)


def knows_owners(program):
    """Whether a program reads the texts of such trees."""
    return run(program, LAYER, owned("d 755:1:1 a"))[2] == 0


def directories(count):
    """The text of a tree of so many directories, with numbers for names."""
    return tree_text(*(f"d 755 {at:06}" for at in range(count)))


HOST = tree_text("d 755 usr", f"f 644 0 {EMPTY} usr/a")
FULL = directories(MOST_ENTRIES)


def run(program, words, source=b"", stdin=subprocess.PIPE, stdout=subprocess.PIPE, stderr=subprocess.PIPE, before=None):
    """Runs the program, and gives what it wrote on each pipe and its status. `before` is called in the child first."""
    streams = {"stdin": stdin, "stdout": stdout, "stderr": stderr}
    child = subprocess.Popen([os.fsencode(program), *words], preexec_fn=before, **streams)
    try:
        written, told = child.communicate(source if stdin == subprocess.PIPE else None, timeout=SECONDS)
    except subprocess.TimeoutExpired:
        child.kill()
        child.communicate()
        raise Failed(f"it had not ended after {SECONDS} seconds") from None
    return written, told, child.returncode


def shortened(value):
    said = repr(value)
    return said if len(said) <= 400 else f"{said[:300]} .. {said[-80:]}"


def expect(found, wanted):
    """Compares standard output, standard error and the status."""
    for what, one, other in zip(("standard output", "standard error", "the status"), found, wanted):
        if one != other:
            raise Failed(f"{what} is {shortened(one)}, and not {shortened(other)}")


def outcome(name, call):
    """Runs a scene, tells of it where it didn't pass, and says how it ended."""
    try:
        call()
        return "passed"
    except Skipped as reason:
        print(f"skipped: {name}: {reason}", flush=True)
        return "skipped"
    except Exception as reason:
        print(f"FAILED: {name}: {reason or type(reason).__name__}", flush=True)
        return "failed"


def counted(counts):
    """The sum and the parts of what was counted by names."""
    parts = ", ".join(f"{name} {round(count):,}" for name, count in sorted(counts.items()))
    return f"{round(sum(counts.values())):,} ({parts})"


def status_of(found):
    """Counts how scenes ended on a line, and gives the status of the process."""
    print(", ".join(f"{found.count(end)} {end}" for end in ("passed", "failed", "skipped")))
    return 1 if "failed" in found else 0
