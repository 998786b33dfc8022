"""Repositories of their own in which scripts of this one are run: small ones of a few crates, and clones of this one, in which the
program that is tested is the carried one. On the PATH stand only the tools that the launcher needs, and what a scene puts there
as lines of a shell.
"""
import hashlib
import os
import re
import shlex
import shutil
import subprocess
import tempfile
from pathlib import Path

from scenes.running import SECONDS, TOP, Skipped

TOOLS = "awk date find flock mkdir mktemp readlink rm sh sha256sum sort stat tail uname xargs".split()
PARTS = "src", "specs", "proofs"
CARRIED = "dist/x86_64-linux"


def digest(content):
    return hashlib.sha256(content).hexdigest()


class Repository:
    """A repository in a folder, a home of a user beside it, and the folder of tools on the PATH."""

    def __init__(self, folder):
        self.place, self.home, self.bin = (Path(folder, name) for name in ("repository", "home", "bin"))
        for made in (self.place / "dist", self.place / "tools", self.home, self.bin):
            made.mkdir(parents=True)
        for tool in TOOLS:
            found = shutil.which(tool)
            if not found:
                raise Skipped(f"there is no {tool}")
            (self.bin / tool).symlink_to(found)
        for path in ("hostext", "hostext_publish", "hostext_erofs", "tools/programs.sh", "tools/carry", "tools/exchange", "tools/program", "dist/programs"):
            shutil.copy(TOP / path, self.place / path)

    def tool(self, name, lines):
        """A script in place of a tool, which has all tools itself."""
        (self.bin / name).unlink(missing_ok=True)
        (self.bin / name).write_text(f"#!/bin/sh\nPATH={shlex.quote(os.environ['PATH'])}\n{lines}\n")
        (self.bin / name).chmod(0o755)

    def around(self):
        return {"PATH": str(self.bin), "HOME": str(self.home), "LC_ALL": "C"}

    def start(self, *words, before=None, **options):
        streams = {"stdin": subprocess.DEVNULL, "stdout": subprocess.PIPE, "stderr": subprocess.PIPE}
        return subprocess.Popen([self.place / words[0], *words[1:]], env=self.around(), preexec_fn=before, **{**streams, **options})

    def run(self, *words, **options):
        """What a script of the repository writes and tells, with its times left out, and its status."""
        return end(self.start(*words, **options))

    def write(self, path, content):
        place = self.place / path
        place.parent.mkdir(parents=True, exist_ok=True)
        place.write_bytes(content)
        place.chmod(0o755)
        return place

    def programs(self):
        lines = (self.place / "dist/programs").read_text().splitlines()
        return dict(line.split(": ") for line in lines if not line.startswith("#"))

    def sum_of_sources(self, *crates):
        """The sum as made-from has it, of the crates and those that they stand on."""
        lines = [line.split(":") for line in (self.place / "crates.txt").read_text().splitlines() if line[:1].isalpha()]
        below, seen, waiting = {name.split()[0]: words.split() for name, words in lines}, set(), list(crates)
        while waiting:
            one = waiting.pop()
            if one in below and one not in seen:
                seen.add(one)
                waiting += below[one]
        folders = [self.place / "crates" / name / part for name in seen for part in PARTS]
        paths = [self.place / "crates.txt", *(path for folder in folders for path in folder.rglob("*") if path.is_file())]
        listed = sorted((os.fsencode(path.relative_to(self.place)), digest(path.read_bytes())) for path in paths)
        return digest(b"".join(b"%s  %s\n" % (sum_.encode(), path) for path, sum_ in listed))

    def carry(self, name, content):
        """Carries a program that was made of the sources as they are now."""
        self.write(f"{CARRIED}/{name}", content)
        record = self.place / CARRIED / "made-from"
        others = record.read_text().splitlines(keepends=True) if record.exists() else []
        line = f"{name}: sources {self.sum_of_sources(self.programs()[name])} built - carried {digest(content)}\n"
        record.write_text("".join([*(other for other in others if not other.startswith(f"{name}:")), line]))

    def build(self, crate, content):
        """A program that was built of the sources as they are now."""
        line = f"{crate}: sources {self.sum_of_sources(crate)} built {digest(content)}\n"
        self.write(f"crates/{crate}/out/made-from", line.encode())
        return self.write(f"crates/{crate}/out/{crate}", content)


def end(child):
    written, told = child.communicate(timeout=SECONDS)
    return written, re.sub(rb"\(\d+ min \d+ s\)", b"(TIME)", told), child.returncode


def small(folder):
    """A repository of a program that isn't built, a crate below it and one beside it."""
    made = Repository(folder)
    for crate in "low", "beside", "ext_cli":
        made.write(f"crates/{crate}/src/lib.rt", crate.encode())
    made.write("crates.txt", b"# a comment\nlow:\nbeside: low\next_cli: low thiserror\n")
    (made.place / "crates/ext_cli/out").mkdir()
    return made


def clone(folder, program):
    """A clone of this repository, in which the program is carried."""
    made = Repository(folder)
    shutil.copy(TOP / "crates.txt", made.place)
    for crate in TOP.glob("crates/*"):
        for part in PARTS:
            if (crate / part).is_dir():
                shutil.copytree(crate / part, made.place / "crates" / crate.name / part, copy_function=shutil.copyfile)
    made.carry("hostext", Path(program).read_bytes())
    return made


def in_each(make, calls, *given):
    """Scenes that are functions of a repository, each in one of its own, and named by what it shows."""

    def run(call):
        with tempfile.TemporaryDirectory() as folder:
            call(make(folder, *given))

    return ((call.__name__.replace("_", " "), lambda call=call: run(call)) for call in calls)
