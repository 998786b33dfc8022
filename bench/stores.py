"""What the benches of a store share: a store with its depot, the trees that they put there, the program, and the rows that they
print."""
import hashlib
import shutil
import statistics
import subprocess
from pathlib import Path

from timing import timed

TOP = Path(__file__).resolve().parent.parent


def launched(name):
    """The program that its launcher would run."""
    return subprocess.run([TOP / "tools/program", name], stdout=subprocess.PIPE, check=True, text=True).stdout.rstrip("\n")


class Store:
    def __init__(self, program, room):
        self.program, self.store, self.depot = program, room / "store", room / "depot"
        for folder in (self.store, self.depot):
            folder.mkdir(parents=True)

    def run(self, *words):
        return timed([self.program, self.store, self.depot, *words])

    def batch(self, room, lines):
        listed = room / "lines"
        listed.write_text("".join(f"{line}\n" for line in lines))
        with open(listed) as source:
            return timed([self.program, self.store, self.depot, "batch"], stdin=source)

    def runs(self, room, lines):
        """A run of the program for each of the lines."""
        listed = room / "lines"
        listed.write_text("".join(f"{line}\n" for line in lines))
        return timed(["xargs", "-a", listed, "-L", "1", self.program, self.store, self.depot])

    def make(self, *resources):
        """Makes the store anew, with resources at their paths."""
        shutil.rmtree(self.store)
        self.store.mkdir()
        self.run("init", "x86-64", "system")
        for resource, path in resources:
            self.run("import-fs", resource, path)

    def resource(self, name, files, more=()):
        """A resource of files by their paths, with other lines of its tree text."""
        lines = {path: line for path, line in more}
        for path, content in files.items():
            place = self.depot / name / path
            place.parent.mkdir(parents=True, exist_ok=True)
            place.write_bytes(content)
            lines[path] = f"f 644 {len(content)} {hashlib.sha256(content).hexdigest()} {path}"
            for above in Path(path).parents[:-1]:
                lines.setdefault(str(above), f"d 755 {above}")
        text = [lines[path] for path in sorted(lines, key=lambda path: path.encode().split(b"/"))]
        self.depot.mkdir(exist_ok=True)
        (self.depot / f"{name}.tree").write_text("\n".join(["hostext-tree 1", *text, "end", ""]))


def small_files(count):
    return {f"usr/d{at // 100:04}/f{at % 100:02}": f"file {at}\n".encode() for at in range(count)}


def directories(count):
    """So many directories, in directories of a hundred below one."""
    yield "opt", "d 755 opt"
    for at in range(count - 1):
        path = f"opt/d{at // 100:05}" if at % 100 == 0 else f"opt/d{at // 100:05}/e{at % 100:02}"
        yield path, f"d 755 {path}"


def report(name, rows):
    first = statistics.median(seconds for seconds, _ in rows[0][1])
    for what, found in rows:
        seconds = statistics.median(seconds for seconds, _ in found)
        memory = max(memory for _, memory in found)
        print(f"{name:34} {what:28} {seconds:8.3f} s {memory:8.0f} MiB   {first / seconds:6.2f}", flush=True)


def measure(options, title, calls):
    """Each of the calls in turn, so many times, by their names."""
    found = {name: [] for name in calls}
    for _ in range(options.runs):
        for name, call in calls.items():
            found[name].append(call())
    report(title, list(found.items()))


def usual(store):
    """The resource of 14,009 entries, 11,001 of them small files."""
    store.resource("host", small_files(11_001), directories(14_009 - 11_001 - 112))
