"""What scenes of tools/activate share: running it, as a program or in a process that a scene may end at any of its calls, over a store and
a root in a memory of their own, and what is seen there."""
import contextlib
import importlib.machinery
import importlib.util
import io
import json
import os
import signal
import subprocess
import sys
import tempfile
from pathlib import Path

from scenes.chroots import in_a_process, with_own_mounts
from scenes.mounted import need_images
from scenes.running import SECONDS, TOP, Failed, expect, imager, shortened, tree_text
from scenes.stores import DONE, Place, digest, in_a_place

sys.path.insert(0, str(TOP / "tools"))

import calls

TOOL = TOP / "tools/activate"
ANY = b"ID=_any\n"
SIDE = "usr/lib/extension-release.d"
# The calls by which the tool changes what stands in `active` or is shown. Between two of them a kill leaves what the first one left.
OF_OS = "mkdir", "link", "rename", "unlink", "rmdir"
OF_MOUNTS = "attach", "detach", "unmount"


def tool(place, *words, before=None, program=TOOL, around=None):
    """What the tool writes on both streams, and its status."""
    env = {**os.environ, "HOSTEXT": str(place.program), "HOSTEXT_EROFS": str(imager()), **(around or {})}
    ended = subprocess.run([program, place.store, *words], env=env, stdin=subprocess.DEVNULL, capture_output=True, preexec_fn=before, timeout=SECONDS)
    return ended.stdout, ended.stderr, ended.returncode


def done(place, *words, says=None):
    """Runs the tool, which has nothing to complain of."""
    written, told, status = tool(place, *words)
    expect((written if says is not None else b"", told, status), (says or b"", b"", 0))
    return written


def refused(place, *words, says, **options):
    """Runs the tool, which refuses with a line that has these words."""
    written, told, status = tool(place, *words, **options)
    if (written, status) != (b"", 1) or says not in told.decode() or "Traceback" in told.decode():
        raise Failed(f"`{shortened(words)}` ends with {status} and tells {shortened(told)}, and not {says!r}")


def status_of(place):
    return json.loads(done(place, "status", "--json"))


def image(place, name, files):
    """A resource that is an image of system extensions, with a release file that fits each host."""
    files = {**files, f"{SIDE}/extension-release.{name}": ANY}
    place.resource(name, folders_and_files(files), files)


def folders_and_files(files):
    """The text of a tree of files and the folders above them."""
    folders = {os.path.dirname(path)[:at] for path in files for at in range(len(path)) if path[at] == "/"} | {path[:at] for path in files for at in range(len(path)) if path[at] == "/"}
    rows = {folder: f"d 755 {folder}" for folder in folders if folder}
    rows |= {path: f"f 644 {len(content)} {digest(content)} {path}" for path, content in files.items()}
    return tree_text(*(rows[path] for path in sorted(rows, key=lambda path: path.encode().split(b"/"))))


def merged_store(place):
    """A store whose host has /usr and /opt, with an image merged: generation 4."""
    files = {"usr/a": b"abc", "usr/lib/os-release": b"ID=debian\n", "opt/own": b"own"}
    place.resource("host", folders_and_files(files), files)
    image(place, "x", {"usr/shown": b"one", "usr/other": b"one"})
    place.expect(("init x86-64 system", DONE), ("import-fs host /", DONE), ("import-fs x /var/lib/extensions/x", DONE), ("sysext merge", b"merged 1\nx\n"))


def changed_store(place, word=b"two"):
    """The same with other files in the image: two generations later."""
    image(place, "x", {"usr/shown": word, "usr/other": word})
    place.expect(("import-fs x /var/lib/extensions/x", DONE), ("sysext refresh", b"merged 1\nx\n"))


def rooted(folder):
    """A root of its own."""
    root = folder / "root"
    for name in "usr", "opt", "etc":
        (root / name).mkdir(parents=True)
    (root / "usr/shown").write_bytes(b"own")
    return root


def read(path):
    try:
        return path.read_bytes()
    except FileNotFoundError:
        return None


def shows(root, word):
    """That a root shows a store whose image has this word, or its own tree."""
    found = read(root / "usr/shown"), read(root / "usr/other"), read(root / "opt/own")
    wanted = (b"own", None, None) if word == b"own" else (word, word, b"own")
    if found != wanted:
        raise Failed(f"the root shows {found}, and not {wanted}")


def in_a_memory(call):
    """A scene over a store, a depot and a root in a memory of their own, in which is mounted."""

    def scene(place):
        need_images()
        room = place.store.with_name("room")
        room.mkdir()

        def inside(folder):
            (folder / "place").mkdir()
            call(Place(place.program, folder / "place"), rooted(folder))

        with_own_mounts(room, inside)

    scene.__name__ = call.__name__
    return in_a_place(scene)


def on_a_disk(call):
    """The same with the store and the depot on the disk that has the folder of temporary files."""

    def scene(program):
        need_images()
        with tempfile.TemporaryDirectory() as folder:
            (Path(folder) / "room").mkdir()
            with_own_mounts(Path(folder) / "room", lambda room: call(Place(program, folder), rooted(room)))

    scene.__name__ = call.__name__
    return scene


# The tool in a process of a scene.


@contextlib.contextmanager
def instead(module, **others):
    """Other calls in place of those of a module."""
    before = {name: getattr(module, name) for name in others}
    for name, other in others.items():
        setattr(module, name, other)
    try:
        yield
    finally:
        for name, call in before.items():
            setattr(module, name, call)


def loaded():
    loader = importlib.machinery.SourceFileLoader("activate", str(TOOL))
    module = importlib.util.module_from_spec(importlib.util.spec_from_loader("activate", loader))
    loader.exec_module(module)
    return module


def run_here(place, *words):
    """Runs the tool in this process: what it writes on both streams, and its status."""
    os.environ.update({"HOSTEXT": str(place.program), "HOSTEXT_EROFS": str(imager())})
    module, out, told = loaded(), io.StringIO(), io.StringIO()
    with instead(sys, argv=[str(TOOL), str(place.store), *map(str, words)], stdout=out, stderr=told):
        try:
            module.main()
            status = 0
        except SystemExit as end:
            status = end.code
            if isinstance(status, str):
                told.write(status + "\n")
                status = 1
    return out.getvalue().encode(), told.getvalue().encode(), status


def apart(place, *words):
    """The same in a process of its own, which is begun faster than the tool."""
    return in_a_process(lambda: run_here(place, *words))


def done_apart(place, *words):
    written, told, status = apart(place, *words)
    expect((b"", told, status), (b"", b"", 0))


class Counter:
    """Counts the calls of the tool that change something, and ends the process after one of them."""

    def __init__(self, last=None):
        self.count, self.last, self.parent = 0, last, os.getpid()

    def counted(self, call):
        def counting(*words, **options):
            found = call(*words, **options)
            if os.getpid() == self.parent:
                self.count += 1
                if self.count == self.last:
                    os.kill(os.getpid(), signal.SIGKILL)
            return found

        return counting

    @contextlib.contextmanager
    def watching(self):
        os_calls = {name: self.counted(getattr(os, name)) for name in OF_OS}
        of_mounts = {name: self.counted(getattr(calls, name)) for name in OF_MOUNTS}
        with instead(os, **os_calls), instead(calls, **of_mounts):
            yield


def killed_at(place, number, *words):
    """Runs the tool in a process that a kill ends after its call of this number; whether it had so many. What it mounted stays."""
    child = os.fork()
    if not child:
        counter = Counter(number)
        with counter.watching():
            run_here(place, *words)
        os._exit(0)
    return os.waitstatus_to_exitcode(os.waitpid(child, 0)[1]) == -signal.SIGKILL
