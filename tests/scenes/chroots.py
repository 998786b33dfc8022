"""Hosts of systemd's own tools: each a folder in a memory of its own, in a mount namespace of its own, in which the tools run as in
the root of a machine. Nothing of it is seen outside, and all of it is gone with the process that made it, whatever ends that."""
import contextlib
import ctypes
import os
import pickle
import re
import signal
import subprocess
import tempfile
from pathlib import Path

from scenes.running import SECONDS, Failed, Skipped

LIBRARY = ctypes.CDLL(None, use_errno=True)
NEW_MOUNTS = 0x20000
READ_ONLY, REMOUNTED, BOUND, BELOW_TOO, PRIVATE, SHARED = 1, 32, 4096, 16384, 1 << 18, 1 << 20
DIES_WITH_ITS_PARENT = 1
# Where a host has the folder of a systemd, and what its tools need there.
TOOLS, LIBRARIES = ".systemd", ("usr/lib/x86_64-linux-gnu", "usr/lib/x86_64-linux-gnu/systemd")
LOADER = "lib64/ld-linux-x86-64.so.2"
PLACES = {
    "systemd-sysext": "usr/bin",
    "systemd-confext": "usr/bin",
    "systemd-analyze": "usr/bin",
    "systemd-sysupdate": "usr/lib/systemd",
}
HELPERS = {"SYSTEMD_PULL_PATH": "systemd-pull", "SYSTEMD_IMPORT_PATH": "systemd-import", "SYSTEMD_IMPORT_FS_PATH": "systemd-import-fs"}


def called(status, what):
    if status:
        raise OSError(ctypes.get_errno(), f"{what}: {os.strerror(ctypes.get_errno())}")


def mount(source, target, kind=None, flags=0):
    words = [None if word is None else os.fsencode(word) for word in (source, target, kind)]
    called(LIBRARY.mount(*words, ctypes.c_ulong(flags), None), f"mount {target}")


def bind(source, target, flags=0):
    mount(source, target, flags=BOUND)
    if flags:
        mount(None, target, flags=BOUND | REMOUNTED | flags)


def own_mounts():
    """From here on what this process mounts is seen by it alone, and by those that it starts."""
    called(LIBRARY.unshare(NEW_MOUNTS), "unshare")
    mount(None, "/", flags=PRIVATE | BELOW_TOO)


def die_with_the_parent():
    LIBRARY.prctl(DIES_WITH_ITS_PARENT, signal.SIGKILL, 0, 0, 0)


def in_a_process(call):
    """What a call gives in a process of its own, or the failure that it raises."""
    reads, writes = os.pipe()
    child = os.fork()
    if child == 0:
        die_with_the_parent()
        os.close(reads)
        try:
            answer = True, call()
        except BaseException as reason:
            answer = False, f"{type(reason).__name__}: {reason}" if not isinstance(reason, Failed) else str(reason)
        with contextlib.suppress(OSError), os.fdopen(writes, "wb") as pipe:
            pickle.dump(answer, pipe)
        os._exit(0)
    os.close(writes)
    with os.fdopen(reads, "rb") as pipe:
        told = pipe.read()
    os.waitpid(child, 0)
    if not told:
        raise Failed("a process ended before it told anything")
    is_done, answer = pickle.loads(told)
    if not is_done:
        raise Failed(answer)
    return answer


def with_own_mounts(folder, call):
    """The same with a memory of its own at a folder, which others see as it was."""

    def inside():
        own_mounts()
        mount("tmpfs", folder, "tmpfs")
        return call(Path(folder))

    return in_a_process(inside)


class Systemd:
    """The tools of a systemd, below a folder that is the root of a machine, or has packages of one unpacked."""

    def __init__(self, root):
        self.root = Path(root).resolve()
        if not (self.root / LIBRARIES[0]).is_dir() or not self.has("systemd-sysext"):
            raise Skipped(f"{self.root} has no usr/bin/systemd-sysext with its libraries")
        self.version = int(self.told_version().split()[1])

    def place(self, tool):
        return Path(PLACES[tool], tool)

    def has(self, tool):
        return (self.root / self.place(tool)).exists()

    def loaded(self, program, *words, more=(), source=None):
        """Runs a program that looks at nothing of a machine, with the libraries of this systemd."""
        loader = self.root / LIBRARIES[0] / Path(LOADER).name
        libraries = ":".join((*(str(self.root / folder) for folder in LIBRARIES), *more))
        return subprocess.run([loader, "--library-path", libraries, program, *words], input=source, capture_output=True, text=True, timeout=SECONDS)

    def run_here(self, tool, *words):
        return self.loaded(self.root / self.place(tool), *words)

    def told_version(self):
        ended = self.run_here("systemd-sysext", "--version")
        if not re.match(r"systemd \d+", ended.stdout):
            raise Skipped(f"systemd-sysext of {self.root} does not run: {ended.stderr.strip()}")
        return ended.stdout

    def around(self):
        base = Path("/", TOOLS)
        found = {name: str(base / "usr/lib/systemd" / helper) for name, helper in HELPERS.items()}
        return {**found, "LD_LIBRARY_PATH": ":".join(str(base / folder) for folder in LIBRARIES), "SYSTEMD_COLORS": "0", "SYSTEMD_PAGER": "", "LC_ALL": "C.UTF-8"}


class Machine:
    """A folder as the root of a machine, in which the tools of a systemd run. It has what was put there, and beside it what tools
    need: where a path of these is taken, the machine can't be made."""

    def __init__(self, systemd, folder):
        self.systemd, self.root = systemd, Path(folder)

    def open(self):
        root = self.root
        bind(root, root)
        mount(None, root, flags=SHARED)
        for name in "dev", "proc", "tmp", TOOLS, Path(LOADER).parent:
            (root / name).mkdir(exist_ok=True)
        (root / "run").mkdir(exist_ok=True)
        (root / "dev/null").touch()
        bind("/dev/null", root / "dev/null")
        mount("proc", root / "proc", "proc")
        bind(self.systemd.root, root / TOOLS, READ_ONLY)
        (root / LOADER).symlink_to(Path("/", TOOLS, LIBRARIES[0], Path(LOADER).name))
        bind(root / "run", root / "run")
        mount(None, root / "run", flags=SHARED)

    def run(self, tool, *words):
        """What a tool writes, with standard error, and its status."""

        def enter():
            die_with_the_parent()
            os.chroot(self.root)
            os.chdir("/")

        place = Path("/", TOOLS, self.systemd.place(tool))
        ended = subprocess.run([place, *words], stdin=subprocess.DEVNULL, capture_output=True, env=self.systemd.around(), preexec_fn=enter, timeout=SECONDS)
        return ended.stdout.decode(errors="replace"), ended.stderr.decode(errors="replace"), ended.returncode


def need_mounts():
    """Who runs this may mount, and make what whiteouts and opaque directories are to the kernel."""
    if os.geteuid() != 0:
        raise Skipped("only root may mount")
    try:
        with tempfile.TemporaryDirectory() as folder:
            with_own_mounts(folder, try_layers)
    except Failed as reason:
        raise Skipped(f"nothing can be mounted here: {reason}") from None


def try_layers(folder):
    for name in "upper", "lower", "seen":
        (folder / name).mkdir()
    os.mknod(folder / "upper/gone", 0o20000, os.makedev(0, 0))
    os.setxattr(folder / "upper", "trusted.overlay.opaque", b"y")
    os.setxattr(folder / "upper", "user.any", b"y")
    options = f"lowerdir={folder}/upper:{folder}/lower".encode()
    words = b"overlay", os.fsencode(folder / "seen"), b"overlay"
    called(LIBRARY.mount(*words, ctypes.c_ulong(READ_ONLY), options), "mount an overlay")
    called(LIBRARY.umount2(words[1], 0), "umount")


def systemds():
    """The systemd of this machine, and the one below the folder that SYSTEMD_ROOT names: each, or why it can't be had."""
    found = []
    for root, why in ("/", "this machine"), (os.environ.get("SYSTEMD_ROOT"), "SYSTEMD_ROOT"):
        if not root:
            found.append(f"{why} names no folder with the packages of another systemd")
            continue
        try:
            found.append(Systemd(root))
        except Skipped as reason:
            found.append(f"{why}: {reason}")
    return found
