"""Reads a store by the program hostext: what a command writes, and the bytes of many files.

The store is locked meanwhile, shared with other readers, and the commands take no lock of their own. So no change comes between two of
them, and several run side by side: those of the files whose paths no line holds beside the batch of the others.
"""
import fcntl
import hashlib
import os
import subprocess
from collections import deque
from contextlib import closing, contextmanager, suppress

from entries import PIECE, Refused, shown, write_all

# The most bytes of lines that a batch takes.
MOST_SOURCE = 16_777_216
# How many commands that read one file each run at the same time.
SIDE_BY_SIDE = max(2, min(8, os.cpu_count() or 1))
LINES, LINES_AT_ONCE = "lines", 8_192


def program(name="hostext"):
    """The file that is run for a program. What is told while it is built goes to standard error."""
    named = os.environ.get(name.upper())
    if named:
        return named
    here = os.path.dirname(os.path.realpath(__file__))
    finder = os.path.join(here, "program")
    if not os.path.exists(finder):
        # tools/install puts this module into lib/hostext
        return os.path.join(os.path.dirname(os.path.dirname(here)), "bin", name)
    found = subprocess.run([finder, name], stdout=subprocess.PIPE)
    if found.returncode:
        raise Refused("there is no program to read the store with")
    return found.stdout.rstrip(b"\n")


def reason_of(command, status, said):
    reason = os.fsdecode(said).strip() or f"the program ended by the signal {-status}"
    return Refused(f"{' '.join(map(shown, command))}: {reason}")


def changed(path):
    return Refused(f"{shown(path)}: the tree changed meanwhile")


class Store:
    """A store, and the empty depot that its commands get. It is locked until it is left, but for HOSTEXT_LOCK=no."""

    def __init__(self, place, tells):
        self.program, self.place, self.depot = program(), place, "."
        self.handle = locked(place, tells)
        self.around = None if self.handle is None else {**os.environ, "HOSTEXT_LOCK": "no"}

    def __enter__(self):
        return self

    def __exit__(self, *_):
        if self.handle is not None:
            os.close(self.handle)

    def words(self, *command):
        return [self.program, self.place, self.depot, *command]

    def read(self, *command):
        """What a command writes; its refusal, or its line on standard error, where it isn't done."""
        ended = subprocess.run(self.words(*command), stdin=subprocess.DEVNULL, capture_output=True, env=self.around)
        if ended.returncode:
            raise reason_of(command, ended.returncode, ended.stdout if ended.returncode == 1 else ended.stderr)
        return ended.stdout


def locked(place, tells):
    """The handle of a store's folder with the lock that readers share; none where no lock is wanted, or none can be taken, of which the
    program tells. Whoever had the lock before may have put another folder there: then that one is locked."""
    if os.environ.get("HOSTEXT_LOCK") == "no":
        return None
    with suppress(OSError):
        while True:
            handle = os.open(place, os.O_RDONLY | os.O_DIRECTORY)
            share(handle, tells)
            if os.path.samestat(os.stat(place), os.fstat(handle)):
                return handle
            os.close(handle)
    return None


def share(handle, tells):
    try:
        fcntl.flock(handle, fcntl.LOCK_SH | fcntl.LOCK_NB)
    except BlockingIOError:
        tells.tell("waiting for another command on this store")
        fcntl.flock(handle, fcntl.LOCK_SH)


class Files:
    """The bytes of files, one after another, as one command writes them: `cat` of one, or a batch of several."""

    def __init__(self, store, command, source=subprocess.DEVNULL):
        self.command = command
        streams = {"stdin": source, "stdout": subprocess.PIPE, "stderr": subprocess.PIPE, "bufsize": PIECE, "env": store.around}
        self.child = subprocess.Popen(store.words(*command), **streams)

    def __enter__(self):
        return self

    def __exit__(self, *_):
        self.child.kill()
        self.child.communicate()

    def check_fault(self, *command):
        """Refuses what the command that has ended tells of a fault."""
        said, status = self.child.stderr.read(), self.child.wait()
        if status not in (0, 1):
            raise reason_of(command, status, said)

    def copy(self, path, size, copy):
        """Hands the bytes of the next file to `copy`, piece by piece, and gives their digest."""
        digest = hashlib.sha256()
        while size:
            piece = self.child.stdout.read(min(size, PIECE))
            if not piece:
                self.check_fault(b"cat", path)
                raise changed(path)
            digest.update(piece)
            copy(piece)
            size -= len(piece)
        return digest.hexdigest().encode()

    def end(self, path):
        """Refuses where the command wrote more than the files, of which this is the last, or wasn't done."""
        if self.child.stdout.read(1):
            raise changed(path)
        self.check_fault(*self.command)


def fits_a_line(path):
    return b" " not in path


def line_of(path):
    return b"cat %b\n" % path


def groups_of(paths):
    """Paths in groups, of each as many as one batch takes."""
    group, size = [], 0
    for path in paths:
        size += len(line_of(path))
        if size > MOST_SOURCE:
            yield group
            group, size = [], len(line_of(path))
        group.append(path)
    if group:
        yield group


@contextmanager
def source_of(paths, room):
    """The lines of a batch, in a file of the room that has no name any more."""
    handle = os.open(LINES, os.O_RDWR | os.O_CREAT | os.O_EXCL, 0o600, dir_fd=room)
    try:
        os.unlink(LINES, dir_fd=room)
        for at in range(0, len(paths), LINES_AT_ONCE):
            write_all(handle, b"".join(map(line_of, paths[at : at + LINES_AT_ONCE])))
        os.lseek(handle, 0, os.SEEK_SET)
        yield handle
    finally:
        os.close(handle)


def by_batches(store, paths, room):
    for group in groups_of(paths):
        if len(group) == 1:
            yield from side_by_side(store, group)
            continue
        with source_of(group, room) as source, Files(store, (b"batch",), source) as files:
            for path in group:
                yield path, files
            files.end(group[-1])


def side_by_side(store, paths):
    """The next commands start while the first is read."""
    ahead = deque()
    try:
        for at, path in enumerate(paths):
            ahead.extend(Files(store, (b"cat", further)) for further in paths[at + len(ahead) : at + SIDE_BY_SIDE])
            with ahead.popleft() as files:
                yield path, files
                files.end(path)
    finally:
        for files in ahead:
            files.__exit__()


def files_of(store, paths, room):
    """Each path, in this order, with the command whose next bytes are its file."""
    batches = by_batches(store, filter(fits_a_line, paths), room)
    alone = side_by_side(store, [path for path in paths if not fits_a_line(path)])
    with closing(batches), closing(alone):
        for path in paths:
            yield next(batches if fits_a_line(path) else alone)
        for commands in batches, alone:
            # what follows the last file is looked at
            next(commands, None)
