"""Each call of the system that a command makes on its store, its depot or a standard stream fails once, in each way in which it can."""
import errno
import fcntl
import hashlib
import os
import re
import threading
import time
from contextlib import contextmanager, nullcontext
from pathlib import Path

from scenes.helping import without_help
from scenes.locks import WAITING
from scenes.running import Failed, shortened
from scenes.traces import calls_of, concerning, devices_of, straced

# The calls, each with the ways in which it can fail. A file system that is far away, or in user space, may interrupt any.
CHANGE = ("EIO", "ENOSPC", "EACCES", "EINTR")
LOOK = ("EIO", "EACCES", "EINTR")
SYNC = ("EIO", "ENOSPC", "EINTR")
WAYS = {
    **dict.fromkeys(("mkdir", "rename", "renameat2", "unlink", "unlinkat", "rmdir"), CHANGE),
    **dict.fromkeys(("statx", "newfstatat", "fstat", "getdents64"), LOOK),
    **dict.fromkeys(("write", "fsync", "fdatasync", "close"), SYNC),
    "openat": ("EIO", "EACCES", "EMFILE", "EINTR"),
    **dict.fromkeys(("read", "pread64", "lseek"), ("EIO", "EINTR")),
    "flock": ("EIO", "ENOLCK", "EINTR"),
    "fcntl": ("EMFILE", "EINTR"),
    "ioctl": ("ENOTTY", "EIO"),
}
# Those that are tried again where they were interrupted.
TRIED_AGAIN = {"openat", "read", "write", "getdents64", "fsync"}
# The names of a call of a device by which a fault at a call of the system may be told.
TOLD = {
    "openat": "open|read|make|write|sync|list",
    **dict.fromkeys(("read", "pread64", "lseek"), "read"),
    **{"write": "write", "fsync": "sync", "mkdir": "make", "rename": "rename", "unlink": "remove", "rmdir": "remove"},
    **{"getdents64": "list", "flock": "lock"},
}
STATUSES = {"store": 5, "depot": 6, "standard input": 3, "standard output": 4}
# What a call on a stream has, which has no place.
STREAMS = {"standard output": "(1<", "standard error": "(2<"}
LINES = {3: "hostext: read fault", 4: "hostext: write fault", 5: "hostext: disk fault", 6: "hostext: depot fault"}


def ways(call):
    """How a call can fail."""
    if call.name not in WAYS:
        raise Failed(f"nothing says how {call.text} can fail")
    return (*WAYS[call.name], *(("ENOSPC",) if "O_CREAT" in call.inner else ()))


@contextmanager
def locked_until_waited_for(folder):
    """Holds the lock on a folder until another process waits for it, for a second at most."""
    handle, over, inode = os.open(folder, os.O_RDONLY), threading.Event(), folder.stat().st_ino
    fcntl.flock(handle, fcntl.LOCK_EX)

    def hold():
        late = time.monotonic() + 1
        while not over.wait(0.002) and time.monotonic() < late:
            if any("->" in line and f":{inode} " in line for line in Path("/proc/locks").read_text().splitlines()):
                break
        os.close(handle)

    holder = threading.Thread(target=hold)
    holder.start()
    try:
        yield
    finally:
        over.set()
        holder.join()


def traced(room, use, *options, around=None):
    """Runs a command under strace, over the store that it begins with."""
    room.stored(use.before)
    with locked_until_waited_for(room.place.store) if use.waits else nullcontext():
        return straced(command_of(room, use), room.folder / "calls", *options, source=use.source, around=around)


def made(room, use):
    """The calls that a command makes on a device."""
    written, _, status, lines = traced(room, use)
    if (written, status) != (use.reply, 1 if use.reply.startswith(b"refused ") else 0):
        raise Failed(f"{use.title} ends with {status}: {shortened(written)}")
    return concerning(calls_of(lines, devices_of(room.place)))


def command_of(room, use):
    return [room.place.program, room.place.store, room.place.depot, *use.command.split(" ")]


def may_be_ignored(call):
    """Whether a command may go on where the call fails: a close; a handle by which a lock is given back, and giving it back."""
    return call.name in ("close", "fcntl") or "LOCK_UN" in call.inner


def endings(use, call, way):
    """The statuses with which the command may end where the call fails so."""
    done = 1 if use.reply.startswith(b"refused ") else 0
    tried_again = way == "EINTR" and call.name in TRIED_AGAIN
    if call.on == "standard error" or may_be_ignored(call) or tried_again:
        return (done,)
    return (STATUSES[call.on], done) if way == "EINTR" else (STATUSES[call.on],)


class Failing:
    """A command whose calls fail, and the folders at which was looked."""

    def __init__(self, room, use):
        self.room, self.use = room, use
        self.states = room.states(use)
        self.calls = made(room, use)
        self.seen = set()

    def tries(self, short):
        """Each call, and how it fails; in the short run in one way each, by turns."""
        for number, call in enumerate(self.calls):
            found = ways(call)
            yield from ((call, way) for way in ((found[number % len(found)],) if short else found))

    def fail(self, call, way):
        """Lets a call fail, and looks at what comes of it."""
        # what helps after a refusal is written too, which nobody asked for when the calls were counted
        for number in call.number, call.number + 1:
            inject = ["-e", f"trace={call.name}", "-e", f"inject={call.name}:error={way}:when={number}"]
            written, told, status, lines = traced(self.room, self.use, *inject, around={**os.environ, "HOSTEXT_EXPLAIN": "yes"})
            told = without_help(told.removeprefix(WAITING) if self.use.waits else told)
            if not (failed := [line for line in lines if "(INJECTED)" in line]):
                raise Failed("the call isn't made")
            if call.place in failed[0] and STREAMS.get(call.on, "") in failed[0]:
                break
        if call.place not in failed[0]:
            raise Failed(f"another call is made: {failed[0]}")
        allowed = endings(self.use, call, way)
        if status not in allowed:
            raise Failed(f"it ends with {status} {shortened(told)}, and not {' or '.join(map(str, allowed))}")
        if status in LINES:
            self.explained(call, way, status, told.decode().splitlines())
        self.wrote(written, told, status)
        self.stands(self.left(status, self.use.replied(written)))

    def left(self, status, done):
        """The states that may stand where so many steps have replied: where the disk failed, the next step may have been done, and
        where its reply could not be written, it was."""
        if status not in LINES:
            return self.states[-1:]
        return {5: self.states[done : done + 2], 4: self.states[done + 1 :][:1] or self.states[-1:]}.get(status, [self.states[done]])

    def wrote(self, written, told, status):
        """Done or refused, it writes its reply and nothing else; with a fault at most what it began to."""
        if status not in LINES:
            if (written, told) != (self.use.reply, b""):
                raise Failed(f"it writes {shortened(written)} {shortened(told)}")
        elif not self.use.reply.startswith(written) or not (status == 4 or self.use.name == "cat" or self.is_whole(written)):
            raise Failed(f"with {status} it writes {shortened(written)}")

    def is_whole(self, written):
        """Whether the replies of the first steps were written, of not all, and no byte of another."""
        replies, done = [reply for _, reply in self.use.steps], self.use.replied(written)
        return done < len(replies) and written == b"".join(replies[:done])

    def explained(self, call, way, status, told):
        """The line of the status, and for a folder a second one with the call, the path and the words of the system. What stands
        on the way to a path is looked at for that path, and where a file is to be renamed to for that of the file."""
        words, place = (re.escape(text) for text in (os.strerror(getattr(errno, way)), call.place.rstrip("/")))
        if call.name in ("statx", "newfstatat", "fstat"):
            place = f"({place}(/.*)?|{place.removesuffix('current')}next)"
        reason = rf"hostext: ({TOLD.get(call.name, '.*')}) {place}: {words}"
        wanted = [re.escape(LINES[status]), *([reason] if status in (5, 6) else [])]
        if len(told) != len(wanted) or not all(map(re.fullmatch, wanted, told)):
            raise Failed(f"it tells {shortened(told)}")

    def stands(self, states):
        """The store folder is looked at, if none like it was."""
        folder = (digest(self.room.place.store), tuple(map(id, states)))
        if folder in self.seen:
            return
        self.seen.add(folder)
        for at, command in enumerate(self.use.commands):
            found = self.room.run(command, self.use.source)
            wanted = [state[at] for state in states]
            states = [state for state in states if state[at] == found]
            if not states:
                told = f"then command {at + 1} of a look, `{command}`, ends with {shortened(found)}"
                raise Failed(f"{told}, and not {shortened(wanted)}")
        if found := self.use.stored and stray(self.room.place.store):
            raise Failed(f"after a change are left over {', '.join(found)}")


def stray(store):
    """What stands in a store folder beside `current` after a change, but for its generation, the one before and those that have
    files of these two."""
    if not (store / "current").exists():
        return []
    number = int((store / "current").read_text()[2:])
    needed = {f"g-{number}", f"g-{number - 1}", "current"}
    for index in store / f"g-{number}/index", store / f"g-{number - 1}/index":
        needed |= {f"g-{line.split(' ')[4]}" for line in index.read_text().splitlines() if line.startswith("f ")}
    return sorted({path.name for path in store.iterdir()} - needed)


def digest(folder):
    found = hashlib.sha256()
    for path in sorted(folder.rglob("*")):
        content = hashlib.sha256(path.read_bytes()).digest() if path.is_file() else b"folder"
        found.update(f"{path.relative_to(folder)}\0".encode() + content)
    return found.digest()
