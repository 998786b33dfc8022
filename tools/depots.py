"""A depot on a disk: what stands at its places, and what comes to stand there.

What comes is written below the folder `.fetch` of the depot under a temporary name, and synced. Once it is whole it is renamed to its
place, and the folder of the place is synced. What is not whole yet stays, so that the next run goes on with it. Nothing outside the
depot is read or written: each folder is opened in the one above it, from the handle that has the lock, and no link below the depot
is followed. A link at the place of a file is replaced.

Others may write in the depot, where its owner lets them. So `.fetch` has to be the caller's own and writable by nobody else, and
each file is looked at by its handle before it is read: nothing else that stands there is waited for.
"""
import errno
import fcntl
import hashlib
import os
import re
import stat
from contextlib import contextmanager, suppress

from entries import FOLDER_ONLY, MOST_FILE_BYTES, PIECE, Folders, Refused, shown, write_all
from texts import MOST_TEXT_BYTES

MANIFEST, SIGNATURE = b"SHA256SUMS", b"SHA256SUMS.gpg"
ROOM = b".fetch"
# The temporary name of a further copy of a file.
COPY = "copy"
# That of a part, which is the digest of what it is to become.
PART = re.compile("[0-9a-f]{64}")


class Unfit(Refused):
    """A depot that can't be used as it is."""


@contextmanager
def told_at(path):
    """A call that fails is told with the whole path, where it knows the last name or none."""
    try:
        yield
    except OSError as error:
        error.filename, error.filename2 = path, None
        raise


def opened(name, folder, flags=os.O_RDONLY):
    """The handle of a file in a folder. A pipe or a device there is not waited for."""
    handle = os.open(name, flags | os.O_NOFOLLOW | os.O_NONBLOCK | os.O_NOCTTY, 0o666, dir_fd=folder)
    if stat.S_ISREG(os.fstat(handle).st_mode):
        return handle
    os.close(handle)
    raise OSError(errno.EINVAL, "It is no file")


def stamp_in(folder, name, copy=None):
    """The size and the digest of a file in a folder, read once; each piece of it is handed to `copy`."""
    size, digest = 0, hashlib.sha256()
    with open(opened(name, folder), "rb", buffering=0) as file:
        while piece := file.read(PIECE):
            size += len(piece)
            if size > MOST_FILE_BYTES:
                raise Refused(f"more than {MOST_FILE_BYTES:,} bytes")
            digest.update(piece)
            if copy:
                copy(piece)
    return size, digest.hexdigest()


def text_in(folder, name):
    """The bytes of a file in a folder. Of one that is longer than a text may be, a byte more than that."""
    with open(opened(name, folder), "rb") as file:
        return file.read(MOST_TEXT_BYTES + 1)


def is_file(folder, name):
    """Whether a file stands in a folder, and nothing else that a file may replace. A folder is told, since none may."""
    kind = os.stat(name, dir_fd=folder, follow_symlinks=False).st_mode
    if stat.S_ISDIR(kind):
        raise IsADirectoryError(errno.EISDIR, os.strerror(errno.EISDIR))
    return stat.S_ISREG(kind)


class Inside(Folders):
    """Folders below the one of a handle, whatever its path leads to by now."""

    def __init__(self, handle):
        self.names, self.handles = (), [os.open(b".", FOLDER_ONLY, dir_fd=handle)]


class Places(Inside):
    """Folders of a depot, which are made where they are missing."""

    def entered(self, name):
        try:
            return super().entered(name)
        except FileNotFoundError:
            pass
        os.mkdir(name, dir_fd=self.handles[-1])
        os.fsync(self.handles[-1])
        return super().entered(name)


class Part:
    """A file under its temporary name, with the size and the digest of what has come of it. Its digest says whether the pieces of
    several answers are parts of one file, so each goes on with the one before."""

    goes_on = True

    def __init__(self, depot, name, limit, least=0):
        self.depot, self.name, self.limit, self.least = depot, name, limit, least
        with told_at(self.path()):
            self.handle = opened(name, depot.room, os.O_RDWR | os.O_CREAT)
            # an earlier run may have made it with another mode
            os.fchmod(self.handle, depot.mode)
        self.size, self.sum = 0, hashlib.sha256()
        self.take_what_is_there()

    def __enter__(self):
        return self

    def __exit__(self, *_):
        os.close(self.handle)

    def path(self):
        return os.path.join(self.depot.place, ROOM, os.fsencode(self.name))

    def take_what_is_there(self):
        while piece := os.read(self.handle, PIECE):
            self.sum.update(piece)
            self.size += len(piece)
        if self.size > self.limit:
            self.clear()

    def append(self, piece):
        with told_at(self.path()):
            write_all(self.handle, piece)
        self.sum.update(piece)
        self.size += len(piece)

    def clear(self):
        with told_at(self.path()):
            os.ftruncate(self.handle, 0)
            os.lseek(self.handle, 0, os.SEEK_SET)
        self.size, self.sum = 0, hashlib.sha256()

    def remove(self):
        with told_at(self.path()):
            os.unlink(self.name, dir_fd=self.depot.room)

    def sync(self):
        with told_at(self.path()):
            os.fsync(self.handle)


def umask():
    """The umask, which no call gives without setting it."""
    found = os.umask(0o077)
    os.umask(found)
    return found


def lock(folder, waits):
    """Locks a folder, and calls `waits` where another fetch has it."""
    try:
        fcntl.flock(folder, fcntl.LOCK_EX | fcntl.LOCK_NB)
    except BlockingIOError:
        waits()
        fcntl.flock(folder, fcntl.LOCK_EX)


class Depot:
    """A depot that one fetch at a time has for itself. Its folder is made where it is missing. What is made in it has the modes that
    the umask leaves."""

    def __init__(self, place, waits):
        self.place, self.mode = place, 0o666 & ~umask()
        self.root = self.locked(waits)
        with told_at(self.path_of((ROOM,))):
            self.room = self.made_room()
        self.sweep()

    def __enter__(self):
        return self

    def __exit__(self, *_):
        """The handles, and with them the lock, stay to the end of the process, whose threads may still write."""
        with suppress(OSError):
            self.sweep()
            # what has come so far stays in it for the next run
            os.rmdir(ROOM, dir_fd=self.root)

    def locked(self, waits):
        """The handle of the folder, once it has the lock and stands there still: whoever had the lock before may have moved it."""
        while True:
            os.makedirs(self.place, exist_ok=True)
            root = os.open(self.place, os.O_RDONLY | os.O_DIRECTORY)
            lock(root, waits)
            if self.is_at(root):
                return root
            os.close(root)

    def is_at(self, root):
        try:
            return os.path.samestat(os.stat(self.place), os.fstat(root))
        except FileNotFoundError:
            return False

    def made_room(self):
        """The handle of the room, which is the caller's own."""
        with suppress(FileExistsError):
            os.mkdir(ROOM, 0o700, dir_fd=self.root)
        room = os.open(ROOM, FOLDER_ONLY, dir_fd=self.root)
        status = os.fstat(room)
        if status.st_uid != os.geteuid():
            raise Unfit(f"{shown(self.path_of((ROOM,)))}: it belongs to another user")
        if status.st_mode & (stat.S_IWGRP | stat.S_IWOTH):
            raise Unfit(f"{shown(self.path_of((ROOM,)))}: others may write in it")
        return room

    def sweep(self):
        """Takes away what no later run goes on with: all but parts that have something."""
        for name in os.listdir(self.room):
            if not self.is_part(name):
                with told_at(self.path_of((ROOM, os.fsencode(name)))):
                    os.unlink(name, dir_fd=self.room)

    def is_part(self, name):
        status = os.stat(name, dir_fd=self.room, follow_symlinks=False)
        is_own_file = stat.S_ISREG(status.st_mode) and status.st_uid == os.geteuid()
        return is_own_file and status.st_size > 0 and PART.fullmatch(name) is not None

    def path_of(self, names):
        return os.path.join(self.place, *names)

    def stamps(self, places):
        """The size and the digest of the file at each place, or nothing where a file can be put. What bars the way is told."""
        with Inside(self.root) as folders:
            for names in places:
                yield self.stamp_at(folders, names)

    def stamp_at(self, folders, names):
        try:
            with told_at(self.path_of(names)):
                folder = folders.at(names[:-1])
                return stamp_in(folder, names[-1]) if is_file(folder, names[-1]) else None
        except (FileNotFoundError, Refused):
            return None

    def read(self, name):
        """The bytes of a file directly in the depot, or nothing where none stands there."""
        try:
            with told_at(self.path_of((name,))):
                return text_in(self.root, name) if is_file(self.root, name) else None
        except FileNotFoundError:
            return None

    def read_room(self, name):
        """The bytes of a file that came."""
        return text_in(self.room, name)

    def copy(self, names, digest, name):
        """Writes under a temporary name what stands at a place with a digest."""
        with Inside(self.root) as folders, Part(self, name, 0) as part:
            part.clear()
            with told_at(self.path_of(names)):
                stamp_in(folders.at(names[:-1]), names[-1], part.append)
            if part.sum.hexdigest() != digest:
                raise Refused(f"{shown(self.path_of(names))}: it changed meanwhile")
            part.sync()

    def places(self):
        return Places(self.root)

    def put(self, places, name, names):
        """Moves a file from its temporary name to its place."""
        with told_at(self.path_of(names)):
            os.rename(name, names[-1], src_dir_fd=self.room, dst_dir_fd=places.at(names[:-1]))

    def put_copy(self, places, digest, names):
        """The same of a copy of the file with this digest for its temporary name, which stays."""
        self.copy((ROOM, os.fsencode(digest)), digest, COPY)
        self.put(places, COPY, names)

    def put_text(self, name, text):
        """Puts a text in place directly in the depot, and makes that durable."""
        with Part(self, name, 0) as part, self.places() as places:
            part.clear()
            part.append(text)
            part.sync()
            self.put(places, name, (name,))
        self.sync({()})

    def sync(self, folders):
        """Makes the names in these folders durable, which may be those of an earlier run that was stopped."""
        with self.places() as places:
            for names in sorted(folders):
                with told_at(self.path_of(names)):
                    os.fsync(places.at(names))

    def remove(self, name):
        """Takes away a file directly in the depot, where one stands there."""
        with told_at(self.path_of((name,))), suppress(FileNotFoundError):
            os.unlink(name, dir_fd=self.root)
            os.fsync(self.root)

    def clear_room(self):
        """Takes away what an earlier run left over."""
        for name in os.listdir(self.room):
            with told_at(self.path_of((ROOM, os.fsencode(name)))):
                os.unlink(name, dir_fd=self.room)
