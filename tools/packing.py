"""A resource that comes to stand in a depot: its files and its tree text are written in a room beside its place, and then moved there.

What is written has modes by the umask. The rooms of a tool begin with a prefix of its own, and have nothing but the names of this
module, so that its next run there knows what a kill left.
"""
import hashlib
import os

import ending
import rooms
from entries import PIECE, Folders, Refused, check_path, open_file, shown, write_all

FILES, TEXT = "files", "text"
# Files of which a hard link may have the bytes, bytes of a pipe that are read more than once, and what an image was unpacked to.
HIDDEN, KEPT, UNPACKED = "hidden", "kept", "unpacked"
NAMES = frozenset((FILES, TEXT, HIDDEN, KEPT, UNPACKED))
NEW = os.O_WRONLY | os.O_CREAT | os.O_EXCL | os.O_NOFOLLOW


def names_of(resource):
    """The names of a resource, of which RES.tree is a path too."""
    names = tuple(resource.split(b"/"))
    for path in names, (*names[:-1], names[-1] + b".tree"):
        try:
            check_path(path)
        except Refused as reason:
            raise Refused(f"{shown(resource)}: {reason}") from None
    return names


def place_of(depot, resource):
    """Where a resource is to stand in a depot, where nothing may stand yet."""
    place = os.path.join(depot, *names_of(resource))
    if os.path.lexists(place) or os.path.lexists(place + b".tree"):
        raise Refused(f"{shown(resource)}: it is there already")
    return place


class Made(Folders):
    """Handles of folders that are made where they are missing."""

    def entered(self, name):
        try:
            return super().entered(name)
        except FileNotFoundError:
            os.mkdir(name, dir_fd=self.handles[-1])
            return super().entered(name)


class Copies(Made):
    """The copies of files in a room. The folders above a copy are made with the first in them."""

    def __init__(self, room, place):
        super().__init__(room)
        self.place = place

    def copy(self, path, read):
        """Has a file read, whose bytes go to its path."""
        try:
            handle = os.open(path[-1], NEW, 0o666, dir_fd=self.at((FILES, *path[:-1])))
        except OSError as error:
            error.filename = os.path.join(self.place, *path)
            raise
        try:
            return read(lambda piece: write_all(handle, piece))
        finally:
            os.close(handle)


class Files:
    """The files of an archive in a room, by their paths. One that comes again takes the place of the one before. `hides` says of which
    only a hard link may have the bytes."""

    def __init__(self, room, place, tells, folder=()):
        self.room, self.place, self.tells, self.folder = room, place, tells, folder
        self.copies, self.hides, self.way = Copies(room, place), None, ()

    def names(self, path):
        above = HIDDEN if self.hides and self.hides(path) else FILES
        return (above, *self.folder, *path.split(b"/"))

    def at(self, path):
        """The handle of the folder of a file. Many files of one come one after another."""
        above = path.rpartition(b"/")[0], bool(self.hides) and self.hides(path)
        if self.way != above:
            self.copies.at(self.names(path)[:-1])
            self.way = above
        return self.copies.handles[-1]

    def opened(self, path):
        name, folder = path.rpartition(b"/")[2], self.at(path)
        try:
            return os.open(name, NEW, 0o666, dir_fd=folder)
        except FileExistsError:
            os.unlink(name, dir_fd=folder)
            return os.open(name, NEW, 0o666, dir_fd=folder)

    def write(self, path, pieces):
        """Writes a file as its bytes come. Its size and its digest."""
        size, digest, handle = 0, hashlib.sha256(), None
        try:
            handle = self.opened(path)
            for piece in pieces:
                digest.update(piece)
                write_all(handle, piece)
                size += len(piece)
        except OSError as error:
            error.filename = os.path.join(self.place, path)
            raise
        finally:
            if handle is not None:
                os.close(handle)
        self.tells.read(size)
        return size, digest.digest()

    def remove(self, path):
        os.unlink(path.rpartition(b"/")[2], dir_fd=self.at(path))

    def copy(self, path, to):
        """Writes at another path what was written at one."""
        handle, _ = open_file(path.rpartition(b"/")[2], self.at(path))
        try:
            self.write(to, pieces_of(handle))
        finally:
            os.close(handle)

    def move(self, path, to):
        """Moves a file to another path, whose folders are made."""
        old, new = self.names(path), self.names(to)
        with Made(self.room) as others:
            os.rename(old[-1], new[-1], src_dir_fd=others.at(old[:-1]), dst_dir_fd=self.at(to))

    def forget_hidden(self):
        """Takes away what was written for hard links alone. From here on nothing is hidden."""
        self.hides, self.way = None, ()
        room = self.copies.at(())
        if HIDDEN in os.listdir(room):
            with Made(room) as folders:
                rooms.empty(folders.at((HIDDEN,)))
            os.rmdir(HIDDEN, dir_fd=room)

    def close(self):
        self.copies.__exit__()


def pieces_of(handle):
    while piece := os.read(handle, PIECE):
        yield piece


def write_text(folder, name, lines):
    """Writes the lines of a text into a new file of a folder."""
    with open(os.open(name, NEW, 0o666, dir_fd=folder), "wb", buffering=PIECE) as file:
        file.writelines(lines)


def move(name, room, place, beside):
    try:
        os.rename(name, os.path.basename(place), src_dir_fd=room, dst_dir_fd=beside)
    except OSError as error:
        error.filename = place
        raise


def put_in_place(room, place, beside):
    """Moves what was written to its place in the folder beside which it was written, the text last, where there is one. Then it stands,
    whatever signal comes."""
    ending.hold()
    written = os.listdir(room)
    if FILES in written:
        move(FILES, room, place, beside)
    try:
        if TEXT in written:
            move(TEXT, room, place + b".tree", beside)
    except BaseException:
        if FILES in written:
            os.rename(os.path.basename(place), FILES, src_dir_fd=beside, dst_dir_fd=room)
        raise
    ending.ignore()


def in_place(place, prefix, work):
    """Calls `work` with a room beside a place, whose name begins with a prefix, and moves what it wrote there."""
    with rooms.made(os.path.dirname(place)):
        beside = os.open(os.path.dirname(place), os.O_RDONLY | os.O_DIRECTORY)

        def write(room):
            work(room.handle)
            put_in_place(room.handle, place, beside)

        rooms.clear(beside, prefix, NAMES)
        rooms.in_a_room(beside, prefix, write)
