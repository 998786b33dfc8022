"""A tree of a store that is written into a folder: by handles, so that nothing is written beside it, whatever links the tree has.

A directory is open to the caller alone until all below it is written. Then it gets its owner and its mode.
"""
import os
import stat

from entries import FOLDER_ONLY, Folders, Refused, shown, write_all
from stored import DIRECTORIES, OPAQUE, path_of

TREE, WHITEOUT = "tree", "whiteout"
NEW = os.O_WRONLY | os.O_CREAT | os.O_EXCL | os.O_NOFOLLOW


def make_whiteout(name, folder):
    os.mknod(name, stat.S_IFCHR, os.makedev(0, 0), dir_fd=folder)


def check_marks(entries, room):
    """Refuses whiteouts and opaque directories that can't be made here, before anything else is written."""
    for kind, what, make in (
        (b"w", "a whiteout", lambda: make_whiteout(WHITEOUT, room)),
        (b"o", "an opaque directory", lambda: os.setxattr(room, OPAQUE, b"y")),
    ):
        paths = [path_of(names) for found, _, names in entries if found == kind]
        try:
            if paths:
                make()
        except OSError as error:
            raise Refused(*(f"{shown(path)}: {what} can't be made here: {error.strerror}" for path in paths)) from None


class TreeFolder:
    """A tree in a folder of a room, and what settles its entries."""

    def __init__(self, tree, room, settling):
        self.tree, self.room, self.settling = tree, room, settling

    def write(self):
        """Writes all but the owners and modes of directories, and gives the folder's handle: the files last, in whose order the store
        gives them."""
        check_marks(self.tree.entries, self.room)
        os.mkdir(TREE, dir_fd=self.room)
        handle = os.open(TREE, FOLDER_ONLY, dir_fd=self.room)
        with Folders(handle) as folders:
            for kind, fields, names in self.tree.entries:
                if kind != b"f":
                    self.write_other(folders, kind, fields, names)
            for source, path, fields, names in self.tree.files(self.room):
                self.write_file(source, path, fields, names, folders.at(names[:-1]))
        return handle

    def write_other(self, folders, kind, fields, names):
        """Makes what stands at a path that has no file."""
        folder, name = folders.at(names[:-1]), names[-1]
        if kind in DIRECTORIES:
            os.mkdir(name, 0o700, dir_fd=folder)
            if kind == b"o":
                os.setxattr(folders.at(names), OPAQUE, b"y")
        elif kind == b"l":
            attributes, target = fields
            os.symlink(target, name, dir_fd=folder)
            self.settling.settle_link(name, folder, attributes, names)
        else:
            make_whiteout(name, folder)
            self.settling.settle_time(name, dir_fd=folder, follow_symlinks=False)

    def write_file(self, source, path, fields, names, folder):
        """Writes the next file of a command, if its bytes are those that the tree lists."""
        handle = os.open(names[-1], NEW, 0o600, dir_fd=folder)
        try:
            self.tree.copy_file(source, path, fields, lambda piece: write_all(handle, piece))
            self.settling.settle_file(handle, fields[0], names)
        finally:
            os.close(handle)

    def settle_directories(self, handle, above=0):
        """Settles the directories of more names than that, those above last, and gives the folder its time."""
        with Folders(handle) as folders:
            for kind, fields, names in reversed(self.tree.entries):
                if kind in DIRECTORIES and len(names) > above:
                    self.settling.settle_directory(folders.at(names), fields[0], names)
        self.settling.settle_time(handle)

    def settle_top(self, moved, target):
        """Settles the directories in a folder, whose modes may bar a move. Where somebody put another one there, that gets nothing of the
        tree."""
        for kind, fields, names in self.tree.entries:
            if kind in DIRECTORIES and len(names) == 1:
                handle = os.open(names[0], FOLDER_ONLY, dir_fd=target)
                try:
                    if os.path.samestat(os.fstat(handle), moved[names[0]]):
                        self.settling.settle_directory(handle, fields[0], names)
                finally:
                    os.close(handle)
