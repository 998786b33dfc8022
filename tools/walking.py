"""The entries of a real folder, and the lines that a tree text has for them.

Directories, files and symbolic links come in path order (lists of names, names byte by byte, so `a/b` comes before `a-b`). As overlayfs
keeps them, a character device with the number 0/0 is a whiteout, and a directory is opaque where its extended attribute
trusted.overlay.opaque or user.overlay.opaque is `y`; the first of the two only root can see.

Others may change the folder meanwhile. So no path is followed: each directory is opened in the one above it, and no link is. A folder
is walked twice, and a directory is entered the second time only if it is the one of the first.
"""
import errno
import os
import stat
from typing import NamedTuple

from attributes import Attributes
from entries import MOST_ENTRIES, MOST_FILE_BYTES, USUAL_MODE, Folders, Refused, check_path, check_target, line_of_directory, line_of_file, line_of_link, no_copy, open_file, shown, stamp_at

OPAQUE = ("trusted.overlay.opaque", "user.overlay.opaque")
KEPT_KINDS = stat.S_IFDIR, stat.S_IFREG, stat.S_IFLNK
CHANGED = "it changed meanwhile"
# How calls fail at an entry that is of another kind by now.
OTHER_KINDS = errno.ELOOP, errno.ENOTDIR, errno.EINVAL, errno.ENXIO


class Place(NamedTuple):
    """Where an entry stands: its names in the folder, and its path in the tree; and its kind. A directory that the tree has and the
    folder hasn't has no names."""

    names: tuple
    path: tuple
    kind: int


class Known(Folders):
    """Handles of folders that are known: none is entered that another one stands for now."""

    def __init__(self, root, known):
        super().__init__(root)
        self.known = known

    def entered(self, name):
        handle = super().entered(name)
        if identity_of(handle) == self.known[(*self.names, name)]:
            return handle
        os.close(handle)
        raise Refused(CHANGED)


def identity_of(handle):
    """What tells a directory from another one."""
    status = os.fstat(handle)
    return status.st_dev, status.st_ino


def is_opaque(handle):
    for attribute in OPAQUE:
        try:
            if os.getxattr(handle, attribute) == b"y":
                return True
        except OSError:
            # there is no such attribute here, or none that may be seen
            pass
    return False


def target_of(name, folder):
    target = os.readlink(name, dir_fd=folder)
    check_target(target)
    return target


def is_whiteout(status):
    return stat.S_ISCHR(status.st_mode) and status.st_rdev == 0


def is_special(status):
    """Whether it is a device, a socket or a pipe, of which a tree text has none."""
    return stat.S_IFMT(status.st_mode) not in KEPT_KINDS and not is_whiteout(status)


def is_taken(_names, _status):
    return True


def no_look(_names, _status, _handle):
    """What is made of an entry beside its line."""


def no_copies(_path, read):
    """What becomes of the bytes of files that are read for their digests alone."""
    return read(no_copy)


def told_at(full, error):
    """What is told of a call that failed: with the whole path, where it knows the last name or none. One that finds another kind of
    entry tells that it changed."""
    if error.errno in OTHER_KINDS:
        return Refused(f"{shown(full)}: {CHANGED}")
    if b"/" not in os.fsencode(error.filename or b""):
        error.filename = full
    return error


class Walk:
    """A folder by its handle. What `takes` is false of is left out, with all below it. `look` is called with each entry of the rest
    while its handle is open: that of a link or a whiteout is no more than its path by a handle."""

    def __init__(self, folder, tells, takes=is_taken, look=no_look, handle=None):
        """Its handle may be given, and then its path is only told."""
        self.folder, self.tells, self.takes, self.look, self.has_special = folder, tells, takes, look, False
        self.known = {}
        self.handle = os.open(folder, os.O_RDONLY | os.O_DIRECTORY) if handle is None else os.dup(handle)

    def __enter__(self):
        return self

    def __exit__(self, *_):
        os.close(self.handle)

    def full(self, names):
        return os.path.join(self.folder, *names)

    def places(self):
        """Each place below the folder, in path order, by a stack of what is still to be visited. Where a tree text can't hold all that
        is taken, every reason is told at once."""
        found, reasons = [], []
        with Folders(self.handle) as folders:
            waiting = names_in(self.handle, ())
            while waiting:
                names = waiting.pop()
                try:
                    waiting.extend(self.visit(folders, names, found))
                except (Refused, OSError) as error:
                    said = error.args[0] if isinstance(error, Refused) else error.strerror
                    reasons.append(f"{shown(self.full(names))}: {said}")
        if len(found) > MOST_ENTRIES:
            reasons.append(f"{shown(self.folder)}: {len(found):,} entries, where a tree has at most {MOST_ENTRIES:,}")
        if reasons:
            raise Refused(*reasons)
        return found

    def visit(self, folders, names, found):
        """Looks at a place, and gives those in it, the last one first."""
        folder = folders.at(names[:-1])
        status = os.stat(names[-1], dir_fd=folder, follow_symlinks=False)
        if not self.takes(names, status):
            return []
        kind = stat.S_IFMT(status.st_mode)
        found.append(Place(names, names, kind))
        self.tells.looked()
        check_path(names)
        if is_special(status):
            self.has_special = True
            raise Refused("neither a directory nor a file nor a link nor a whiteout")
        if kind == stat.S_IFDIR:
            return self.enter(folders, names)
        if kind == stat.S_IFREG:
            self.look_at_file(names, folder)
        else:
            if kind == stat.S_IFLNK:
                target_of(names[-1], folder)
            self.look(names, status, b"/proc/self/fd/%d/%b" % (folder, names[-1]))
        return []

    def enter(self, folders, names):
        handle = folders.at(names)
        self.known[names] = identity_of(handle)
        self.look(names, os.fstat(handle), handle)
        return names_in(handle, names)

    def look_at_file(self, names, folder):
        """Looks at a file, which is opened to see that it may be read."""
        handle, status = open_file(names[-1], folder)
        try:
            if status.st_size > MOST_FILE_BYTES:
                raise Refused(f"more than {MOST_FILE_BYTES:,} bytes")
            self.look(names, status, handle)
        finally:
            os.close(handle)

    def lines(self, places, attributed, copies=no_copies):
        """The lines of these places, whose attributes are read by `attributed`. `copies` has a file read, whose path in the tree it gets."""
        with Known(self.handle, self.known) as folders:
            for place in places:
                try:
                    yield self.line(folders, place, attributed, copies)
                except Refused as reason:
                    raise Refused(f"{shown(self.full(place.names))}: {reason}") from None
                except OSError as error:
                    raise told_at(self.full(place.names), error) from None

    def line(self, folders, place, attributed, copies):
        path, kind = b"/".join(place.path), place.kind
        if not place.names:
            return line_of_directory(b"d", Attributes(USUAL_MODE), path)
        if kind == stat.S_IFDIR:
            handle = folders.at(place.names)
            return directory_line(handle, attributed.read(place.names, os.fstat(handle)), path)
        name, folder = place.names[-1], folders.at(place.names[:-1])
        if kind == stat.S_IFLNK:
            target, status = target_of(name, folder), os.stat(name, dir_fd=folder, follow_symlinks=False)
            return line_of_link(attributed.read(place.names, status).owner, target, path)
        if kind == stat.S_IFCHR:
            return whiteout_line(os.stat(name, dir_fd=folder, follow_symlinks=False), path)
        handle, status = open_file(name, folder)
        try:
            attributes = attributed.read(place.names, status, handle)
            size, digest = copies(place.path, lambda copy: stamp_at(handle, status.st_size, copy))
        finally:
            os.close(handle)
        self.tells.read(size)
        return line_of_file(attributes, size, digest, path)


def directory_line(handle, attributes, path):
    return line_of_directory(b"o" if is_opaque(handle) else b"d", attributes, path)


def whiteout_line(status, path):
    if not is_whiteout(status):
        raise Refused(CHANGED)
    return b"w %b\n" % path


def names_in(handle, names):
    """The names of what stands in a folder, the last one first."""
    return [(*names, name) for name in sorted(map(os.fsencode, os.listdir(handle)), reverse=True)]
