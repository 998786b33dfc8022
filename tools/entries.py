"""What the tools share: the limits and lines of tree texts, files that are read once, handles of folders, and how a tool tells what it
can't do.
"""
import hashlib
import os
import re
import shutil
import stat
import sys

import ending

MOST_ENTRIES = 262_144
MOST_FILE_BYTES = 1_073_741_824
MOST_NAMES = 64
MOST_PATH_BYTES = 4_096
MOST_NAME_BYTES = 255
MOST_TARGET_BYTES = 4_096
# The most bytes in all files of a host, of which a tree is one part.
MOST_TREE_BYTES = 4_294_967_296
# The most entries of all trees of a run, each of which takes some hundred bytes of memory.
MOST_LISTED = 1_048_576
# The mode of a directory that nothing is said of.
USUAL_MODE = 0o755
NO_NAMES = frozenset((b"", b".", b".."))
CONTROL = re.compile(rb"[\x00-\x1f\x7f]")
# Paths of few and short names of ASCII.
PLAIN = re.compile(rb"[ -.0-~]{1,200}(?:/[ -.0-~]{1,200}){0,15}")
PIECE = 1 << 20
FOLDER_ONLY = os.O_RDONLY | os.O_DIRECTORY | os.O_NOFOLLOW
# What was no file when it was opened is seen by its handle; a pipe that has come meanwhile holds nobody up.
FILE_ONLY = os.O_RDONLY | os.O_NOFOLLOW | os.O_NONBLOCK | os.O_NOCTTY


class Refused(Exception):
    """What a tool can't take or write: one reason or several."""


def shown(path):
    """A path on one line: what can't be printed as it is stands escaped."""
    return "".join(char if char.isprintable() else ascii(char)[1:-1] for char in os.fsdecode(path))


def reasons_of(error):
    """The reasons of a refusal, or what the system says of a call that failed, with its path."""
    if isinstance(error, Refused):
        return error.args
    said = error.strerror or str(error)
    return (f"{shown(error.filename)}: {said}",) if error.filename else (said,)


def run_tool(name, call):
    """Calls a tool. Where it fails each reason has a line on standard error, and the status is 1; where a signal ends it the status is
    that which a shell tells of it."""
    ending.catch()
    try:
        call()
    except (Refused, OSError) as error:
        sys.exit("\n".join(f"{name}: {reason}" for reason in reasons_of(error)))
    except ending.Stopped as stopped:
        sys.exit(128 + stopped.args[0])


def program(name, package):
    """The path of a program, which may stand in a folder that only root's PATH has."""
    path = shutil.which(name, path=f"{os.environ.get('PATH', os.defpath)}:/usr/sbin:/sbin")
    if not path:
        raise Refused(f"there is no {name}, which Debian has in the package {package}")
    return path


def check_text(text, what):
    if CONTROL.search(text):
        raise Refused(f"a control byte in {what}")
    try:
        text.decode("utf-8")
    except UnicodeDecodeError:
        raise Refused(f"{what} is no UTF-8") from None


def check_name(path):
    """check_path of a path that has neither empty names nor `.` and `..`. Most paths are seen at once to be fine."""
    if not PLAIN.fullmatch(path):
        check_path(path.split(b"/"))


def check_path(names):
    path = b"/".join(names)
    check_text(path, "its name")
    check_names(path, names)


def check_names(path, names):
    if path.count(b"/") >= len(names) or not NO_NAMES.isdisjoint(names) or max(map(len, names)) > MOST_NAME_BYTES:
        raise Refused("a name that no path has")
    if len(names) > MOST_NAMES:
        raise Refused(f"a path of more than {MOST_NAMES} names")
    if len(path) > MOST_PATH_BYTES:
        raise Refused(f"a path of more than {MOST_PATH_BYTES:,} bytes")


def check_target(target):
    check_text(target, "its target")
    if not 1 <= len(target) <= MOST_TARGET_BYTES:
        raise Refused(f"a target of no byte or of more than {MOST_TARGET_BYTES:,}")


def no_copy(piece):
    """What becomes of a file's bytes where they are read for their digest alone."""


def open_file(path, folder=None):
    """The handle of a file, which may be one below the handle of a folder, and its status."""
    handle = os.open(path, FILE_ONLY, dir_fd=folder)
    status = os.fstat(handle)
    if stat.S_ISREG(status.st_mode):
        return handle, status
    os.close(handle)
    raise Refused("it is no file")


def stamp_of(path, copy=no_copy, folder=None):
    """The size and the digest of a file, read once; each piece of it is handed to `copy`. Its path may be one below the handle of a
    folder."""
    handle, status = open_file(path, folder)
    try:
        return stamp_at(handle, status.st_size, copy)
    finally:
        os.close(handle)


def stamp_at(handle, expected, copy):
    """The same of an open file, which is read to its end, whatever size was expected."""
    digest, size = hashlib.sha256(), 0
    while piece := os.read(handle, PIECE if size > expected else min(PIECE, expected + 1 - size)):
        size += len(piece)
        if size > MOST_FILE_BYTES:
            raise Refused(f"more than {MOST_FILE_BYTES:,} bytes")
        digest.update(piece)
        copy(piece)
    return size, digest.hexdigest()


def line_of_directory(kind, attributes, path):
    return b"%b %b %b\n" % (kind, attributes.field(), path)


def line_of_file(attributes, size, digest, path):
    return b"f %b %d %b %b\n" % (attributes.field(), size, digest.encode(), path)


def line_of_link(owner, target, path):
    return b"l %d%b %b %b\n" % (len(target), owner.field(), target, path)


def write_all(handle, piece):
    while piece:
        piece = piece[os.write(handle, piece) :]


class Folders:
    """Handles of the folders on the way to an entry: each is opened in the one above it, and no link is followed."""

    def __init__(self, root):
        """The root is told by its path or by a handle, which stays open."""
        handle = os.dup(root) if isinstance(root, int) else os.open(root, os.O_RDONLY | os.O_DIRECTORY)
        self.names, self.handles = (), [handle]

    def __enter__(self):
        return self

    def __exit__(self, *_):
        for handle in self.handles:
            os.close(handle)

    def at(self, names):
        if names == self.names:
            return self.handles[-1]
        while self.names != names[: len(self.names)]:
            os.close(self.handles.pop())
            self.names = self.names[:-1]
        for name in names[len(self.names) :]:
            self.handles.append(self.entered(name))
            self.names += (name,)
        return self.handles[-1]

    def entered(self, name):
        """The handle of a folder in the last one."""
        return os.open(name, FOLDER_ONLY, dir_fd=self.handles[-1])
