"""Images of file systems by the programs that make them: mkfs.erofs(1) and mksquashfs(1). Each is asked for what makes the same bytes of
the same tree: one time, an identity that comes from the tree, and no attributes but the marks of opaque directories and capabilities.

mksquashfs reads a tar from a pipe, and so does mkfs.erofs where it can, from its version 1.7 on. An earlier one reads a folder, so the
tree is written in the room first; only root can give entries there other owners than root, and capabilities.
"""
import hashlib
import os
import re
import subprocess
from contextlib import suppress

import ending
from attributes import ROOT, Attributes
from entries import USUAL_MODE, Refused, program
from settling import Settling
from tars import MOST_SECONDS, top_of, write_tar
from tree_folders import TreeFolder

IMAGE, SAID = "image", "said"
VERSION = re.compile(rb"mksquashfs version ([0-9]{1,4})\.([0-9]{1,4})")
ALL_BITS = Attributes(0o7777)
NO_OWNERS = "this mkfs.erofs reads no tar, as that of version 1.7 does, so only root gets owners and capabilities into an image"


def said_by(path, option):
    """What a program says of itself, on whichever output."""
    return subprocess.run([path, option], stdin=subprocess.DEVNULL, stdout=subprocess.PIPE, stderr=subprocess.STDOUT).stdout


def told_of(kind, fields):
    """The fields of an entry as an identity has them: those of a line, but for the length of a link's target."""
    if kind == b"l":
        return kind + fields[0].owner.field(), fields[1]
    return (kind, fields[0].field(), *fields[1:]) if fields else (kind, b"")


class Making:
    """An image that is made in a room: the handle of its file, and that of what the program says."""

    def __init__(self, tree, room, seconds):
        self.tree, self.room, self.seconds = tree, room, seconds
        self.image, self.said = (os.open(name, os.O_RDWR | os.O_CREAT | os.O_EXCL, 0o600, dir_fd=room) for name in (IMAGE, SAID))

    def path(self):
        return f"/proc/self/fd/{self.image}"

    def identity(self):
        """A UUID by RFC 9562 that images of the same tree and time have, and no other."""
        digest = hashlib.sha256(b"%o %d\n" % (self.tree.file_mode(ALL_BITS), self.seconds))
        for kind, fields, names in self.tree.entries:
            digest.update(b"%b %b\n" % (b" ".join(told_of(kind, fields)), b"/".join(names)))
        found = digest.hexdigest()
        return f"{found[:8]}-{found[8:12]}-8{found[13:16]}-8{found[17:20]}-{found[20:32]}"

    def is_roots(self):
        return all(fields[0].owner == ROOT for _, fields, _ in self.tree.entries if fields)

    def has_capabilities(self):
        return any(fields[0].capability for kind, fields, _ in self.tree.entries if kind == b"f")

    def has_extended(self):
        """Whether an entry has an extended attribute."""
        return self.has_capabilities() or any(kind == b"o" for kind, _, _ in self.tree.entries)

    def feed(self, handle):
        """Writes the tree as a tar, with its top. A program that ends early says why."""
        with suppress(BrokenPipeError):
            write_tar(self.tree, self.room, handle, self.seconds, top_of(self.seconds))

    def run(self, *words, feeds, handles=()):
        # times are those of the words
        around = {name: value for name, value in os.environ.items() if name != "SOURCE_DATE_EPOCH"}
        streams = {"stdin": subprocess.PIPE if feeds else subprocess.DEVNULL, "stdout": self.said, "stderr": self.said, "bufsize": 0}
        with ending.started(words, env=around, pass_fds=(self.image, *handles), **streams) as child:
            if feeds:
                self.feed(child.stdin.fileno())
                child.stdin.close()
            status = child.wait()
        if status:
            raise Refused(f"{os.path.basename(words[0])}: {self.reason(status)}")

    def reason(self, status):
        """The last line of what the program said."""
        lines = os.pread(self.said, os.fstat(self.said).st_size, 0).decode(errors="replace").splitlines()
        return next((line.strip() for line in reversed(lines) if line.strip()), f"it ended with the status {status}")


def make_erofs(path, making):
    words = path, "--quiet", f"-T{making.seconds}", f"-U{making.identity()}", *(() if making.has_extended() else ("-x-1",))
    if b" --tar=" in said_by(path, "--help"):
        making.run(*words, "--tar=f", making.path(), feeds=True)
        return
    handle = write_folder(making)
    try:
        making.run(*words, *(("--all-root",) if making.is_roots() else ()), making.path(), f"/proc/self/fd/{handle}", feeds=False, handles=(handle,))
    finally:
        os.close(handle)


def write_folder(making):
    """Writes the tree in the room, and gives the handle of its top. Where all in it is root's, the program is told so, whoever has it."""
    tree, is_roots = making.tree, making.is_roots()
    if os.geteuid() != 0 and (not is_roots or making.has_capabilities()):
        raise Refused(NO_OWNERS)
    folder = TreeFolder(tree, making.room, Settling(tree, making.seconds, gives_owners=not is_roots))
    handle = folder.write()
    folder.settle_directories(handle)
    if tree.lost_owners or tree.lost_capabilities:
        raise Refused(NO_OWNERS)
    os.fchmod(handle, USUAL_MODE)
    return handle


def make_squashfs(path, making):
    found = VERSION.search(said_by(path, "-version"))
    version = (int(found[1]), int(found[2])) if found else (0, 0)
    if version < (4, 5):
        raise Refused("this mksquashfs reads no tar, as that of version 4.5 does")
    time, attributes = str(making.seconds), () if making.has_extended() else ("-no-xattrs",)
    # what a tar says of its top doesn't count there
    top = "-root-mode", "755", *(("-all-root",) if making.is_roots() else ("-root-uid", "0", "-root-gid", "0"))
    # and before version 4.6 its owner is who runs the program, but for the first of these
    runs = (program("unshare", "util-linux"), "--map-root-user") if version < (4, 6) and not making.is_roots() and os.geteuid() != 0 else ()
    making.run(*runs, path, "-", making.path(), "-tar", "-noappend", "-quiet", "-no-progress", "-mkfs-time", time, "-all-time", time, *top, *attributes, feeds=True)


class Kind:
    """A kind of images: the program that makes one with its package, how it does, and the greatest time that one holds."""

    def __init__(self, name, package, make, most_seconds):
        self.name, self.package, self.make_by, self.most_seconds = name, package, make, most_seconds

    def check(self, seconds):
        """The path of the program, if it can make an image of this time."""
        if seconds > self.most_seconds:
            raise Refused(f"{self.name}: a time has at most {self.most_seconds:,} seconds")
        return program(self.name, self.package)

    def make(self, path, making):
        self.make_by(path, making)


KINDS = {
    "erofs": Kind("mkfs.erofs", "erofs-utils", make_erofs, MOST_SECONDS),
    "squashfs": Kind("mksquashfs", "squashfs-tools", make_squashfs, 2**32 - 1),
}
