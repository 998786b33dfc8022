"""Images of file systems and of disks: squashfs, erofs, and a partition table of GPT with partitions that are one of these, as
systemd-repart(8) makes them. Types of partitions are those of the Discoverable Partitions Specification, UAPI.2.
"""
import os
import re
import stat
import struct
import subprocess
import uuid
import zlib
from typing import NamedTuple

import erofs
from archives import Taker
from entries import FOLDER_ONLY, MOST_ENTRIES, MOST_TARGET_BYTES, Folders, Refused, check_path, check_target, open_file, program, shown, write_all
from losses import LINKS
from owners import names_of_attributes
from packing import KEPT, UNPACKED, Made, pieces_of
from streams import Part
from trees import DIRECTORIES, DIRECTORY, FILE, LINK, SPECIAL, WHITEOUT, Entry
from walking import Walk, is_special

TYPES = {
    uuid.UUID("44479540-f297-41b2-9af7-d131d5f0458a"): ("root", "x86"),
    uuid.UUID("4f68bce3-e8cd-4db1-96e7-fbcaf984b709"): ("root", "x86-64"),
    uuid.UUID("69dad710-2ce4-4e3c-b16c-21a1d49abed3"): ("root", "arm"),
    uuid.UUID("b921b045-1df0-41c3-af44-4c6f280d3fae"): ("root", "arm64"),
    uuid.UUID("72ec70a6-cf74-40e6-bd49-4bda08e8f224"): ("root", "riscv64"),
    uuid.UUID("5eead9a9-fe09-4a1e-a1d7-520d00531306"): ("root", "s390x"),
    uuid.UUID("c31c45e6-3f39-412e-80fb-4809c4980599"): ("root", "ppc64-le"),
    uuid.UUID("77055800-792c-4f94-b39a-98c91b762bb6"): ("root", "loongarch64"),
    uuid.UUID("75250d76-8cc6-458e-bd66-bd47cc81a812"): ("usr", "x86"),
    uuid.UUID("8484680c-9521-48c6-9c11-b0720656f69e"): ("usr", "x86-64"),
    uuid.UUID("7d0359a3-02b3-4f0a-865c-654403e70625"): ("usr", "arm"),
    uuid.UUID("b0e01050-ee5f-4390-949a-9101b17104e9"): ("usr", "arm64"),
    uuid.UUID("beaec34b-8442-439b-a40b-984381ed097d"): ("usr", "riscv64"),
    uuid.UUID("8a4f5770-50aa-4ed3-874a-99b710db6fea"): ("usr", "s390x"),
    uuid.UUID("15bb03af-77e7-4d4a-b12b-c0d084f7491c"): ("usr", "ppc64-le"),
    uuid.UUID("e611c702-575c-4cbe-9a46-434fa0bf7e3f"): ("usr", "loongarch64"),
}
KINDS = (0, b"hsqs", "squashfs"), (1024, b"\xe2\xe1\xf5\xe0", "erofs")
HEADER, MARK = 92, b"EFI PART"
SECTORS = 512, 4096
# The most entries of a partition table, of which 128 are usual.
MOST_PARTITIONS = 1_024
# A line of the list of a squashfs image.
LISTED = re.compile(rb"([-dlbcpsDLBCPS])\S{9} \d+/\d+ +(?:(\d+)|\d+, *\d+) \d{4}-\d\d-\d\d \d\d:\d\d squashfs-root(/.*)?", re.S)


class Partition(NamedTuple):
    """A partition of a disk: where it is to show, for which architecture, and its bytes."""

    shows: str
    architecture: str
    part: Part


def reader_of(part):
    """What gives bytes of a part of a file from a place on, which have to be there."""

    def read(at, count, may_lack=False):
        if not 0 <= at <= part.end - part.at:
            raise Refused("it ends early")
        found = os.pread(part.handle, min(count, part.end - part.at - at), part.at + at)
        if len(found) < count and not may_lack:
            raise Refused("it ends early")
        return found

    return read


def partitions_of(part):
    """The partitions of a disk that show as its root or its usr, by the first of its partition tables."""
    read = reader_of(part)
    for sector in SECTORS:
        head = read(sector, HEADER)
        if head.startswith(MARK):
            return list(partitions_in(part, read, sector, head))
    raise Refused("no partition table of GPT")


def partitions_in(part, read, sector, head):
    length, listed = struct.unpack_from("<II", head, 12)
    at, count, width, entries = struct.unpack_from("<QIII", head, 72)
    if length != HEADER or zlib.crc32(head[:16] + bytes(4) + head[20:]) != listed or count > MOST_PARTITIONS or width not in (128, 256, 512):
        raise Refused("a faulty partition table")
    table = read(at * sector, count * width)
    if zlib.crc32(table) != entries:
        raise Refused("a faulty partition table")
    for start in range(0, len(table), width):
        kind = TYPES.get(uuid.UUID(bytes_le=table[start : start + 16]))
        first, last = struct.unpack_from("<QQ", table, start + 32)
        if kind:
            begins, ends = part.at + first * sector, part.at + (last + 1) * sector
            if not part.at < begins < ends <= part.end:
                raise Refused("a partition beyond the end of the disk")
            yield Partition(*kind, Part(part.handle, begins, ends))


def chosen(partitions):
    """The root and the usr of a disk, of which it has one at least, and none twice."""
    found = {}
    for partition in partitions:
        if partition.shows in found:
            others = ", ".join(f"{one.shows} of {one.architecture}" for one in partitions)
            raise Refused(f"more than one partition is its {partition.shows}: {others}")
        found[partition.shows] = partition.part
    if not found:
        raise Refused("no partition is its root or its usr")
    return found


def file_system_of(part):
    """Which of these file systems a part of a file has."""
    head = reader_of(part)(0, 4096, may_lack=True)
    for at, mark, kind in KINDS:
        if head[at : at + 4] == mark:
            return kind
    raise Refused("neither squashfs nor erofs")


def run(words, *handles):
    ended = subprocess.run(words, stdin=subprocess.DEVNULL, capture_output=True, pass_fds=handles)
    if ended.returncode:
        said = (ended.stderr or ended.stdout).strip().split(b"\n")[-1]
        raise Refused(f"{os.path.basename(words[0])} doesn't unpack it: {shown(said)}")
    return ended.stdout


class DiskTaker(Taker):
    """Takes the entries of the image of a file system, which show below a path."""

    def __init__(self, part, room, below, *words):
        super().__init__(*words)
        self.part, self.room, self.below, self.files_of = part, room, below, []

    def path(self, path):
        return b"/".join(filter(None, (self.below, path)))

    def put(self, path, entry, source):
        """Puts an entry at a path of the tree, and notes a file with what its bytes are read by."""
        if not path:
            self.take_top(entry)
            return
        check_path(path.split(b"/"))
        if entry.kind == LINK:
            check_target(entry.content)
        is_left_out = self.leaves_out(path)
        self.place(path, entry, self.left if is_left_out else self.tree)
        if entry.kind == FILE and not is_left_out:
            self.files_of.append((path, entry, source))

    def unpacked(self):
        """The handle of a new folder of the room."""
        with Made(self.room) as folders:
            return os.dup(folders.at((UNPACKED, os.urandom(8).hex())))


class SquashfsTaker(DiskTaker):
    """Takes the entries of squashfs, which unsquashfs unpacks to a folder of the room. Only root gets there what it has."""

    def read(self):
        self.program = program("unsquashfs", "squashfs-tools")
        if os.geteuid() != 0:
            raise Refused(f"{self.what}: only root gets owners, modes and whiteouts of squashfs out of unsquashfs")
        self.check()
        above = self.unpacked()
        try:
            # the folder that it makes has the mode and the owner of the image's top
            run(self.words("-q", "-d", f"/proc/self/fd/{above}/top"), self.part.handle, above)
            handle = os.open("top", FOLDER_ONLY, dir_fd=above)
        finally:
            os.close(above)
        self.known = set()
        try:
            with Walk(self.source, self.tells, self.takes, self.look, handle) as walk, Folders(handle) as folders:
                self.look((), os.fstat(handle), handle)
                walk.places()
                for path, entry, names in self.files_of:
                    self.copy(path, entry, names[-1], folders.at(names[:-1]))
        finally:
            os.close(handle)

    def words(self, *words):
        return [self.program, "-no-progress", "-o", str(self.part.at), *words, f"/proc/self/fd/{self.part.handle}"]

    def check(self):
        """Refuses what is too large, before anything is unpacked."""
        count = 0
        for line in run(self.words("-lln"), self.part.handle).split(b"\n"):
            found = LISTED.fullmatch(line)
            if found:
                count += 1
                self.budget.take(int(found[2]) if found[1] == b"-" else 0)
        if count > MOST_ENTRIES + 1:
            raise Refused(f"{self.what}: {count - 1:,} entries, where a tree has at most {MOST_ENTRIES:,}")

    def takes(self, names, status):
        path = self.path(b"/".join(names))
        return not (self.leaves_out(path) or (is_special(status) and self.choice.leaves_out_special(path)))

    def look(self, names, status, handle):
        if is_special(status):
            return
        entry = Entry(kind_of_mode(status.st_mode), stat.S_IMODE(status.st_mode), (status.st_uid, status.st_gid))
        entry.take(attributes_in(handle))
        if entry.kind == LINK:
            entry.content = os.readlink(handle)
        if entry.kind == FILE and status.st_nlink > 1:
            entry.lost += (LINKS,) if status.st_ino in self.known else ()
            self.known.add(status.st_ino)
        self.put(self.path(b"/".join(names)), entry, names)

    def copy(self, path, entry, name, folder):
        handle, _ = open_file(name, folder)
        try:
            entry.size, entry.content = self.files.write(path, pieces_of(handle))
        finally:
            os.close(handle)


def attributes_in(handle):
    """The extended attributes of a file, with their values."""
    follows = isinstance(handle, int)
    return {name: os.getxattr(handle, name, follow_symlinks=follows) for name in names_of_attributes(handle)}


class ErofsTaker(DiskTaker):
    """Takes the entries of erofs. Where compressed files are among them fsck.erofs unpacks these to a folder of the room."""

    def read(self):
        path, self.folders = b"", None
        try:
            image, known = erofs.Image(reader_of(self.part)), {}
            for path, inode in image.entries():
                self.take(image, path, inode, known)
            if any(inode.is_compressed for _, _, (_, inode) in self.files_of):
                self.folders = self.unpack()
            for path, entry, (own, inode) in self.files_of:
                entry.size, entry.content = self.files.write(path, self.content(own, inode) if inode.is_compressed else image.content(inode))
        except (struct.error, UnicodeDecodeError):
            raise Refused(f"{self.what}: {shown(path)}: it is faulty") from None
        except Refused as reason:
            said, *advice = reason.args
            raise Refused(": ".join(filter(None, (self.what, shown(path), said))), *advice) from None

    def take(self, image, own, inode, known):
        path, kind = self.path(own), kind_of_mode(inode.mode)
        is_whiteout = kind == WHITEOUT and inode.start == 0
        if kind in (None, WHITEOUT) and not is_whiteout:
            if self.leaves_out(path) or self.choice.leaves_out_special(path):
                return
            raise Refused(*SPECIAL)
        entry = Entry(kind, stat.S_IMODE(inode.mode), inode.owner)
        entry.take(image.attributes(inode))
        if kind == LINK:
            entry.content = b"".join(image.content(inode)) if inode.size <= MOST_TARGET_BYTES else bytes(MOST_TARGET_BYTES + 1)
        if kind == FILE:
            self.budget.take(inode.size)
            entry.lost += (LINKS,) if known.setdefault(inode.number, own) != own else ()
        self.put(path, entry, (own, inode))

    def content(self, own, inode):
        """The bytes of a file that was compressed."""
        names = (b"top", *own.split(b"/"))
        handle, status = open_file(names[-1], self.folders.at(names[:-1]))
        try:
            if status.st_size != inode.size:
                raise Refused("fsck.erofs makes another size of it")
            yield from pieces_of(handle)
        finally:
            os.close(handle)

    def unpack(self):
        """Handles of the folders that fsck.erofs makes of the image."""
        tool = program("fsck.erofs", "erofs-utils")
        handle, above = self.alone(), self.unpacked()
        run([tool, "--no-preserve", f"--extract=/proc/self/fd/{above}/top", f"/proc/self/fd/{handle}"], handle, above)
        return Folders(above)

    def alone(self):
        """The handle of a file that has the image alone."""
        if self.part.at == 0:
            return self.part.handle
        handle = os.open(KEPT, os.O_RDWR | os.O_CREAT | os.O_EXCL, 0o600, dir_fd=self.room)
        os.unlink(KEPT, dir_fd=self.room)
        for piece in iter(Part(self.part.handle, self.part.at, self.part.end), b""):
            write_all(handle, piece)
        return handle


def kind_of_mode(mode):
    """The kind of the entry of such a mode; that of a character device is a whiteout where its number is 0/0. None of another."""
    return {stat.S_IFDIR: DIRECTORY, stat.S_IFREG: FILE, stat.S_IFLNK: LINK, stat.S_IFCHR: WHITEOUT}.get(stat.S_IFMT(mode))


TAKERS = {"squashfs": SquashfsTaker, "erofs": ErofsTaker}


def parts_of(kind, part):
    """The file systems of an image, with the path below which each shows."""
    if kind != "disk":
        return [(kind, part, b"")]
    found = chosen(partitions_of(part))
    return [(file_system_of(part), part, b"usr" if shows == "usr" else b"") for shows, part in sorted(found.items())]


def read_disk(kind, part, room, what, tells, tree, *words):
    """Takes all that an image has into a tree."""
    try:
        parts = parts_of(kind, part)
    except Refused as reason:
        raise Refused(f"{what}: {reason}") from None
    for kind, part, below in parts:
        if below in tree.above or (below in tree.entries and tree.entries[below].kind not in DIRECTORIES):
            raise Refused(f"{what}: its root has something in the way of its usr")
        tree.entries.pop(below, None)
        taker = TAKERS[kind](part, room, below, what, tree, *words)
        taker.tells, taker.source = tells, os.fsencode(what)
        taker.read()
