"""What is packed: a folder, or the bytes of a file or a pipe, in a format that is named or told by its first bytes."""
import os
import stat

from containers import INDEX, LAYOUT, InArchive, InFolder, may_be_image
from entries import Refused, shown, write_all
from packing import KEPT
from streams import Part, Pipe, Stream, plain
from tar_members import BLOCK, FAULTS, MOST_HEADERS, Info

FORMATS = "folder", "tar", "layer", "oci", "docker", "deb", "squashfs", "erofs", "disk"
IMAGES, DISKS = ("oci", "docker"), ("squashfs", "erofs", "disk")
# Where each format of whole file systems and packages has its mark.
MARKS = (0, b"hsqs", "squashfs"), (1024, b"\xe2\xe1\xf5\xe0", "erofs"), (512, b"EFI PART", "disk"), (4096, b"EFI PART", "disk"), (0, b"!<arch>\n", "deb")
HEAD = 65_536


class Source:
    """What is packed, by its handle. `kind` is its format, once it is told."""

    def __init__(self, given, stack):
        self.given, self.stack, self.what = given, stack, shown(given.SOURCE)
        self.handle = self.opened()
        mode = os.fstat(self.handle).st_mode
        self.is_folder = stat.S_ISDIR(mode)
        # where its bytes are, if they can be read from any place
        self.bounds = bounds_of(self.handle) if stat.S_ISREG(mode) or stat.S_ISBLK(mode) else None
        fits = ("folder", *IMAGES) if self.is_folder else FORMATS[1:]
        if given.format and given.format not in fits:
            raise Refused(f"{self.what}: {'a' if self.is_folder else 'no'} folder, and so not of the format {given.format}")
        if self.is_folder:
            self.kind = given.format or ("oci" if self.is_layout() else "folder")

    def opened(self):
        if self.given.SOURCE == b"-":
            return 0
        handle = os.open(self.given.SOURCE, os.O_RDONLY | os.O_NOCTTY)
        self.stack.callback(os.close, handle)
        return handle

    def is_layout(self):
        found = (os.stat(name, dir_fd=self.handle, follow_symlinks=False).st_mode for name in (LAYOUT, INDEX))
        try:
            return all(map(stat.S_ISREG, found))
        except OSError:
            return False

    def begin(self):
        """Opens its stream, and tells its format."""
        self.raw = Stream(Part(self.handle, *self.bounds) if self.bounds else Pipe(self.handle), self.what)
        self.stream = plain(self.raw, self.stack)
        self.kind = self.given.format or self.told()

    def told(self):
        head = self.stream.peek(HEAD)
        for at, mark, kind in MARKS:
            if head[at : at + len(mark)] == mark:
                return kind
        if not is_tar(head[:BLOCK]):
            raise Refused(f"{self.what}: no format that is known; --format names one")
        return "oci" if may_be_image(head) else "tar"

    def kept(self, room):
        """The bytes of its stream as a part of a file: itself, or one without a name in a room."""
        if self.bounds and self.stream is self.raw:
            return Part(self.handle, *self.bounds)
        handle = os.open(KEPT, os.O_RDWR | os.O_CREAT | os.O_EXCL, 0o600, dir_fd=room)
        self.stack.callback(os.close, handle)
        os.unlink(KEPT, dir_fd=room)
        size = 0
        for piece in self.stream.rest():
            size += len(piece)
            if size > self.given.most_bytes + MOST_HEADERS:
                raise Refused(f"{self.what}: more than {self.given.most_bytes:,} bytes, which --most-bytes allows")
            write_all(handle, piece)
        return Part(handle, 0, size)

    def shelf(self, room):
        """The files of an image of containers; nothing where an archive is none."""
        if self.is_folder:
            return InFolder(self.handle, self.stack)
        part = self.kept(room)
        found = InArchive(part.handle, part.at, part.end, self.what)
        if found.is_image() or self.given.format:
            return found
        self.kind, self.stream = "tar", Stream(part, self.what)
        return None


def bounds_of(handle):
    """Where a file goes on, and where it ends."""
    return os.lseek(handle, 0, os.SEEK_CUR), os.lseek(handle, 0, os.SEEK_END)


def is_tar(block):
    """Whether a block is a header, or the end of an archive."""
    if block == bytes(BLOCK):
        return True
    try:
        return bool(Info.frombuf(block, "utf-8", "surrogateescape"))
    except FAULTS:
        return False
