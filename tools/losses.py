"""What a tree text doesn't keep of the entries of a folder, by kinds: how many lose it, and the first three."""
import os
import stat

from attributes import CAPABILITY, ROOT
from entries import USUAL_MODE, shown
from owners import UNSAID, names_of_attributes
from telling import Found
from walking import OPAQUE

ATTRIBUTES = "other extended attributes"
LINKS, HOLES = "hard links, which become files of their own", "holes, which are filled"
KINDS = UNSAID, ATTRIBUTES, LINKS, HOLES


class Losses:
    """What is lost of a folder, as its entries are looked at, and whose attributes `attributed` has; or of trees in memory."""

    def __init__(self, folder, attributed=None):
        self.folder, self.attributed, self.found, self.files = folder, attributed, {kind: Found() for kind in KINDS}, set()
        self.top_mode, self.top_owner = USUAL_MODE, ROOT
        if attributed:
            self.found[UNSAID] = attributed.lost

    def add(self, kind, names):
        self.found[kind].add(os.path.join(self.folder, *filter(None, names)))

    def look(self, names, status, handle):
        attributes = names_of_attributes(handle)
        self.attributed.look(names, status, handle)
        if stat.S_ISREG(status.st_mode):
            self.look_at_file(names, status, handle, attributes)
        self.look_at_others(names, status, attributes)

    def look_at_others(self, names, status, attributes):
        """Looks at extended attributes of what no capability is kept of."""
        if CAPABILITY in attributes and not stat.S_ISREG(status.st_mode):
            self.add(UNSAID, names)
        if attributes.difference((CAPABILITY,), OPAQUE if stat.S_ISDIR(status.st_mode) else ()):
            self.add(ATTRIBUTES, names)

    def take(self, path, entry):
        """The same of an entry in memory, by its path."""
        for kind in entry.lost:
            self.add(kind, (path,))

    def take_tree(self, tree):
        self.top_mode, self.top_owner = USUAL_MODE if tree.top.mode is None else tree.top.mode, tree.top.owner
        self.take(b"", tree.top)
        for path in tree.paths():
            self.take(path, tree.entries[path])

    def look_at_file(self, names, status, handle, attributes):
        if CAPABILITY in attributes:
            self.attributed.look_at_capability(names, handle)
        identity = status.st_dev, status.st_ino
        if status.st_nlink > 1 and identity in self.files:
            self.add(LINKS, names)
        if status.st_nlink > 1:
            self.files.add(identity)
        if status.st_blocks * 512 < status.st_size and has_hole(handle, status.st_size):
            self.add(HOLES, names)

    def look_at_top(self, handle):
        status = os.fstat(handle)
        self.top_mode, self.top_owner = stat.S_IMODE(status.st_mode), self.attributed.owners.of(status)
        self.look_at_others((), status, names_of_attributes(handle))

    def wider(self):
        """What others may do there that they can't in the folder."""
        return ": others can read and enter it" if 0o055 & ~self.top_mode else ""

    def lines(self):
        told = [f"lost: {kind}: {found}" for kind, found in self.found.items() if found.count]
        if self.top_mode != USUAL_MODE:
            told.append(f"lost: the mode {self.top_mode:o} of {shown(self.folder)} itself, which is 755 where a command puts it{self.wider()}")
        if self.top_owner != ROOT:
            user, group = self.top_owner
            told.append(f"lost: the owner {user}:{group} of {shown(self.folder)} itself, which is 0:0 where a command puts it")
        return told


def has_hole(handle, size):
    try:
        return os.lseek(handle, 0, os.SEEK_HOLE) < size
    except OSError:
        return False
