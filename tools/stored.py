"""A tree of a store that is written out: its entries, what becomes of their modes, and the bytes of its files."""
import stat
from contextlib import closing

from entries import Refused
from reading import changed, files_of
from telling import Found
from texts import Faulty, read_tree

OPAQUE = "user.overlay.opaque"
DIRECTORIES = b"d", b"o"
SETID = stat.S_ISUID | stat.S_ISGID


def entries_of(text):
    """The entries of a tree text. Where a line of it is none, nothing is written."""
    try:
        return read_tree(text)
    except Faulty as fault:
        raise Refused(f"what the store gives is no tree text: {fault}") from None


def path_of(names):
    return b"/" + b"/".join(names)


def found_of(lost):
    """How many entries these are, and the first of them in path order."""
    found = Found()
    for names in sorted(lost):
        found.add(path_of(names))
    return found


class Tree:
    """The tree at a path of a store, and whether its files keep setuid and setgid: always, never, or, where it is None, where they have
    their owners. Without its owner a file would run as whoever has it then. What entries don't get is noted by their names."""

    def __init__(self, store, path, keeps_setid, tells):
        self.store, self.keeps_setid, self.tells = store, keeps_setid, tells
        self.base = tuple(name for name in path.split(b"/") if name)
        self.entries = entries_of(store.read("tree", path))
        self.lost_owners, self.lost_capabilities, self.lost_setid = [], [], []

    def file_mode(self, attributes, has_owner=True):
        """The mode that a file gets with its owner, or without."""
        keeps = has_owner if self.keeps_setid is None else self.keeps_setid
        return attributes.mode if keeps else attributes.mode & ~SETID

    def tell_losses(self):
        """Tells what entries didn't get."""
        told = [f"lost: {kind}: {found_of(lost)}" for kind, lost in (("owners", self.lost_owners), ("file capabilities", self.lost_capabilities)) if lost]
        if self.lost_setid:
            told.append(f"setuid and setgid are taken off files, since owners are lost: {found_of(self.lost_setid)}; --keep-setid keeps them")
        self.tells.tell(*told)

    def files(self, room):
        """Each file in path order: the command whose next bytes it is, its path in the store, and its fields and names. The room has the
        lines of the commands."""
        paths = [path_of((*self.base, *names)) for kind, _, names in self.entries if kind == b"f"]
        files = (entry for entry in self.entries if entry[0] == b"f")
        with closing(files_of(self.store, paths, room)) as reading:
            for (path, source), (_, fields, names) in zip(reading, files):
                yield source, path, fields, names

    def copy_file(self, source, path, fields, copy):
        """Hands the next file of a command to `copy`, piece by piece, and refuses bytes that aren't those that the tree lists."""
        _, size, listed = fields
        if source.copy(path, int(size), copy) != listed:
            raise changed(path)
        self.tells.wrote(int(size))
