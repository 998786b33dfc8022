"""A tree in memory, as its entries come from an archive one by one, in any order.

An entry has all that came of it, also which kinds of losses it has. A directory that something stands in and that didn't come itself is
one too; its mode and its owner are told later.
"""
from attributes import CAPABILITY, ROOT, Attributes, capability_of
from entries import MOST_ENTRIES, USUAL_MODE, Refused, line_of_directory, line_of_file, line_of_link, shown
from losses import ATTRIBUTES
from owners import UNSAID
from telling import Found
from walking import OPAQUE as MARKS

DIRECTORY, OPAQUE, FILE, LINK, WHITEOUT = b"d", b"o", b"f", b"l", b"w"
DIRECTORIES = DIRECTORY, OPAQUE
MODES = (*DIRECTORIES, FILE)
# Why an entry is refused that is neither of these, and what helps.
SPECIAL = "neither a directory nor a file nor a link nor a whiteout", "--leave-out-special leaves out devices, sockets and pipes"


class Entry:
    """An entry. Its content is the digest of a file, in bytes, or the target of a link. Directories and files alone have a mode, and none
    has a directory that didn't come."""

    __slots__ = "kind", "mode", "size", "content", "owner", "capability", "lost"

    def __init__(self, kind, mode=None, owner=ROOT, capability=None, lost=()):
        self.kind, self.mode, self.size, self.content = kind, mode if kind in MODES else None, 0, b""
        self.owner, self.capability, self.lost = owner, capability, lost

    def take(self, attributes):
        """Takes what counts of its extended attributes; the others are lost."""
        if self.kind == DIRECTORY and any(attributes.get(mark) == b"y" for mark in MARKS):
            self.kind = OPAQUE
        value = attributes.get(CAPABILITY)
        if value is not None:
            self.capability = capability_of(value) if self.kind == FILE else None
            self.lost += (UNSAID,) if self.capability is None else ()
        if attributes.keys() - {CAPABILITY} - set(MARKS if self.kind in DIRECTORIES else ()):
            self.lost += (ATTRIBUTES,)

    def is_told(self):
        """Whether its line tells an owner or a capability."""
        return self.kind != WHITEOUT and (self.owner != ROOT or self.capability is not None)

    def line(self, path):
        """Its line in a tree text."""
        if self.kind == FILE:
            return line_of_file(Attributes(self.mode, self.owner, self.capability), self.size, self.content.hex(), path)
        if self.kind == LINK:
            return line_of_link(self.owner, self.content, path)
        if self.kind == WHITEOUT:
            return b"w %b\n" % path
        return line_of_directory(self.kind, Attributes(USUAL_MODE if self.mode is None else self.mode, self.owner), path)


def parent_of(path):
    return path.rpartition(b"/")[0]


def in_order(paths):
    """Paths in the order of lists of names."""
    return sorted(paths, key=lambda path: path.replace(b"/", b"\0"))


class Tree:
    """The entries of a tree by their paths, and its top: a directory whose path is empty. `twice` has the paths that came more than once;
    the last counts."""

    def __init__(self):
        self.entries, self.top, self.twice = {}, Entry(DIRECTORY), Found()
        # the directories in which something stands
        self.above = set()

    def put(self, path, entry):
        """Puts an entry at a path; what a check of names refuses doesn't come here."""
        there = self.entries.get(path)
        if there is not None and there.mode is None and there.kind in DIRECTORIES and entry.kind in DIRECTORIES:
            self.entries[path] = entry
            return
        if there is not None:
            if path in self.above and entry.kind not in DIRECTORIES:
                raise Refused("something stands below it, and it is no directory")
            self.twice.add(path)
        else:
            self.put_above(path)
        self.entries[path] = entry
        if len(self.entries) > MOST_ENTRIES:
            raise Refused(f"more than {MOST_ENTRIES:,} entries")

    def put_above(self, path):
        """Sees to it that a directory stands above a path."""
        while above := parent_of(path):
            if above in self.above:
                return
            there = self.entries.get(above)
            if there is not None and there.kind not in DIRECTORIES:
                kind = "a link" if there.kind == LINK else "no directory"
                raise Refused(f"{shown(above)} above it is {kind}")
            self.above.add(above)
            if there is not None:
                return
            self.entries[above] = Entry(DIRECTORY)
            path = above

    def paths(self):
        return in_order(self.entries)

    def version(self):
        """The version of its text."""
        if any(entry.is_told() for entry in self.entries.values()):
            return b"3"
        return b"2" if any(entry.kind in (OPAQUE, WHITEOUT) for entry in self.entries.values()) else b"1"

    def lines(self):
        """The lines of its text, one after another, for which no other copy of it is made."""
        yield b"hostext-tree " + self.version() + b"\n"
        for path in self.paths():
            yield self.entries[path].line(path)
        yield b"end\n"

