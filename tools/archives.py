"""Trees out of tar archives: members become entries of a tree in memory, and each file is written as its bytes come.

An archive is refused at the first member that no tree has or that reaches beyond it: a name that is absolute or has `..`, something
below a link, a hard link to what didn't come before. In an archive that is the layer of a container's image a name with `.wh.` before it
is a whiteout, and `.wh..wh..opq` makes its directory opaque.
"""
from tarfile import LNKTYPE

from entries import MOST_ENTRIES, MOST_FILE_BYTES, USUAL_MODE, Refused, check_name, check_path, check_target, shown
from losses import LINKS
from tar_members import Members, bytes_of, entry_of, is_special, path_of
from trees import DIRECTORIES, FILE, LINK, OPAQUE, WHITEOUT, Entry, Tree

REMOVES, HIDES, OWN = b".wh.", b".wh..wh..opq", b".wh..wh."


class Budget:
    """How many bytes all files that are read may have."""

    def __init__(self, most):
        self.most = self.left = most

    def take(self, size):
        if not 0 <= size <= MOST_FILE_BYTES:
            raise Refused("a size below zero" if size < 0 else f"more than {MOST_FILE_BYTES:,} bytes")
        self.left -= size
        if self.left < 0:
            raise Refused(f"with it the files have more than {self.most:,} bytes, which --most-bytes allows")


class Taker:
    """Takes entries into a tree. What `choice` leaves out goes into a tree of its own, since a hard link may lead there. `files` writes
    what has bytes, and has what was written."""

    def __init__(self, what, tree, choice, files, budget):
        self.what, self.tree, self.left, self.choice = what, tree, Tree(), choice
        self.files, self.budget = files, budget

    def leaves_out(self, path):
        return self.choice.leaves_out(path)

    def take_top(self, entry):
        if entry.kind not in DIRECTORIES:
            raise Refused("it is the top, and no directory")
        entry.owner = self.choice.owner(entry.owner)
        self.tree.top = entry

    def place(self, path, entry, tree):
        """Puts an entry into a tree. A file that it takes the place of goes, but for one that is written over."""
        there = tree.entries.get(path)
        if tree is self.tree and entry.kind != WHITEOUT:
            entry.owner = self.choice.owner(entry.owner)
        tree.put(path, entry)
        if there is not None and there.kind == FILE != entry.kind:
            self.files.remove(path)

    def write(self, path, entry, size, pieces):
        """Writes the bytes of an entry that is a file."""
        self.budget.take(size)
        entry.size, entry.content = self.files.write(path, pieces)


def may_stand(path):
    """Whether a tree may have a path."""
    try:
        check_name(path)
        return True
    except Refused:
        return False


class Reader(Taker):
    """Reads one archive into a tree."""

    def __init__(self, stream, tree, choice, files, budget, is_whole=False):
        super().__init__(stream.what, tree, choice, files, budget)
        self.members = Members(stream, is_whole)

    def read(self):
        """Reads all. What is refused is told with the name of the archive, and with that of the member where it is one's."""
        name = None
        try:
            for found in self.members:
                name = bytes_of(found.name)
                self.take(found, path_of(name))
                name = None
        except Refused as reason:
            said, *advice = reason.args
            raise Refused(": ".join((self.what, *([shown(name)] if name is not None else []), str(said).removeprefix(f"{self.what}: "))), *advice) from None

    def take(self, found, path):
        is_left_out = self.leaves_out(path)
        if is_special(found) and (is_left_out or self.choice.leaves_out_special(path)):
            return
        if not path:
            self.take_top(entry_of(found))
        elif is_left_out and not may_stand(path):
            # nothing leads there
            return
        elif is_left_out:
            self.put(found, path, self.left)
        else:
            self.put(found, path, self.tree)

    def put(self, found, path, tree):
        check_name(path)
        if found.type == LNKTYPE:
            self.link(found, path, tree)
            return
        entry = entry_of(found)
        if entry.kind == LINK:
            entry.content = bytes_of(found.linkname)
            if tree is self.tree:
                check_target(entry.content)
        self.place(path, entry, tree)
        if entry.kind == FILE:
            self.write(path, entry, found.size, self.members.content(found))

    def link(self, found, path, tree):
        """Puts what stands at another path at this one, too."""
        to = path_of(bytes_of(found.linkname))
        there = self.tree.entries.get(to) or self.left.entries.get(to)
        if there is None or there.kind not in (FILE, LINK):
            raise Refused(f"a hard link to {shown(bytes_of(found.linkname))}, which is no file that came before")
        if to == path:
            tree.twice.add(path)
            return
        entry = Entry(there.kind, there.mode, there.owner, there.capability, (*there.lost, LINKS) if LINKS not in there.lost else there.lost)
        entry.size, entry.content = there.size, there.content
        self.place(path, entry, tree)
        if entry.kind == FILE:
            self.budget.take(there.size)
            self.files.copy(to, path)


def is_of_aufs(path):
    """Whether a path of a layer is at or below a folder that aufs has for itself."""
    return OWN in path and any(name.startswith(OWN) and name != HIDES for name in path.split(b"/"))


class LayerReader(Reader):
    """Reads one layer of an image. What it removes is put into its tree once all has come, since a whiteout may stand before or after
    what stands beside it."""

    def __init__(self, *words):
        super().__init__(*words)
        self.removed, self.opaque = set(), set()

    def leaves_out(self, path):
        return super().leaves_out(path) or is_of_aufs(path)

    def put(self, found, path, tree):
        above, _, name = path.rpartition(b"/")
        if REMOVES in above and any(part.startswith(REMOVES) for part in above.split(b"/")) and tree is self.tree:
            raise Refused("something below a whiteout")
        if not name.startswith(REMOVES):
            super().put(found, path, tree)
        elif tree is self.tree:
            self.mark(above, name)

    def mark(self, above, name):
        if name == HIDES:
            self.opaque.add(above)
        else:
            path = above + b"/" + name[len(REMOVES) :] if above else name[len(REMOVES) :]
            check_path(path.split(b"/"))
            self.removed.add(path)
        if len(self.removed) + len(self.opaque) > MOST_ENTRIES:
            raise Refused(f"more than {MOST_ENTRIES:,} whiteouts")

    def read(self):
        super().read()
        # what stands deeper comes first, so that nothing depends on the order in which they came
        for paths, put in (self.removed, self.remove), (self.opaque, self.hide):
            for path in sorted(paths, reverse=True):
                try:
                    put(path)
                except Refused as reason:
                    raise Refused(f"{self.what}: a whiteout for {shown(path)}: {reason}") from None

    def remove(self, path):
        there = self.tree.entries.get(path)
        if there is None:
            self.tree.put(path, Entry(WHITEOUT))
        elif there.kind in DIRECTORIES:
            # what was there before is gone, also the mode of a directory that didn't come itself
            there.kind, there.mode = OPAQUE, USUAL_MODE if there.mode is None else there.mode

    def hide(self, path):
        there = self.tree.entries.get(path) if path else self.tree.top
        if there is None:
            self.tree.put(path, Entry(OPAQUE))
        elif there.kind in DIRECTORIES:
            there.kind = OPAQUE
        else:
            raise Refused("it is no directory")
