"""The layers of an image, laid over one another by the rules of docs/FORMATS.md, as trees in memory.

The program `hostext layer` does that for what its source holds, and the tree in memory has to have the text that it writes. Larger layers
are laid here alone.
"""
import subprocess

from attributes import ROOT
from entries import MOST_ENTRIES, USUAL_MODE, Refused, shown
from reading import MOST_SOURCE, program
from trees import DIRECTORIES, DIRECTORY, LINK, OPAQUE, WHITEOUT, Entry, Tree, parent_of


def ways_to(path):
    """The proper prefixes of a path but the root, the longest first."""
    while path := parent_of(path):
        yield path


class Cover:
    """What layers hide of those below them: each path at which they have an entry, with whether that cuts off what is below it."""

    def __init__(self):
        self.cuts, self.known, self.is_whole = {}, {}, False

    def add(self, tree):
        for path, entry in tree.entries.items():
            self.cuts[path] = self.cuts.get(path, False) or entry.kind != DIRECTORY
        self.known = {}
        self.is_whole |= tree.top.kind == OPAQUE

    def hides(self, path):
        return self.is_whole or path in self.cuts or self.hides_below(parent_of(path))

    def hides_below(self, path):
        """Whether nothing shows below a path."""
        if not path:
            return False
        found = self.known.get(path)
        if found is None:
            found = self.known[path] = self.cuts.get(path, False) or self.hides_below(parent_of(path))
        return found


def attributes_below(trees, path):
    """The mode and the owner of a directory that didn't come with the topmost of these layers, but stands in it: those which the layers
    below show."""
    *lower, tree = trees
    while not is_cut_off(tree, path):
        if not lower:
            break
        tree = lower.pop()
        there = tree.entries.get(path)
        if there is None:
            continue
        if there.kind in DIRECTORIES:
            return there.mode, there.owner
        if there.kind != WHITEOUT:
            kind = "a link" if there.kind == LINK else "a file"
            raise Refused(f"{shown(path)}: no directory of this name came with what is below it, and a lower layer has {kind} there")
        break
    return USUAL_MODE, ROOT


def is_cut_off(tree, path):
    """Whether a layer hides what lower ones have at a path by what it has above it."""
    return tree.top.kind == OPAQUE or any(above in tree.entries and tree.entries[above].kind != DIRECTORY for above in ways_to(path))


def settle(trees):
    """Gives the directories that didn't come their modes and owners, in the lowest layer first."""
    for at, tree in enumerate(trees, 1):
        for path, entry in tree.entries.items():
            if entry.mode is None and entry.kind in DIRECTORIES:
                entry.mode, entry.owner = attributes_below(trees[:at], path)


class Laid:
    """The layers of an image, which come from the topmost on, and the tree that they come to."""

    def __init__(self):
        self.trees, self.cover, self.tree = [], Cover(), Tree()

    def add(self, tree):
        """Adds the next layer below."""
        for path, entry in tree.entries.items():
            if entry.kind != WHITEOUT and not self.cover.hides(path):
                self.tree.entries[path] = entry
        if len(self.tree.entries) > MOST_ENTRIES:
            raise Refused(f"more than {MOST_ENTRIES:,} entries in the layers")
        self.cover.add(tree)
        self.trees.insert(0, tree)

    def end(self):
        """The tree, once all layers have come."""
        settle(self.trees)
        texts = [line for tree in self.trees for line in tree.lines()]
        for path, entry in self.tree.entries.items():
            if entry.kind == OPAQUE:
                self.tree.entries[path] = plain_of(entry)
        if sum(map(len, texts)) <= MOST_SOURCE:
            compare(self.tree, b"".join(texts))
        return self.tree


def plain_of(entry):
    """An opaque directory as it shows."""
    return Entry(DIRECTORY, entry.mode, entry.owner, entry.capability, entry.lost)


def compare(tree, texts):
    """Holds a tree to the text that the program writes for the texts of its layers."""
    ended = subprocess.run([program(), ".", ".", "layer"], input=texts, capture_output=True)
    if ended.returncode:
        raise Refused(f"layer: {shown((ended.stdout or ended.stderr).strip())}")
    if ended.stdout != b"".join(tree.lines()):
        raise Refused("layer: the program lays the layers in another way")
