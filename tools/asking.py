"""What a store is asked before a generation of it is shown: which generation there is, which hierarchies it has, which classes are merged,
and which bytes its files have to have. All of that is read here and nowhere else; the image comes from hostext_erofs.

The store is locked meanwhile, as for any reader. Of what stands there nothing is trusted: where `current` or an index isn't what
FORMATS says, the generation is refused.
"""
import re
from typing import NamedTuple

import notes
from entries import Refused, open_file

CURRENT = re.compile(rb"g-([1-9][0-9]{0,9})\n")
MOST_GENERATION = 4_294_967_295
MOST_INDEX_BYTES = 134_217_728
# The lines before the first tree are read alone where no mark is asked for.
MOST_HEAD_BYTES = 4_194_304
HEADERS = {b"hostext-store %d" % text: text for text in (1, 2, 3)}
# The hierarchies of a host of text 1.
OLD_HIERARCHIES = {b"sysext": (b"opt", b"usr"), b"confext": (b"etc",)}
CLASSES = b"sysext", b"confext"
MOST_HIERARCHIES = 32
NAME = re.compile(rb"[^/\x00-\x1f\x7f]{1,255}")
COUNT = re.compile(rb"0|[1-9][0-9]{0,9}")
FILE = re.compile(rb"f [0-7:0-9]+ ([0-9]+) ([0-9a-f]{64}) ([1-9][0-9]{0,9}) ([0-9a-f]{3})([0-9a-f]{2}) ")
DAMAGED = "`hostext STORE . check` tells of a store that is damaged"
# Where the entries of a tree begin, and where they end: no line of them begins so.
ROOT, LOWER = b"\nroot ", b"\nlower "


class Standing(NamedTuple):
    """What a store has of a generation: the hierarchies of each class, the names of the images of each class that is merged, and what
    tells the index of it from any other one."""

    generation: int
    hierarchies: dict
    merged: dict
    index: tuple


class Lines:
    """The lines of an index, one after another."""

    def __init__(self, text, generation, at=0):
        self.text, self.generation, self.at = text, generation, at

    def faulty(self):
        line = self.text.count(b"\n", 0, self.at) + 1
        return Refused(f"the index of generation {self.generation} is faulty at line {line}", DAMAGED)

    def next(self):
        end = self.text.find(b"\n", self.at)
        if end < 0:
            raise self.faulty()
        line = self.text[self.at : end]
        self.at = end + 1
        return line

    def is_next(self, word):
        return self.text.startswith(word + b" ", self.at)

    def counted(self, word, most):
        """The number in a line of a word and a number."""
        at = self.at
        found, _, count = self.next().partition(b" ")
        if found != word or not COUNT.fullmatch(count) or int(count) > most:
            self.at = at
            raise self.faulty()
        return int(count)

    def named(self, word):
        """The rest of a line after a word, which is a name."""
        at = self.at
        found, _, name = self.next().partition(b" ")
        if found != word or not NAME.fullmatch(name) or name in (b".", b".."):
            self.at = at
            raise self.faulty()
        return name


def current(store):
    """The number of the current generation of a store, which is told by its handle."""
    text = notes.read(store, "current")
    if text is None:
        raise Refused("STORE has no `current`, so that it keeps no host: `hostext STORE DEPOT init ARCH SCOPE` makes one")
    found = CURRENT.fullmatch(text)
    if not found or int(found[1]) > MOST_GENERATION:
        raise Refused("`current` of the store names no generation", DAMAGED)
    return int(found[1])


def index_of(store, number, most=MOST_INDEX_BYTES):
    """The index of a generation, or its begin, and what tells it from any other one."""
    try:
        handle, status = open_file(f"g-{number}/index", store)
    except (OSError, Refused):
        raise Refused(f"generation {number} has no index that can be read", DAMAGED) from None
    with open(handle, "rb") as file:
        if status.st_size > MOST_INDEX_BYTES:
            raise Refused(f"the index of generation {number} has more than {MOST_INDEX_BYTES:,} bytes")
        return file.read(most), (status.st_dev, status.st_ino, status.st_size, status.st_ctime_ns)


def hierarchies_of(lines):
    """The hierarchies of each class, by the lines before the first tree."""
    text = HEADERS.get(lines.next())
    if not text or not lines.next().startswith(b"host "):
        raise Lines(lines.text, lines.generation).faulty()
    if text == 1:
        return dict(OLD_HIERARCHIES)
    found = {name: () for name in CLASSES}
    for _ in range(lines.counted(b"hierarchies", MOST_HIERARCHIES)):
        owner, _, name = lines.named(b"h").partition(b" ")
        if owner not in found or name in (b"", b".", b".."):
            raise lines.faulty()
        found[owner] += (name,)
    return found


def merged_of(lines):
    """The names of the images of each class that is merged in a tree."""
    return {name: tuple(lines.named(b"n") for _ in range(lines.counted(name, MOST_INDEX_BYTES))) for name in CLASSES if lines.is_next(name)}


def at_mark(lines, number):
    """The lines from the tree of a mark on."""
    past = lines.text.rfind(b"\npast ")
    at = lines.text.find(b"\ng %d\n" % number, past) if past >= 0 else -1
    if at < 0:
        raise Refused(f"the host has no mark {number}: `hostext STORE DEPOT history` lists those that it has")
    return Lines(lines.text, lines.generation, lines.text.index(b"\n", at + 1) + 1)


def what_stands(store, mark=None):
    """What a store has now, or had at a mark. The store is told by its handle, and is locked."""
    number = current(store)
    text, index = index_of(store, number, MOST_HEAD_BYTES if mark is None else MOST_INDEX_BYTES)
    lines = Lines(text, number)
    hierarchies = hierarchies_of(lines)
    if mark is not None:
        lines = at_mark(lines, mark)
    return Standing(mark or number, hierarchies, merged_of(lines), index if mark is None else ())


def files_at_mark(store, mark):
    """The size and the digest of each home that a mark has, by its path."""
    number = current(store)
    lines = at_mark(Lines(index_of(store, number)[0], number), mark)
    begin = lines.text.find(ROOT, lines.at - 1)
    end = lines.text.find(LOWER, begin)
    if begin < 0 or end < 0:
        raise lines.faulty()
    lines = Lines(lines.text, number, begin + 1)
    count = lines.counted(b"root", MOST_INDEX_BYTES)
    found = {}
    for line in lines.text[lines.at : end + 1].split(b"\n", count)[:count]:
        if line.startswith(b"f "):
            said = FILE.match(line)
            if not said:
                raise lines.faulty()
            found[b"g-%b/%b/%b" % said.groups()[2:]] = int(said[1]), said[2].decode()
    return found
