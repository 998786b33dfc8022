"""What a stop may leave of a folder of the system: the calls that a command made are done again in a small model of a file system,
and each folder that a stop then may leave is a shape.

The bytes of a file are durable after a sync of the file, and a name in a folder after one of the folder, by whichever handle.
Whatever else was done, a stop may undo: a name that was given is there or not, a name that was taken away is gone or not, and a
rename was done or not, or the old name stands beside the new one. The bytes that were appended since the last sync are whole, or
cut at where they begin or in their middle, or from there on zeros. Everything durable stays.
"""
import itertools
import random

from scenes.running import Failed

# Up to so many changes that aren't durable, each choice of them is taken; else so many random ones.
MOST, DRAWS = 12, 2_000


class File:
    """A file: its bytes, and how many of them are durable."""

    def __init__(self, content=b"", firm=0):
        self.content, self.firm = content, firm

    def sync(self):
        self.firm = len(self.content)

    def is_loose(self):
        return self.firm < len(self.content)

    def choices(self):
        """What a stop may leave of the bytes: first those that are durable, and last all."""
        content, firm = self.content, self.firm
        half = (firm + len(content)) // 2
        zeros = bytes(len(content))
        return list(dict.fromkeys([content[:firm], content[:half], content[:firm] + zeros[firm:], content[:half] + zeros[half:], content]))


class Folder:
    """A folder: its names as they stand, those that are durable, and what was done since."""

    def __init__(self):
        self.names, self.firm, self.done = {}, {}, []

    def do(self, *change):
        self.done.append(change)
        apply(self.names, change, 1)

    def sync(self):
        self.firm, self.done = dict(self.names), []

    def named(self, chosen):
        """The names where this was chosen of each change."""
        names = dict(self.firm)
        for change, choice in zip(self.done, chosen):
            if choice:
                apply(names, change, choice)
        return names


def apply(names, change, choice):
    """Does a change of names: one is given to something, or taken from it, or both; with a choice of 2 the old one stays."""
    given, node, taken = change
    if taken and choice == 1 and names.get(taken) is node:
        del names[taken]
    if given:
        names[given] = node


def choices_of(change):
    return 3 if change[0] and change[2] else 2


class Shapes:
    """What may stand in a folder, each shape once, by its number: a file's bytes, or a folder's names with the shapes there."""

    def __init__(self):
        self.numbers, self.all = {}, []

    def number(self, shape):
        found = self.numbers.get(shape)
        if found is None:
            found = self.numbers[shape] = len(self.all)
            self.all.append(shape)
        return found

    def build(self, number, place):
        """Puts what a shape is at a place of the system."""
        shape = self.all[number]
        if isinstance(shape, bytes):
            place.write_bytes(shape)
            return
        place.mkdir()
        for name, below in shape:
            self.build(below, place / name)

    def listed(self, number, path=""):
        """Each path below a folder with the bytes of its file, for who reads it."""
        for name, below in self.all[number]:
            shape, there = self.all[below], f"{path}{name}"
            if isinstance(shape, bytes):
                yield f"{there} {shape[:24]!r}{f'.. of {len(shape)}' if len(shape) > 24 else ''}"
            else:
                yield f"{there}/"
                yield from self.listed(below, f"{there}/")

    def at(self, number, name):
        """The shape of a name in a folder, if it is there."""
        return next((self.all[below] for found, below in self.all[number] if found == name), None)


class Disk:
    """The folder of a store as the calls of a command leave it."""

    def __init__(self, folder):
        self.root, self.handles = node_of(folder), {}

    def above(self, path):
        """The folder that has the last name of a path, and that name."""
        *folders, name = path.split("/")
        node = self.root
        for folder in folders:
            node = node.names[folder]
        return node, name

    def find(self, path):
        if not path:
            return self.root
        folder, name = self.above(path)
        return folder.names[name]

    def do(self, call, *what):
        getattr(self, call)(*what)

    def mkdir(self, path):
        folder, name = self.above(path)
        folder.do(name, Folder(), None)

    def make(self, path, handle):
        folder, name = self.above(path)
        folder.do(name, File(), None)
        self.handles[handle] = folder.names[name]

    def open(self, path, handle):
        self.handles[handle] = self.find(path)

    def write(self, handle, content):
        self.handles[handle].content += content

    def sync(self, handle):
        self.handles[handle].sync()

    def remove(self, path):
        folder, name = self.above(path)
        folder.do(None, folder.names[name], name)

    def rename(self, path, other):
        (folder, name), (there, to) = self.above(path), self.above(other)
        if folder is not there:
            raise Failed("a rename leads out of its folder, of which the model of a stop knows nothing")
        folder.do(to, folder.names[name], name)

    def reply(self):
        """The command writes to standard output."""

    def loose(self):
        """What isn't durable: the folders that have changes, and the files, of all that a stop may leave."""
        found, waiting, seen = [], [self.root], set()
        while waiting:
            node = waiting.pop()
            if id(node) in seen:
                continue
            seen.add(id(node))
            if isinstance(node, File):
                found += [(node, 0)] if node.is_loose() else []
            else:
                found += [(node, at) for at in range(len(node.done))]
                waiting += [*node.firm.values(), *(change[1] for change in node.done if change[0])]
        return found

    def left(self, shapes, draws=DRAWS, rng=None):
        """The shapes of the folders that a stop now may leave."""
        loose = self.loose()
        if len(loose) <= MOST:
            return all_of(self.root, shapes, {})
        found = set()
        for chosen in drawn(loose, draws, rng or random.Random(1)):
            found.add(one_of(self.root, shapes, chosen))
        return found


def node_of(place):
    """What stands at a place of the system, all of it durable."""
    if place.is_file():
        content = place.read_bytes()
        return File(content, len(content))
    node = Folder()
    node.names = {path.name: node_of(path) for path in sorted(place.iterdir())}
    node.sync()
    return node


def choices(node, at):
    """How many choices there are of a change; the last of a file's, and the second of a name's, is that it is done."""
    return len(node.choices()) if isinstance(node, File) else choices_of(node.done[at])


def is_done(node):
    """The choice by which a change is done."""
    return len(node.choices()) - 1 if isinstance(node, File) else 1


def all_of(node, shapes, known):
    """Every shape that may be left of something."""
    if id(node) in known:
        return known[id(node)]
    if isinstance(node, File):
        found = {shapes.number(content) for content in node.choices()}
    else:
        found = set()
        chosen = itertools.product(*(range(choices_of(change)) for change in node.done))
        for names in {tuple(sorted(node.named(choice).items(), key=lambda item: item[0])) for choice in chosen}:
            below = [sorted(all_of(child, shapes, known)) for _, child in names]
            for picked in itertools.product(*below):
                found.add(shapes.number(tuple((name, number) for (name, _), number in zip(names, picked))))
    known[id(node)] = found
    return found


def one_of(node, shapes, chosen):
    """The shape that is left where this was chosen of each change."""
    if isinstance(node, File):
        return shapes.number(node.choices()[chosen[id(node), 0]] if node.is_loose() else node.content)
    names = node.named([chosen[id(node), at] for at in range(len(node.done))])
    return shapes.number(tuple((name, one_of(child, shapes, chosen)) for name, child in sorted(names.items())))


def drawn(loose, draws, rng):
    """Choices of the changes: all, none, all but one, one alone, and random ones, of which some have few changes and some many."""
    sizes = {(id(node), at): (choices(node, at), is_done(node)) for node, at in loose}
    for odd in (None, *sizes):
        most = {key: done for key, (_, done) in sizes.items()}
        least = dict.fromkeys(sizes, 0)
        if odd:
            count, done = sizes[odd]
            most[odd], least[odd] = rng.choice([at for at in range(count) if at != done]), done
        yield from (most, least)
    for _ in range(draws):
        share = rng.choice((0.1, 0.5, 0.9))
        yield {key: done if rng.random() < share else rng.randrange(count) for key, (count, done) in sizes.items()}
