"""A second reading of the rules of docs/FORMATS.md on names, paths, tree texts and the layered tree, which tests/mutations holds the
program to."""
import re

MOST_ENTRIES, MOST_FILE_BYTES, MOST_LENGTH = 262_144, 1_073_741_824, 4_096
CONTROL = re.compile(rb"[\x00-\x1f\x7f]")
SIZE, DIGEST = rb"(0|[1-9][0-9]{0,9})", rb"([0-9a-f]{64})"
# What follows a mode or a length: a user and a group, and of a file a capability.
NUMBER = rb"(?::(?:0|[1-9][0-9]{0,19}))"
OWNER, ATTRIBUTES = rb"(?:%b{2})?" % NUMBER, rb"(?:%b{2}(?:%b{4})?)?" % (NUMBER, NUMBER)
MOST_USER, MOST_SET = 4_294_967_294, 18_446_744_073_709_551_615
MOST_TOLD = MOST_USER, MOST_USER, 1, MOST_SET, MOST_SET, MOST_USER
MODE = rb"(?:0|[1-7][0-7]{0,3})"
DIRECTORY_FIELD, FILE_FIELD = rb"(%b%b)" % (MODE, OWNER), rb"(%b%b)" % (MODE, ATTRIBUTES)
# The fields of a line of each kind, and its path; of a link its length and its owner, and the rest.
FORMS = {
    b"d": re.compile(rb"%b (.+)" % DIRECTORY_FIELD, re.S),
    b"o": re.compile(rb"%b (.+)" % DIRECTORY_FIELD, re.S),
    b"f": re.compile(rb"%b %b %b (.+)" % (FILE_FIELD, SIZE, DIGEST), re.S),
    b"l": re.compile(rb"([1-9][0-9]{0,3}%b) (.+)" % OWNER, re.S),
    b"w": re.compile(rb"(.+)", re.S),
}
MARKS, DIRECTORIES = (b"o", b"w"), (b"d", b"o")


class Faulty(Exception):
    """The first faulty line of a text."""

    def __init__(self, line, why=""):
        super().__init__(line, why)
        self.line, self.why = line, why


def is_text(data):
    try:
        data.decode()
    except UnicodeDecodeError:
        return False
    return not CONTROL.search(data)


def is_name(name):
    return 1 <= len(name) <= 255 and name not in (b".", b"..") and b"/" not in name and is_text(name)


def names_of(path):
    """The names of a path that isn't the root, or nothing."""
    names = tuple(path.split(b"/"))
    return names if len(path) <= 4_096 and len(names) <= 64 and all(map(is_name, names)) else None


def numbers_told(field):
    """The numbers of the owner and the capability that a field tells after its mode or length."""
    return [int(number) for number in field.split(b":")[1:]]


def may_be_told(numbers):
    """Root's owner alone is told nowhere."""
    return numbers != [0, 0] and all(number <= most for number, most in zip(numbers, MOST_TOLD))


def link_of(field, rest):
    """The fields of a link and its path, or nothing."""
    length = int(field.partition(b":")[0])
    target, space, path = rest[:length], rest[length : length + 1], rest[length + 1 :]
    is_link = length <= MOST_LENGTH and len(target) == length and space == b" " and is_text(target)
    return (field, target, path) if is_link else None


def entry_of(line, forms=FORMS):
    """The kind, the fields and the names of the entry of a line, or nothing."""
    kind, _, rest = line.partition(b" ")
    found = forms[kind].fullmatch(rest) if kind in forms else None
    parts = found and (link_of(*found.groups()) if kind == b"l" else found.groups())
    if not parts or (kind == b"f" and int(parts[1]) > MOST_FILE_BYTES) or (kind != b"w" and not may_be_told(numbers_told(parts[0]))):
        return None
    names = names_of(parts[-1])
    return names and (kind, parts[:-1], names)


def version_for(kind, fields):
    """The least version of a text that may have a line of this kind with these fields."""
    return 3 if kind != b"w" and b":" in fields[0] else 2 if kind in MARKS else 1


def version_of(entries):
    """The greatest version that a line of these needs."""
    return max((version_for(*entry) for entry in entries.values()), default=1)


class Tree:
    """The entries so far: of each path its kind and its fields."""

    def __init__(self):
        self.entries, self.last = {}, ()

    def may_take(self, names):
        above = self.entries.get(names[:-1], (b"d",))[0] if len(names) == 1 or names[:-1] in self.entries else None
        return names > self.last and above in DIRECTORIES and len(self.entries) < MOST_ENTRIES

    def take(self, kind, fields, names):
        self.entries[names], self.last = (kind, fields), names


def line_of(names, kind, fields):
    return b" ".join((kind, *fields, b"/".join(names))) + b"\n"


def text_of(entries):
    """The text of a tree of these entries."""
    return b"".join((b"hostext-tree %d\n" % version_of(entries), *(line_of(names, *entries[names]) for names in sorted(entries)), b"end\n"))


def read_one(lines, at):
    """The tree of the text that begins at a line, and the number of lines up to its end."""
    header = re.fullmatch(rb"hostext-tree ([123])", lines[at]) if at < len(lines) else None
    if not header:
        raise Faulty(at + 1)
    tree, version, needed = Tree(), int(header[1]), 1
    for number in range(at + 1, len(lines)):
        if lines[number] == b"end" and needed == version:
            return tree, number + 1
        entry = entry_of(lines[number])
        if not entry or not tree.may_take(entry[2]) or version_for(*entry[:2]) > version:
            raise Faulty(number + 1)
        tree.take(*entry)
        needed = max(needed, version_for(*entry[:2]))
    raise Faulty(len(lines) + 1)


def read_sequence(text):
    """The trees of a sequence of tree texts."""
    *lines, rest = text.split(b"\n")
    trees, at = [], 0
    while not trees or at < len(lines) or rest:
        tree, at = read_one(lines, at)
        trees.append(tree)
    return trees


def read_tree(text):
    """The tree of one text."""
    *lines, rest = text.split(b"\n")
    tree, at = read_one(lines, 0)
    if at < len(lines) or rest:
        raise Faulty(at + 1)
    return tree


def resolved(entries, path):
    """Where a walk along the parts of a path ends, which follows links, or nothing."""
    at, left, links = (), path.split(b"/"), 0
    while left:
        part = left.pop(0)
        if part in (b"", b"."):
            continue
        kind, fields = entries.get((*at, part), (None, ()))
        if at and entries[at][0] not in DIRECTORIES or (part != b".." and kind in (None, b"w")) or links > 40:
            return None
        if part == b"..":
            at = at[:-1]
        elif kind == b"l":
            at, left, links = () if fields[1].startswith(b"/") else at, fields[1].split(b"/") + left, links + 1
        else:
            at = (*at, part)
    return at if links <= 40 else None


def is_cut_off(tree, names):
    """Whether a layer that has nothing at a path hides what lower layers have there."""
    return any(tree.entries.get(names[:length], (b"d",))[0] != b"d" for length in range(1, len(names)))


def shown_at(trees, names):
    """What shows at a path: of the topmost layer that has an entry there, unless a layer above cuts the path off."""
    for tree in reversed(trees):
        if names in tree.entries:
            kind, fields = tree.entries[names]
            return None if kind == b"w" else (b"d" if kind == b"o" else kind, fields)
        if is_cut_off(tree, names):
            return None
    return None


def layered(trees):
    """The entries of the layered tree; the first layer is the lowest."""
    paths = {names for tree in trees for names in tree.entries}
    found = {names: shown_at(trees, names) for names in paths}
    return {names: entry for names, entry in found.items() if entry}
