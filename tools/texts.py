"""Manifests and tree texts, read by the rules of docs/FORMATS.md: what they list, or the first faulty line, counted from 1.

A text is read line by line, and no list of its lines is made: of short lines that would take a hundred times the text's bytes.
"""
import io
import re

from attributes import CAPABILITY_FIELD, LINK_MODE, OWNER_FIELD, are_told, attributes_of, tells
from entries import MOST_ENTRIES, MOST_FILE_BYTES, MOST_TARGET_BYTES, Refused, check_names, check_text

# The most bytes of a manifest, and of a tree text, that stand in a depot.
MOST_TEXT_BYTES = 67_108_864
LISTED = re.compile(rb"([0-9A-Fa-f]{64}) [ *](.+)", re.S)
CONTROL_IN_LINES = re.compile(rb"[\x00-\x09\x0b-\x1f\x7f]")
HEADER = re.compile(rb"hostext-tree ([123])")
MODE = b"(?:0|[1-7][0-7]{0,3})"
# The line of each kind, by its first byte. The target of a link may hold spaces.
DIRECTORY = re.compile(b"([do]) (%b(?:%b)?) (.+)" % (MODE, OWNER_FIELD), re.S)
FORMS = {
    **dict.fromkeys((b"d", b"o"), DIRECTORY),
    b"f": re.compile(b"(f) (%b(?:%b(?:%b)?)?) (0|[1-9][0-9]{0,9}) ([0-9a-f]{64}) (.+)" % (MODE, OWNER_FIELD, CAPABILITY_FIELD), re.S),
    b"l": re.compile(b"(l) ([1-9][0-9]{0,3})(%b)? (.+)" % OWNER_FIELD, re.S),
    b"w": re.compile(b"(w) (.+)", re.S),
}


class Faulty(Refused):
    """The first faulty line of a text, and what is wrong with it."""

    def __init__(self, line, reason):
        super().__init__(f"line {line}: {reason}")
        self.line = line


def listed_of(line):
    """The name of a manifest's line, and its digest in lower case."""
    found = LISTED.fullmatch(line)
    if not found:
        raise Refused("it is no digest and name")
    check_text(found[2], "the name")
    return found[2], found[1].lower().decode()


def lines_of(text):
    """The lines of a text, of which the last one may lack its newline."""
    return (line.removesuffix(b"\n") for line in io.BytesIO(text))


def read_manifest(text):
    """The digests of a manifest, by their names."""
    found = {}
    for at, line in enumerate(lines_of(text), 1):
        try:
            name, digest = listed_of(line)
        except Refused as reason:
            raise Faulty(at, reason) from None
        if found.setdefault(name, digest) != digest:
            raise Faulty(at, "its name was listed with another digest")
    return found


def link_of(length, owner, rest, is_text):
    """The attributes, the target and the path of a link's line, from its length on."""
    target, space, path = rest[:length], rest[length : length + 1], rest[length + 1 :]
    if length > MOST_TARGET_BYTES or space != b" ":
        raise Refused("it is the line of no entry")
    if not is_text:
        check_text(target, "its target")
    return b"l", attributes_of(b"%o%b" % (LINK_MODE, owner or b"")), target, path


def parts_of(line, is_text):
    """The kind, the fields and the path of a line."""
    form = FORMS.get(line[:1])
    found = form and form.fullmatch(line)
    if not found:
        raise Refused("it is the line of no entry")
    if found[1] == b"l":
        return link_of(int(found[2]), *found.groups()[2:], is_text)
    if found[1] == b"f" and int(found[3]) > MOST_FILE_BYTES:
        raise Refused(f"a file of more than {MOST_FILE_BYTES:,} bytes")
    kind, *fields, path = found.groups()
    return (kind, *map(attributes_of, fields[:1]), *fields[1:], path)


def entry_of(line, is_text):
    """The entry of a line: the kind, its fields, and the path's names. Of all but a whiteout the first field are its attributes."""
    kind, *fields, path = parts_of(line, is_text)
    fields = tuple(fields)
    names = tuple(path.split(b"/"))
    if not is_text:
        check_text(path, "its name")
    check_names(path, names)
    return kind, fields, names


class Order:
    """What the entries before a line let stand there: a later path, whose parent is a directory before it."""

    def __init__(self, version):
        self.version, self.last, self.way, self.has_marks, self.has_owners = version, (), (), False, False

    def take(self, kind, fields, names):
        self.has_marks |= kind in (b"o", b"w")
        if self.has_marks and self.version == b"1":
            raise Refused("version 1 has neither opaque directories nor whiteouts")
        if fields and are_told(fields[0]):
            self.has_owners = True
            if self.version != b"3":
                raise Refused(f"version {self.version.decode()} has neither owners nor capabilities")
        if names <= self.last:
            raise Refused("its path doesn't come after the one before")
        above = self.way[: len(names) - 1]
        if above != names[:-1]:
            raise Refused("no directory stands above it")
        # names that were read before stand in memory once
        self.last = (*above, names[-1])
        self.way = self.last if kind in (b"d", b"o") else above
        return self.last

    def end(self):
        if self.version == b"2" and not self.has_marks:
            raise Refused("version 2 has an opaque directory or a whiteout")
        if self.version == b"3" and not self.has_owners:
            raise Refused("version 3 has an owner or a capability")


def whole_lines_of(text):
    """The lines of a text that end in a newline."""
    return (line[:-1] for line in io.BytesIO(text) if line.endswith(b"\n"))


def entries_in(text):
    """The entries of a tree text, one after another: of each the kind, its fields, and the path's names."""
    lines = whole_lines_of(text)
    header = HEADER.fullmatch(next(lines, b""))
    if not header:
        raise Faulty(1, "it is not the first line of a tree text")
    order, at, is_text = Order(header[1]), 1, is_text_of_lines(text)
    for at, line in enumerate(lines, 2):
        if line == b"end":
            end_at(at, order)
            break
        yield entry_at(at, line, order, is_text)
    else:
        raise Faulty(at + 1, "the text stops early")
    if not text.endswith(b"\nend\n") or next(lines, None) is not None:
        raise Faulty(at + 1, "something follows the end")


def is_text_of_lines(text):
    """Whether each line is UTF-8 without a control byte, so that no line has to be looked at for that. What a target is cut out of may
    begin or end within a character, so a text that isn't ASCII is looked at line by line."""
    return text.isascii() and not CONTROL_IN_LINES.search(text)


def end_at(at, order):
    try:
        order.end()
    except Refused as reason:
        raise Faulty(at, reason) from None


def entry_at(at, line, order, is_text):
    """The entry of a line, whose number is two more than that of the entries before it."""
    try:
        kind, fields, names = entry_of(line, is_text)
        names = order.take(kind, fields, names)
    except Refused as reason:
        raise Faulty(at, reason) from None
    if at - 2 == MOST_ENTRIES:
        raise Faulty(at, f"a tree has at most {MOST_ENTRIES:,} entries")
    return kind, fields, names


def read_tree(text):
    """The entries of a tree text in a list."""
    return list(entries_in(text))


def tree_text(lines):
    """The text of these lines, with the version that they need."""
    return b"hostext-tree %b\n%bend\n" % (version_of(lines), b"".join(lines))


def version_of(lines):
    if any(map(tells, lines)):
        return b"3"
    return b"2" if any(line[:2] in (b"o ", b"w ") for line in lines) else b"1"
