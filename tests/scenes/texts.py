"""tools/texts.py, which reads manifests and tree texts for the tools, by the tables of what docs/FORMATS.md says, and beside the
program, whose reading is proved: both have to tell the same first faulty line of texts that were changed at random."""
import hashlib
import random
import re
import sys

from scenes.running import ABC, EMPTY, LAYER, TOP, Failed, directories, expect, named, owned, removing, run, tree_text
from scenes.words import REFUSALS

sys.path.insert(0, str(TOP / "tools"))

import attributes
import entries
import texts
from attributes import Attributes, Capability, Owner

CHANGED = 400
MOST_ENTRIES = 262_144
# What is shown, a tree text, and its first faulty line, or nothing where it is one.
TREES = [
    ("a text without entries", tree_text(), None),
    ("each kind of entry", removing("d 0 a", f"f 7777 0 {EMPTY} a/b c", "l 3 a b a-b", "o 755 b", "w b/c"), None),
    ("paths are ordered by names", tree_text("d 755 a", "d 755 a/b", "d 755 a-b"), None),
    ("a file of the greatest size", tree_text(f"f 644 1073741824 {ABC} a"), None),
    ("a file that is larger", tree_text(f"f 644 1073741825 {ABC} a"), 2),
    ("a link of the greatest length", tree_text(f"l 4096 {'x' * 4096} a"), None),
    ("a link that is longer", tree_text(f"l 4097 {'x' * 4097} a"), 2),
    ("a link of no length", tree_text("l 0  a"), 2),
    ("a length that cuts a character", tree_text("l 1 ü a"), 2),
    ("a length in bytes", tree_text("l 2 ü a"), None),
    ("a mode of more digits", tree_text("d 10000 a"), 2),
    ("a mode with a leading zero", tree_text("d 0755 a"), 2),
    ("a size with a leading zero", tree_text(f"f 644 00 {EMPTY} a"), 2),
    ("a name of 255 bytes", tree_text(f"d 755 {'x' * 255}"), None),
    ("a longer name", tree_text(f"d 755 {'x' * 256}"), 2),
    ("65 names", tree_text(*(f"d 755 {'/'.join('a' * at)}" for at in range(1, 66))), 66),
    ("a path twice", tree_text("d 755 a", "d 755 a"), 3),
    ("a path whose parent is missing", tree_text("d 755 a", "d 755 b/c"), 3),
    ("a path below a file", tree_text(f"f 644 0 {EMPTY} a", "d 755 a/b"), 3),
    ("a path below an earlier directory", tree_text("d 755 a", "d 755 a/b", "d 755 a/b/c", f"f 644 0 {EMPTY} a/c"), None),
    ("an empty name", tree_text("d 755 a", "d 755 a//b"), 3),
    ("a delete character", tree_text("d 755 a\x7f"), 2),
    ("as many entries as may be", directories(MOST_ENTRIES), None),
    ("one entry more", directories(MOST_ENTRIES + 1), MOST_ENTRIES + 2),
    ("no end", b"hostext-tree 1\nd 755 a\n", 3),
    ("an end without its newline", b"hostext-tree 1\nd 755 a\nend", 3),
    ("a second text", tree_text() + tree_text(), 3),
    ("a byte after the end", tree_text() + b"x", 3),
]

MOST_ID, MOST_BITS = 4_294_967_294, 18_446_744_073_709_551_615
# The same of owners and capabilities.
OWNERS = [
    ("an owner of each kind", owned("d 755:1:2 a", f"f 644:0:3 3 {ABC} a/b", "l 1:4:0 x a/c", "o 700:5:5 b", "w c"), None),
    ("the greatest owner", owned(f"d 755:{MOST_ID}:{MOST_ID} a"), None),
    ("a user that is greater", owned(f"d 755:{MOST_ID + 1}:0 a"), 2),
    ("a group that is greater", owned(f"d 755:0:{MOST_ID + 1} a"), 2),
    ("a user of eleven digits", owned("d 755:10000000000:0 a"), 2),
    ("a leading zero in a user", owned("d 755:01:0 a"), 2),
    ("a user without a group", owned("d 755:1 a"), 2),
    ("a user below zero", owned("d 755:-1:0 a"), 2),
    ("root's own directory", owned("d 755:0:0 a"), 2),
    ("root's own link", owned("l 1:0:0 x a"), 2),
    ("a capability of root's file", owned(f"f 755:0:0:1:5:6:0 3 {ABC} a"), None),
    ("an empty capability", owned(f"f 755:0:0:0:0:0:0 3 {ABC} a"), None),
    ("the greatest capability", owned(f"f 755:1:1:1:{MOST_BITS}:{MOST_BITS}:{MOST_ID} 3 {ABC} a"), None),
    ("permitted bits that are greater", owned(f"f 755:1:1:1:{MOST_BITS + 1}:0:0 3 {ABC} a"), 2),
    ("inheritable bits that are greater", owned(f"f 755:1:1:1:0:{MOST_BITS + 1}:0 3 {ABC} a"), 2),
    ("a root that is greater", owned(f"f 755:1:1:1:0:0:{MOST_ID + 1} 3 {ABC} a"), 2),
    ("another effective flag", owned(f"f 755:1:1:2:0:0:0 3 {ABC} a"), 2),
    ("a capability that is cut", owned(f"f 755:1:1:1:0:0 3 {ABC} a"), 2),
    ("a capability without an owner", owned(f"f 755:1:0:0:0 3 {ABC} a"), 2),
    ("a capability of a directory", owned("d 755:1:1:1:0:0:0 a"), 2),
    ("a capability of a link", owned("l 1:1:1:1:0:0:0 x a"), 2),
    ("an owner of a whiteout", owned("d 755:1:1 a", "w:1:1 b"), 3),
    ("an owner in version 1", tree_text("d 755 a", "d 755:1:0 b"), 3),
    ("an owner in version 2", removing("w a", "d 755:1:0 b"), 3),
    ("marks in version 3", owned("o 755 a", "w b", "d 755:1:0 c"), None),
    ("version 3 without an owner", owned("o 755 a", "w b"), 4),
    ("a path like an owner", tree_text("l 1 x 5:5", "w:5 5"), 3),
]

# What is shown, a manifest, and what it lists, or its first faulty line.
MANIFESTS = [
    ("the empty text", b"", {}),
    ("a name in binary mode, and one in text mode", f"{ABC}  a\n{EMPTY} *b\n".encode(), {b"a": ABC, b"b": EMPTY}),
    ("a last line without its newline", f"{ABC}  a".encode(), {b"a": ABC}),
    ("a digest in capitals", f"{ABC.upper()}  a\n".encode(), {b"a": ABC}),
    ("a third blank and a second star", f"{ABC}   a\n{ABC} **\n".encode(), {b" a": ABC, b"*": ABC}),
    ("names that no file has", f"{ABC}  a/b\n{ABC}  ..\n".encode(), {b"a/b": ABC, b"..": ABC}),
    ("a name twice", f"{ABC}  a\n{ABC.upper()} *a\n".encode(), {b"a": ABC}),
    ("a name with two digests", f"{ABC}  a\n{EMPTY}  b\n{EMPTY}  a\n".encode(), 3),
    ("an empty line", f"{ABC}  a\n\n".encode(), 2),
    ("nothing but a newline", b"\n", 1),
    ("a comment", b"# a\n", 1),
    ("a carriage return", f"{ABC}  a\r\n".encode(), 1),
    ("a byte order mark", f"\ufeff{ABC}  a\n".encode(), 1),
    ("an escaped name", f"\\{ABC}  a\\nb\n".encode(), 1),
    ("no name", f"{ABC}  \n".encode(), 1),
    ("one blank", f"{ABC} a\n".encode(), 1),
    ("63 digits", f"{ABC[1:]}  a\n".encode(), 1),
    ("a name that is no UTF-8", f"{ABC}  a\n{ABC}  ".encode() + b"\xed\xa0\x80\n", 2),
    ("a control byte", f"{ABC}  a\tb\n".encode(), 1),
]


def line_of(read, text):
    """The first faulty line that a reader tells, or nothing."""
    try:
        read(text)
    except texts.Faulty as fault:
        return fault.line
    return None


def each_tree_text_is_read_or_its_first_faulty_line_is_told(_program):
    from_layer = [(name, text, int(line.split()[2])) for name, text, line in REFUSALS if line.startswith(b"23 ") and name not in ("lines are counted through the texts", "a faulty text comes before a limit")]
    for name, text, line in (*TREES, *OWNERS, *from_layer):
        found = line_of(texts.read_tree, text)
        if found != line:
            raise Failed(f"{name}: the first faulty line is {found}, and not {line}")


def a_tree_text_gives_its_entries(_program):
    text = owned("d 755 a", f"f 644:7:8:1:{MOST_BITS}:6:9 3 {ABC} a/b c", "l 5:7:0  x y  b", "w c")
    file = Attributes(0o644, Owner(7, 8), Capability(1, MOST_BITS, 6, 9))
    wanted = [
        *((b"d", (Attributes(0o755),), (b"a",)), (b"f", (file, b"3", ABC.encode()), (b"a", b"b c"))),
        *((b"l", (Attributes(0o777, Owner(7, 0)), b" x y "), (b"b",)), (b"w", (), (b"c",))),
    ]
    found = texts.read_tree(text)
    if found != wanted:
        raise Failed(f"the entries are {found}")
    lines = [
        entries.line_of_directory(b"d", Attributes(0o755), b"a"),
        entries.line_of_file(file, 3, ABC, b"a/b c"),
        entries.line_of_link(Owner(7, 0), b" x y ", b"b"),
        b"w c\n",
    ]
    if texts.tree_text(lines) != text:
        raise Failed(f"they are written as {texts.tree_text(lines)}")


# A capability, and the bytes of its attribute.
CAPABILITIES = [
    (Capability(1, 0x2000, 0), "010000020020000000000000" + "0000000000000000"),
    (Capability(0, 0xFEDCBA9876543210, 0x0123456789ABCDEF), "0000000210325476efcdab8998badcfe67452301"),
    (Capability(0, 0, 0), "00000002" + "00000000" * 4),
    (Capability(1, MOST_BITS, 0, MOST_ID), "01000003ffffffff00000000ffffffff00000000feffffff"),
]
# Bytes of the attribute that no tree text says.
UNSAID = [
    *("00" * size for size in range(41)),
    *("01000002" + "00" * size for size in range(37) if size != 16),
    *("01000003" + "00" * size for size in range(37) if size != 20),
    *("010000010020000000000000", "01000001" + "00" * 16, "01000004" + "00" * 20, "02000002" + "00" * 16, "03000003" + "00" * 20),
    "01000003" + "00" * 16 + "ffffffff",
]


def capabilities_are_read_from_their_bytes_and_written_to_them(_program):
    for capability, value in CAPABILITIES:
        found, written = attributes.capability_of(bytes.fromhex(value)), capability.value().hex()
        if (found, written) != (capability, value):
            raise Failed(f"{value} is read as {found}, and {capability} written as {written}")
    named_by_nobody = bytes.fromhex("01000003" + "00" * 20)
    if attributes.capability_of(named_by_nobody) != Capability(1, 0, 0):
        raise Failed("revision 3 with the root 0 isn't that without a root")
    for value in UNSAID:
        if found := attributes.capability_of(bytes.fromhex(value)):
            raise Failed(f"{value} is read as {found}")


def each_manifest_is_read_or_its_first_faulty_line_is_told(_program):
    for name, text, wanted in MANIFESTS:
        found = line_of(texts.read_manifest, text) or texts.read_manifest(text)
        if found != wanted:
            raise Failed(f"{name}: it gives {found}, and not {wanted}")


SOUND = removing(
    *("d 755 a", f"f 644 3 {ABC} a/b", f"f 600 0 {EMPTY} a/ü", "l 4 a b  a-b", "o 700 b", "d 755 b/c", "w b/c/d"),
    *(f"f 644 12 {hashlib.sha256(b'x').hexdigest()} b/d", "l 2 .. c", "d 7777 é", "d 1 é/x", "w é/x/y"),
)


def changed(chance):
    """A sound text with a line that is moved, copied, taken away or cut, or with another byte at some place."""
    lines = SOUND.split(b"\n")
    for _ in range(chance.choice((1, 1, 2))):
        at, to, how = chance.randrange(len(lines)), chance.randrange(len(lines)), chance.randrange(5)
        line = lines[at]
        if how == 0:
            lines.insert(to, lines.pop(at))
        elif how == 1:
            lines.insert(to, line)
        elif how == 2:
            del lines[at]
        elif line:
            byte = chance.choice(b"0128 a/.\x7f\xc3\xbc\twdol")
            place = chance.randrange(len(line))
            lines[at] = line[:place] + (bytes([byte]) if how == 3 else b"") + line[place + 1 :]
    return b"\n".join(lines)


def both_readers_tell_the_same_line_of_texts_changed_at_random(program):
    """Where a second text begins the program reads on, so such texts don't count."""
    chance, told = random.Random(12), set()
    for _ in range(CHANGED):
        text = changed(chance)
        if b"\nend\nhostext-tree" in text:
            continue
        line = line_of(texts.read_tree, text)
        told.add(line)
        written, said, status = run(program, LAYER, text)
        found = re.fullmatch(b"refused 23 bad-tree ([0-9]+) -\n", written)
        expect((b"", said, status), (b"", b"", 0 if line is None else 1))
        if (found and int(found[1])) != line:
            raise Failed(f"of {text} tools/texts.py tells line {line}, and the program {written}")
    if len(told) < 10 or None not in told:
        raise Failed(f"the lines that were told are {told}")


def the_limits_are_those_of_the_formats(_program):
    """The numbers stand in docs/FORMATS.md, and these are their sentences."""
    formats = (TOP / "docs/FORMATS.md").read_text()
    for said, found in (
        ("a tree text or a manifest of more than {:,} bytes in the depot", texts.MOST_TEXT_BYTES),
        ("the number of its bytes, at most {:,}, and their SHA-256 digest", entries.MOST_FILE_BYTES),
        ("There are at most {:,} entries", entries.MOST_ENTRIES),
    ):
        if said.format(found) not in formats:
            raise Failed(f"docs/FORMATS.md doesn't say: {said.format(found)}")


scenes = named(
    *(each_tree_text_is_read_or_its_first_faulty_line_is_told, a_tree_text_gives_its_entries, each_manifest_is_read_or_its_first_faulty_line_is_told),
    *(capabilities_are_read_from_their_bytes_and_written_to_them, both_readers_tell_the_same_line_of_texts_changed_at_random, the_limits_are_those_of_the_formats),
)
