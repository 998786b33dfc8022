"""Owners at half of the entries of texts, and capabilities at some of the files: for the stores and depots of tests/hostile and
tests/mutations."""
import re
import zlib

OWNERS = b":1000:1000", b":0:42", b":4294967294:0", b":65534:65534"
# Each stands behind an owner, or behind root's, which is told then.
CAPABILITIES = b":1:8192:0:0", b":0:3:18446744073709551615:0", b":0:0:0:0", b":1:0:1:4294967294"
# The line of an entry that is root's: what marks stand behind, of a file its stamp, and what the path ends in.
LINE = re.compile(rb"^([dof] [0-7]+|l [0-9]+)( (?:([0-9]+ [0-9a-f]{64}) )?(?:[^\n]*[/ ])?([^/ \n]+)$)", re.M)
TOLD = re.compile(rb"^([dof] [0-7]+|l [0-9]+)(?::[0-9]+)+ ", re.M)
TEXT = re.compile(rb"^(?=hostext-(?:tree|store) )", re.M)
VERSION = re.compile(rb"\A(hostext-(?:tree|store)) [0-9]")


def marks(line, salt):
    """What is told of an entry. The directories above it make no difference, so that a part of a tree has the same."""
    drawn = zlib.crc32(b" ".join((salt, line[1], line[3] or b"", line[4]))) >> 4
    owner = OWNERS[drawn >> 1 & 3] if drawn & 1 else b""
    if line[1][:1] != b"f" or drawn >> 3 & 3:
        return owner
    return (owner or b":0:0") + CAPABILITIES[drawn >> 5 & 3]


def with_owners(text, salt=b""):
    """Tree texts, or an index, of root's entries, with owners at half of them; other ones by another salt."""
    return b"".join(part_with_owners(part, salt) for part in TEXT.split(text))


def part_with_owners(text, salt):
    changed = LINE.sub(lambda line: line[1] + marks(line, salt) + line[2], text)
    return text if changed == text else VERSION.sub(rb"\1 3", changed)


def without_owners(text):
    """An index whose entries are all root's."""
    return TOLD.sub(rb"\1 ", text).replace(b"hostext-store 3\n", b"hostext-store 2\n")
