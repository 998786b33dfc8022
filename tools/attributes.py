"""What entries have beside their contents: modes with owners, and the capabilities of files. Each is a field of a line of a tree text, by
docs/FORMATS.md, and a capability the bytes of the extended attribute security.capability, by capabilities(7).

An entry without an owner is root's, whose numbers no field tells but before a capability.
"""
import re
import struct
from functools import lru_cache
from typing import NamedTuple, Optional

from entries import Refused

CAPABILITY = "security.capability"
# The greatest number of a user or a group, and of the bits of a capability.
MOST_ID, MOST_BITS = 2**32 - 2, 2**64 - 1
# What Linux shows of a link, which has no mode of its own.
LINK_MODE = 0o777
# The forms of the attribute whose bits are of 64, without and with the user that is root, and the flag beside them.
REVISION_2, REVISION_3, EFFECTIVE = 0x02000000, 0x03000000, 1
FORMS = {20: (REVISION_2, struct.Struct("<5I")), 24: (REVISION_3, struct.Struct("<6I"))}
NUMBER = b"(?:0|[1-9][0-9]{0,%d})"
ID, BITS = NUMBER % 9, NUMBER % 19
# The owner behind a mode or a length, and the capability behind an owner.
OWNER_FIELD = b":%b:%b" % (ID, ID)
CAPABILITY_FIELD = b":[01]:%b:%b:%b" % (BITS, BITS, ID)
TELLS = re.compile(rb"[dofl] [0-9]+:")


class Owner(NamedTuple):
    """The user and the group of an entry."""

    user: int
    group: int

    def field(self):
        """What stands behind the mode of an entry, or the length of a link's target."""
        return b":%d:%d" % self if self != ROOT else b""


ROOT = Owner(0, 0)


class Capability(NamedTuple):
    """What security.capability says of a file: the effective flag, the permitted and the inheritable bits, and the user that is root
    in the namespace where they count."""

    effective: int
    permitted: int
    inheritable: int
    root: int = 0

    def field(self):
        """What stands behind an owner."""
        return b":%d:%d:%d:%d" % self

    def value(self):
        """The bytes of the attribute, of revision 2 where they name no root, and else of 3."""
        halves = [part for shift in (0, 32) for part in (self.permitted >> shift & 0xFFFFFFFF, self.inheritable >> shift & 0xFFFFFFFF)]
        if self.root:
            return struct.pack("<6I", REVISION_3 | self.effective, *halves, self.root)
        return struct.pack("<5I", REVISION_2 | self.effective, *halves)


def capability_of(value):
    """The capability that the bytes of the attribute are; nothing where they are of a form that no tree text has: another revision, length
    or flag, or a root that is nobody."""
    revision, form = FORMS.get(len(value), (0, None))
    if form is None:
        return None
    magic, *numbers = form.unpack(value)
    low, inheritable_low, high, inheritable_high = numbers[:4]
    root = numbers[4] if numbers[4:] else 0
    if magic & ~EFFECTIVE != revision or root > MOST_ID:
        return None
    return Capability(magic & EFFECTIVE, high << 32 | low, inheritable_high << 32 | inheritable_low, root)


class Attributes(NamedTuple):
    """The attributes of a directory, a file or a link."""

    mode: int
    owner: Owner = ROOT
    capability: Optional[Capability] = None

    @lru_cache(maxsize=4096)
    def field(self):
        """The field of a directory's or a file's line. That of a link has its owner's alone, behind the length."""
        if self.capability is None:
            return b"%o%b" % (self.mode, self.owner.field())
        return b"%o:%d:%d%b" % (self.mode, *self.owner, self.capability.field())


def check_owner(user, group):
    if not 0 <= user <= MOST_ID or not 0 <= group <= MOST_ID:
        raise Refused(f"an owner {user}:{group}, where a user and a group are numbers up to {MOST_ID:,}")


def owner_of(user, group):
    """The owner of these numbers, if a tree text may have it."""
    check_owner(user, group)
    return Owner(user, group)


@lru_cache(maxsize=4096)
def attributes_of(field):
    """The attributes of such a field, whose numbers aren't looked at yet."""
    mode, *told = field.split(b":")
    numbers = [int(number) for number in told]
    if not numbers:
        return Attributes(int(mode, 8))
    owner, rest = owner_of(*numbers[:2]), numbers[2:]
    if not rest and owner == ROOT:
        raise Refused("the owner 0:0, which no line tells")
    if rest and (max(rest) > MOST_BITS or rest[3] > MOST_ID):
        raise Refused("a capability with a number that is too great")
    return Attributes(int(mode, 8), owner, Capability(*rest) if rest else None)


def are_told(attributes):
    """Whether a line tells an owner or a capability."""
    return attributes.owner != ROOT or attributes.capability is not None


def tells(line):
    """Whether a line of a tree text does so."""
    return b":" in line and TELLS.match(line) is not None
