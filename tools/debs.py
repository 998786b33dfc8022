"""Debian packages, as deb(5) has them: archives of ar(5) whose member control.tar has the control files, and data.tar what is installed.

They are read here and not by dpkg-deb: so each name is looked at before anything of its entry is written, it goes alike on machines
without dpkg, and no second copy is made.
"""
import os
import re
from contextlib import ExitStack, contextmanager

from entries import PIECE, Refused, open_file, shown
from streams import Part, Stream, Within, plain
from tar_members import Members, bytes_of

MAGIC = b"!<arch>\n"
HEADER = re.compile(rb"(.{16})[0-9 ]{12}[0-9 ]{6}[0-9 ]{6}[0-7 ]{8}([0-9]{1,10}) *`\n", re.S)
HEADER_BYTES = 60
FIELD = re.compile(rb"(Package|Version|Architecture): *([!-~]+)\s*")
# What a control file has at most.
MOST_BYTES = PIECE
SCRIPTS = b"preinst", b"postinst", b"prerm", b"postrm", b"config"


def members_of(stream):
    """The name and the size of each member, whose bytes are read or passed over before the next one is asked for."""
    if stream.read(len(MAGIC)) != MAGIC:
        raise Refused(f"{stream.what}: no package of Debian")
    is_first = True
    while header := stream.read(HEADER_BYTES):
        found = HEADER.fullmatch(header)
        if not found:
            raise Refused(f"{stream.what}: a faulty header of a package's member")
        name, size = found[1].rstrip(b" ").rstrip(b"/"), int(found[2])
        end = stream.tell() + size + size % 2
        if is_first and (name != b"debian-binary" or stream.peek(2) != b"2."):
            raise Refused(f"{stream.what}: no package of Debian")
        is_first = False
        yield name, size
        stream.skip(end - stream.tell())


def is_tar(name, begin):
    """Whether a member is one of the two tars, with or without the ending of a compression."""
    return name == begin or name.startswith(begin + b".")


def data_of(stream, stack):
    """The tar of what is installed, as the bytes of a package come."""
    for name, size in members_of(stream):
        if is_tar(name, b"data.tar"):
            return plain(Stream(Within(stream, size), stream.what), stack)
    raise Refused(f"{stream.what}: a package without files")


class Damaged(Exception):
    """What is wrong with a package as a whole, and not with the member that is read."""


class Package:
    """A package in a file: its control fields, its scripts, its triggers, and the members of what is installed."""

    def __init__(self, path, stack):
        self.path, self.stack = path, stack
        self.handle, status = open_file(path)
        stack.callback(os.close, self.handle)
        self.parts = self.parts_of(status.st_size)
        self.fields, self.scripts, self.triggers = {}, {}, []
        for member, pieces in self.members(b"control.tar"):
            if member.isreg() and member.size <= MOST_BYTES:
                self.take(os.path.basename(bytes_of(member.name)), b"".join(pieces))
        if b"Package" not in self.fields or b"Architecture" not in self.fields:
            raise Refused("it has no control file that names it")

    def stream(self, begin, end):
        return Stream(Part(self.handle, begin, end), shown(self.path))

    def parts_of(self, end):
        """Of each member its name, where it begins and where it ends."""
        stream, parts = self.stream(0, end), []
        for name, size in members_of(stream):
            parts.append((name, stream.tell(), stream.tell() + size))
            if parts[-1][2] > end:
                raise Refused("it ends early")
        return parts

    def members(self, begin):
        """The members of one of the two tars, each with its bytes, which come in pieces."""
        found = [part for part in self.parts if is_tar(part[0], begin)]
        if len(found) != 1:
            raise Refused(f"it has {len(found)} members {begin.decode()}")
        members = Members(plain(self.stream(*found[0][1:]), self.stack))
        for member in members:
            yield member, pieces_of(members, member)

    def files(self):
        return self.members(b"data.tar")

    def take(self, name, text):
        if name == b"control":
            self.fields = {key: value for key, value in map(re.Match.groups, filter(None, map(FIELD.fullmatch, text.splitlines())))}
        elif name == b"triggers":
            self.triggers = [line.split()[-1] for line in text.splitlines() if line.split() and not line.startswith(b"#")]
        elif name in SCRIPTS:
            self.scripts[name] = text

    @property
    def name(self):
        return self.fields[b"Package"]


def pieces_of(members, member):
    try:
        yield from members.content(member)
    except Refused as reason:
        raise Damaged(*reason.args) from None


@contextmanager
def opened(path):
    """A package. What is wrong with it is told with its path."""
    with ExitStack() as stack:
        try:
            yield Package(path, stack)
        except (Refused, Damaged) as refused:
            raise Refused(*(f"{shown(path)}: {str(reason).removeprefix(f'{shown(path)}: ')}" for reason in refused.args)) from None
