"""An extension image that is put together of Debian packages: what of them it has, what is refused, and what is left out.

It has what the hierarchies of its class show: of a system extension usr and opt, with what stands in bin, sbin, lib and lib64 put below
usr, and of a configuration extension etc. Directories are joined, with the mode and the owner that the first package gives. Any other path that two
packages have is refused, unless both have the same there.
"""
import hashlib
import re
from typing import NamedTuple

from attributes import LINK_MODE, ROOT, Attributes, owner_of
from entries import MOST_ENTRIES, MOST_FILE_BYTES, Folders, Refused, check_path, check_target, line_of_directory, line_of_file, line_of_link, shown, stamp_of
from packing import FILES
from tar_members import bytes_of, capability_in, numbers_of
from telling import Found
from usr_merge import BESIDE

SYSEXT, CONFEXT = (b"usr", b"opt"), (b"etc",)
UNITS = re.compile(rb"(?:usr/)?lib/systemd/system/([^/]+\.(?:automount|mount|path|service|socket|swap|target|timer))")
INSTALL = re.compile(rb"^\[Install\]\s*$", re.M)
MOST_UNIT_BYTES = 65_536
# What scripts deal with, by words in them.
DEALINGS = (
    ("users and groups", rb"\b(?:adduser|addgroup|useradd|groupadd|systemd-sysusers)\b"),
    ("files that are made", rb"\b(?:systemd-tmpfiles|mktemp|install -d|mkdir)\b"),
    ("units", rb"\b(?:deb-systemd-helper|deb-systemd-invoke|systemctl)\b"),
    ("alternatives", rb"\bupdate-alternatives\b"),
    ("diversions", rb"\bdpkg-divert\b"),
    ("capabilities and modes", rb"\b(?:setcap|dpkg-statoverride|chmod|chown)\b"),
    ("questions", rb"/debconf/confmodule\b"),
    ("caches", rb"\b(?:ldconfig|update-[a-z-]*cache[a-z-]*|py3compile|update-initramfs)\b"),
)
# The names of architectures in os-release, by those of Debian.
ARCHITECTURES = {
    **{b"amd64": b"x86-64", b"i386": b"x86", b"arm64": b"arm64", b"armhf": b"arm", b"armel": b"arm", b"riscv64": b"riscv64"},
    **{b"s390x": b"s390x", b"ppc64el": b"ppc64-le", b"loong64": b"loongarch64"},
}


class Entry(NamedTuple):
    """An entry of the image, and the package that has it: of a file its size and digest, of a link its target."""

    kind: bytes
    attributes: Attributes
    fields: tuple
    package: str

    def is_like(self, other):
        return self[:3] == other[:3] or self.kind == other.kind == b"d"


def names_of(name):
    """The names of a member of a package, which begins with ./ or with its first name."""
    path = bytes_of(name)
    names = tuple(path.removeprefix(b"./").rstrip(b"/").split(b"/")) if path.strip(b"/") not in (b".", b"") else ()
    if path.startswith(b"/"):
        raise Refused("an absolute name")
    if b".." in names:
        raise Refused("a name that leads out")
    if names:
        check_path(names)
    return names


def kind_of(member):
    if member.isdir():
        return b"d"
    if member.issym():
        return b"l"
    if member.islnk() or (member.isreg() and not member.issparse()):
        return b"f"
    raise Refused("neither a directory nor a file nor a link")


class Image:
    """What was taken of packages so far, by paths, with what is wrong and what was left out."""

    def __init__(self, tops, copies, all_root=False):
        self.tops, self.copies, self.all_root, self.found = tops, copies, all_root, {}
        self.reasons, self.architectures = [], {}

    def add(self, package, tells):
        """Takes what a package has, and gives the lines that tell what of it was left out."""
        name = shown(package.name)
        left, units = {}, []
        architecture = package.fields[b"Architecture"]
        if architecture != b"all":
            self.architectures.setdefault(architecture, name)
        for member, pieces in package.files():
            try:
                self.take(member, pieces, name, left, units)
            except Refused as reason:
                self.reasons.append(f"{shown(package.path)}: {shown(bytes_of(member.name))}: {reason}")
            tells.looked()
            if len(self.found) > MOST_ENTRIES:
                raise Refused(f"more than {MOST_ENTRIES:,} entries with those before it")
        return [*(f"left out of {name}: {shown(top)}: {found}" for top, found in sorted(left.items())), *lines_of(name, package, units)]

    def take(self, member, pieces, package, left, units):
        names, kind = names_of(member.name), kind_of(member)
        path = self.path_of(names, kind)
        if path is None:
            if kind != b"d" and names:
                left.setdefault(names[0], Found()).add(b"/".join(names))
            return
        check_path(path)
        if len(path) == 1 and kind != b"d":
            raise Refused("no directory, where a hierarchy has to be one")
        self.check_way(path, package)
        entry = self.entry(member, pieces, kind, path, package, units)
        there = self.found.setdefault(path, entry)
        if not there.is_like(entry):
            raise Refused(f"{there.package} has something else there")
        if kind == b"d" and not there.fields:
            # it stood there as what others stand below
            self.found[path] = entry

    def path_of(self, names, kind):
        """The path that a member has in the image; none where the image has it not."""
        if b"usr" in self.tops and names and names[0] in BESIDE and (len(names) > 1 or kind == b"d"):
            names = b"usr", *names
        return names if names and names[0] in self.tops else None

    def check_way(self, path, package):
        """Refuses a path above which no directory stands. What a package doesn't name above its paths is made."""
        for count in range(1, len(path)):
            above = self.found.setdefault(path[:count], Entry(b"d", Attributes(0o755), (), package))
            if above.kind != b"d":
                raise Refused(f"{shown(b'/'.join(path[:count]))} is no directory, of {above.package}")

    def entry(self, member, pieces, kind, path, package, units):
        attributes = self.attributes(member, kind)
        if kind == b"d":
            return Entry(kind, attributes, (b"",), package)
        if kind == b"l":
            return Entry(kind, attributes, (target_of(member),), package)
        there = self.found.get(path)
        if member.islnk():
            return self.linked(member, path, there, package)
        if member.size > MOST_FILE_BYTES:
            raise Refused(f"more than {MOST_FILE_BYTES:,} bytes")
        kept = Kept(UNITS.fullmatch(b"/".join(path)))
        stamp = self.stamped(path, there, lambda copy: stamp_from(pieces, lambda piece: (copy(piece), kept.take(piece))))
        if kept.unit and INSTALL.search(kept.bytes):
            units.append(kept.unit[1])
        return Entry(kind, attributes, stamp, package)

    def attributes(self, member, kind):
        owner = ROOT if self.all_root else owner_of(*numbers_of(member))
        if kind == b"l":
            return Attributes(LINK_MODE, owner)
        return Attributes(member.mode & 0o7777, owner, capability_in(member) if kind == b"f" else None)

    def stamped(self, path, there, read):
        """The stamp of a file that is read, whose bytes go to its path, unless something stands there."""
        return read(lambda _piece: None) if there else self.copies.copy(path, read)

    def linked(self, member, path, there, package):
        """A file that is another one of the package by a hard link becomes a file of its own."""
        target = self.path_of(names_of(member.linkname), b"f")
        of = self.found.get(target)
        if not of or of.kind != b"f":
            raise Refused(f"a hard link to {shown(bytes_of(member.linkname))}, which is no file of the image")
        with Folders(self.copies.handles[0]) as folders:
            stamp = self.stamped(path, there, lambda copy: stamp_of(target[-1], copy, folders.at((FILES, *target[:-1]))))
        return Entry(b"f", of.attributes, stamp, package)

    def put(self, path, content):
        """Puts a file of the image's own at a path where no package has one."""
        if path in self.found:
            raise Refused(f"{shown(b'/'.join(path))}: {self.found[path].package} has it, and the image needs its own")
        self.check_way(path, "the image")
        size, digest = self.copies.copy(path, lambda copy: (copy(content), (len(content), hashlib.sha256(content).hexdigest()))[1])
        self.found[path] = Entry(b"f", Attributes(0o644), (size, digest), "the image")

    def architecture(self):
        """The architecture of all packages that have one; none where none has."""
        if len(self.architectures) > 1:
            raise Refused("packages of several architectures: " + ", ".join(f"{name} is of {shown(one)}" for one, name in sorted(self.architectures.items())))
        for one in self.architectures:
            if one not in ARCHITECTURES:
                raise Refused(f"{shown(one)}: an architecture that release files have no name for")
            return ARCHITECTURES[one]
        return None

    def lines(self):
        """The lines of its tree text."""
        return [line_of(b"/".join(path), entry) for path, entry in sorted(self.found.items())]


class Kept:
    """The first bytes of a unit; nothing of other files."""

    def __init__(self, unit):
        self.unit, self.bytes = unit, b""

    def take(self, piece):
        if self.unit:
            self.bytes = (self.bytes + piece)[:MOST_UNIT_BYTES]


def target_of(member):
    target = bytes_of(member.linkname)
    check_target(target)
    return target


def stamp_from(pieces, copy):
    """The size and the digest of what is read, each piece of which is handed to `copy`."""
    digest, size = hashlib.sha256(), 0
    for piece in pieces:
        digest.update(piece)
        copy(piece)
        size += len(piece)
    return size, digest.hexdigest()


def line_of(path, entry):
    if entry.kind == b"d":
        return line_of_directory(entry.kind, entry.attributes, path)
    if entry.kind == b"l":
        return line_of_link(entry.attributes.owner, entry.fields[0], path)
    return line_of_file(entry.attributes, *entry.fields, path)


def lines_of(name, package, units):
    """What nobody does that the package counts on."""
    found = []
    if package.scripts:
        text = b"\n".join(package.scripts.values())
        dealings = [what for what, words in DEALINGS if re.search(words, text)]
        with_what = f", which deal with {', '.join(dealings)}" if dealings else ""
        found.append(f"nothing runs the scripts of {name}: {', '.join(sorted(map(shown, package.scripts)))}{with_what}")
    if package.triggers:
        found.append(f"nothing runs the triggers of {name}: {', '.join(sorted(set(map(shown, package.triggers))))}")
    if units:
        found.append(f"nothing enables the units of {name}: {', '.join(sorted(map(shown, units)))}")
    return found
