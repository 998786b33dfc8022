"""Trees for EROFS images: stores that are made by hand of random entries, what an image shows as a tree text, and runs of the program.

The program is the one that HOSTEXT_EROFS names, or else what the launcher `hostext_erofs` would run."""
import os
import shutil
import struct

from scenes.erofs_reading import DIRECTORY, FILE, LINK, Walk
from scenes.index_texts import Index
from scenes.running import ABC, Failed, expect, imager, run, shortened
from scenes.stores import digest
from scenes.tree_texts import line_of, read_tree, text_of, version_of

MOST_OWNER, MOST_SET, MOST_FILE, LAST_HOME = 2**32 - 2, 2**64 - 1, 2**30, 2**18 - 1
# So long that what Linux takes of a path has room for a folder before it.
MOST_PATH = 4_050
NAMES = (b"a", b"a-", b"a.", b"a b", b"aa", b"b'c", b'c"d', b"f\\g", b"~o", b"...", b".a", b"..b", b"-x", b"Z", "ü".encode(), "日本".encode(), b"\xf4\x8f\xbf\xbf")
LONGEST = b"n" * 255
LENGTHS = 1, 5, 63, 64, 65, 200, 511, 512, 513, 1000, 4095
SIZES = 0, 0, 1, 3, 511, 512, 4096, 70_000
PATHS = "overlay.redirect", "overlay.metacopy", "overlay.overlay.opaque"
REDIRECT, METACOPY, OPAQUE = (b"trusted." + name.encode() for name in PATHS)
CAPABILITY = b"security.capability"
FINE = b"", 0
# Where a file stands, and what an index says of one that has three bytes there.
HOME = 1, b"00000"
STAMP = b"3", ABC.encode(), b"1", b"00000"


# Random entries, as an index lists them.


def random_name(chance):
    number, length = b"%04d" % chance.randrange(10_000), chance.randint(1, 251)
    return chance.choice((chance.choice(NAMES), number, b"x" * length, b"y" * length + number))


def random_owner(chance):
    """What is told of an owner: nothing of root."""
    owner = chance.choice((0, 1, 1000, 65_535, 65_536, MOST_OWNER)), chance.choice((0, 0, 50, MOST_OWNER))
    return b":%d:%d" % owner if any(owner) and chance.random() < 0.6 else b""


def random_capability(chance, owner):
    sets = (chance.choice((0, 8192, 2**40 + 5, MOST_SET)) for _ in range(2))
    return (owner or b":0:0") + b":%d:%d:%d:%d" % (chance.randrange(2), *sets, chance.choice((0, 1000, MOST_OWNER)))


def random_attributes(chance):
    return b"%o" % chance.choice((0o644, 0o755, 0, 0o7777, 0o4755, 0o1777, chance.randrange(0o10000))) + random_owner(chance)


def random_content(chance):
    """Bytes of which no two files have the same by chance."""
    return chance.randbytes(chance.choice(SIZES))


def random_entry(chance, homes):
    """The kind and the fields of an entry; the content of a file with a new home comes to `homes`."""
    kind = chance.choices((b"d", b"f", b"l", b"o", b"w"), (30, 40, 15, 5, 10))[0]
    if kind == b"f":
        home = chance.choice((1, 2, 7)), b"%05x" % chance.choice((chance.randrange(300), chance.randrange(LAST_HOME + 1), LAST_HOME))
        content = homes.setdefault(home, random_content(chance))
        field = random_attributes(chance)
        field = random_capability_of(chance, field)
        return kind, (field, b"%d" % len(content), digest(content).encode(), b"%d" % home[0], home[1])
    if kind == b"l":
        target = (chance.choice((b"x", b"/y z", b"z\xc3\xbc")) * 4095)[: chance.choice(LENGTHS)].decode(errors="ignore").encode()
        return kind, (b"%d" % len(target) + random_owner(chance), target)
    return kind, (random_attributes(chance),) if kind in (b"d", b"o") else ()


def random_capability_of(chance, field):
    mode, _, owner = field.partition(b":")
    return mode + random_capability(chance, owner and b":" + owner) if chance.random() < 0.25 else field


def random_tree(chance, most=150):
    """Entries in directories that are drawn too, and the contents of their homes."""
    entries, homes, folders = {}, {}, [()]
    for _ in range(chance.randrange(most)):
        # The youngest more often, so that some trees are deep and some directories are long.
        above = chance.choice((folders[-1], chance.choice(folders), folders[0]))
        names = (*above, random_name(chance))
        if names in entries or len(names) > 64 or len(b"/".join(names)) > MOST_PATH:
            continue
        entries[names] = random_entry(chance, homes)
        if entries[names][0] in (b"d", b"o"):
            folders.append(names)
    return entries, homes


# Stores of them.


def sections(entries):
    listed = (line_of(names, *entries[names]) for names in sorted(entries))
    return b"".join((b"attached 0\nkept 0\nroot %d\n" % len(entries), *listed, b"lower 0\n"))


def index_text(entries, past=None):
    """The index of a host of these entries, with the trees that are marked by their generations."""
    past = past or {}
    version = 3 if any(version_of(some) == 3 for some in (entries, *past.values())) else 2
    head = b"hostext-store %d\nhost x86-64 system\nhierarchies 3\nh sysext opt\nh sysext usr\nh confext etc\n" % version
    marks = (b"g %d\n" % generation + sections(past[generation]) for generation in sorted(past))
    return b"".join((head, sections(entries), b"past %d\n" % len(past), *marks, b"end\n"))


def put_store(place, generation, entries, homes=None, past=None):
    """Makes the store anew: of this generation, with these entries and the files at their homes."""
    shutil.rmtree(place.store)
    files = {f"g-{number}/{file[:3].decode()}/{file[3:].decode()}": content for (number, file), content in (homes or {}).items()}
    place.index(generation, index_text(entries, past), files)


def index_of(store):
    """The index of a store, as it is read a second time."""
    generation = int((store / "current").read_text()[2:])
    return Index((store / f"g-{generation}/index").read_bytes(), generation)


# Runs.


def written_image(place, *words, **more):
    """The image that the program writes of a store."""
    written, told, status = run(imager(), [os.fsencode(place.store), *(word.encode() for word in words)], **more)
    expect((b"", told, status), (b"", *FINE))
    return written


def same_images(found, wanted):
    """That two images are the same, byte for byte, or where they differ first."""
    if found != wanted:
        at = next((at for at, (one, other) in enumerate(zip(found, wanted)) if one != other), min(len(found), len(wanted)))
        ours, theirs = (image[at // 16 * 16 :][:16].hex(" ") for image in (found, wanted))
        raise Failed(f"an image of {len(found)} bytes differs from one of {len(wanted)} at {at}: {ours}, and not {theirs}")


# What an image shows.


def told_owner(user, group, capability=None):
    """What is told of an owner, and of a file's capability."""
    told = b":%d:%d" % (user, group) if user or group or capability is not None else b""
    return told if capability is None else told + capability_text(capability)


def capability_text(value):
    """As a tree text tells an attribute `security.capability` of version 3, or of version 2, as Linux gives one of its user 0."""
    head, *sets, root = struct.unpack("<6I", value.ljust(24, b"\0"))
    if (head & ~1, len(value)) not in ((2 << 24, 20), (3 << 24, 24)):
        raise Failed(f"a capability is {value.hex()}")
    return b":%d:%d:%d:%d" % (head & 1, sets[2] << 32 | sets[0], sets[3] << 32 | sets[1], root)


def shown_entry(walk, names, stamps):
    """An entry that an image shows, as a tree text has it; the digest of a file is that of its home."""
    inode, found = walk.inodes[names], walk.attributes(names)
    kind, mode, owner = inode.mode >> 12, b"%o" % (inode.mode & 0o7777), (inode.user, inode.group)
    if kind == DIRECTORY:
        is_opaque = found == {OPAQUE: b"y"}
        if found and not is_opaque:
            raise Failed(f"the directory {names} has {found}")
        return b"o" if is_opaque else b"d", (mode + told_owner(*owner),)
    if kind == LINK:
        if found or inode.mode != 0o120777:
            raise Failed(f"the link {names} has the mode {inode.mode:o} and {found}")
        return b"l", (b"%d" % inode.size + told_owner(*owner), walk.targets[names])
    capability, home = found.pop(CAPABILITY, None), found.pop(REDIRECT, None)
    if kind != FILE or found != {METACOPY: b""} or home not in stamps or not walk.image.is_hole(inode):
        raise Failed(f"the file {names} has {found} and the home {home}")
    return b"f", (mode + told_owner(*owner, capability), b"%d" % inode.size, stamps[home])


def shown_text(image, index, time):
    """The tree text of what an image shows, by the stamps of the homes in an index."""
    walk = Walk(image)
    superblock = walk.image.superblock
    told = {(inode.time, inode.nanoseconds, inode.links) for inode in walk.inodes.values()} | {(superblock.time, superblock.nanoseconds, 1)}
    if told != {(time, 0, 1)}:
        raise Failed(f"times and links are {told}")
    root = walk.inodes.pop(())
    if (root.mode, root.user, root.group, walk.image.attributes(root)) != (0o40755, 0, 0, []):
        raise Failed(f"the root is {root}")
    stamps = {b"/g-%d/%b/%b" % (generation, file[:3], file[3:]): stamp for _, stamp, generation, file in index.files()}
    return text_of({names: shown_entry(walk, names, stamps) for names in walk.inodes})


def without_whiteouts(text):
    return text_of({names: entry for names, entry in read_tree(text).entries.items() if entry[0] != b"w"})


def same_texts(found, wanted):
    if found != wanted:
        one, other = ([line for line in text.split(b"\n") if line not in set(beside.split(b"\n"))] for text, beside in ((found, wanted), (wanted, found)))
        raise Failed(f"it shows {shortened(one)}, and not {shortened(other)}")
