"""EROFS images of trees: the bytes that the program writes beside those of a second writer, by the table of docs/FORMATS.md, and what a
reader of the published format finds in them beside what `tree` writes."""
import random

from scenes.erofs_reading import Walk
from scenes.erofs_trees import LENGTHS, LONGEST, MOST_FILE, MOST_OWNER, MOST_SET, NAMES, index_of, put_store, random_tree, same_images, same_texts, shown_text, without_whiteouts, written_image
from scenes.erofs_writing import image_of
from scenes.running import ABC, EMPTY, Failed, expect, named, tree_text
from scenes.stores import DONE, in_a_place, merged_image

SEED, TREES, MANY, LAST_TIME, LAST_GENERATION = 72, 300, 5_000, 2**63 - 1, 4_294_967_295


def has_image(place, *words, time=0, mark=None):
    """That the program writes the image of what is seen, or was at a mark, and that this shows what `tree` writes."""
    index = index_of(place.store)
    host = index.host if mark is None else index.past[index.marks.index(mark)]
    found = written_image(place, *words)
    same_images(found, image_of(host.root.entries, time))
    shown = shown_text(found, index, time)
    if mark is None:
        written, told, status = place.run("tree")
        expect((b"", told, status), (b"", b"", 0))
        same_texts(shown, without_whiteouts(written))
    return found


def random_trees_have_their_images(place):
    for at in range(TREES):
        chance = random.Random(SEED + at)
        entries, _ = random_tree(chance)
        put_store(place, 7, entries)
        time = chance.choice((None, 0, 1, 1_700_000_000, LAST_TIME))
        try:
            has_image(place, *([] if time is None else [f"--time={time}"]), time=time or 0)
        except Failed as reason:
            raise Failed(f"tree {at}: {reason}") from None


def file(field, size=b"3", home=b"00000", generation=1):
    stamp = {b"0": EMPTY, b"3": ABC}.get(size, EMPTY[::-1])
    return b"f", (field, size, stamp.encode(), b"%d" % generation, home)


def directory(field=b"755"):
    return b"d", (field,)


def a_tree_at_the_limits_of_each_field_has_its_image(place):
    """Links that stand in a cell and those that don't, the longest names, opaque directories and whiteouts, and each field at its
    greatest."""
    owner, sets = b":%d:%d" % (MOST_OWNER, MOST_OWNER), b":1:%d:%d:%d" % (MOST_SET, MOST_SET, MOST_OWNER)
    entries = {(b"links",): directory(), (b"modes",): directory(), (b"names",): directory(b"1777")}
    entries |= {(b"links", b"%04d" % length): (b"l", (b"%d" % length, b"t" * length)) for length in LENGTHS}
    entries |= {(b"modes", b"%04o" % mode): file(b"%o" % mode) for mode in range(0, 0o10000, 73)}
    entries |= {(b"names", name): directory() for name in (*NAMES, LONGEST, *(b"%03d" % at + LONGEST[3:] for at in range(20)))}
    entries |= {(b"opaque",): (b"o", (b"2750" + owner,)), (b"opaque", b"gone"): (b"w", ()), (b"opaque", b"in"): file(b"0", b"0", b"00001")}
    entries |= {(b"owned",): directory(b"7777" + owner), (b"owned", b"able"): file(b"4755" + owner + sets), (b"owned", b"link"): (b"l", (b"1" + owner, b"x"))}
    entries |= {(b"able",): file(b"755:0:0:0:0:0:0"), (b"large",): file(b"600", b"%d" % MOST_FILE, b"3ffff", LAST_GENERATION), (b"white",): (b"w", ())}
    put_store(place, LAST_GENERATION, entries)
    has_image(place, f"--time={LAST_TIME}", time=LAST_TIME)


def the_deepest_and_the_emptiest_tree_have_their_images(place):
    deep = {(b"d",) * depth: directory() for depth in range(1, 65)}
    for entries in {}, deep, {(b"w",): (b"w", ())}, {(b"f",): file(b"644", b"0")}:
        put_store(place, 1, entries)
        has_image(place)


def directories_whose_items_fill_blocks_have_their_images(place):
    """In one of them each: a name of each length, so that in some a block ends with its last byte, and in some a name just doesn't go in."""
    entries = {}
    for length in range(1, 256):
        folder = b"%03d" % length
        names = *(b"a%03d" % at for at in range(28)), b"b" * length, *(b"c%03d" % at for at in range(28))
        entries |= {(folder,): directory()} | {(folder, name): (b"l", (b"1", b"x")) for name in names}
    put_store(place, 1, entries)
    has_image(place)


def a_directory_of_many_names_has_its_image(place):
    chance = random.Random(SEED)
    names = {b"%06d" % chance.randrange(10**6) * chance.randint(1, 40) for _ in range(MANY)}
    put_store(place, 1, {(name,): file(b"644") for name in names})
    has_image(place)


def many_capabilities_have_their_blocks(place):
    """Each has one of its own, between those of directories and of long links."""
    entries = {}
    for at in range(300):
        entries[(b"%03d" % at,)] = directory()
        entries[(b"%03d" % at, b"able")] = file(b"755:0:0:1:%d:0:0" % at)
        entries[(b"%03d" % at, b"link")] = b"l", (b"%d" % (500 + at), b"t" * (500 + at))
    put_store(place, 1, entries)
    has_image(place)


def what_commands_made_has_its_image_and_each_mark_has_its_own(place):
    """A host that is imported, marked, merged and changed. The same tree has the same image, whichever its generation."""
    text = tree_text("d 755 usr", f"f 4755 3 {ABC} usr/a", f"f 644 0 {EMPTY} usr/e", "l 1 a usr/l", "o 700 usr/o", "w usr/w", version=2)
    place.resource("host", text, {"usr/a": b"abc", "usr/e": b""})
    place.expect(("init x86-64 system", DONE), ("import-fs host /", DONE), ("mark", b"marked 2\n"))
    first = has_image(place)
    merged_image(place)
    merged = has_image(place)
    if merged == first:
        raise Failed("what is merged isn't seen")
    same_images(has_image(place, "--mark=2", mark=2), first)
    place.expect(("mark", b"marked 6\n"), ("sysext unmerge", b"unmerged\n"), ("remove /usr", DONE))
    same_images(has_image(place, "--mark=2", mark=2), first)
    same_images(has_image(place, "--mark=6", mark=6), merged)
    same_images(has_image(place, "--mark=6", "--time=5", mark=6, time=5), image_of(index_of(place.store).past[1].root.entries, 5))
    place.expect(("rollback 2", DONE))
    same_images(has_image(place), first)


def owners_and_capabilities_of_a_mark_are_those_of_then(place):
    then = {(b"a",): file(b"755:1:2:1:8192:0:0"), (b"b",): (b"l", (b"2:7:8", b"to"))}
    now = {(b"a",): file(b"755"), (b"b",): directory(b"700:5:0")}
    put_store(place, 9, now, past={3: then, 8: now})
    has_image(place)
    has_image(place, "--mark=3", mark=3)
    has_image(place, "--mark=8", mark=8)


def the_reader_finds_what_is_wrong(_place):
    """Changed images are none, or show another tree: else the reader would hold images to nothing."""
    entries = {(b"d",): directory(), (b"d", b"f"): file(b"644"), (b"g",): (b"l", (b"1", b"x"))}
    image = image_of(entries)
    root = 2048 + 128 * 4
    for why, at, new in (
        ("the magic number", 1024, b"\xe3"),
        ("the number of inodes", 1040, b"\x05"),
        ("the number of blocks", 1060, b"\x01"),
        ("the kind of an item", root + 12 * 2 + 10, b"\x01"),
        ("the inode of `..`", root + 12 + 0, b"\x44"),
        ("names out of order", root + 12 * 4 + 3, b"z"),
        ("the kind of an inode", 2048 + 128 + 4, b"\x00\x80"),
        ("a directory's size", 2048 + 8, b"\x01"),
    ):
        changed = image[:at] + new + image[at + len(new) :]
        try:
            Walk(changed)
        except Failed:
            continue
        raise Failed(f"the reader takes an image with another {why}")


CALLS = [
    *(random_trees_have_their_images, a_tree_at_the_limits_of_each_field_has_its_image, the_deepest_and_the_emptiest_tree_have_their_images),
    *(directories_whose_items_fill_blocks_have_their_images, a_directory_of_many_names_has_its_image, many_capabilities_have_their_blocks),
    *(what_commands_made_has_its_image_and_each_mark_has_its_own, owners_and_capabilities_of_a_mark_are_those_of_then, the_reader_finds_what_is_wrong),
]
scenes = named(*map(in_a_place, CALLS))
