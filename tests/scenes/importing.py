"""What goes into a depot by tools/pack and comes out the same: a folder as itself, as an archive, as an image of a container, of squashfs,
erofs and a disk; and archives that are mutated, of which none may do more than be refused or packed."""
import bz2
import gzip
import lzma
import os
import random
import shutil
import struct
import subprocess
import uuid
import zlib

from scenes.archives import PACKED, check_resource
from scenes.folders import make_opaque, make_whiteout
from scenes.running import SECONDS, Failed, Skipped, expect, named, shortened
from scenes.stores import DONE, in_a_place
from scenes.tars import BLOCK, Packs, archive_of, deb, directory, docker, file, hard, layout, link, pax, tar, with_sum
from scenes.tools import beside, fill, left, text_of, tool

ROOT, USR = uuid.UUID("4f68bce3-e8cd-4db1-96e7-fbcaf984b709"), uuid.UUID("8484680c-9521-48c6-9c11-b0720656f69e")
SECTOR = 512
# How many archives are mutated where nothing else is said.
MUTATED = 200


def need(*words):
    if not shutil.which(words[0]):
        raise Skipped(f"there is no {words[0]}")
    subprocess.run(words, check=True, capture_output=True, timeout=SECONDS)


def filled(place):
    """A folder that loses nothing, and has what is unusual."""
    folder = fill(beside(place, "folder"))
    (folder / "usr/empty").mkdir(mode=0o700)
    (folder / "usr/large").write_bytes(random.Random(3).randbytes(300_000) + bytes(300_000))
    (folder / ("n" * 120)).mkdir()
    (folder / ("n" * 120) / ("m" * 120)).write_bytes(b"")
    for at in range(40):
        (folder / f"usr/many {at}").write_bytes(b"abc" * at)
    os.chmod(folder / "usr/many 7", 0o4711)
    return folder


def with_marks(folder):
    try:
        make_whiteout(folder / "usr/gone")
        make_opaque(folder / "usr/ü")
    except OSError as error:
        raise Skipped(f"no whiteout or opaque directory can be made here: {error.strerror}") from None
    return folder


def comes_out_the_same(place, folder, source, *words, name="r"):
    """That a source is packed as the folder is, with nothing to tell."""
    expect(tool(place, "pack", *words, source, place.depot, name), (b"", b"", 0))
    if (place.depot / f"{name}.tree").read_bytes() != text_of(place, folder):
        raise Failed(f"{source.name}: its text is {shortened((place.depot / f'{name}.tree').read_bytes())}")
    check_resource(place.depot, name, source.name)


def archives_give_a_folder_back(place):
    """As tar writes them in two forms, and packed; and from a pipe."""
    folder, archive = filled(place), beside(place, "x.tar")
    for form in "gnu", "pax":
        need("tar", f"--format={form}", "--owner=0", "--group=0", "-C", folder, "-cf", archive, ".")
        comes_out_the_same(place, folder, archive, name=form)
    text = archive.read_bytes()
    for name, packs in ("gz", gzip.compress), ("xz", lzma.compress), ("bz2", bz2.compress):
        packed = beside(place, f"x.{name}")
        packed.write_bytes(packs(text))
        comes_out_the_same(place, folder, packed, name=name)
        with open(packed, "rb") as pipe:
            expect(tool(place, "pack", "-", place.depot, f"{name}-piped", stdin=subprocess.Popen(["cat"], stdin=pipe, stdout=subprocess.PIPE).stdout), (b"", b"", 0))
        if (place.depot / f"{name}-piped.tree").read_bytes() != text_of(place, folder):
            raise Failed("what came from a pipe is something else")
    place.expect(("init x86-64 system", DONE), ("import-fs gnu /", DONE), ("tree", text_of(place, folder)))


def an_archive_in_zstd_gives_a_folder_back(place):
    folder, archive = filled(place), beside(place, "x.tar")
    need("tar", "--owner=0", "--group=0", "-C", folder, "-cf", archive, ".")
    need("zstd", "-q", archive)
    comes_out_the_same(place, folder, beside(place, "x.tar.zst"))


def images_of_containers_give_a_folder_back(place):
    """As an image of one layer, whose forms are an archive and a folder, and as one with a distribution below and a package over it."""
    folder, archive = filled(place), beside(place, "x.tar")
    need("tar", "--owner=0", "--group=0", "-C", folder, "-cf", archive, ".")
    layer = archive.read_bytes()
    for name, makes in ("oci", layout), ("docker", docker):
        image = beside(place, name)
        image.write_bytes(archive_of(makes(layer)))
        comes_out_the_same(place, folder, image, name=name)
    below = tar(directory("./etc"), file("etc/os-release", b"ID=alpine\n"), directory("./tmp", mode=0o1777), directory("./root", mode=0o700), link("bin", "usr/bin"), file("usr/bin/sh"), file("var/cache/apk/a"))
    over = tar(file("root/.profile"), file("tmp/x"), file("var/cache/.wh.apk", b""), file("usr/bin/tool", mode=0o755), hard("usr/bin/same", "usr/bin/tool"))
    image = beside(place, "two")
    image.write_bytes(gzip.compress(archive_of(layout(below, over))))
    told = f"pack: lost: hard links, which become files of their own: 1 ({image}/usr/bin/same)\n".encode()
    expect(tool(place, "pack", image, place.depot, "two"), (b"", told, 0))
    lines = (place.depot / "two.tree").read_text().splitlines()
    for line in "d 1777 tmp", "d 700 root", "d 755 var/cache", "l 7 usr/bin bin":
        if line not in lines:
            raise Failed(f"there is no `{line}` in {lines}")
    if any("apk" in line for line in lines):
        raise Failed(f"what was removed stands in {lines}")
    check_resource(place.depot, "two", "an image of two layers")


def disk(*partitions):
    """A disk with these partitions, each a type and its bytes, by a table of GPT."""
    first, table, body = 34, b"", b""
    for kind, content in partitions:
        content += bytes(-len(content) % SECTOR)
        at = first + len(body) // SECTOR
        table += kind.bytes_le + uuid.uuid4().bytes_le + struct.pack("<QQQ", at, at + len(content) // SECTOR - 1, 0) + bytes(72)
        body += content
    table = table.ljust(128 * 128, b"\0")
    head = struct.pack("<8sIIIIQQQQ16sQIII", b"EFI PART", 0x10000, 92, 0, 0, 1, first + len(body) // SECTOR, first, first + len(body) // SECTOR, bytes(16), 2, 128, 128, zlib.crc32(table))
    head = head[:16] + struct.pack("<I", zlib.crc32(head)) + head[20:]
    return bytes(SECTOR) + head.ljust(SECTOR, b"\0") + table + body


def packs_images(place, make):
    """Images of a folder with whiteouts, also as a partition, alone and as the usr of a disk."""
    folder, image = with_marks(filled(place)), beside(place, "x.raw")
    make(folder, image)
    comes_out_the_same(place, folder, image, name="whole")
    content = image.read_bytes()
    for name, kinds in ("root", [ROOT]), ("usr", [USR]), ("none", []), ("twice", [ROOT, ROOT]):
        image.write_bytes(disk(*((kind, content) for kind in kinds), (uuid.UUID(int=7), b"x" * 5_000)))
        if name == "root":
            comes_out_the_same(place, folder, image, name=name)
        elif name == "usr":
            expect(tool(place, "pack", image, place.depot, name), (b"", b"", 0))
            lines = [line for line in (place.depot / "usr.tree").read_text().splitlines()]
            if "w usr/usr/gone" not in lines or lines[1] != "d 755 usr":
                raise Failed(f"the text is {shortened(lines)}")
            check_resource(place.depot, name, name)
        else:
            reason = {"none": "no partition is its root or its usr", "twice": "more than one partition is its root: root of x86-64, root of x86-64"}[name]
            expect(tool(place, "pack", image, place.depot, name), (b"", f"pack: {image}: {reason}\n".encode(), 1))
    if any(name.startswith(".") for name in left(place.depot)):
        raise Failed(f"the depot has {left(place.depot)}")


def squashfs_gives_a_folder_back(place):
    if os.getuid() != 0:
        raise Skipped("it wants root, who alone gets all out of unsquashfs")
    packs_images(place, lambda folder, image: need("mksquashfs", folder, image, "-no-progress", "-all-root"))


def erofs_gives_a_folder_back(place):
    packs_images(place, lambda folder, image: need("mkfs.erofs", "--all-root", image, folder))


def erofs_that_is_compressed_gives_a_folder_back(place):
    if not shutil.which("fsck.erofs"):
        raise Skipped("there is no fsck.erofs")
    packs_images(place, lambda folder, image: need("mkfs.erofs", "-zlz4hc", "--all-root", image, folder))


def bases():
    """Archives with which mutations begin."""
    found = [text for text, _, _, *words in PACKED.values() if not words]
    layers = tar(directory("d"), file("d/a"), link("l", "a")), tar(file("d/.wh.a", b""), file("b", b"x" * 700), hard("c", "b"))
    found += [archive_of(layout(*layers)), archive_of(docker(*layers)), deb(gzip.compress(tar(file("usr/a"))))]
    found.append(disk((ROOT, bytes(9_000))))
    found.append(tar(*(pax(path=f"p{at}") + file("a") for at in range(9)), *(file(f"{at}", b"x" * at * 100) for at in range(9))))
    return found


def mutated(rng, text):
    """A text with some changes; now and then the sums of headers are mended, so that what stands in them is looked at."""
    text = bytearray(text)
    for _ in range(rng.choice((1, 1, 2, 5))):
        at, kind = rng.randrange(len(text) + 1), rng.randrange(7)
        if kind == 0:
            text[at : at + 1] = rng.randbytes(1)
        elif kind == 1:
            text[at : at + 1] = rng.choice((b"\0", b"/", b".", b"\xff", b"7", b"-", b"2", b"1"))
        elif kind == 2:
            del text[at : at + rng.choice((1, 12, BLOCK, 4_096))]
        elif kind == 3:
            block = at // BLOCK * BLOCK
            text[block:block] = text[rng.randrange(len(text) + 1) // BLOCK * BLOCK :][:BLOCK]
        elif kind == 4:
            text[at:at] = rng.randbytes(rng.choice((1, 3, BLOCK)))
        elif kind == 5:
            field = at // BLOCK * BLOCK + rng.choice((0, 100, 124, 148, 156, 157, 257, 345))
            text[field : field + 12] = rng.choice((b"-0000000001\0", b"77777777777\0", b"../../../a\0\0", b"/etc/passwd\0", b"\x80" + bytes(11), b"\xff" * 12))
        else:
            del text[at:]
    if rng.random() < 0.6:
        for at in range(0, len(text) - BLOCK + 1, BLOCK):
            if text[at + 257 : at + 262] == b"ustar":
                text[at : at + BLOCK] = with_sum(bytes(text[at : at + BLOCK]))
    return bytes(text)


def pack_mutated(place, count, seed):
    """How many of so many mutated archives were refused and packed."""
    rng, texts, counts = random.Random(seed), bases(), [0, 0]
    room = beside(place, "room")
    (room / "out").mkdir(parents=True)
    archive, depot = room / "x", room / "out/depot"
    with Packs(place.program) as packs:
        for at in range(count):
            text = mutated(rng, rng.choice(texts))
            archive.write_bytes(text)
            words = rng.choice(((), (), ("--format=tar",), ("--format=layer",), ("--layers",), ("--leave-out-special", "--usr-merge")))
            status, told = packs.run("--most-bytes=10000000", *words, archive, depot, "r")
            if left(room) != ["out", "x"] or left(room / "out") != ["depot"][status:] or archive.read_bytes() != text:
                raise Failed(f"after archive {at} of seed {seed} there stand {left(room)} and {left(room / 'out')}")
            if status and not told.startswith("pack: "):
                raise Failed(f"archive {at} of seed {seed} is refused by {told!r}")
            if not status:
                names = [path.name for path in depot.rglob("*.tree")] if "--layers" in words else ["r.tree"]
                for name in names:
                    check_resource(depot / "r" if "--layers" in words else depot, name.removesuffix(".tree"), f"archive {at} of seed {seed}")
                shutil.rmtree(depot)
            counts[status] += 1
    return counts


def mutated_archives_are_refused_or_packed(place):
    packed, refused = pack_mutated(place, MUTATED, 1)
    if not packed or not refused:
        raise Failed(f"{packed} were packed, and {refused} refused")


CALLS = [
    *(archives_give_a_folder_back, an_archive_in_zstd_gives_a_folder_back, images_of_containers_give_a_folder_back),
    *(squashfs_gives_a_folder_back, erofs_gives_a_folder_back, erofs_that_is_compressed_gives_a_folder_back, mutated_archives_are_refused_or_packed),
]
scenes = named(*map(in_a_place, CALLS))
