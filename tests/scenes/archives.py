"""What tools/pack makes of archives: a table of hostile and unusual ones, each refused by name or packed as stated, and mutated ones. Of
what is refused nothing stands in the depot, and nothing beside it is ever touched."""
import bz2
import gzip
import json
import lzma
import random
import re
import shutil

from scenes.running import ABC, LAYER, TOP, Failed, Skipped, expect, knows_owners, named, owned, removing, run, shortened, tree_text
from scenes.stores import digest, in_a_place
from scenes.tars import BLOCK, Packs, archive_of, deb, device, directory, docker, file, folder_of, hard, header, layout, link, long_name, package, padded, pax, pax_text, record, tar, with_sum
from scenes.tools import beside, left, tool
from scenes.tree_texts import read_tree

# How many images of random layers are packed.
LAYERS = 60
A = f"f 644 3 {ABC} a"
MARK = ("--format=layer",)
CAPABILITY = "SCHILY.xattr.security.capability"
UNSAID, RANGE = "file capabilities that no tree text says", "where a user and a group are numbers up to 4,294,967,294"
OWNED, CAPABLE = A.replace("644", "644:1000:5"), A.replace("644", "644:0:0:1:1024:0:0")
UNTOLD = f"pack: lost: {UNSAID}: 1 ({{0}}/a)\n"
DEEP, LONG = "/".join("d" * 65), "/".join(["n" * 200] * 21)
SPECIAL = "neither a directory nor a file nor a link nor a whiteout"
SPARSE = {"GNU.sparse.major": 1, "GNU.sparse.minor": 0, "GNU.sparse.realsize": 8}


def sparse(text, content=b"", size=8):
    """A file with a map of holes, in the form that pax has."""
    words = b"".join(record(word, value) for word, value in {**SPARSE, "GNU.sparse.realsize": size, "GNU.sparse.name": "s"}.items())
    return pax_text(words) + file("s", padded(text) + content)


def old_sparse(size, *pairs, extended=b"\0"):
    """The same in GNU's old form."""
    block = bytearray(header("s", b"S", size=3, magic=b"ustar  \0"))
    for at, pair in enumerate(pairs):
        block[386 + 24 * at : 410 + 24 * at] = b"".join(b"%011o\0" % part for part in pair)
    block[482:483], block[483:495] = extended, b"%011o\0" % size
    return with_sum(bytes(block))


# Each archive, and what a line on standard error has of why it is refused.
REFUSED = {
    "an absolute name": (tar(file("/etc/passwd")), "/etc/passwd: an absolute name"),
    "an absolute name of a directory": (tar(file("a"), directory("/")), "an absolute name"),
    "two slashes": (tar(file("//a")), "an absolute name"),
    "an absolute prefix": (tar(file("a", prefix="/etc")), "/etc/a: an absolute name"),
    "an absolute name in pax": (tar(pax(path="/a"), file("b")), "/a: an absolute name"),
    "an absolute long name": (tar(long_name(b"/a"), file("b")), "/a: an absolute name"),
    "a name above": (tar(file("../a")), "../a: a name with `..`"),
    "a name above at the end": (tar(directory("a"), directory("a/..")), "a name with `..`"),
    "a name above in the midst": (tar(directory("a"), file("a/../b")), "a name with `..`"),
    "a name above after a dot": (tar(file("./../a")), "a name with `..`"),
    "a name above in a prefix": (tar(file("a", prefix="..")), "../a: a name with `..`"),
    "a name above in pax": (tar(pax(path="x/../../a"), file("b")), "a name with `..`"),
    "a name above of all members": (tar(pax(b"g", path="../a"), file("b")), "a name with `..`"),
    "a name above in a long name": (tar(long_name(b"../a"), file("b")), "a name with `..`"),
    "nothing but dots": (tar(directory("..")), "..: a name with `..`"),
    "a newline in a name": (tar(file("a\nb")), "a\\nb: a control byte in its name"),
    "an escape in a name": (tar(file("a\x1b[2J")), "a control byte in its name"),
    "a zero in a name": (tar(pax(path=b"a\0b"), file("b")), "a control byte in its name"),
    "a name that is no UTF-8": (tar(file(b"\xff")), "its name is no UTF-8"),
    "a name in half of UTF-8": (tar(pax(path=b"a\xc3"), file("b")), "its name is no UTF-8"),
    "a name of 256 bytes": (tar(pax(path="n" * 256), file("b")), "a name that no path has"),
    "a path of 65 names": (tar(pax(path=DEEP), file("b")), "a path of more than 64 names"),
    "a path of 4,220 bytes": (tar(pax(path=LONG), file("b")), "a path of more than 4,096 bytes"),
    "a file for the top": (tar(file(".")), "it is the top, and no directory"),
    "a file without a name": (tar(file("")), "it is the top, and no directory"),
    "a link for the top": (tar(link("./", "/")), "it is the top, and no directory"),
    "a file below a link": (tar(link("a", "/etc"), file("a/passwd")), "a/passwd: a above it is a link"),
    "a file below a link to itself": (tar(link("a", "."), file("a/b")), "a above it is a link"),
    "a file deep below a link": (tar(link("a", "/etc"), file("a/b/c")), "a above it is a link"),
    "a directory below a link": (tar(link("a", "/etc"), directory("a/b")), "a above it is a link"),
    "a link below a link": (tar(link("a", "/etc"), link("a/b", "c")), "a above it is a link"),
    "a hard link below a link": (tar(file("f"), link("a", "/etc"), hard("a/b", "f")), "a above it is a link"),
    "a file below a hard link to a link": (tar(link("a", "/etc"), hard("b", "a"), file("b/c")), "b above it is a link"),
    "a file below a link in the place of a directory": (tar(directory("a"), link("a", "/etc"), file("a/b")), "a above it is a link"),
    "a link in the place of what has something": (tar(file("a/b"), link("a", "/etc")), "something stands below it"),
    "a file in the place of what has something": (tar(directory("a"), file("a/b"), file("a")), "something stands below it"),
    "a file below a file": (tar(file("a"), file("a/b")), "a above it is no directory"),
    "a file below a whiteout": (tar(device("a", major=0, minor=0), file("a/b")), "a above it is no directory"),
    "a hard link to nothing": (tar(hard("a", "b")), "a hard link to b, which is no file that came before"),
    "a hard link to what comes later": (tar(hard("a", "b"), file("b")), "a hard link to b"),
    "a hard link outside": (tar(file("f"), hard("a", "/etc/passwd")), "an absolute name"),
    "a hard link above": (tar(file("f"), hard("a", "../f")), "a name with `..`"),
    "a hard link in pax": (tar(file("f"), pax(linkpath="/etc/passwd"), hard("a", "f")), "an absolute name"),
    "a hard link to a directory": (tar(directory("d"), hard("a", "d")), "a hard link to d"),
    "a hard link to the top": (tar(directory("."), hard("a", ".")), "a hard link to ."),
    "a hard link to itself": (tar(hard("a", "a")), "a hard link to a"),
    "a hard link to a whiteout": (tar(device("w", major=0, minor=0), hard("a", "w")), "a hard link to w"),
    "a hard link to what went": (tar(file("f"), directory("f"), hard("a", "f")), "a hard link to f"),
    "a link to nothing": (tar(link("a", "")), "a target of no byte"),
    "a control byte in a target": (tar(link("a", "b\tc")), "a control byte in its target"),
    "a target that is no UTF-8": (tar(link("a", b"\xfe")), "its target is no UTF-8"),
    "a target of 4,097 bytes": (tar(pax(linkpath="t" * 4_097), link("a", "b")), "of more than 4,096"),
    "a file of more than a gigabyte": (tar(header("a", size=(1 << 30) + 1)), "a: more than 1,073,741,824 bytes"),
    "a file of 8 exabytes": (tar(header("a", size=1 << 63)), "more than 1,073,741,824 bytes"),
    "a size in pax": (tar(pax(size=1 << 62), file("a")), "more than 1,073,741,824 bytes"),
    "a size below zero": (tar(header("a", size=-1)), "a size below zero"),
    "a size far below zero": (tar(file("b"), header("a", size=-(1 << 20))), "a size below zero"),
    "a size below zero in octal": (tar(header("a", size=b"-0000000200")), "a size below zero"),
    "a size below zero in pax": (tar(pax(size=-512), file("a")), "a size below zero"),
    "a size that is none": (tar(file("b"), header("a", size=b"zzzzzzzzzzz")), "a faulty header"),
    "a size below zero of a device": (tar(file("b"), header("a", b"6", size=-1024)), SPECIAL),
    "a size below zero of pax": (tar(file("b"), header("p", b"x", size=-512), file("a")), "a header that is too long"),
    "a size below zero of a long name": (tar(file("b"), header("p", b"L", size=-512), file("a")), "a header that is too long"),
    "no end": (file("a"), "it ends early"),
    "no end after a directory": (directory("a"), "it ends early"),
    "an end in a header": (file("a") + file("b")[:300], "it ends early"),
    "an end in a file": (file("a", b"x" * 2_000)[:1_500], "it ends early"),
    "an end in a pax header": (file("b") + pax(path="a" * 600)[:700], "it ends early"),
    "an end after a pax header": (file("b") + pax(path="a"), "it ends early"),
    "an end after a long name": (file("b") + long_name(b"a"), "it ends early"),
    "zeros after a pax header": (tar(file("b"), pax(path="a")), "a faulty header"),
    "a cut gzip": (gzip.compress(tar(file("a", random.Random(1).randbytes(9_000))))[:5_000], "it ends early"),
    "a cut xz": (lzma.compress(tar(file("a", random.Random(1).randbytes(9_000))))[:5_000], "it ends early"),
    "a cut bzip2": (bz2.compress(tar(file("a", random.Random(1).randbytes(9_000))))[:5_000], "it ends early"),
    "a gzip without its sum": (gzip.compress(tar(file("a")))[:-8], "it ends early"),
    "a gzip with another sum": (gzip.compress(tar(file("a")))[:-8] + bytes(8), "what is compressed is faulty"),
    "more after a gzip": (gzip.compress(tar(file("a"))) + b"more", "what is compressed is faulty"),
    "a tar after a tar in gzip": (gzip.compress(tar(file("a"))) + gzip.compress(tar(file("b"))), "something follows its end"),
    "a gzip in a gzip": (gzip.compress(gzip.compress(tar(file("a")))), "no format that is known"),
    "a faulty sum": (tar(file("a"), file("b").replace(b"0000644", b"0000645", 1)), "a faulty header"),
    "a faulty sum at first": (tar(file("b").replace(b"0000644", b"0000645", 1)), "no format that is known"),
    "something after the end": (tar(file("a")) + file("b"), "something follows its end"),
    "a member after one block of zeros": (file("a") + bytes(BLOCK) + tar(file("b")), "something follows its end"),
    "no bytes": (b"", "no format that is known"),
    "a text": (b"hostext-tree 1\nend\n", "no format that is known"),
    "half a block of zeros": (bytes(300), "no format that is known"),
    "noise": (random.Random(2).randbytes(9_000), "no format that is known"),
    "a bomb": (gzip.compress(tar(file("a", bytes(3_000_000)))), "which --most-bytes allows", "--most-bytes=1000000"),
    "a bomb of many files": (gzip.compress(tar(*(file(f"{at}", bytes(1_000)) for at in range(50)))), "which --most-bytes allows", "--most-bytes=40000"),
    "a bomb of hard links": (tar(file("f", bytes(9_000)), *(hard(f"{at}", "f") for at in range(50))), "which --most-bytes allows", "--most-bytes=40000"),
    "a bomb of one name": (tar(*(file("a", bytes(9_000)) for at in range(9))), "which --most-bytes allows", "--most-bytes=40000"),
    "a pax header of ten megabytes": (tar(header("p", b"x", size=10_000_000)), "a header that is too long"),
    "a long name of ten megabytes": (tar(header("p", b"L", size=10_000_000)), "a header that is too long"),
    "a pax header of an exabyte": (tar(header("p", b"x", size=1 << 60)), "a header that is too long"),
    "a thousand pax headers": (tar(*(pax(path="a") for _ in range(1_000)), file("b")), "a faulty header"),
    "ten thousand pax headers": (gzip.compress(tar(file("a"), *(pax(path="a") for _ in range(10_000)), file("b"))), "a faulty header"),
    "three thousand long names": (tar(file("a"), *(long_name(b"b") for _ in range(3_000))), "a faulty header"),
    "a hundred thousand digits": (tar(pax_text(b"1" * 100_000), file("a")), "a number in a header that is too long"),
    "a pax record of no length": (tar(file("a"), pax_text(b"0 path=b\n"), file("c")), "a faulty header"),
    "a hundred and one words of all": (tar(*(pax(b"g", **{f"w{at}": "x"}) for at in range(101)), file("a")), "too many words of all members"),
    "an attribute that is no base 64": (tar(pax(**{"LIBARCHIVE.xattr.user.a": "a" * 5}), file("a")), "a faulty attribute"),
    "a map of holes beyond the file": (tar(sparse(b"1\n4\n9\n", b"abc")), "a faulty map of holes"),
    "a map of holes that goes back": (tar(sparse(b"2\n4\n2\n0\n2\n", b"abc")), "a faulty map of holes"),
    "a map of holes below zero": (tar(sparse(b"1\n-4\n3\n", b"abc")), "a faulty map of holes"),
    "a map of holes without numbers": (tar(sparse(b"x\n", b"abc")), "a faulty header"),
    "a map of holes of a billion": (tar(sparse(b"1000000000\n", b"abc"), file("b", bytes(5_000))), "a faulty header"),
    "a map of holes of many digits": (tar(sparse(b"1" * 5_000, b"abc")), "a faulty header"),
    "a file of an exabyte of holes": (tar(sparse(b"1\n0\n3\n", b"abc", size=1 << 60)), "more than 1,073,741,824 bytes"),
    "an old map of holes beyond the file": (tar(old_sparse(8, (6, 3)) + padded(b"abc")), "a faulty map of holes"),
    "an old map of holes of many blocks": (tar(old_sparse(8, (0, 3), extended=b"\1"), *[b"\x00" * 504 + b"\1" * 8] * 3_000), "a header that is too long"),
    "more in a map of holes than there is": (tar(old_sparse(4_000, (0, 3), (100, 3_000)) + padded(b"abc"), file("b", bytes(9_000))), "a size that leads back"),
    "a character device": (tar(device("null")), f"null: {SPECIAL}\npack: --leave-out-special leaves out devices, sockets and pipes"),
    "a block device": (tar(device("sda", b"4", 8, 0)), f"sda: {SPECIAL}"),
    "a pipe": (tar(device("p", b"6")), f"p: {SPECIAL}"),
    **{f"a member of the kind {kind}": (tar(file("b"), header("a", kind.encode())), f"a: a member of the kind {kind}") for kind in "VMDNZ8"},
    "a path to leave out that isn't there": (tar(file("a")), "--without b: nothing below", "--without=b"),
    "layers of what has none": (tar(file("a")), "no image of a container, of which --layers packs the layers", "--layers"),
    "a loss that isn't wanted": (tar(file("a"), hard("b", "a")), "lost: hard links, which become files of their own: 1", "--strict"),
    "a capability that isn't wanted": (tar(pax(**{CAPABILITY: b"\1\0\0\2"}), file("a")), f"lost: {UNSAID}: 1", "--strict"),
    "a top's owner that isn't wanted": (tar(directory("./", uid=7), file("a")), "lost: the owner 7:0", "--strict"),
    "a user that is too great": (tar(file("b"), file("a", uid=2**32 - 1)), f"a: an owner 4294967295:0, {RANGE}"),
    "a group that is too great": (tar(file("b"), directory("a", gid=2**40)), f"a: an owner 0:1099511627776, {RANGE}"),
    "a user that is far too great": (tar(link("a", "b", uid=2**55)), f"a: an owner {2**55}:0, {RANGE}"),
    "a user below zero": (tar(file("a", uid=-1)), f"a: an owner -1:0, {RANGE}"),
    "a group far below zero": (tar(file("a", gid=-(2**54))), f"a: an owner 0:{-2**54}, {RANGE}"),
    "a user below zero in octal": (tar(file("b"), file("a", uid=b"-000001")), f"a: an owner -1:0, {RANGE}"),
    "a user that is none": (tar(file("b"), file("a", uid=b"root")), "a faulty header"),
    "a user that is too great in pax": (tar(pax(uid=2**32 - 1), file("a")), f"a: an owner 4294967295:0, {RANGE}"),
    "a user of many digits in pax": (tar(pax(uid="9" * 60), file("a")), "a: a faulty owner"),
    "a group below zero in pax": (tar(pax(gid=-1), file("a")), f"a: an owner 0:-1, {RANGE}"),
    **{f"the user {value!r} in pax": (tar(pax(uid=value), file("a", uid=7)), "a: a faulty owner") for value in ("root", "0x7", "1_0", "7.0", "٧", "7 ", "+7")},
    "the group of all members in pax": (tar(pax(b"g", gid="x"), file("a")), "a: a faulty owner"),
    "the owner of a hard link's file": (tar(directory("d"), file("d/f", uid=2**33), hard("a", "d/f")), f"a: an owner {2**33}:0, {RANGE}", "--without=d"),
    "another format than was named": (tar(file("a")), "no package of Debian", "--format=deb"),
    "another format than was named, too": (tar(file("a")), "no image of erofs", "--format=erofs"),
    "a folder that is none": (tar(file("a")), "no folder", "--format=folder"),
    "a tar that is no image": (tar(file("a")), "the image has no such file", "--format=oci"),
    "a whiteout of nothing": (tar(file(".wh.")), "a name that no path has", *MARK),
    "a whiteout of here": (tar(file("a/.wh..")), "a name that no path has", *MARK),
    "a whiteout of above": (tar(file("a/.wh...")), "a name that no path has", *MARK),
    "a whiteout below a link": (tar(link("a", "/etc"), file("a/.wh.b")), "a above it is a link", *MARK),
    "a whiteout below a file": (tar(file("a/.wh.b"), file("a")), "a above it is no directory", *MARK),
    "an opaque file": (tar(file("a"), file("a/.wh..wh..opq")), "it is no directory", *MARK),
    "an opaque link": (tar(file("a/.wh..wh..opq"), link("a", "/etc")), "it is no directory", *MARK),
    "something below a whiteout": (tar(directory(".wh.a"), file(".wh.a/b")), "something below a whiteout", *MARK),
    "no package": (package((b"debian", b"2.0\n")), "no package of Debian"),
    "a package of another version": (package((b"debian-binary", b"3.0\n")), "no package of Debian"),
    "a package without files": (package((b"debian-binary", b"2.0\n")), "a package without files"),
    "a package with a faulty member": (package((b"debian-binary", b"2.0\n")) + b"x" * 60, "a faulty header of a package's member"),
    "a package with a size below zero": (package((b"debian-binary", b"2.0\n"), (b"a", b"")).replace(b"0         `\n", b"-9        `\n"), "a faulty header"),
    "a cut package": (deb(gzip.compress(tar(file("a"))))[:-20], "it ends early"),
    "a package with a name above": (deb(tar(file("../a")), b"data.tar"), "../a: a name with `..`"),
}

NOTED, HOLED = "pack: lost: other extended attributes: 1 ({0}/a)\n", "pack: lost: holes, which are filled: 1 ({0}/s)\n"
LINKED = "pack: lost: hard links, which become files of their own: 1 ({0}/b)\n"
TWICE = "pack: {0}: names that came more than once, of which the last counts: 1 (a)\n"
HOLES = b"\0\0abc\0\0\0"
SPARSE_LINE = f"f 644 8 {digest(HOLES)} s"

# Each archive that is packed: the lines of its tree, what is told, and words.
PACKED = {
    "an empty archive": (tar(), (), ""),
    "a file": (tar(file("a")), (A,), ""),
    "dots and slashes": (tar(directory("./"), file("./d//./a")), ("d 755 d", A.replace(" a", " d/a")), ""),
    "a directory with a slash": (tar(directory("d/", mode=0o1777)), ("d 1777 d",), ""),
    "a directory of old": (tar(header("d/", b"\0", magic=b"", mode=0o700)), ("d 700 d",), ""),
    "a file of old": (tar(file("a", kind=b"\0", magic=b"")), (A,), ""),
    "a contiguous file": (tar(file("a", kind=b"7")), (A,), ""),
    "a prefix": (tar(file("a", prefix="d")), ("d 755 d", A.replace(" a", " d/a")), ""),
    "times of GNU where others have a prefix": (tar(file("a", magic=b"ustar  \0", prefix="14000000000")), (A,), ""),
    "a path of pax": (tar(pax(path="ü" * 100), file("b")), (A.replace(" a", " " + "ü" * 100),), ""),
    "a path of GNU": (tar(long_name(b"n" * 200), file("b")), (A.replace(" a", " " + "n" * 200),), ""),
    "bytes of pax": (tar(pax(hdrcharset="BINARY", path="ü"), file("b")), (A.replace(" a", " ü"),), ""),
    "a comment": (tar(pax(b"g", comment="of git"), file("a")), (A,), ""),
    "a size in base 256": (tar(header("a", size=b"\x80" + bytes(10) + b"\3"), padded(b"abc")), (A,), ""),
    "a size with a blank": (tar(header("a", size=b"         3 "), padded(b"abc")), (A,), ""),
    "a mode with a kind": (tar(file("a", mode=0o104755)), (A.replace("644", "4755"),), ""),
    "a hard link": (tar(file("a"), hard("b", "./a")), (A, A.replace(" a", " b")), LINKED),
    "a hard link to a link": (tar(link("a", "x y"), hard("b", "a")), ("l 3 x y a", "l 3 x y b"), LINKED),
    "an end of one block": (file("a") + bytes(BLOCK), (A,), ""),
    "a long end": (tar(file("a")) + bytes(20 * BLOCK), (A,), ""),
    "a name that comes twice": (tar(file("a", b"no"), file("a")), (A,), TWICE),
    "a directory in the place of a file": (tar(file("a", b"no"), directory("a"), file("a/b")), ("d 755 a", A.replace(" a", " a/b")), TWICE),
    "a link in the place of a file": (tar(file("a", b"no"), link("a", "b")), ("l 1 b a",), TWICE),
    "a file in the place of a link": (tar(link("a", "/etc/passwd"), file("a")), (A,), TWICE),
    "a directory in the place of a link": (tar(link("a", "/etc"), directory("a"), file("a/b")), ("d 755 a", A.replace(" a", " a/b")), TWICE),
    "a file in the place of an empty directory": (tar(directory("a"), file("a")), (A,), TWICE),
    "a directory that comes after what is in it": (tar(file("d/a"), directory("d", mode=0o700)), ("d 700 d", A.replace(" a", " d/a")), ""),
    "a whiteout of overlayfs": (tar(device("w", major=0, minor=0)), ("w w",), ""),
    "an opaque directory of overlayfs": (tar(pax(**{"SCHILY.xattr.user.overlay.opaque": "y"}), directory("d")), ("o 755 d",), ""),
    "owners": (tar(directory("d", uid=7), file("d/a", uid=1000, gid=5), link("l", "x", gid=9)), ("d 755:7:0 d", OWNED.replace(" a", " d/a"), "l 1:0:9 x l"), ""),
    "owners that are to be root's": (tar(directory("d", uid=-1), file("d/a", gid=2**40), link("l", "x", uid=9)), ("d 755 d", A.replace(" a", " d/a"), "l 1 x l"), "", "--root-owned"),
    "owners that are to be kept": (tar(file("a", uid=1000, gid=5)), (OWNED,), "", "--keep-owners"),
    "an owner in base 256": (tar(file("a", uid=2**32 - 2, gid=2**21)), (A.replace("644", "644:4294967294:2097152"),), ""),
    "an owner of eight digits": (tar(file("b"), file("a", uid=b"00001750", gid=b"     5 ")), (OWNED, A.replace(" a", " b")), ""),
    "an owner in pax": (tar(pax(uid=1000, gid="0005"), file("a", uid=3, gid=4)), (OWNED,), ""),
    "a root in pax": (tar(pax(uid=0), file("a", uid=3, gid=0)), (A,), ""),
    "an owner of all members": (tar(pax(b"g", uid=1000), file("a", gid=5), pax(uid=0), file("b")), (OWNED, A.replace(" a", " b")), ""),
    "names of owners don't count": (tar(pax(uname="root", gname="root"), file("a", uid=1000, gid=5)), (OWNED,), ""),
    "owners of what isn't told": (tar(directory("./", uid=0), device("w", major=0, minor=0, uid=2**40), file("x/a", uid=2**40), file("y/.wh.a")), ("w w", "d 755 y", A.replace(" a", " y/.wh.a")), "", "--without=x"),
    "the owner of the top": (tar(directory("./", uid=7, gid=8), file("a")), (A,), "pack: lost: the owner 7:8 of {0} itself, which is 0:0 where a command puts it\n"),
    "the owner of a directory that didn't come": (tar(file("d/a", uid=1000, gid=5)), ("d 755 d", OWNED.replace(" a", " d/a")), ""),
    "the owner of a hard link": (tar(file("a", uid=1000, gid=5), hard("b", "a", uid=3)), (OWNED, OWNED.replace(" a", " b")), LINKED),
    "owners below usr": (tar(directory("bin", uid=3), file("bin/a", uid=1000, gid=5)), ("d 755 usr", "d 755:3:0 usr/bin", OWNED.replace(" a", " usr/bin/a")), "", "--usr-merge"),
    "a capability": (tar(pax(**{CAPABILITY: b"\1\0\0\2" + bytes([0, 4]) + bytes(14)}), file("a")), (CAPABLE,), ""),
    "a capability of libarchive": (tar(pax(**{"LIBARCHIVE.xattr.security.capability": "AQAAAgAEAAAAAAAAAAAAAAAAAAA"}), file("a")), (CAPABLE,), ""),
    "both forms of a capability": (tar(pax(**{"LIBARCHIVE.xattr.security.capability": "AQAAAg", CAPABILITY: b"\1\0\0\2" + bytes([0, 4]) + bytes(14)}), file("a")), (CAPABLE,), ""),
    "a capability of a user's": (tar(pax(**{CAPABILITY: b"\0\0\0\3" + b"\xff" * 16 + b"\7\0\0\0"}), file("a", uid=1000, gid=5)), (OWNED.replace(" 3", ":0:18446744073709551615:18446744073709551615:7 3"),), ""),
    "a capability of a hard link": (tar(pax(**{CAPABILITY: b"\1\0\0\2" + bytes([0, 4]) + bytes(14)}), file("a"), hard("b", "a")), (CAPABLE, CAPABLE.replace(" a", " b")), LINKED),
    "a capability of a directory": (tar(pax(**{CAPABILITY: b"\1\0\0\2" + bytes(16)}), directory("a")), ("d 755 a",), UNTOLD),
    "a capability of a link": (tar(pax(**{CAPABILITY: b"\1\0\0\2" + bytes(16)}), link("a", "b")), ("l 1 b a",), UNTOLD),
    "setuid with its owner": (tar(file("a", mode=0o6755, uid=1000, gid=5)), (OWNED.replace("644", "6755"),), ""),
    "an attribute": (tar(pax(**{"LIBARCHIVE.xattr.user.a%20b": "YQ"}), file("a")), (A,), NOTED),
    "an access list": (tar(pax(**{"SCHILY.acl.access": "user::rw-"}), file("a")), (A,), NOTED),
    "holes": (tar(sparse(b"1\n2\n3\n", b"abc")), (SPARSE_LINE,), HOLED),
    "holes of old": (tar(old_sparse(8, (2, 3)), padded(b"abc")), (SPARSE_LINE,), HOLED),
    "whiteouts that are plain names": (tar(file(".wh.a")), (A.replace(" a", " .wh.a"),), ""),
    "a whiteout": (tar(file("d/.wh.b"), file("d/a")), ("d 755 d", A.replace(" a", " d/a"), "w d/b"), "", *MARK),
    "a whiteout beside a directory": (tar(file(".wh.d"), directory("d", mode=0o700)), ("o 700 d",), "", *MARK),
    "a whiteout after what is in a directory": (tar(file("d/a"), file(".wh.d")), ("o 755 d", A.replace(" a", " d/a")), "", *MARK),
    "a whiteout beside a file": (tar(file("a"), file(".wh.a")), (A,), "", *MARK),
    "a whiteout beside a link": (tar(file(".wh.a"), link("a", "b")), ("l 1 b a",), "", *MARK),
    "a directory that is marked opaque": (tar(directory("d", mode=0o700), file("d/.wh..wh..opq"), file("d/a")), ("o 700 d", A.replace(" a", " d/a")), "", *MARK),
    "folders of aufs": (tar(directory(".wh..wh.plnk"), file(".wh..wh.plnk/1"), hard("a", ".wh..wh.plnk/1")), (A,), "pack: lost: hard links, which become files of their own: 1 ({0}/a)\n", *MARK),
    "special ones that are left out": (tar(file("a"), device("null"), device("p", b"6")), (A,), "pack: left out: {0}/null\npack: left out: {0}/p\n", "--leave-out-special"),
    "paths that are left out": (tar(file("a"), device("b/null"), file("b/c\n"), directory("c/d"), file("c/de")), (A, "d 755 c", A.replace(" a", " c/de")), "", "--without=/b", "--without=c/d"),
    "a hard link to what is left out": (tar(file("d/a"), hard("a", "d/a")), (A,), "pack: lost: hard links, which become files of their own: 1 ({0}/a)\n", "--without=d"),
    "what stands beside usr": (tar(file("bin/a"), file("usr/bin/b")), ("d 755 usr", "d 755 usr/bin", A.replace(" a", " usr/bin/a"), A.replace(" a", " usr/bin/b")), "", "--usr-merge"),
    "no usr": (tar(file("bin/a")), ("d 755 usr", "d 755 usr/bin", A.replace(" a", " usr/bin/a")), "", "--usr-merge"),
    "a link beside usr": (tar(link("bin", "usr/bin"), file("usr/a")), ("l 7 usr/bin bin", "d 755 usr", A.replace(" a", " usr/a")), "", "--usr-merge"),
    "gzip": (gzip.compress(tar(file("a"))), (A,), ""),
    "gzip in two parts, with zeros": (gzip.compress(tar(file("a"))[:700]) + gzip.compress(tar(file("a"))[700:]) + bytes(99), (A,), ""),
    "xz": (lzma.compress(tar(file("a"))), (A,), ""),
    "bzip2": (bz2.compress(tar(file("a"))), (A,), ""),
    "a package": (deb(gzip.compress(tar(directory("./"), file("./a")))), (A,), ""),
    "a package in xz": (deb(lzma.compress(tar(file("a"))), b"data.tar.xz"), (A,), ""),
    "what begins as an image": (tar(directory("blobs"), file("index.json")), ("d 755 blobs", A.replace(" a", " index.json")), ""),
}


def stands_beside(place):
    return {str(path.relative_to(place.store.parent)): path.read_bytes() if path.is_file() else None for path in place.store.parent.rglob("*")}


def check_resource(depot, name, what):
    """That a resource is what its text says. The lines of the text."""
    text = (depot / f"{name}.tree").read_bytes()
    try:
        entries = read_tree(text)
    except Exception as reason:
        raise Failed(f"{what}: its text is {shortened(text)}: {reason}") from None
    found = {str(path.relative_to(depot / name)): digest(path.read_bytes()) for path in (depot / name).rglob("*") if path.is_file()}
    listed = {line.split(" ", 4)[4]: line.split(" ")[3] for line in text.decode().splitlines() if line.startswith("f ")}
    if found != listed:
        raise Failed(f"{what}: its files are {shortened(found)}, and not {shortened(listed)}")
    return entries


def what_is_hostile_is_refused_by_name(place):
    archive, depot = beside(place, "x.tar"), beside(place, "packed")
    with Packs(place.program) as packs:
        for name, (text, reason, *words) in REFUSED.items():
            archive.write_bytes(text)
            before = stands_beside(place)
            status, told = packs.run(*words, archive, depot, "r")
            lines = told.splitlines()
            if status != 1 or not lines or not all(line.startswith("pack: ") for line in lines) or reason not in told:
                raise Failed(f"{name}: the status is {status}, and what is told {shortened(told)}")
            if stands_beside(place) != before:
                raise Failed(f"{name}: there stand {shortened(sorted(stands_beside(place)))}")


def form_of(lines):
    """What makes a tree text of such lines."""
    if any(re.match("[dofl] [0-9]+:", line) for line in lines):
        return owned
    return removing if any(line[:2] in ("o ", "w ") for line in lines) else tree_text


def what_is_unusual_is_packed(place):
    archive, depot = beside(place, "x.tar"), beside(place, "packed")
    with Packs(place.program) as packs:
        for name, (text, lines, said, *words) in PACKED.items():
            archive.write_bytes(text)
            status, told = packs.run(*words, archive, depot, "r")
            if (status, told) != (0, said.format(archive)):
                raise Failed(f"{name}: the status is {status}, and what is told {shortened(told)}")
            check_resource(depot, "r", name)
            wanted = form_of(lines)(*lines)
            if (depot / "r.tree").read_bytes() != wanted:
                raise Failed(f"{name}: its text is {shortened((depot / 'r.tree').read_bytes())}")
            shutil.rmtree(depot)


def broken(files, path, content):
    """The files of an image, one of which is another one, or is missing."""
    found = {**files, path: content}
    return {name: text for name, text in found.items() if text is not None}


def pointing(files, **changed):
    """The files of a layout whose index is another one."""
    index = json.loads(files["index.json"])
    return broken(files, "index.json", json.dumps({**index, "manifests": [{**index["manifests"][0], **changed}]}).encode())


def of_manifest(**changed):
    """The files of a layout whose manifest has something else."""
    files = layout(tar(file("a")))
    index = json.loads(files["index.json"])
    manifest = json.loads(files[f"blobs/sha256/{index['manifests'][0]['digest'][7:]}"])
    content = json.dumps({**manifest, **changed}).encode()
    return pointing({**files, f"blobs/sha256/{digest(content)}": content}, digest=f"sha256:{digest(content)}")


ONE, TWO = layout(tar(file("a"))), docker(tar(file("a")))
LISTED = json.loads(ONE["index.json"])["manifests"][0]
# Images of containers, and what a line has of why each is refused.
IMAGES = {
    "an index that is no JSON": (broken(ONE, "index.json", b"{"), "index.json: no JSON"),
    "an index that is a list": (broken(ONE, "index.json", b"[]"), "`manifests` is missing, or is something else"),
    "an index of a word": (broken(ONE, "index.json", b'{"manifests": "a"}'), "`manifests` is missing"),
    "an index of numbers": (broken(ONE, "index.json", b'{"manifests": [1]}'), "`digest` is missing"),
    "an index that is deep": (broken(ONE, "index.json", b"[" * 200_000), "index.json: no JSON"),
    "half of a character": (broken(ONE, "index.json", b'{"manifests": [{"digest": "\\ud800"}]}'), "index.json: no JSON"),
    "a digest that leads elsewhere": (pointing(ONE, digest="sha256:../../../../etc/passwd"), "no digest that is known"),
    "a digest that isn't known": (pointing(ONE, digest="md5:" + "0" * 32), "no digest that is known"),
    "a manifest that is missing": (pointing(ONE, digest="sha256:" + "0" * 64), "blobs/sha256/" + "0" * 64),
    "an index of itself": (broken(ONE, "index.json", b'{"manifests": [' + json.dumps(LISTED).encode() + b", 1]}"), "`digest` is missing"),
    "two images": (broken(ONE, "index.json", json.dumps({"manifests": [LISTED, {**LISTED, "annotations": {}}]}).encode()), "2 images; --image names one: one sha256:"),
    "no image": (broken(ONE, "index.json", b'{"manifests": []}'), "it has no image"),
    "another name": (ONE, "no image two; there are one sha256:", "--image=two"),
    "layers that are none": (of_manifest(layers={}), "`layers` is missing"),
    "a layer without a digest": (of_manifest(layers=[{}]), "`digest` is missing"),
    "a layer that is missing": (of_manifest(layers=[{"digest": "sha256:" + "1" * 64}]), "blobs/sha256/" + "1" * 64),
    "a thousand and one layers": (of_manifest(layers=[{"digest": "sha256:" + "1" * 64}] * 1_001), "more than 1,000 layers"),
    "a layer that is no archive": (of_manifest(layers=[{"digest": f"sha256:{digest(ONE['oci-layout'])}"}]), "blobs/sha256/"),
    "a layer with a name above": (layout(tar(file("../a"))), "../a: a name with `..`"),
    "a directory that hides the top": (layout(tar(file(".wh..wh..opq"))), "it hides all that is below it", "--layers"),
    "a file over a directory that didn't come": (layout(tar(link("lib", "usr/lib")), tar(file("lib/a"))), "lib: no directory of this name came with what is below it, and a lower layer has a link there"),
    "a file that leads elsewhere": (docker(tar(file("a"))) | {"manifest.json": b'[{"Config": "/etc/passwd", "Layers": []}]'}, "/etc/passwd"),
    "a layer that leads elsewhere": (broken(TWO, "manifest.json", TWO["manifest.json"].replace(b"/layer.tar", b"/../../../../etc/passwd")), "the image has no such file"),
    "no list of images": (broken(TWO, "manifest.json", b"{}"), "it has no image"),
    "more layers than are listed": (broken(TWO, "manifest.json", TWO["manifest.json"].replace(b"layer.tar\"]", b'layer.tar", "b"]')), "its layers are others than those of its configuration"),
    "a layer with another digest": (broken(TWO, next(iter(TWO)), tar(file("b"))), "its digest is"),
}


def images_are_refused_by_name(place):
    """Each as an archive and, of layouts, as a folder."""
    depot, archive, folder = (beside(place, name) for name in ("packed", "x.tar", "layout"))
    with Packs(place.program) as packs:
        for name, (files, reason, *words) in IMAGES.items():
            archive.write_bytes(archive_of(files))
            sources = [archive]
            if "oci-layout" in files:
                shutil.rmtree(folder, ignore_errors=True)
                sources.append(folder_of(folder, files))
            for source in sources:
                status, told = packs.run(*words, source, depot, "r")
                if status != 1 or reason not in told or depot.exists():
                    raise Failed(f"{name}, {source.name}: the status is {status}, and what is told {shortened(told)}")


def a_blob_with_another_digest_is_refused(place):
    files = layout(tar(file("a", b"abd")))
    path = next(path for path, content in files.items() if content[:2] == b"\x1f\x8b")
    folder = folder_of(beside(place, "layout"), {**files, path: gzip.compress(tar(file("a")))})
    written, told, status = tool(place, "pack", folder, place.depot, "r")
    if status != 1 or b"its digest is" not in told or left(place.depot):
        raise Failed(f"the status is {status}, and what is told {told}")
    (folder / path).unlink()
    (folder / path).symlink_to("/etc/passwd")
    written, told, status = tool(place, "pack", folder, place.depot, "r")
    if status != 1 or path.encode() not in told or left(place.depot):
        raise Failed(f"the status is {status}, and what is told {told}")


NAMES = "a", "b", "c d", "ü"


CAPABILITIES = {}, {}, {CAPABILITY: b"\1\0\0\2" + bytes([0, 4]) + bytes(14)}


def layer_of(rng, owners, depth=2, above=""):
    """The members of a layer, with whiteouts and marks in it, and no member for some of its directories."""
    found = []
    for name in NAMES:
        path, kind = above + name, rng.choice(("none", "none", "file", "link", "directory", "directory", "bare", "whiteout", "both", "opaque"))
        if kind == "file":
            words = rng.choice(CAPABILITIES) if owners[1:] else {}
            found.append((pax(**words) if words else b"") + file(path, rng.choice((b"", b"abc", b"def")), mode=rng.choice((0o644, 0o755, 0o4755)), uid=rng.choice(owners)))
        if kind == "link":
            found.append(link(path, rng.choice(("a", "../b c")), gid=rng.choice(owners)))
        if kind in ("whiteout", "both"):
            found.append(file(f"{above}.wh.{name}", b""))
        if kind in ("directory", "both", "opaque"):
            found.append(directory(path, mode=rng.choice((0o755, 0o700, 0o1777)), uid=rng.choice(owners)))
        if kind in ("directory", "both", "opaque", "bare") and depth:
            found += layer_of(rng, owners, depth - 1, f"{path}/")
        if kind == "opaque":
            found.append(file(f"{path}/.wh..wh..opq", b""))
    rng.shuffle(found)
    return found


def random_layers_are_laid_as_the_program_lays_them(place):
    """Each image is packed as one tree and by its layers, whose texts `layer` lays over one another. Every second time the tool takes
    nothing for short enough for the program, and lays the layers alone."""
    rng, archive, depot, owners = random.Random(7), beside(place, "x.tar"), beside(place, "packed"), (0, 0, 5) if knows_owners(place.program) else (0,)
    tools = beside(place, "tools")
    shutil.copytree(TOP / "tools", tools)
    whole = (tools / "reading.py").read_text()
    (tools / "reading.py").write_text(whole.replace("MOST_SOURCE = 16_777_216", "MOST_SOURCE = 0"))
    (tools / "layers.py").write_text((tools / "layers.py").read_text().replace("def compare(tree, texts):", "def compare(tree, texts):\n    raise Refused('it asks the program')\n", 1))
    refused = packed = 0
    with Packs(place.program) as packs, Packs(place.program, tools) as alone:
        for at in range(LAYERS):
            layers = [tar(*layer_of(rng, owners)) for _ in range(rng.randrange(1, 5))]
            archive.write_bytes(archive_of((layout if at % 2 else docker)(*layers)))
            status, told = (packs, alone)[at // 2 % 2].run("--quiet", archive, depot, "one")
            if status:
                if "no directory of this name came" not in told:
                    raise Failed(f"what is told is {shortened(told)}")
                refused += 1
                continue
            expect(packs.run("--quiet", "--layers", archive, depot, "all"), (0, ""))
            texts = b"".join((depot / "all" / f"{number:02}.tree").read_bytes() for number in range(1, len(layers) + 1))
            expect(run(place.program, LAYER, texts), ((depot / "one.tree").read_bytes(), b"", 0))
            check_resource(depot, "one", "an image")
            shutil.rmtree(depot)
            packed += 1
    if not refused or packed < LAYERS // 2:
        raise Failed(f"{packed} images were packed, and {refused} refused")


def a_directory_has_the_owner_of_the_topmost_layer_that_has_it(place):
    """Also where that isn't the layer of what is in it; and root's, where a layer between them took the directory away."""
    if not knows_owners(place.program):
        raise Skipped("the program knows no owners")
    archive, upper = beside(place, "x.tar"), (file("c/a"), file("d/a"), file("e/a"))
    lower = tar(*(directory(name, mode=0o700, uid=7, gid=8) for name in "cde"), link("l", "x", uid=7))
    archive.write_bytes(archive_of(layout(lower, tar(directory("d", uid=9), file(".wh.e"), link("l", "y", gid=5)), tar(*upper))))
    expect(tool(place, "pack", archive, place.depot, "one"), (b"", b"", 0))
    expect(tool(place, "pack", "--layers", archive, place.depot, "all"), (b"", b"", 0))
    files = [A.replace(" a", f" {name}/a") for name in "cde"]
    wanted = owned("d 700:7:8 c", files[0], "d 755:9:0 d", files[1], "d 755 e", files[2], "l 1:0:5 y l")
    for resource, text in ("one", wanted), ("all/03", owned(*wanted.decode().splitlines()[1:-2])):
        if (place.depot / f"{resource}.tree").read_bytes() != text:
            raise Failed(f"the text of {resource} is {shortened((place.depot / f'{resource}.tree').read_bytes())}")


CALLS = [
    *(what_is_hostile_is_refused_by_name, what_is_unusual_is_packed, images_are_refused_by_name, a_blob_with_another_digest_is_refused),
    *(random_layers_are_laid_as_the_program_lays_them, a_directory_has_the_owner_of_the_topmost_layer_that_has_it),
]
scenes = named(*map(in_a_place, CALLS))
