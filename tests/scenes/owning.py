"""Owners and the capabilities of files as tree-text and pack read them: of folders, as root and as somebody else, with each option, and of
archives and images that real tools make of such a folder."""
import os
import shutil
import subprocess

from scenes.devices import NOBODY
from scenes.folders import make_whiteout
from scenes.keeping import CAPABILITY, need_root
from scenes.running import ABC, SECONDS, Failed, Skipped, expect, named, owned, shortened, tree_text
from scenes.stores import in_a_place
from scenes.tars import Packs, file, pax, tar
from scenes.tools import beside, holds_nothing, tool, tool_of_nobody

FINE = b"", b"", 0
# The attribute of a capability whose root is another one.
OF_A_USER = bytes.fromhex("00000003002000000100000000000000ffffffffe8030000")
NEITHER = b"pack: error: argument --root-owned: not allowed with argument --keep-owners"
UNSAID = "file capabilities that no tree text says"

# The lines of what `given` makes, and what they are where nobody's own is root's, and where all is.
LINES = (
    *("d 755 a", f"f 755:0:0:1:1024:0:0 3 {ABC} a/cap", f"f 644:1000:1000:0:8192:18446744069414584321:1000 3 {ABC} a/ns"),
    *("d 2755:65534:65534 b", "l 1:65534:65534 x b/link", f"f 644:65534:5 3 {ABC} b/other", f"f 6711:65534:65534 3 {ABC} b/setid"),
    *("l 1:7:4294967294 x c", "d 700:0:9 d"),
)
OF_NOBODY = tuple(line.replace(":65534:65534", "") for line in LINES)
OF_ROOT = (
    *("d 755 a", f"f 755:0:0:1:1024:0:0 3 {ABC} a/cap", f"f 644:0:0:0:8192:18446744069414584321:1000 3 {ABC} a/ns"),
    *("d 2755 b", "l 1 x b/link", f"f 644 3 {ABC} b/other", f"f 6711 3 {ABC} b/setid", "l 1 x c", "d 700 d"),
)
OWNERS = {"a/ns": (1000, 1000), "b": (NOBODY, NOBODY), "b/other": (NOBODY, 5), "b/setid": (NOBODY, NOBODY), "b/link": (NOBODY, NOBODY), "c": (7, 2**32 - 2), "d": (0, 9)}
MODES = {"a/cap": 0o755, "b": 0o2755, "b/setid": 0o6711, "d": 0o700}


def given(folder):
    """A folder with owners and capabilities, if they can be given here."""
    need_root()
    for name in "a", "b", "d":
        (folder / name).mkdir(parents=True)
    for name in "a/cap", "a/ns", "b/other", "b/setid":
        (folder / name).write_bytes(b"abc")
    for name in "b/link", "c":
        (folder / name).symlink_to("x")
    try:
        for name, owner in OWNERS.items():
            os.chown(folder / name, *owner, follow_symlinks=False)
        for name, value in ("a/cap", CAPABILITY), ("a/ns", OF_A_USER):
            os.setxattr(folder / name, "security.capability", value)
    except OSError as error:
        raise Skipped(f"no owner or capability can be given here: {error.strerror}") from None
    for name, mode in MODES.items():
        (folder / name).chmod(mode)
    return folder


def is_packed(place, resource, lines):
    text = (place.depot / f"{resource}.tree").read_bytes()
    if text != owned(*lines):
        raise Failed(f"the text of {resource} is {shortened(text)}")


def root_has_each_owner_and_capability_as_it_is(place):
    folder = given(beside(place, "folder"))
    for at, (options, lines) in enumerate((((), LINES), (("--keep-owners",), LINES), (("--root-owned",), OF_ROOT))):
        expect(tool(place, "tree-text", *options, folder), (owned(*lines), b"", 0))
        expect(tool(place, "pack", "--strict", *options, folder, place.depot, f"r{at}"), FINE)
        is_packed(place, f"r{at}", lines)
    make_whiteout(folder / "a/w")
    os.chown(folder / "a/w", 7, 7)
    os.chown(folder, 7, 8)
    expect(tool(place, "tree-text", "--root-owned", folder), (owned(*OF_ROOT[:3], "w a/w", *OF_ROOT[3:]), b"", 0))
    expect(tool(place, "pack", "--root-owned", "--strict", folder, place.depot, "w"), FINE)
    told = f"pack: lost: the owner 7:8 of {folder} itself, which is 0:0 where a command puts it\n".encode()
    expect(tool(place, "pack", folder, place.depot, "top"), (b"", told, 0))
    expect(tool(place, "pack", "--strict", folder, place.depot, "none"), (b"", told, 1))


def what_is_somebodys_own_becomes_roots_and_is_told(place):
    """Of who has the entries; what has a group of others keeps it, and so does all that others have."""
    folder = given(beside(place, "folder"))
    (folder / "d").chmod(0o755)
    lines, kept = ((*some[:-1], "d 755:0:9 d") for some in (OF_NOBODY, LINES))
    os.chown(folder, NOBODY, NOBODY)
    place.store.parent.chmod(0o755)
    place.depot.chmod(0o777)
    own = f"your own, which become root's: 3 ({folder}/b, {folder}/b/link, {folder}/b/setid); --keep-owners keeps their owner"
    told = own, f"setuid and setgid, which become root's: 1 ({folder}/b/setid)"
    for name, words in ("tree-text", ()), ("pack", (place.depot, "r")):
        lines_told = "".join(f"{name}: {line}\n" for line in told).encode()
        expect_text(tool_of_nobody(place, name, folder, *words), lines, lines_told, place, words)
        expect_text(tool_of_nobody(place, name, "--quiet", folder, *words), lines, b"", place, words)
        expect_text(tool_of_nobody(place, name, "--root-owned", folder, *words), (*OF_ROOT[:-1], "d 755 d"), b"", place, words)
    expect_text(tool_of_nobody(place, "tree-text", "--keep-owners", folder), kept, b"", place, ())
    top = f"pack: lost: the owner {NOBODY}:{NOBODY} of {folder} itself, which is 0:0 where a command puts it\n".encode()
    expect_text(tool_of_nobody(place, "pack", "--keep-owners", folder, place.depot, "r"), kept, top, place, ("r",))
    expect_text(tool_of_nobody(place, "pack", "--strict", folder, place.depot, "r"), lines, lines_told, place, ("r",))
    written, said, status = tool_of_nobody(place, "pack", "--keep-owners", "--root-owned", folder, place.depot, "r")
    expect((written, said.splitlines()[-1], status), (b"", NEITHER, 2))


def expect_text(found, lines, told, place, words):
    """That tree-text wrote these lines, or pack, after whose words it is looked for in the depot, from where it goes again."""
    written, said, status = found
    expect((said, status), (told, 0))
    if words:
        expect(written, b"")
        is_packed(place, "r", lines)
        shutil.rmtree(place.depot / "r")
        (place.depot / "r.tree").unlink()
    elif written != owned(*lines):
        raise Failed(f"the text is {shortened(written)}")


# Python is started with a call that gives other bytes than the attribute has, or fails: by its number of the run.
TEARS = """import errno
import os

asked = 0


def torn(_handle, _name):
    global asked
    asked += 1
    if asked > {whole}:
        {does}
    return bytes.fromhex("{value}")


os.getxattr = torn
"""
TORN, FAILS = "return b'\\1\\0\\0\\2'", "raise OSError(errno.EOVERFLOW, os.strerror(errno.EOVERFLOW))"


def around(place, does, whole):
    folder = beside(place, "tears")
    folder.mkdir(exist_ok=True)
    (folder / "sitecustomize.py").write_text(TEARS.format(does=does, whole=whole, value=CAPABILITY.hex()))
    return {**os.environ, "HOSTEXT": str(place.program), "PYTHONPATH": str(folder)}


def a_capability_that_no_text_says_is_told_or_refused(place):
    """Linux takes none, so that the call is another one; it is told too where it fails, as in a namespace where a root is unknown."""
    folder = given(beside(place, "folder"))
    lines = [line.replace(":0:0:1:1024:0:0", "").replace(":0:8192:18446744069414584321:1000", "") for line in LINES]
    told = f"lost: {UNSAID}: 2 ({folder}/a/cap, {folder}/a/ns)\n"
    for at, does in enumerate((TORN, FAILS)):
        env = around(place, does, 0)
        expect(tool(place, "tree-text", folder, env=env), (owned(*lines), f"tree-text: {told}".encode(), 0))
        expect(tool(place, "pack", folder, place.depot, f"r{at}", env=env), (b"", f"pack: {told}".encode(), 0))
        is_packed(place, f"r{at}", lines)
        expect(tool(place, "pack", "--strict", folder, place.depot, "s", env=env), (b"", f"pack: {told}".encode(), 1))
    shutil.rmtree(place.depot)
    place.depot.mkdir()
    said = f"pack: {folder}/a/cap: it changed meanwhile\n".encode()
    expect(tool(place, "pack", folder, place.depot, "r", env=around(place, TORN, 2)), (b"", said, 1))
    holds_nothing(place.depot)


MAGICS = b"\1\0\0\2", b"\1\0\0\3"


def torn_capabilities_of_archives_are_told(place):
    """Each of up to 40 bytes, of which two are whole, by the first four bytes of each form and by others."""
    archive, depot = beside(place, "x.tar"), beside(place, "packed")
    whole = {(20, b"\1\0\0\2"): "f 644:0:0:1:0:0:0", (24, b"\1\0\0\3"): "f 644:0:0:1:0:0:0"}
    with Packs(place.program) as packs:
        for magic in *MAGICS, b"\1\0\0\1", b"\2\0\0\2", b"\1\1\0\3":
            for size in range(41) if magic in MAGICS else (20, 24):
                archive.write_bytes(tar(pax(**{"SCHILY.xattr.security.capability": magic.ljust(size, b"\0")[:size]}), file("a")))
                begin = whole.get((size, magic))
                said = "" if begin else f"pack: lost: {UNSAID}: 1 ({archive}/a)\n"
                expect(packs.run(archive, depot, "r"), (0, said))
                text, wanted = (depot / "r.tree").read_bytes(), owned(f"{begin} 3 {ABC} a") if begin else tree_text(f"f 644 3 {ABC} a")
                if text != wanted:
                    raise Failed(f"of {magic} with {size} bytes the text is {shortened(text)}")
                shutil.rmtree(depot)


def need(*words, **options):
    """Runs a tool that may be missing, or too old for what is asked."""
    if not shutil.which(words[0]):
        raise Skipped(f"there is no {words[0]}")
    ended = subprocess.run(words, stdin=subprocess.DEVNULL, capture_output=True, timeout=SECONDS, **options)
    if ended.returncode:
        raise Skipped(f"{words[0]} makes nothing of it: {shortened(ended.stderr)}")


def archives_of_real_tools_have_the_folders_owners(place, *words, ending="tar"):
    folder, made = given(beside(place, "folder")), beside(place, f"made.{ending}")
    need(*(str(made) if word == "MADE" else str(folder) if word == "FOLDER" else word for word in words))
    expect(tool(place, "pack", "--strict", made, place.depot, "r"), FINE)
    is_packed(place, "r", LINES)
    expect(tool(place, "pack", "--strict", "--root-owned", made, place.depot, "s"), FINE)
    is_packed(place, "s", OF_ROOT)


def a_tar_of_gnu_tar_has_its_owners(place):
    words = "--sort=name", "--format=pax", "--xattrs", "--xattrs-include=security.capability", "-C", "FOLDER", "-cf", "MADE", "."
    archives_of_real_tools_have_the_folders_owners(place, "tar", *words)


def a_tar_of_bsdtar_has_its_owners(place):
    archives_of_real_tools_have_the_folders_owners(place, "bsdtar", "--format=pax", "--xattrs", "-C", "FOLDER", "-cf", "MADE", ".")


def an_image_of_squashfs_has_its_owners(place):
    archives_of_real_tools_have_the_folders_owners(place, "mksquashfs", "FOLDER", "MADE", "-quiet", "-no-progress", ending="squashfs")


def an_image_of_erofs_has_its_owners(place):
    archives_of_real_tools_have_the_folders_owners(place, "mkfs.erofs", "MADE", "FOLDER", ending="erofs")


CALLS = [
    *(root_has_each_owner_and_capability_as_it_is, what_is_somebodys_own_becomes_roots_and_is_told, a_capability_that_no_text_says_is_told_or_refused),
    *(torn_capabilities_of_archives_are_told, a_tar_of_gnu_tar_has_its_owners, a_tar_of_bsdtar_has_its_owners),
    *(an_image_of_squashfs_has_its_owners, an_image_of_erofs_has_its_owners),
]
scenes = named(*map(in_a_place, CALLS))
