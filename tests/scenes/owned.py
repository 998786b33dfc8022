"""Owners of entries and capabilities of files: that tools/unpack gives them back in a folder, a tar and images of file systems, that all
of the way from a folder to a folder keeps them, and that what can't be given is told."""
import io
import os
import shutil
import stat
import subprocess
import tarfile
from pathlib import Path

from scenes.chroots import mount, need_mounts, with_own_mounts
from scenes.devices import NOBODY
from scenes.keeping import FINE, mode_of, need_root, read_by_nobody
from scenes.neighbours import Slow
from scenes.running import ABC, SECONDS, Failed, Skipped, expect, named, shortened, tree_text
from scenes.serving import fetch, publish, serving
from scenes.stores import DONE, digest, in_a_place
from scenes.tools import TOOLS, beside, tool, tool_of_nobody
from scenes.unpacking import around, need

CAPABILITY = "security.capability"
# What cap_net_raw=ep is, and a capability of each bit with a root of its own, as Linux has them.
NET_RAW = bytes.fromhex("01000002 00200000 00000000 00000000 00000000")
ALL_BITS = bytes.fromhex("00000003 ffffffff 05000000 ffffffff 00000000 e8030000")
# Each entry as a line of a tree text, and as Linux tells it: the path, its kind and mode, its owner, its target, its capability.
ENTRIES = [
    ("d 2750:1000:50 a", "a", 0o42750, 1000, 50, None, None),
    (f"f 4755:3000000:4000000 3 {ABC} a/far", "a/far", 0o104755, 3_000_000, 4_000_000, None, None),
    (f"f 755:0:0:1:8192:0:0 3 {ABC} a/ping", "a/ping", 0o100755, 0, 0, None, NET_RAW),
    (f"f 2711:1000:0:0:18446744073709551615:5:1000 3 {ABC} a/rooted", "a/rooted", 0o102711, 1000, 0, None, ALL_BITS),
    (f"f 6755 3 {ABC} a/su", "a/su", 0o106755, 0, 0, None, None),
    ("l 4:7:8 ping a/to", "a/to", 0o120777, 7, 8, "ping", None),
    ("d 700:4294967294:4294967294 last", "last", 0o40700, 2**32 - 2, 2**32 - 2, None, None),
    (f"f 4711:{NOBODY}:{NOBODY} 3 {ABC} own", "own", 0o104711, NOBODY, NOBODY, None, None),
]
TEXT = tree_text(*(line for line, *_ in ENTRIES), version=3)
FILES = {path: b"abc" for _, path, mode, *_ in ENTRIES if stat.S_ISREG(mode)}
WANTED = {path: tuple(told) for _, path, *told in ENTRIES}
# What another user than root is told.
LOST = b"".join(
    b"unpack: %b\n" % line
    for line in (
        b"lost: owners: 7 (/a, /a/far, /a/ping, ..)",
        b"lost: file capabilities: 2 (/a/ping, /a/rooted)",
        b"setuid and setgid are taken off files, since owners are lost: 3 (/a/far, /a/rooted, /a/su); --keep-setid keeps them",
    )
)


def capability_of(path):
    try:
        return os.getxattr(path, CAPABILITY, follow_symlinks=False)
    except OSError:
        return None


def stands(folder):
    """What Linux tells of each entry below a folder."""
    found = {}
    for path in folder.rglob("*"):
        status = path.lstat()
        target = os.readlink(path) if path.is_symlink() else None
        found[str(path.relative_to(folder))] = status.st_mode, status.st_uid, status.st_gid, target, capability_of(path)
    return found


def is_as(folder, wanted):
    found = stands(folder)
    if other := sorted(path for path in found.keys() | wanted.keys() if found.get(path) != wanted.get(path)):
        raise Failed(f"{other[0]} is {found.get(other[0])}, and not {wanted.get(other[0])}")


def need_owners(place):
    """Root can give owners and capabilities where the scene works."""
    need_root()
    trial = beside(place, "trial")
    trial.touch()
    try:
        os.chown(trial, 3_000_000, 4_000_000)
        os.setxattr(trial, CAPABILITY, NET_RAW)
    except OSError as error:
        raise Skipped(f"no owner or capability can be given here: {error.strerror}") from None
    trial.unlink()


def filled(place):
    """A host of these entries."""
    place.resource("r", TEXT, FILES)
    place.expect(("init x86-64 system", DONE), ("import-fs r /", DONE), ("tree", TEXT))


def owners_and_capabilities_come_back(place):
    need_owners(place)
    filled(place)
    made, there = beside(place, "made"), beside(place, "there")
    there.mkdir()
    for out in made, there:
        expect(tool(place, "unpack", "--mtime=5", place.store, "/", out), FINE)
        is_as(out, WANTED)
    if {path.lstat().st_mtime for path in made.rglob("*")} != {5}:
        raise Failed("an owner or a capability changed the time")
    expect(tool(place, "unpack", "--no-setid", place.store, "/", beside(place, "off")), FINE)
    bits = {path: told[0] & ~0o6000 if stat.S_ISREG(told[0]) else told[0] for path, told in WANTED.items()}
    is_as(beside(place, "off"), {path: (bits[path], *told[1:]) for path, told in WANTED.items()})


def what_another_user_does_not_get_is_told(place):
    """What is his own he gets, with setuid and setgid."""
    need_owners(place)
    filled(place)
    read_by_nobody(place)
    out = beside(place, "outs") / "out"
    expect(tool_of_nobody(place, "unpack", place.store, "/", out), (b"", LOST, 0))
    lacks = {path: mode if path == "own" or not stat.S_ISREG(mode) else mode & ~0o6000 for path, (mode, *_) in WANTED.items()}
    is_as(out, {path: (lacks[path], NOBODY, NOBODY, told[3], None) for path, told in WANTED.items()})


def what_a_file_system_does_not_take_is_told(place):
    """One in memory that has no extended attributes."""
    need_mounts()
    filled(place)
    room, told = beside(place, "room"), b"unpack: lost: file capabilities: 2 (/a/ping, /a/rooted)\n"
    room.mkdir()

    def inside(folder):
        mount("ramfs", folder, "ramfs")
        expect(tool(place, "unpack", place.store, "/", Path(folder, "out")), (b"", told, 0))
        is_as(Path(folder, "out"), {path: (*row[:4], None) for path, row in WANTED.items()})

    with_own_mounts(room, inside)


def what_a_user_namespace_does_not_know_is_told(place):
    """Its root gives what is root's."""
    need_owners(place)
    filled(place)
    program = shutil.which("unshare")
    if not program or subprocess.run([program, "--map-root-user", "true"], capture_output=True, timeout=SECONDS).returncode:
        raise Skipped("no user namespace can be made here")
    out = beside(place, "out")
    told = (
        b"unpack: lost: owners: 6 (/a, /a/far, /a/rooted, ..)\nunpack: lost: file capabilities: 1 (/a/rooted)\n"
        b"unpack: setuid and setgid are taken off files, since owners are lost: 3 (/a/far, /a/rooted, /own); --keep-setid keeps them\n"
    )
    expect(tool(place, program, "--map-root-user", TOOLS / "unpack", place.store, "/", out), (b"", told, 0))
    kept = {path: told for path, told in stands(out).items() if path in ("a/ping", "a/su")}
    if kept != {path: WANTED[path] for path in kept} or len(kept) != 2:
        raise Failed(f"of root there is {kept}")


def a_tar_has_owners_and_capabilities_whoever_writes_it(place):
    need_owners(place)
    filled(place)
    written, told, status = tool(place, "unpack", "--tar", place.store, "/", env=around(place))
    expect((b"", told, status), FINE)
    with tarfile.open(fileobj=io.BytesIO(written), errors="surrogateescape") as tar:
        found = {entry.name: (entry.mode, entry.uid, entry.gid, entry.pax_headers.get(f"SCHILY.xattr.{CAPABILITY}")) for entry in tar}
    texts = {path: told[4] and told[4].decode("utf-8", "surrogateescape") for path, told in WANTED.items()}
    wanted = {path: (stat.S_IMODE(told[0]), *told[1:3], texts[path]) for path, told in WANTED.items()}
    if found != wanted:
        raise Failed(f"the tar has {shortened(found)}")
    read_by_nobody(place)
    theirs, told, status = tool_of_nobody(place, "unpack", "--tar", place.store, "/")
    expect((b"", told, status), FINE)
    if theirs != written:
        raise Failed("another user writes another tar")
    out = beside(place, "unpacked")
    out.mkdir()
    words = ["tar", "--extract", "-p", "--xattrs", f"--xattrs-include={CAPABILITY}", "-f", "-", "-C", out]
    ended = subprocess.run(words, input=written, capture_output=True, timeout=SECONDS)
    if ended.returncode or ended.stdout or ended.stderr:
        raise Failed(f"tar tells {shortened(ended.stderr)}")
    is_as(out, WANTED)


def images_have_owners_and_capabilities(place, kind, maker, *reader):
    """As tools/pack reads them. Another user makes the same image, or is refused one."""
    need_owners(place)
    need(maker, *reader)
    filled(place)
    image = beside(place, "image")
    expect(tool(place, "unpack", f"--{kind}", image, place.store, "/"), FINE)
    expect(tool(place, "pack", image, place.depot, "back"), FINE)
    if (place.depot / "back.tree").read_bytes() != TEXT:
        raise Failed(f"the image has {shortened((place.depot / 'back.tree').read_bytes())}")
    read_by_nobody(place)
    other = beside(place, "outs") / "image"
    refusal = b"unpack: this mkfs.erofs reads no tar, as that of version 1.7 does, so only root gets owners and capabilities into an image\n"
    written, told, status = tool_of_nobody(place, "unpack", f"--{kind}", other, place.store, "/")
    if told.startswith(b"unpack: unshare: "):
        raise Skipped("another user can make no user namespace here")
    if (told, status) == (refusal, 1) and not other.exists():
        return
    expect((written, told, status), FINE)
    if other.read_bytes() != image.read_bytes():
        raise Failed("another user makes another image")


def an_image_of_erofs_has_owners_and_capabilities(place):
    images_have_owners_and_capabilities(place, "erofs", "mkfs.erofs")


def an_image_of_squashfs_has_owners_and_capabilities(place):
    images_have_owners_and_capabilities(place, "squashfs", "mksquashfs", "unsquashfs")


def no_user_enters_what_is_being_unpacked(place):
    """Each directory is root's alone until all below it is written, in a folder that is there, and beside one that is made."""
    need_owners(place)
    filled(place)
    there = beside(place, "there")
    there.mkdir()
    for out, above in (there, there), (beside(place, "made"), there.parent):
        slow = Slow(place, "unpack", place.store, "/", out)
        room, *others = above.glob(".unpack-*")
        found = {(path.stat().st_uid, mode_of(path)) for path in (room, room / "tree/a", room / "tree/last")}
        if others or found != {(0, 0o700)}:
            raise Failed(f"while it works its directories have {found}")
        expect(slow.end(), FINE)
        is_as(out, WANTED)


def an_image_keeps_them_from_a_folder_to_a_merged_one(place):
    """Packed, imported, merged, marked, and unpacked from where it shows; and once more after a rollback."""
    need_owners(place)
    filled(place)
    image = beside(place, "image")
    image.mkdir()
    expect(tool(place, "unpack", place.store, "/", image / "usr"), FINE)
    release = image / "usr/lib/extension-release.d/extension-release.tool"
    release.parent.mkdir(parents=True)
    release.write_text("ID=_any\n")
    wanted = stands(image / "usr")
    expect(tool(place, "pack", image, place.depot, "tool"), FINE)
    place.resource("etc", tree_text(f"f 644 3 {digest(b'A=b')} os-release"), {"os-release": b"A=b"})
    place.expect(("import-fs etc /etc", DONE), ("import-fs tool /var/lib/extensions/tool", DONE), ("sysext merge", b"merged 1\ntool\n"), ("mark", b"marked 5\n"))
    for out in "merged", "back":
        expect(tool(place, "unpack", place.store, "/usr", beside(place, out)), FINE)
        is_as(beside(place, out), wanted)
        place.expect(("sysext unmerge", b"unmerged\n"), ("tree /usr", b"refused 8 no-entry /usr\n"), ("rollback 5", DONE))


def what_has_owners_is_fetched(place):
    with serving(publish(beside(place, "site"), {}, [("r", TEXT, FILES)])) as served:
        expect(fetch(place, served.url, place.depot), FINE)
    place.expect(("init x86-64 system", DONE), ("import-fs r /", DONE), ("tree", TEXT))


CALLS = [
    *(owners_and_capabilities_come_back, what_another_user_does_not_get_is_told),
    *(what_a_file_system_does_not_take_is_told, what_a_user_namespace_does_not_know_is_told),
    *(a_tar_has_owners_and_capabilities_whoever_writes_it, an_image_of_erofs_has_owners_and_capabilities),
    *(an_image_of_squashfs_has_owners_and_capabilities, no_user_enters_what_is_being_unpacked),
    *(an_image_keeps_them_from_a_folder_to_a_merged_one, what_has_owners_is_fetched),
]
scenes = named(*map(in_a_place, CALLS))
