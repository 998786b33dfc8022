"""EROFS images in the kernel: an image is mounted on a loop device, and overlayfs shows it with the files of the store. What is seen there
is the tree that `tree` writes, but for whiteouts, and each path is found where nothing was listed before."""
import contextlib
import hashlib
import os
import random
import re
import shutil
import stat
import subprocess
from pathlib import Path

from scenes.chroots import need_mounts, with_own_mounts
from scenes.devices import NOBODY, become_nobody
from scenes.erofs_trees import CAPABILITY, HOME, LENGTHS, LONGEST, MOST_OWNER, MOST_SET, NAMES, STAMP, index_of, put_store, random_tree, same_texts, told_owner, without_whiteouts, written_image
from scenes.mounting import mount, mounted, unmount, why_not
from scenes.roots import packed, root_of_a_system, slowly
from scenes.running import ABC, EMPTY, SECONDS, TOP, Failed, Skipped, expect, named, shortened, tree_text
from scenes.stores import DONE, digest, in_a_place, merged_image
from scenes.tools import beside
from scenes.tree_texts import read_tree, text_of
from scenes.views import ANY

SEED, TREES, MANY, LOOKED_AT = 72, 300, 65_536, 30
# From this version on overlayfs takes a layer that has nothing but files' bytes.
LEAST = 6, 5
NEEDED = "erofs", "overlay"
TIME = 1_700_000_000
OPAQUE = "trusted.overlay.opaque"


def has(file_system):
    """Whether the kernel has a file system; where it is a module it is loaded."""
    def listed():
        return file_system in Path("/proc/filesystems").read_text().split()

    if not listed() and shutil.which("modprobe"):
        subprocess.run(["modprobe", "--quiet", file_system], stdin=subprocess.DEVNULL, capture_output=True, timeout=SECONDS)
    return listed()


def need_images():
    """This machine mounts images with a store as data-only layer."""
    if reason := why_not():
        raise Skipped(reason)
    if version() < LEAST:
        raise Skipped(f"Linux {os.uname().release} has no data-only layers, which came with {'.'.join(map(str, LEAST))}")
    if missing := next((name for name in NEEDED if not has(name)), None):
        raise Skipped(f"this kernel has no {missing}")
    need_mounts()


def version():
    return tuple(map(int, re.match(r"(\d+)\.(\d+)", os.uname().release).groups()))


@contextlib.contextmanager
def shown(image, store, room):
    """A handle of the folder in which an image shows the files of a store."""
    lower, seen = room / "image", room / "seen"
    for folder in lower, seen:
        folder.mkdir(exist_ok=True)
    with mounted(image, lower, "erofs"):
        mount("overlay", seen, "overlay", f"lowerdir={lower}::{store},metacopy=on,redirect_dir=on")
        top = os.open(seen, os.O_RDONLY | os.O_DIRECTORY)
        try:
            yield top
        finally:
            os.close(top)
            unmount(seen)


# What is seen.


def status_of(top, names):
    return os.stat(b"/".join(names) or b".", dir_fd=top, follow_symlinks=False)


def attribute(top, names, name):
    try:
        return os.getxattr(b"/proc/self/fd/%d/%b" % (top, b"/".join(names)), name, follow_symlinks=False)
    except OSError:
        return None


def content_digest(top, names):
    with open(os.open(b"/".join(names), os.O_RDONLY | os.O_NOFOLLOW, dir_fd=top), "rb") as file:
        content = file.read()
    return b"%d" % len(content), hashlib.sha256(content).hexdigest().encode()


def seen_entry(top, names):
    """An entry as Linux shows it, as a tree text has it."""
    status = status_of(top, names)
    kind, mode, owner = stat.S_IFMT(status.st_mode), b"%o" % stat.S_IMODE(status.st_mode), (status.st_uid, status.st_gid)
    if (status.st_mtime_ns, status.st_nlink) != (TIME * 10**9, 1):
        raise Failed(f"{names} has the time {status.st_mtime_ns} and {status.st_nlink} links")
    if kind == stat.S_IFDIR:
        return b"o" if attribute(top, names, OPAQUE) == b"y" else b"d", (mode + told_owner(*owner),)
    if kind == stat.S_IFLNK:
        target = os.readlink(b"/".join(names), dir_fd=top)
        return b"l", (b"%d" % status.st_size + told_owner(*owner), target)
    if kind != stat.S_IFREG:
        raise Failed(f"{names} has the mode {status.st_mode:o}")
    size, found = content_digest(top, names)
    if size != b"%d" % status.st_size:
        raise Failed(f"{names} has {size} bytes, and says {status.st_size}")
    return b"f", (mode + told_owner(*owner, attribute(top, names, CAPABILITY)), size, found)


def listed_paths(top):
    """The names of each path, by listings."""
    found, waiting = [], [()]
    while waiting:
        names = waiting.pop()
        folder = os.open(b"/".join(names) or b".", os.O_RDONLY | os.O_DIRECTORY | os.O_NOFOLLOW, dir_fd=top)
        try:
            with os.scandir(folder) as listing:
                for entry in listing:
                    found.append((*names, os.fsencode(entry.name)))
                    if entry.is_dir(follow_symlinks=False):
                        waiting.append(found[-1])
        finally:
            os.close(folder)
    return found


def seen_text(top):
    paths = listed_paths(top)
    if len(set(paths)) != len(paths):
        raise Failed("a name is listed twice")
    return text_of({names: seen_entry(top, names) for names in paths})


def each_path_is_found_cold(top, wanted, chance):
    """In any order, and nothing is found beside them: neither a whiteout nor a name that is a little another."""
    shows = {names: kind for names, (kind, _) in wanted.items() if kind != b"w"}
    others = {(*names[:-1], names[-1][:250] + b"~") for names in shows} | {names for names, (kind, _) in wanted.items() if kind == b"w"}
    paths = [*shows, *(others - shows.keys())]
    chance.shuffle(paths)
    kinds = {b"d": stat.S_IFDIR, b"o": stat.S_IFDIR, b"f": stat.S_IFREG, b"l": stat.S_IFLNK}
    for names in paths:
        try:
            found = stat.S_IFMT(status_of(top, names).st_mode)
        except FileNotFoundError:
            found = None
        if found != kinds.get(shows.get(names)):
            raise Failed(f"{shortened(b'/'.join(names))} is found to be {found}, and is of the kind {shows.get(names)}")


def text_by_the_tool(folder):
    child = subprocess.run([TOP / "tools/tree-text", "--quiet", folder], stdin=subprocess.DEVNULL, capture_output=True, timeout=SECONDS)
    expect((b"", child.stderr, child.returncode), (b"", b"", 0))
    return child.stdout


def is_shown(place, room, chance, by_tool=False):
    """That the image of a store is mounted and shows what `tree` writes."""
    image, (text, told, status) = room / "the.erofs", place.run("tree")
    expect((b"", told, status), (b"", b"", 0))
    image.write_bytes(written_image(place, f"--time={TIME}"))
    with shown(image, place.store, room) as top:
        each_path_is_found_cold(top, read_tree(text).entries, chance)
    wanted = without_whiteouts(text)
    with shown(image, place.store, room) as top:
        same_texts(seen_text(top), wanted)
        if by_tool:
            same_texts(text_by_the_tool(room / "seen"), wanted)
        root = status_of(top, ())
        if (root.st_mode, root.st_uid, root.st_gid, root.st_mtime) != (0o40755, 0, 0, TIME):
            raise Failed(f"the root is {root}")


def in_a_room(call, needs=lambda: ()):
    """A scene over a place, with a memory of its own in which is mounted, and with what it needs besides."""

    def scene(place):
        need_images()
        needed, room = needs(), beside(place, "room")
        room.mkdir()
        with_own_mounts(room, lambda folder: call(place, folder, *needed))

    scene.__name__ = call.__name__
    return in_a_place(scene)


# Scenes.


def random_trees_are_shown_by_the_kernel(place, room):
    for at in range(TREES):
        chance = random.Random(SEED + at)
        put_store(place, 7, *random_tree(chance))
        try:
            is_shown(place, room, chance, by_tool=at % LOOKED_AT == 0)
        except Failed as reason:
            raise Failed(f"tree {at}: {reason}") from None


def a_tree_at_the_limits_of_linux_is_shown(place, room):
    """Links of each length up to 4,095 bytes, the longest names, all modes, owners up to the limit, directories in each other."""
    owner, sets = b":%d:%d" % (MOST_OWNER, MOST_OWNER), b":1:%d:%d:%d" % (MOST_SET, MOST_SET, MOST_OWNER)
    entries = {(name,): (b"d", (b"755",)) for name in (b"files", b"folders", b"links", b"names")}
    entries |= {(b"files", b"%04o" % mode): (b"f", (b"%o" % mode, *STAMP)) for mode in range(0o10000)}
    entries |= {(b"folders", b"%04o" % mode): (b"d", (b"%o" % mode,)) for mode in range(0o10000)}
    entries |= {(b"links", b"%04d" % length): (b"l", (b"%d" % length, b"t" * length)) for length in (*range(1, 4096, 63), *LENGTHS)}
    entries |= {(b"names", name): (b"d", (b"755",)) for name in (*NAMES, LONGEST, *(b"%03d" % at + LONGEST[3:] for at in range(20)))}
    entries |= {(b"o",): (b"o", (b"2750" + owner,)), (b"o", b"w"): (b"w", ()), (b"o", b"able"): (b"f", (b"4755" + owner + sets, *STAMP))}
    entries |= {(b"o", b"link"): (b"l", (b"1" + owner, b"x")), (b"o", b"none"): (b"f", (b"755:0:0:0:0:0:0", *STAMP))}
    entries |= {(b"p" * 62,) * depth: (b"d", (b"700",)) for depth in range(1, 65)}
    put_store(place, 1, entries, {HOME: b"abc"})
    is_shown(place, room, random.Random(SEED), by_tool=True)


def a_directory_of_many_names_is_shown(place, room):
    kinds = ((b"d", (b"755",)), (b"l", (b"2", b"to")), *((b"f", (b"644", *STAMP)),) * 6)
    entries = {(b"many",): (b"d", (b"755",))} | {(b"many", b"%05d" % at): kinds[at % len(kinds)] for at in range(MANY)}
    put_store(place, 1, entries, {HOME: b"abc"})
    is_shown(place, room, random.Random(SEED))


def what_commands_made_is_shown_with_its_view(place, room):
    files = {"usr/a": b"abc", "usr/e": b"", "usr/large": random.Random(SEED).randbytes(3_000_000)}
    listed = (f"f {mode} {len(files[path])} {digest(files[path])} {path}" for path, mode in (("usr/a", "4755"), ("usr/e", "644"), ("usr/large", "600")))
    place.resource("host", tree_text("d 755 usr", *listed, "l 1 a usr/link", "o 700 usr/o", "w usr/w", version=2), files)
    place.expect(("init x86-64 system", DONE), ("import-fs host /", DONE))
    is_shown(place, room, random.Random(SEED), by_tool=True)
    merged_image(place)
    is_shown(place, room, random.Random(SEED), by_tool=True)
    if "usr/lib/extension-release.d/extension-release.x" not in place.run("tree")[0].decode():
        raise Failed("no image is merged")


def a_change_beside_it_leaves_what_is_shown(place, room):
    """The next change keeps the files of the generation before, so that they can be opened still."""
    place.resource("host", tree_text("d 755 usr", f"f 644 3 {ABC} usr/a", f"f 644 0 {EMPTY} usr/e"), {"usr/a": b"abc", "usr/e": b""})
    place.expect(("init x86-64 system", DONE), ("import-fs host /", DONE))
    text, image = place.run("tree")[0], room / "the.erofs"
    image.write_bytes(written_image(place, f"--time={TIME}"))
    with shown(image, place.store, room) as top:
        place.expect(("remove /usr", DONE), ("tree", tree_text()))
        same_texts(seen_text(top), text)


def a_mark_keeps_what_is_shown(place, room):
    """However many changes come after it, of which some take a home that no mark needs."""
    place.resource("host", tree_text("d 755 usr", f"f 644 3 {ABC} usr/a"), {"usr/a": b"abc"})
    place.resource("other", tree_text(f"f 644 1 {digest(b'b')} b"), {"b": b"b"})
    place.expect(("init x86-64 system", DONE), ("import-fs host /", DONE), ("mark", b"marked 2\n"))
    text, image = place.run("tree")[0], room / "the.erofs"
    place.expect(("remove /usr", DONE), ("import-fs other /srv", DONE))
    image.write_bytes(written_image(place, "--mark=2", f"--time={TIME}"))
    with shown(image, place.store, room) as top:
        for _ in range(3):
            place.expect(("remove /srv", DONE), ("import-fs other /srv", DONE))
        same_texts(seen_text(top), text)


def the_root_of_a_whole_system_is_shown(place, room, root):
    """With two images that are merged over it, and what runs there: its dpkg, of what is mounted alone."""
    packed(place, root)
    slowly(place, ("init x86-64 system", DONE), ("import-fs root /", DONE))
    is_shown(place, room, random.Random(SEED), by_tool=True)
    for name in "one", "two":
        release = f"usr/lib/extension-release.d/extension-release.{name}"
        lines = ("d 755 usr", "d 755 usr/bin", f"f 755 3 {ABC} usr/bin/{name}", "d 755 usr/lib", "d 755 usr/lib/extension-release.d", f"f 644 8 {digest(ANY)} {release}")
        place.resource(name, tree_text(*lines), {f"usr/bin/{name}": b"abc", release: ANY})
        slowly(place, (f"import-fs {name} /var/lib/extensions/{name}", DONE))
    slowly(place, ("sysext merge", b"merged 2\none\ntwo\n"))
    is_shown(place, room, random.Random(SEED), by_tool=True)
    with shown(room / "the.erofs", place.store, room):
        child = subprocess.run(["chroot", room / "seen", "dpkg-query", "--show", "dpkg"], stdin=subprocess.DEVNULL, capture_output=True, timeout=SECONDS)
        if child.returncode or not child.stdout.startswith(b"dpkg\t"):
            raise Failed(f"dpkg-query ends with {child.returncode} there: {shortened(child.stdout + child.stderr)}")


def nothing_of_what_is_shown_can_be_written(place, room):
    """Nothing of a mounted image can be changed, by root either."""
    put_store(place, 1, {(b"a",): (b"f", (b"666", *STAMP))}, {HOME: b"abc"})
    image = room / "the.erofs"
    image.write_bytes(written_image(place))
    with shown(image, place.store, room) as top:
        for path, flags in (b"a", os.O_WRONLY), (b"b", os.O_WRONLY | os.O_CREAT):
            try:
                os.close(os.open(path, flags, dir_fd=top))
            except OSError as error:
                if error.strerror != "Read-only file system":
                    raise
                continue
            raise Failed(f"{path} can be written")
    if index_of(place.store).host.root.entries and (place.store / "g-1/000/00").read_bytes() != b"abc":
        raise Failed("a file of the store changed")


def modes_and_owners_say_who_may_read(place, room):
    """The files of the store are its owner's alone, and what is shown is read by those of whom the tree says it."""
    folders = {(name,): (b"d", (field,)) for name, field in ((b"closed", b"700"), (b"open", b"755"), (b"own", b"700:%d:0" % NOBODY))}
    files = {(b"open", b"all"): b"604", (b"open", b"group"): b"640:0:%d" % NOBODY, (b"open", b"owned"): b"400:%d:0" % NOBODY, (b"own", b"f"): b"644:7:7"}
    others = {(b"closed", b"f"): b"644", (b"open", b"none"): b"600", (b"open", b"other"): b"660:1000:1000"}
    listed = {names: (b"f", (field, *STAMP)) for names, field in (files | others).items()}
    put_store(place, 1, folders | listed, {HOME: b"abc"})
    for path in place.store, *place.store.rglob("*"):
        path.chmod(0o700 if path.is_dir() else 0o600)
    image = room / "the.erofs"
    image.write_bytes(written_image(place))
    with shown(image, place.store, room) as top:
        read = {names for names in listed if is_read_by_nobody(top, names)}
    if read != files.keys():
        raise Failed(f"nobody reads {sorted(read)}, and not {sorted(files)}")


def is_read_by_nobody(top, names):
    path = b"/proc/self/fd/%d/%b" % (top, b"/".join(names))
    child = subprocess.run(["cat", path], pass_fds=(top,), preexec_fn=become_nobody, stdin=subprocess.DEVNULL, capture_output=True, timeout=SECONDS)
    return child.stdout == b"abc"


def the_first_and_the_last_time_are_shown(place, room):
    put_store(place, 1, {(b"d",): (b"d", (b"755",)), (b"d", b"f"): (b"f", (b"644", *STAMP)), (b"l",): (b"l", (b"1", b"x"))}, {HOME: b"abc"})
    image = room / "the.erofs"
    for time in 0, 1, 2**31, 2**63 - 1:
        image.write_bytes(written_image(place, f"--time={time}"))
        with shown(image, place.store, room) as top:
            found = {status_of(top, names).st_mtime_ns for names in ((), (b"d",), (b"d", b"f"), (b"l",))}
        if found != {time * 10**9}:
            raise Failed(f"of the time {time} there are shown {found}")


def fsck_finds_no_fault(place):
    """That of Linux's own tools, from the version on that knows blocks of 512 bytes."""
    if not shutil.which("fsck.erofs"):
        raise Skipped("there is no fsck.erofs")
    image = beside(place, "the.erofs")
    for at in range(LOOKED_AT):
        put_store(place, 7, *random_tree(random.Random(SEED + at)))
        image.write_bytes(written_image(place))
        child = subprocess.run(["fsck.erofs", "-d9", image], stdin=subprocess.DEVNULL, capture_output=True, timeout=SECONDS)
        told = (child.stdout + child.stderr).decode(errors="replace")
        if "blksize" in told or "blkszbits" in told:
            raise Skipped("this fsck.erofs knows no blocks of 512 bytes")
        if child.returncode:
            raise Failed(f"of tree {at} fsck.erofs tells {shortened(told)}")


CALLS = [
    *(random_trees_are_shown_by_the_kernel, a_tree_at_the_limits_of_linux_is_shown, a_directory_of_many_names_is_shown),
    *(what_commands_made_is_shown_with_its_view, a_change_beside_it_leaves_what_is_shown, a_mark_keeps_what_is_shown, nothing_of_what_is_shown_can_be_written),
    *(modes_and_owners_say_who_may_read, the_first_and_the_last_time_are_shown),
]
WHOLE = in_a_room(the_root_of_a_whole_system_is_shown, lambda: (root_of_a_system(),))
scenes = named(*map(in_a_room, CALLS), WHOLE, in_a_place(fsck_finds_no_fault))
