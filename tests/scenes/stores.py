"""Stores in real folders: what each command writes, what then stands in the store folder, and what a store that is no store,
a file system that is full, and a process that is killed make of it."""
import hashlib
import os
import random
import shutil
import signal
import stat
import subprocess
import tempfile
import time
from pathlib import Path

from scenes.devices import become_nobody
from scenes.running import ABC, EMPTY, SECONDS, Failed, Skipped, expect, named, run, shortened, tree_text

EMPTY_INDEX = (
    b"hostext-store 2\nhost x86-64 system\nhierarchies 3\nh sysext opt\nh sysext usr\nh confext etc\n"
    b"attached 0\nkept 0\nroot 0\nlower 0\npast 0\nend\n"
)
OLD_INDEX = b"hostext-store 1\nhost x86-64 system\nattached 0\nkept 0\nroot 0\nlower 0\nend\n"
INIT = ("init", "x86-64", "system")
KILLS = 80
# In memory, where there is such a file system: a disk takes its time for each sync. tests/run names a folder of its own there.
ROOM = os.environ.get("HOSTEXT_ROOM") or ("/dev/shm" if os.access("/dev/shm", os.W_OK) else None)
FAULTS = {5: b"hostext: disk fault\n", 6: b"hostext: depot fault\n", 8: b"hostext: bad store\n", 9: b"hostext: unfinished\n"}


def digest(text):
    return hashlib.sha256(text).hexdigest()


class Place:
    """A store folder and a depot folder, and the program that works on them."""

    def __init__(self, program, folder):
        self.program, self.store, self.depot = program, Path(folder, "store"), Path(folder, "depot")
        self.store.mkdir()
        self.depot.mkdir()

    def run(self, *words, before=None):
        return run(self.program, [os.fsencode(word) for word in (self.store, self.depot, *words)], before=before)

    def expect(self, *rows):
        """Each command and what it writes; a refusal where the line is one, else done."""
        for command, written in rows:
            words = command.split(" ")
            status = 1 if written.startswith(b"refused ") else 0
            try:
                expect(self.run(*words), (written, b"", status))
            except Failed as reason:
                raise Failed(f"`{command}`: {reason}") from None

    def fault(self, status, *commands):
        for command in commands:
            try:
                expect(self.run(*command.split(" ")), (b"", FAULTS[status], status))
            except Failed as reason:
                raise Failed(f"`{command}`: {reason}") from None

    def resource(self, name, text, files=None):
        """A resource of the depot: its tree text, and the bytes of its files."""
        files = files or {}
        for path, content in {f"{name}.tree": text, **{f"{name}/{path}": content for path, content in files.items()}}.items():
            self.depot.joinpath(path).parent.mkdir(parents=True, exist_ok=True)
            self.depot.joinpath(path).write_bytes(content)

    def index(self, generation, text, files=None):
        """A store whose current generation has this index, and whose homes have these files."""
        folder = self.store / f"g-{generation}"
        folder.mkdir(parents=True, exist_ok=True)
        (folder / "index").write_bytes(text)
        (self.store / "current").write_bytes(f"g-{generation}\n".encode())
        for path, content in (files or {}).items():
            self.store.joinpath(path).parent.mkdir(parents=True, exist_ok=True)
            self.store.joinpath(path).write_bytes(content)

    def stands(self):
        """Each path of the store folder, with the bytes of its file, or nothing for a folder."""
        found = {}
        for path in sorted(self.store.rglob("*")):
            found[str(path.relative_to(self.store))] = path.read_bytes() if path.is_file() else None
        return found

    def holds(self, wanted):
        found = self.stands()
        if found != wanted:
            raise Failed(f"the store folder holds {shortened(found)}, and not {shortened(wanted)}")


def lines(*text):
    return "".join(f"{line}\n" for line in text).encode()


def in_a_place(call):
    """A scene over a new store and a new depot."""

    def scene(program):
        with tempfile.TemporaryDirectory(dir=ROOM) as folder:
            call(Place(program, folder))

    scene.__name__ = call.__name__
    return scene


DONE = b"done\n"
HOST = tree_text("d 755 usr", f"f 644 0 {EMPTY} usr/a")


def a_new_store_has_an_index_and_nothing_else(place):
    place.expect(("tree", b"refused 1 no-store\n"), ("init x86-64 system", DONE), ("init x86-64 system", b"refused 2 store-exists\n"))
    place.holds({"current": b"g-1\n", "g-1": None, "g-1/index": EMPTY_INDEX})
    place.expect(("tree", tree_text()), ("tree /", tree_text()), ("check", b"ok 0 0\n"))


def left_overs_go_before_a_change_and_other_names_stay(place):
    (place.store / "g-7/000").mkdir(parents=True)
    (place.store / "g-7/000/00").write_bytes(b"left")
    (place.store / "next").write_bytes(b"g-7\n")
    (place.store / "g-9").write_bytes(b"a file of that name")
    for name in ("g-07", "g-", "g-0", "g-4294967296", "other"):
        (place.store / name).mkdir()
    before = place.stands()
    place.expect(("tree", b"refused 1 no-store\n"))
    place.holds(before)
    place.expect(("init x86-64 system", DONE))
    others = {name: None for name in ("g-07", "g-", "g-0", "g-4294967296", "other")}
    place.holds({"current": b"g-1\n", "g-1": None, "g-1/index": EMPTY_INDEX, **others})


def an_old_text_is_read_and_migrated_once(place):
    place.index(1, OLD_INDEX)
    place.expect(("tree /", tree_text()), ("migrate", DONE), ("migrate", b"unchanged\n"))
    place.holds({"current": b"g-2\n", "g-1": None, "g-1/index": OLD_INDEX, "g-2": None, "g-2/index": EMPTY_INDEX})


def the_words_of_init_have_their_places(place):
    rows = {"init x86-64": 3, "init x86-64 portable": 3, "init x86 system": None, "init 86 system": 2, "init": 2}
    rows |= {"init x86-64 system /usr:/usr": 4, "init x86-64 system /usr /usr": 5, "init x86-64 system /etc": 5, "init x86-64 system usr /etc": 4}
    for command, at in rows.items():
        if at:
            expect(place.run(*command.split(" ")), (b"", f"hostext: usage {at}\n".encode(), 2))
    place.holds({})
    place.expect(("init x86-64 system /usr /etc:/srv", DONE))
    found = (place.store / "g-1/index").read_bytes()
    if b"hierarchies 3\nh sysext usr\nh confext etc\nh confext srv\n" not in found:
        raise Failed(f"the index is {shortened(found)}")


def a_host_is_imported_changed_and_checked(place):
    place.resource("host", HOST, {"usr/a": b""})
    srv = tree_text("d 755 srv", "d 755 srv/usr", f"f 644 0 {EMPTY} srv/usr/a", "d 755 usr")
    place.expect(("init x86-64 system", DONE), ("import-fs host /", DONE), ("remove /nothere", b"refused 8 no-entry /nothere\n"))
    place.expect(("remove /usr/a", DONE), ("import-fs host /srv", DONE), ("tree /", srv), ("check", b"ok 1 0\n"))
    place.expect(("tree /srv/usr", tree_text(f"f 644 0 {EMPTY} a")), ("cat /srv/usr/a", b""))


def what_one_command_stores_the_next_ones_find(place):
    """Each command is a new process over the same folders."""
    place.resource("host", tree_text("d 755 usr", f"f 644 3 {ABC} usr/a"), {"usr/a": b"abc"})
    place.expect(("init x86-64 system", DONE), ("import-fs host /", DONE), ("cat /usr/a", b"abc"))
    place.expect(("tree /", tree_text("d 755 usr", f"f 644 3 {ABC} usr/a")), ("check", b"ok 1 3\n"), ("cat /usr/a", b"abc"))
    place.expect(("remove /usr", DONE), ("tree /", tree_text()), ("check", b"ok 0 0\n"), ("cat /usr/a", b"refused 8 no-entry /usr/a\n"))


def a_file_that_the_store_has_is_not_written_again(place):
    place.resource("host", tree_text("d 755 usr", f"f 644 3 {ABC} usr/a"), {"usr/a": b"abc"})
    place.expect(("init x86-64 system", DONE), ("import-fs host /", DONE), ("import-fs host /srv", DONE), ("cat /srv/usr/a", b"abc"))
    found = place.stands()
    if [path for path in found if path.count("/") == 2] != ["g-2/000/00"] or found["g-3/index"].count(b" 2 00000 ") != 2:
        raise Failed(f"the store folder holds {shortened(found)}")


def entries_that_a_command_cannot_take_are_refused(place):
    place.resource("host", tree_text("d 755 usr", f"f 644 3 {ABC} usr/a", "l 1 a usr/l"), {"usr/a": b"abc"})
    place.expect(("init x86-64 system", DONE), ("import-fs host /", DONE))
    place.expect(("tree /no", b"refused 8 no-entry /no\n"), ("tree /usr/a", b"refused 9 not-directory /usr/a\n"), ("tree /usr/a/b", b"refused 8 no-entry /usr/a/b\n"))
    place.expect(("cat /no", b"refused 8 no-entry /no\n"), ("cat /usr", b"refused 10 not-file /usr\n"), ("cat /usr/l", b"refused 10 not-file /usr/l\n"))
    place.expect(("import-fs host /usr/a/b", b"refused 9 not-directory /usr/a\n"), ("import-fs host /usr/l/b/c", b"refused 9 not-directory /usr/l\n"))


def marks_are_kept_and_no_directory_is_made_of_a_whiteout(place):
    text = tree_text("d 755 var", "o 700 var/o", "w var/w", version=2)
    place.resource("marks", text)
    place.expect(("init x86-64 system", DONE), ("import-fs marks /", DONE), ("tree", text))
    place.expect(("tree /var/w", b"refused 9 not-directory /var/w\n"), ("cat /var/w", b"refused 10 not-file /var/w\n"), ("tree /var/o", tree_text()))


def a_depot_that_lacks_what_a_text_lists_is_refused(place):
    place.expect(("init x86-64 system", DONE), ("import-fs gone /", b"refused 24 not-in-depot gone.tree\n"))
    place.resource("bad", b"hostext-tree 1\nd 755 ../x\nend\n")
    place.resource("lacks", tree_text(f"f 644 0 {EMPTY} a"))
    place.resource("longer", tree_text(f"f 644 0 {EMPTY} a"), {"a": b"abc"})
    place.resource("shorter", tree_text(f"f 644 3 {ABC} a"), {"a": b"ab"})
    place.resource("other", tree_text(f"f 644 3 {ABC} a"), {"a": b"abd"})
    before = place.stands()
    place.expect(("import-fs bad /", b"refused 23 bad-tree 2 bad.tree\n"), ("import-fs lacks /", b"refused 24 not-in-depot lacks/a\n"))
    place.expect(("import-fs longer /", f"refused 25 mismatch longer/a 0 {EMPTY} 1 {digest(b'a')}\n".encode()))
    place.expect(("import-fs shorter /", f"refused 25 mismatch shorter/a 3 {ABC} 2 {digest(b'ab')}\n".encode()))
    place.expect(("import-fs other /", f"refused 25 mismatch other/a 3 {ABC} 3 {digest(b'abd')}\n".encode()))
    place.expect(("tree", tree_text()), ("check", b"ok 0 0\n"))
    if {path: before[path] for path in before} != {path: place.stands().get(path) for path in before}:
        raise Failed("a refused command changed the store")


MERGED = lines(
    *("hostext-store 2", "host x86-64 system", "hierarchies 3", "h sysext opt", "h sysext usr", "h confext etc"),
    *("sysext 1", "n tool", "attached 0", "kept 0", "root 2", "d 755 srv", "d 755 usr", "lower 1", "d 755 usr", "past 0", "end"),
)


def what_is_merged_is_read_only(place):
    place.index(1, MERGED)
    place.resource("one", tree_text(f"f 644 0 {EMPTY} a"), {"a": b""})
    place.expect(("import-fs one /usr", b"refused 4 read-only /usr\n"), ("import-fs one /usr/x", b"refused 4 read-only /usr/x\n"))
    place.expect(("import-fs one /", b"refused 4 read-only /opt\n"), ("remove /usr", b"refused 4 read-only /usr\n"), ("remove /opt", b"refused 8 no-entry /opt\n"))
    place.expect(("import-fs one /srv", DONE), ("remove /srv", DONE))


KEPT = lines(
    *("hostext-store 2", "host x86-64 system", "hierarchies 3", "h sysext opt", "h sysext usr", "h confext etc"),
    *("attached 0", "kept 2", "k 1 a", f"m {ABC} a/x", "k 0 b", "root 3", "d 755 a", f"f 644 3 {ABC} 1 00000 a/x", "d 755 b", "lower 0", "past 0", "end"),
)


def a_manifest_goes_where_its_path_is_touched(place):
    place.resource("one", tree_text(f"f 644 0 {EMPTY} y"), {"y": b""})
    for command, kept in (("remove /a/x", [b"k 0 b"]), ("import-fs one /a/z", [b"k 0 b"]), ("remove /b", [b"k 1 a"]), ("import-fs one /c", [b"k 1 a", b"k 0 b"]), ("import-fs one /", [])):
        shutil.rmtree(place.store)
        place.index(1, KEPT, {"g-1/000/00": b"abc"})
        place.expect((command, DONE))
        found = [line for line in (place.store / "g-2/index").read_bytes().splitlines() if line.startswith(b"k ")]
        if found != kept:
            raise Failed(f"`{command}` keeps {found}, and not {kept}")


def a_store_that_is_none_is_told(place):
    for current in (b"g-x\n", b"g-0\n", b"g-4294967296\n", b"g-1", b"g-01\n", b"", b"g-2\n"):
        shutil.rmtree(place.store)
        place.index(1, EMPTY_INDEX)
        (place.store / "current").write_bytes(current)
        before = place.stands()
        place.fault(8, "tree", "check", "remove /a", "init x86-64 system")
        place.holds(before)
    for text in (b"", b"".join(EMPTY_INDEX.splitlines(True)[:2]), EMPTY_INDEX + b"\n", EMPTY_INDEX.replace(b"2", b"4", 1)):
        shutil.rmtree(place.store)
        place.index(1, text)
        place.fault(8, "tree")


def a_damaged_file_is_told(place):
    place.resource("host", tree_text(f"f 644 3 {ABC} a"), {"a": b"abc"})
    place.expect(("init x86-64 system", DONE), ("import-fs host /", DONE), ("check", b"ok 1 3\n"))
    home = place.store / "g-2/000/00"
    for damage in (b"ab", b"abd", b"abcd", b""):
        home.write_bytes(damage)
        place.fault(8, "check", "cat /a", "import-fs host /b")
        place.expect(("tree", tree_text(f"f 644 3 {ABC} a")))
    home.unlink()
    place.fault(8, "check", "cat /a")
    home.mkdir()
    place.fault(8, "check", "cat /a")
    home.rmdir()
    home.write_bytes(b"abc")
    place.expect(("check", b"ok 1 3\n"), ("cat /a", b"abc"))


def merged_image(place):
    """Gives the host of a place a release file, and merges an image whose only file is its own."""
    release, below = b"ID=_any\n", "usr/lib/extension-release.d"
    file = f"f 644 {len(release)} {digest(release)}"
    place.resource("etc", tree_text(f"{file} os-release"), {"os-release": release})
    place.resource("image", tree_text("d 755 usr", "d 755 usr/lib", f"d 755 {below}", f"{file} {below}/extension-release.x"), {f"{below}/extension-release.x": release})
    place.expect(("import-fs etc /etc", DONE), ("import-fs image /var/lib/extensions/x", DONE), ("sysext merge", b"merged 1\nx\n"))


def what_helps_where_a_file_is_damaged(place):
    """Its bytes in its place; or to remove each path that has it, out of a view too, and to import it then."""
    place.resource("host", tree_text("d 755 a", f"f 644 3 {ABC} a/b"), {"a/b": b"abc"})
    place.expect(("init x86-64 system /usr", DONE), ("import-fs host /usr", DONE), ("import-fs host /srv", DONE))
    merged_image(place)
    home = place.store / "g-2/000/00"
    home.write_bytes(b"abd")
    place.fault(8, "check", "import-fs host /opt")
    home.write_bytes(b"abc")
    place.expect(("import-fs host /opt", DONE))
    home.write_bytes(b"abd")
    place.expect(("remove /opt", DONE), ("remove /srv", DONE), ("remove /usr/a", b"refused 4 read-only /usr/a\n"))
    place.fault(8, "import-fs host /opt")
    place.expect(("sysext unmerge", b"unmerged\n"), ("remove /usr/a", DONE), ("import-fs host /usr", DONE), ("cat /usr/a/b", b"abc"))
    place.expect(("check", b"ok 3 19\n"))


def after_the_last_generation_nothing_is_changed(place):
    """A store that was put there by hand, with a host whose old text `migrate` would write anew."""
    last = 4_294_967_295
    place.resource("r", tree_text("d 755 a"))
    entry = OLD_INDEX.replace(b"root 0\n", b"root 1\nd 755 usr\n")
    place.index(last, entry)
    before, refused = place.stands(), b"refused 7 limit generations\n"
    place.expect(("import-fs r /", refused), ("remove /usr", refused), ("migrate", refused), ("remove /a", b"refused 8 no-entry /a\n"))
    place.holds(before)
    place.index(last - 1, entry)
    place.expect(("import-fs r /", DONE), ("remove /a", refused), ("tree", tree_text("d 755 a")))


def long_names(count):
    """The text of a tree of so many directories, each of whose paths is long."""
    above = ["/".join(letter * 250 for letter in "abc"[:depth]) for depth in (1, 2, 3)]
    return tree_text(*(f"d 755 {path}" for path in above), *(f"d 755 {above[2]}/{at:05}" for at in range(count)))


def an_index_that_would_be_too_long_is_refused(place):
    """The text is almost as long as one may be, 67,108,864 bytes. An index with two such trees has more than 134,217,728."""
    place.resource("r", long_names(87_700))
    place.expect(("init x86-64 system", DONE), ("import-fs r /x", DONE))
    before = what_stands(place.store)
    place.expect(("import-fs r /y", b"refused 7 limit index\n"))
    if what_stands(place.store) != before:
        raise Failed("something else stands in the store folder")


def what_stands(folder):
    """What stands at each path below the folder: its kind, and a file's bytes or a link's target."""
    found = {}
    for path in sorted(folder.rglob("*")):
        mode = path.lstat().st_mode
        content = path.read_bytes() if stat.S_ISREG(mode) else path.readlink() if stat.S_ISLNK(mode) else None
        found[path.relative_to(folder)] = (stat.S_IFMT(mode), content)
    return found


def odd_things_at_the_paths_of_a_store_are_told(place):
    def stand(path, make):
        shutil.rmtree(place.store)
        place.index(1, KEPT, {"g-1/000/00": b"abc"})
        target = place.store / path
        shutil.rmtree(target) if target.is_dir() else target.unlink(missing_ok=True)
        make(target)

    folder, file = Path.mkdir, Path.touch
    for path, make, status, commands in (
        ("current", folder, 8, ("tree", "check", "remove /b")),
        ("g-1", file, 8, ("tree", "check", "remove /b")),
        ("g-1/index", folder, 8, ("tree", "check", "remove /b")),
        ("g-1/000", file, 8, ("check",)),
        ("g-1/000/00", folder, 8, ("check",)),
        ("current", lambda at: at.symlink_to("gone"), 5, ("tree", "check", "remove /b")),
        ("current", os.mkfifo, 5, ("tree", "check", "remove /b")),
        ("g-1/index", os.mkfifo, 5, ("tree", "check", "remove /b")),
    ):
        stand(path, make)
        before = what_stands(place.store)
        place.fault(status, *commands)
        if what_stands(place.store) != before:
            raise Failed(f"{path} changed, or something beside it")
    for path, make in (("next", folder), ("next", file), ("g-2", file), ("g-2", folder)):
        stand(path, make)
        place.expect(("remove /b", DONE), ("tree", tree_text("d 755 a", f"f 644 3 {ABC} a/x")))


def a_name_that_is_no_utf_8_stops_a_change_alone(place):
    place.expect(("init x86-64 system", DONE))
    place.resource("one", tree_text(f"f 644 0 {EMPTY} a"), {"a": b""})
    Path(os.fsdecode(os.fsencode(place.store) + b"/\xff")).touch()
    place.expect(("tree", tree_text()))
    place.fault(5, "import-fs one /")
    place.expect(("tree", tree_text()))


def a_missing_store_is_a_disk_fault(place):
    place.store.rmdir()
    place.fault(5, "tree", "init x86-64 system", "check")
    place.store.touch()
    place.fault(5, "tree", "init x86-64 system", "check")


def a_missing_depot_has_no_file(place):
    place.depot.rmdir()
    place.expect(("init x86-64 system", DONE), ("import-fs host /", b"refused 24 not-in-depot host.tree\n"))


def a_depot_with_odd_files_is_a_depot_fault(place):
    place.expect(("init x86-64 system", DONE))
    os.mkfifo(place.depot / "odd.tree")
    place.fault(6, "import-fs odd /")
    place.resource("host", HOST)
    (place.depot / "host/usr").mkdir(parents=True)
    os.mkfifo(place.depot / "host/usr/a")
    place.fault(6, "import-fs host /")
    place.expect(("tree", tree_text()))


def folders_without_permission_are_faults(place):
    if os.getuid() == 0:
        for folder in (place.store.parent, place.store, place.depot):
            folder.chmod(0o777)
    place.resource("host", HOST, {"usr/a": b""})
    (place.store / "locked").mkdir()
    expect(place.run(*INIT, before=become_nobody), (DONE, b"", 0))
    place.store.chmod(0o555)
    expect(place.run("import-fs", "host", "/", before=become_nobody), (b"", FAULTS[5], 5))
    expect(place.run("tree", before=become_nobody), (tree_text(), b"", 0))
    place.store.chmod(0o777)
    (place.depot / "host.tree").chmod(0)
    expect(place.run("import-fs", "host", "/", before=become_nobody), (b"", FAULTS[6], 6))
    (place.depot / "host.tree").chmod(0o644)
    expect(place.run("import-fs", "host", "/", before=become_nobody), (DONE, b"", 0))


def a_full_file_system_leaves_the_tree_before(place):
    mounted = subprocess.run(["mount", "-t", "tmpfs", "-o", "size=256k", "tmpfs", place.store], capture_output=True)
    if mounted.returncode:
        raise Skipped("no file system can be mounted here")
    try:
        place.expect(("init x86-64 system", DONE))
        large = b"x" * 1_000_000
        place.resource("large", tree_text(f"f 644 {len(large)} {digest(large)} a"), {"a": large})
        place.resource("small", tree_text(f"f 644 3 {ABC} a"), {"a": b"abc"})
        place.fault(5, "import-fs large /")
        place.expect(("tree", tree_text()), ("check", b"ok 0 0\n"), ("import-fs small /", DONE), ("check", b"ok 1 3\n"))
    finally:
        subprocess.run(["umount", place.store], check=True)


def a_large_file_comes_back(place):
    content = random.Random(1).randbytes(200_000)
    place.resource("large", tree_text(f"f 600 {len(content)} {digest(content)} a"), {"a": content})
    place.expect(("init x86-64 system", DONE), ("import-fs large /", DONE), ("cat /a", content), ("check", f"ok 1 {len(content)}\n".encode()))


def many(place, name, count):
    """A resource of many small files."""
    files = {f"f{at:05}": f"{name} {at}".encode() for at in range(count)}
    text = tree_text(*(f"f 644 {len(content)} {digest(content)} {path}" for path, content in files.items()))
    place.resource(name, text, files)
    return text


def a_kill_at_any_moment_leaves_the_tree_before_or_after(place):
    """It tests the order of what is named and moved, not the syncs: what the system was told is there after a kill."""
    first, second = many(place, "first", 50), many(place, "second", 2_000)
    place.expect(("init x86-64 system", DONE), ("import-fs first /", DONE))
    kept = place.store.with_name("kept")
    shutil.copytree(place.store, kept)
    words = [os.fsencode(word) for word in (place.program, place.store, place.depot, "import-fs", "second", "/")]
    began = time.monotonic()
    subprocess.run(words, check=True, capture_output=True, timeout=SECONDS)
    whole, rng, seen = time.monotonic() - began, random.Random(7), set()
    for _ in range(KILLS):
        shutil.rmtree(place.store)
        shutil.copytree(kept, place.store)
        child = subprocess.Popen(words, stdout=subprocess.DEVNULL, stderr=subprocess.DEVNULL)
        time.sleep(rng.random() * whole)
        child.send_signal(signal.SIGKILL)
        child.wait()
        found = place.run("tree")[0]
        if found not in (first, second):
            raise Failed(f"the tree after a kill is {shortened(found)}")
        seen.add(found)
        ended = place.run("check")
        if ended[2]:
            raise Failed(f"`check` after a kill ends with {shortened(ended)}")
        place.expect(("import-fs second /", DONE), ("tree", second))
    if first not in seen:
        raise Failed("no kill came before the end of a change")


def left_overs(folder, count):
    """So many left-overs: a generation's folder, and names of one file in it."""
    folder.mkdir()
    (folder / "x0").touch()
    handle = os.open(folder, os.O_RDONLY)
    try:
        for at in range(1, count - 1):
            os.link("x0", f"x{at}", src_dir_fd=handle, dst_dir_fd=handle)
    except OSError as error:
        raise Skipped(f"a file can't have so many names here: {error}") from None
    finally:
        os.close(handle)


def more_left_overs_than_one_command_removes_take_two(place):
    place.expect(("init x86-64 system", DONE))
    left_overs(place.store / "g-8", 1_048_577)
    place.expect(("tree", tree_text()))
    place.resource("r", tree_text("d 755 a"))
    more = b"hostext: more was left over in STORE than one command removes: give the same command again, and of a batch the lines without a reply\n"
    expect(place.run("import-fs", "r", "/", before=lambda: os.environ.update(HOSTEXT_EXPLAIN="yes")), (b"", FAULTS[9] + more, 9))
    if any((place.store / "g-8").iterdir()):
        raise Failed("other left-overs than those that were counted are there")
    place.expect(("tree", tree_text()), ("import-fs r /", DONE), ("tree", tree_text("d 755 a")))


CALLS = [
    *(a_new_store_has_an_index_and_nothing_else, left_overs_go_before_a_change_and_other_names_stay, an_old_text_is_read_and_migrated_once),
    *(the_words_of_init_have_their_places, a_host_is_imported_changed_and_checked, what_one_command_stores_the_next_ones_find),
    *(a_file_that_the_store_has_is_not_written_again, after_the_last_generation_nothing_is_changed, an_index_that_would_be_too_long_is_refused),
    *(entries_that_a_command_cannot_take_are_refused, marks_are_kept_and_no_directory_is_made_of_a_whiteout),
    *(a_depot_that_lacks_what_a_text_lists_is_refused, what_is_merged_is_read_only, a_manifest_goes_where_its_path_is_touched),
    *(a_store_that_is_none_is_told, a_damaged_file_is_told, what_helps_where_a_file_is_damaged, odd_things_at_the_paths_of_a_store_are_told),
    *(a_name_that_is_no_utf_8_stops_a_change_alone, a_missing_store_is_a_disk_fault, a_missing_depot_has_no_file),
    *(a_depot_with_odd_files_is_a_depot_fault, folders_without_permission_are_faults, a_full_file_system_leaves_the_tree_before),
    *(a_large_file_comes_back, a_kill_at_any_moment_leaves_the_tree_before_or_after, more_left_overs_than_one_command_removes_take_two),
]
scenes = named(*map(in_a_place, CALLS))
