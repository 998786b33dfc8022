"""What pack and unpack keep of a real folder, what they tell of the rest, and who may read what they write."""
import os
import shutil
import stat
import subprocess

from scenes.devices import become_nobody
from scenes.running import ABC, SECONDS, Failed, Skipped, expect, named, shortened, tree_text
from scenes.stores import DONE, in_a_place
from scenes.tools import beside, fill, holds_nothing, left, text_of, tool, tool_of_nobody

CAPABILITY = bytes.fromhex("0100000200040000000000000000000000000000")
FINE = b"", b"", 0


def need_root():
    if os.getuid() != 0:
        raise Skipped("it wants root, to give entries to others")


def mode_of(path):
    return stat.S_IMODE(path.lstat().st_mode)


def modes_below(folder):
    """The modes of the files and of the folders that stand there."""
    found = [folder, *folder.rglob("*")]
    return tuple({oct(mode_of(path)) for path in found if path.is_dir() == is_folder} for is_folder in (False, True))


def what_a_depot_has_is_its_owners_alone_unless_it_is_public(place):
    folder = fill(beside(place, "folder"))
    for umask in 0, 0o022, 0o077:
        for public, modes in ((), ("0o600", "0o700")), (("--public",), (oct(0o666 & ~umask), oct(0o777 & ~umask))):
            depot = beside(place, f"depot-{umask}{len(public)}")
            expect(tool(place, "pack", *public, folder, depot, "a/r", before=lambda umask=umask: os.umask(umask)), FINE)
            if modes_below(depot) != ({modes[0]}, {modes[1]}):
                raise Failed(f"with the umask {umask:o} and {public} the modes are {modes_below(depot)}")


def reads_as_nobody(path):
    """Whether a user who may do nothing gets a byte of a file."""
    return subprocess.run(["cat", path], preexec_fn=become_nobody, capture_output=True, timeout=SECONDS).stdout != b""


def what_only_root_may_read_nobody_reads_on_its_way(place):
    """It is looked for in the depot, the store and what is unpacked, by who may enter the folder that they stand in."""
    need_root()
    folder, depot, out = (beside(place, name) for name in ("folder", "packed", "out"))
    (folder / "etc").mkdir(parents=True)
    for name, mode in ("shadow", 0o600), ("hostname", 0o644):
        (folder / "etc" / name).write_text("secret\n" if name == "shadow" else "name\n")
        (folder / "etc" / name).chmod(mode)
    for path in place.store.parent, place.store:
        path.chmod(0o755)
    expect(tool(place, "pack", folder, depot, "r", before=lambda: os.umask(0)), FINE)
    place.depot.rmdir()
    depot.rename(place.depot)
    place.expect(("init x86-64 system", DONE), ("import-fs r /", DONE))
    expect(tool(place, "unpack", place.store, "/", out), FINE)
    found = [path for path in place.store.parent.rglob("*") if path.is_file() and reads_as_nobody(path)]
    wanted = {folder / "etc/hostname", out / "etc/hostname"}
    if set(found) != wanted:
        raise Failed(f"nobody reads {shortened(found)}, and not {shortened(wanted)}")
    if (out / "etc/shadow").read_text() != "secret\n" or stat.S_IMODE((out / "etc/shadow").stat().st_mode) != 0o600:
        raise Failed("etc/shadow came out as something else")


SETID_MODES = {"a": 0o4755, "b": 0o2755, "c": 0o6711, "d": 0o1644, "e": 0o4000}
# What takes them off, and what keeps them, where there is no owner.
SETID_OPTIONS = ((), 0o1777), (("--quiet",), 0o1777), (("--keep-setid",), 0o7777), (("--no-setid",), 0o1777)
SETID_LOST = b"unpack: setuid and setgid are taken off files, since owners are lost: 4 (/a, /b, /c, ..); --keep-setid keeps them\n"
OWNERS_LOST = b"unpack: lost: owners: 7 (/a, /b, /c, ..)\n"


def with_setid(place):
    lines = (f"f {mode:o} 3 {ABC} {name}" for name, mode in SETID_MODES.items())
    place.resource("r", tree_text(*lines, "d 2755 f", "d 1777 g"), dict.fromkeys(SETID_MODES, b"abc"))
    place.expect(("init x86-64 system", DONE), ("import-fs r /x", DONE))


def has_setid(out, options, kept):
    """That files have their modes but for some bits, and directories all of theirs."""
    found = {name: mode_of(out / name) for name in (*SETID_MODES, "f", "g")}
    if found != {**{name: mode & kept for name, mode in SETID_MODES.items()}, "f": 0o2755, "g": 0o1777}:
        raise Failed(f"with {options} the modes are {found}")


def setuid_and_setgid_go_with_the_owners_of_files(place):
    """Root gives all owners, which in a text that tells none are root's. Another user gives none of these."""
    need_root()
    with_setid(place)
    for at, (options, kept) in enumerate((((), 0o7777), (("--keep-setid",), 0o7777), (("--no-setid",), 0o1777))):
        out = beside(place, f"out{at}")
        expect(tool(place, "unpack", *options, place.store, "/x", out), FINE)
        has_setid(out, options, kept)
    read_by_nobody(place)
    for at, (options, kept) in enumerate(SETID_OPTIONS):
        out = beside(place, "outs") / str(at)
        told = b"" if "--quiet" in options else OWNERS_LOST + (SETID_LOST if not options else b"")
        expect(tool_of_nobody(place, "unpack", *options, place.store, "/x", out), (b"", told, 0))
        has_setid(out, options, kept)
    written, told, status = tool(place, "unpack", "--keep-setid", "--no-setid", place.store, "/x", beside(place, "both"))
    if status != 2 or not told.endswith(b"argument --no-setid: not allowed with argument --keep-setid\n") or beside(place, "both").exists():
        raise Failed(f"both are taken: {told}")


def read_by_nobody(place):
    """Lets nobody read the store, and write in the folder `outs`."""
    for path in (*place.store.rglob("*"), place.store, place.store.parent):
        path.chmod(0o755)
    beside(place, "outs").mkdir()
    beside(place, "outs").chmod(0o777)


def losing(folder):
    """A folder that loses something of each kind, and the lines that tell it. A capability of a directory counts for nothing."""
    folder = fill(folder)
    names = [f"usr/own{at}" for at in range(4)]
    try:
        for name in names:
            (folder / name).write_text(name)
        os.setxattr(folder / "usr/bin", "security.capability", CAPABILITY)
        os.chown(folder, 1234, 5)
        for path in "usr/ü", "usr/own3":
            os.setxattr(folder / path, "user.note", b"x")
        os.setxattr(folder / "usr", "user.overlay.opaque", b"y")
    except OSError as error:
        raise Skipped(f"no owner or attribute can be given here: {error.strerror}") from None
    for name in "z1", "z2":
        os.link(folder / "usr/own0", folder / name)
    os.truncate(folder / "usr/own1", 10_000_000)
    (folder / "full").write_bytes(bytes(100_000))
    folder.chmod(0o2750)
    return folder, (
        f"lost: file capabilities that no tree text says: 1 ({folder}/usr/bin)",
        f"lost: other extended attributes: 2 ({folder}/usr/own3, {folder}/usr/ü)",
        f"lost: hard links, which become files of their own: 2 ({folder}/z1, {folder}/z2)",
        f"lost: holes, which are filled: 1 ({folder}/usr/own1)",
        f"lost: the mode 2750 of {folder} itself, which is 755 where a command puts it: others can read and enter it",
        f"lost: the owner 1234:5 of {folder} itself, which is 0:0 where a command puts it",
    )


def each_loss_is_told_or_refused(place):
    need_root()
    folder, lines = losing(beside(place, "folder"))
    told = "".join(f"pack: {line}\n" for line in lines).encode()
    for options in ("--strict",), ("--strict", "--quiet"):
        expect(tool(place, "pack", *options, folder, place.depot, "r"), (b"", told, 1))
        holds_nothing(place.depot)
    expect(tool(place, "pack", folder, place.depot, "r"), (b"", told, 0))
    expect(tool(place, "pack", "--quiet", folder, place.depot, "q"), FINE)
    if (place.depot / "q.tree").read_bytes() != text_of(place, folder):
        raise Failed("the text is another than that of the folder")
    expect(tool(place, "pack", "--strict", fill(beside(place, "plain")), place.depot, "p"), FINE)


def split(folder, *paths):
    """A folder of such files; a path that ends in a slash is a folder."""
    for path in paths:
        (folder / path).parent.mkdir(parents=True, exist_ok=True)
        if path.endswith("/"):
            (folder / path).mkdir(exist_ok=True)
        else:
            (folder / path).write_bytes(b"abc")
    return folder


def what_stands_beside_usr_is_put_below_it(place):
    folder = split(beside(place, "folder"), "bin/a", "lib/systemd/system/x.service", "lib/y", "usr/lib/systemd/z", "usr/share/", "etc/c", "usr-x")
    (folder / "lib/systemd").chmod(0o700)
    (folder / "sbin").symlink_to("usr/sbin")
    (folder / "bin/b").symlink_to("../lib/y")
    wanted = split(beside(place, "wanted"), "usr/bin/a", "usr/lib/systemd/system/x.service", "usr/lib/y", "usr/lib/systemd/z", "usr/share/", "etc/c", "usr-x")
    (wanted / "sbin").symlink_to("usr/sbin")
    (wanted / "usr/bin/b").symlink_to("../lib/y")
    expect(tool(place, "pack", "--usr-merge", folder, place.depot, "r"), FINE)
    place.expect(("init x86-64 system", DONE), ("import-fs r /", DONE), ("tree", text_of(place, wanted)), ("check", b"ok 6 18\n"))
    shutil.rmtree(folder / "usr")
    expect(tool(place, "pack", "--usr-merge", folder, place.depot, "s"), FINE)
    place.expect(("import-fs s /", DONE), ("cat /usr/bin/a", b"abc"), ("cat /usr/lib/systemd/system/x.service", b"abc"))


def what_stands_in_both_is_refused(place):
    folder = split(beside(place, "folder"), "bin/a", "bin/b/c", "bin/d/", "usr/bin/a", "usr/bin/b", "usr/bin/d/", "bin/f", "usr/bin/f/", "lib64/x")
    (folder / "bin/e").symlink_to("a")
    (folder / "usr/bin/e").symlink_to("a")
    told = "".join(f"pack: {folder}/bin/{name}: {folder}/usr/bin/{name} stands there too\n" for name in "abef")
    expect(tool(place, "pack", "--usr-merge", folder, place.depot, "r"), (b"", told.encode(), 1))
    (folder / "usr").rename(folder / "var")
    (folder / "usr").symlink_to("var")
    told = f"pack: {folder}/usr: no directory, so nothing can be put below it\n".encode()
    expect(tool(place, "pack", "--usr-merge", folder, place.depot, "r"), (b"", told, 1))
    holds_nothing(place.depot)


def folders_beside_usr_are_told_of(place):
    folder = split(beside(place, "folder"), "lib/systemd/system/x.service", "bin/a", "usr/share/")
    (folder / "sbin").symlink_to("usr/sbin")
    told = b"pack: bin, lib: no hierarchy of an extension image shows what stands there; --usr-merge puts it below usr\n"
    expect(tool(place, "pack", folder, place.depot, "r"), (b"", told, 0))
    expect(tool(place, "pack", "--quiet", folder, place.depot, "s"), FINE)
    expect(tool(place, "pack", "--without", "lib", "--without", "bin", folder, place.depot, "t"), FINE)
    if left(place.depot) != ["r", "r.tree", "s", "s.tree", "t.tree"]:
        raise Failed(f"the depot has {left(place.depot)}")


CALLS = [
    *(what_a_depot_has_is_its_owners_alone_unless_it_is_public, what_only_root_may_read_nobody_reads_on_its_way),
    *(setuid_and_setgid_go_with_the_owners_of_files, each_loss_is_told_or_refused),
    *(what_stands_beside_usr_is_put_below_it, what_stands_in_both_is_refused, folders_beside_usr_are_told_of),
]
scenes = named(*map(in_a_place, CALLS))
