"""What tools/activate refuses, by name and before anything is shown: what would brick a host, links on the way, other users' folders, damaged
stores and texts that are none; and who sees what of a generation that is mounted."""
import os
import random
import shutil
import subprocess
import sys
import sysconfig
from pathlib import Path

from scenes.activated import TOOL, changed_store, done, image, in_a_memory, merged_store, read, refused, run_here, shows, status_of, tool
from scenes.chroots import bind, mount
from scenes.devices import NOBODY, become_nobody
from scenes.erofs_trees import HOME, STAMP, put_store
from scenes.mutating import mutated
from scenes.running import SECONDS, TOP, Failed, Skipped, expect, imager, named, shortened
from scenes.stores import DONE, EMPTY_INDEX, Place, in_a_place
from scenes.tools import tool as other_tool
from scenes.tools import tool_of_nobody

import asking
import homes
from entries import Refused

MUTATIONS = 600
# Tells the files of the modules that the tool imports.
IMPORTED = """import os, runpy, sys
sys.path.insert(0, os.path.dirname(sys.argv[1]))
sys.argv, out, sys.stdout = sys.argv[1:] + ["--help"], sys.stdout, sys.stderr
try:
    runpy.run_path(sys.argv[0], run_name="__main__")
except SystemExit:
    pass
out.writelines(f"{module.__file__}\\n" for module in list(sys.modules.values()) if getattr(module, "__file__", None))
"""


# What would brick a host.


def a_host_without_programs_is_not_shown_at_the_root(place, root):
    """Where this process's own root is asked for, which has all that the store lacks."""
    merged_store(place)
    words = "switch", "--root=/"
    before = sorted(os.listdir("/usr"))
    refused(place, *words, says="/bin/sh: what is to be shown has no such program")
    refused(place, *words, says="import one first, or take --even-without")
    if sorted(os.listdir("/usr")) != before or status_of(place)["now"] is not None:
        raise Failed("it is shown all the same")


def a_store_that_would_not_be_found_is_refused(place, root):
    merged_store(place)
    inside = Place.__new__(Place)
    inside.program, inside.depot = place.program, place.depot
    for name in "usr/store", "opt/deep/store":
        inside.store = root / name
        inside.store.parent.mkdir(exist_ok=True)
        shutil.copytree(place.store, inside.store)
        refused(inside, "switch", f"--root={root}", says="it stands below")
    inside.store = root / "usr/link"
    inside.store.symlink_to(place.store)
    refused(inside, "switch", f"--root={root}", says="it stands below")
    (root / "usr/way").symlink_to(place.store.parent)
    inside.store = root / "etc/link"
    inside.store.symlink_to(root / "usr/way/store")
    refused(inside, "switch", f"--root={root}", says="it stands below")
    shows(root, b"own")
    # beside them it is found
    inside.store = root / "etc/store"
    shutil.copytree(place.store, inside.store)
    done(inside, "switch", f"--root={root}")
    done(inside, "off")


def a_root_without_a_hierarchy_is_refused(place, root):
    merged_store(place)
    (root / "opt").rmdir()
    refused(place, "switch", f"--root={root}", says=f"{root}/opt: the root has no such directory")
    for make in (lambda path: path.symlink_to("etc"), lambda path: path.symlink_to("/etc"), lambda path: path.write_text("")):
        make(root / "opt")
        refused(place, "switch", f"--root={root}", says=f"{root}/opt: it is a link or no directory")
        (root / "opt").unlink()
    shows(root, b"own")
    (root / "opt").mkdir()
    (root / "bin").symlink_to("usr/bin")
    done(place, "switch", f"--root={root}")
    done(place, "off")


def a_second_root_is_refused(place, root):
    merged_store(place)
    done(place, "switch", f"--root={root}")
    refused(place, "switch", f"--root={root}/etc", says="a generation of this store is shown there, at another root")
    shows(root, b"one")


def what_another_store_shows_is_left_alone(place, root):
    merged_store(place)
    done(place, "switch", f"--root={root}")
    other = Place(place.program, make_folder(place.store.parent / "other"))
    merged_store(other)
    refused(other, "switch", f"--root={root}", says="a generation of another store is shown there")
    refused(other, "back", says="nothing was shown before")
    done(other, "off", says=b"off\n")
    shows(root, b"one")
    done(other, "mount", root / "etc")
    refused(place, "umount", root / "etc", says="`mount` of this store has mounted nothing there")
    done(place, "off")
    if read(root / "etc/usr/shown") != b"one":
        raise Failed("the other store's mount is gone")


def make_folder(path):
    path.mkdir()
    return path


# Links, and other users.


def no_link_leads_to_a_target(place, root):
    merged_store(place)
    (root / "link").symlink_to("etc")
    (root / "way").symlink_to(".")
    for target in root / "link", root / "way/etc":
        refused(place, "mount", target, says="a link stands on the way to it")
    refused(place, "mount", root / "gone", says="No such file or directory")
    refused(place, "mount", root / "usr/shown", says="Not a directory")
    for target in place.store, place.store / "g-2", place.store.parent, "/":
        refused(place, "mount", target, says="it stands in STORE, or STORE in it")
    if any(path.is_mount() for path in (root / "etc", root / "usr")):
        raise Failed("something is mounted")


def no_link_of_a_tree_leads_a_path_elsewhere(place, root):
    entries = {(b"usr",): (b"d", (b"755",)), (b"usr", b"a"): (b"f", (b"644", *STAMP)), (b"out",): (b"l", (b"%d" % len(b"/etc"), b"/etc")), (b"up",): (b"l", (b"8", b"../../.."))}
    put_store(place, 1, entries, {HOME: b"abc"})
    for path in "/out", "/up", "/out/passwd", "/usr/a":
        refused(place, "mount", f"--path={path}", root / "etc", says="it is no directory in what is to be mounted, or a link leads there")
    refused(place, "mount", "--path=/usr/none", root / "etc", says="/usr/none: nothing stands there in generation 1")
    done(place, "mount", "--path=/../usr", root / "etc")
    if sorted(os.listdir(root / "etc")) != ["a"]:
        raise Failed(f"it shows {os.listdir(root / 'etc')}")


def a_folder_active_of_somebody_else_is_refused(place, root):
    merged_store(place)
    active = place.store / "active"
    for make, says in (
        (lambda: active.symlink_to(root), "it is no folder"),
        (lambda: active.write_text(""), "it is no folder"),
        (lambda: (active.mkdir(), active.chmod(0o755)), "it has to be the caller's own, with the mode 700"),
        (lambda: (active.mkdir(0o700), os.chown(active, NOBODY, 0)), "it has to be the caller's own, with the mode 700"),
        (lambda: (active.mkdir(0o700), (active / "files").symlink_to(root)), "it is no folder"),
        (lambda: (active.mkdir(0o700), (active / "files").mkdir(0o750)), "it has to be the caller's own, with the mode 700"),
    ):
        make()
        refused(place, "switch", f"--root={root}", says=says)
        if active.is_dir() and not active.is_symlink():
            shutil.rmtree(active)
        else:
            active.unlink()
    for change, back in ((lambda: place.store.chmod(0o775), lambda: place.store.chmod(0o700)), (lambda: os.chown(place.store, NOBODY, 0), lambda: os.chown(place.store, 0, 0))):
        change()
        refused(place, "switch", f"--root={root}", says="it has to be the caller's own, and nobody else's to write in")
        back()
    done(place, "switch", f"--root={root}")


def links_in_active_lead_nowhere(place, root):
    """A link at each name that is written is replaced, and where a file is read none is followed."""
    merged_store(place)
    victim = root / "victim"
    victim.write_text("victim")
    done(place, "make")
    active = place.store / "active"
    for name in "now.new", "g-4.erofs.new", "g-6.erofs", "g-6.new":
        (active / name).symlink_to(victim)
    changed_store(place)
    done(place, "switch", f"--root={root}")
    if victim.read_text() != "victim" or (active / "g-6.erofs").is_symlink():
        raise Failed("a link is followed")
    for name, command in ("now", "back"), ("before", "back"), ("trial", "boot"), ("g-6", "boot"):
        kept = read(active / name)
        (active / name).unlink(missing_ok=True)
        (active / name).symlink_to(victim)
        written, said, status = tool(place, command)
        if status != 1 or b"Traceback" in said:
            raise Failed(f"with a link at {name} it ends with {status} and tells {shortened(said)}")
        (active / name).unlink()
        if kept is not None:
            (active / name).write_bytes(kept)
    shows(root, b"two")


def another_user_reads_what_the_modes_let_it(place, root):
    folders = {(name,): (b"d", (field,)) for name, field in ((b"closed", b"700"), (b"open", b"755"))}
    files = {(b"open", b"all"): b"604", (b"open", b"own"): b"400:%d:0" % NOBODY, (b"open", b"none"): b"600", (b"closed", b"f"): b"644"}
    put_store(place, 1, folders | {names: (b"f", (field, *STAMP)) for names, field in files.items()}, {HOME: b"abc"})
    for path in place.store, *place.store.rglob("*"):
        path.chmod(0o700 if path.is_dir() else 0o600)
    done(place, "mount", root / "etc")
    shown = read_by_nobody(root / "etc")
    if shown != {".", "open", "open/all", "open/own"}:
        raise Failed(f"another user reads {shown}")
    if kept := read_by_nobody(place.store):
        raise Failed(f"another user reads {kept} of the store")


def read_by_nobody(folder):
    """The paths at and below a folder that another user reads who is in it already."""
    found = set()
    for path in folder, *folder.rglob("*"):
        words = ["ls" if path.is_dir() else "cat", path.relative_to(folder)]
        if not subprocess.run(words, cwd=folder, preexec_fn=become_nobody, capture_output=True, timeout=SECONDS).returncode:
            found.add(str(path.relative_to(folder)))
    return found


def who_may_not_mount_is_told_so(place):
    merged_store(place)
    place.store.parent.chmod(0o755)
    for command in ("make",), ("switch",), ("status",), ("off",), ("mount", "/mnt"):
        written, told, status = tool_of_nobody(place, "activate", place.store, *command)
        expect((written, told, status), (b"", b"activate: only root may mount, and see what is mounted of a store\n", 1))


def setuid_counts_but_for_an_option(place, root):
    put_store(place, 1, {(b"a",): (b"f", (b"4755", *STAMP))}, {HOME: b"abc"})
    for options, has_suid in ((), True), (("--no-suid",), False):
        done(place, "mount", *options, root / "etc")
        flags = os.statvfs(root / "etc").f_flag
        if not flags & os.ST_RDONLY or not flags & os.ST_NODEV or bool(flags & os.ST_NOSUID) == has_suid:
            raise Failed(f"with {options} the mount has the flags {flags:x}")
        try:
            (root / "etc/new").write_text("")
        except OSError as error:
            expect((b"", b"", error.strerror), (b"", b"", "Read-only file system"))
        else:
            raise Failed("it can be written")
        done(place, "umount", root / "etc")


# Damage.


def a_damaged_file_is_not_made(place, root):
    """Neither of the current generation nor of a mark; with --no-check it is, and a later command looks all the same."""
    merged_store(place)
    place.expect(("mark", b"marked 4\n"))
    changed_store(place)
    done(place, "make")
    mark_home = next(path for path in place.store.glob("g-[0-9]/*/*") if path.read_bytes() == b"one")
    mark_home.write_bytes(b"ONE")
    refused(place, "make", "--mark=4", says="its bytes are others than listed")
    mark_home.write_bytes(b"on")
    refused(place, "switch", "--mark=4", f"--root={root}", says="its bytes are others than listed")
    mark_home.unlink()
    refused(place, "switch", "--mark=4", f"--root={root}", says="the store is damaged")
    refused(place, "make", "--mark=4", "--no-check", says="the store lacks this file")
    mark_home.write_bytes(b"ONE")
    done(place, "make", "--mark=4", "--no-check", says=b"made 4\n")
    refused(place, "switch", "--mark=4", f"--root={root}", says="its bytes are others than listed")
    mark_home.write_bytes(b"one")
    done(place, "switch", "--mark=4", f"--root={root}")
    shows(root, b"one")
    changed_store(place, b"new")
    home = next(path for path in place.store.glob("g-[0-9]/*/*") if path.read_bytes() == b"new")
    home.write_bytes(b"NEW")
    refused(place, "switch", f"--root={root}", says="check: hostext: bad store")
    shows(root, b"one")


def a_store_without_a_host_is_told(place, root):
    refused(place, "make", says="STORE has no `current`")
    refused(place, "status", says="STORE has no `current`")
    place.expect(("init x86-64 system", DONE))
    refused(place, "make", "--mark=7", says="the host has no mark 7")
    written, told, status = tool(place, "switch", f"--root={root}")
    expect((written, status), (b"shown 1\n", 0))
    if status_of(place)["before"] is not None or status_of(place)["waits"]:
        raise Failed(f"the status is {status_of(place)}")


def another_store_in_its_place_is_made_anew(place, root):
    """Its numbers are the same, and its files aren't."""
    merged_store(place)
    done(place, "make")
    for path in place.store.iterdir():
        if path.name != "active":
            shutil.rmtree(path) if path.is_dir() else path.unlink()
    shutil.rmtree(place.depot)
    place.depot.mkdir()
    place.index(4, EMPTY_INDEX)
    done(place, "make", says=b"made 4\n")
    done(place, "mount", root / "etc")
    if os.listdir(root / "etc"):
        raise Failed(f"it shows {os.listdir(root / 'etc')}")


def no_index_ends_it_with_a_traceback(place, root):
    """What is asked of a store is told, or refused: of each mutation of `current`, of an index and of what is kept in `active`."""
    merged_store(place)
    place.expect(("mark", b"marked 4\n"))
    done(place, "switch", f"--root={root}")
    chance = random.Random(73)
    index, current = place.store / "g-5/index", place.store / "current"
    kept = {path: path.read_bytes() for path in (index, current)}
    store = os.open(place.store, os.O_RDONLY)
    for at in range(MUTATIONS):
        path = index if at % 4 else current
        path.write_bytes(mutated(chance, [kept[path]]))
        for mark in None, 4:
            try:
                asking.what_stands(store, mark)
                if mark:
                    asking.files_at_mark(store, mark)
            except Refused:
                pass
        path.write_bytes(kept[path])
    image_of = (place.store / "active/g-5.erofs").read_bytes()
    for at in range(MUTATIONS):
        try:
            homes.homes_of(mutated(chance, [image_of]), 5)
        except Refused:
            pass
    for name in "now", "g-5", "trial":
        path = place.store / "active" / name
        before = path.read_bytes() if path.exists() else b"5 fresh\n"
        for at in range(20):
            path.write_bytes(mutated(chance, [before]))
            for command in (("status",), ("boot",)):
                written, said, status = run_here(place, *command)
                if status not in (0, 1) or b"Traceback" in said:
                    raise Failed(f"with {path.read_bytes()} at {name} `{command}` ends with {status} and tells {shortened(said)}")
        path.write_bytes(before) if name != "trial" else path.unlink()


def hostext_leaves_active_alone(place):
    """Whatever commands run over a store, and whatever is left over there."""
    (place.store / "active/files/g-1/000").mkdir(parents=True)
    for name in "files/g-1/000/00", "g-1.erofs", "g-1", "now", "before", "trial", "refused":
        (place.store / "active" / name).write_text(name)

    def stands():
        return {str(path): (path.stat().st_mtime_ns, path.read_bytes() if path.is_file() else None) for path in (place.store / "active", *(place.store / "active").rglob("*"))}

    before = stands()
    merged_store(place)
    (place.store / "g-9").mkdir()
    place.expect(("mark", b"marked 4\n"), ("migrate", b"unchanged\n"), ("mark", b"marked 5\n"))
    changed_store(place)
    place.expect(("rollback 4", DONE), ("forget 4", DONE), ("forget 5", DONE), ("sysext unmerge", b"unmerged\n"), ("remove /usr", DONE), ("remove /var", DONE))
    if stands() != before:
        raise Failed("what stands in `active` is something else")
    if place.run("check")[2] or place.run("check")[1]:
        raise Failed("the store isn't sound with it")


# A root in which all of this runs.


def a_host_that_shows_itself_goes_on(place, root):
    """A small root with a shell, a Python and the tool, in a store: switched to, back and off, each from the tree that is shown then."""
    host = root.with_name("host")
    host.mkdir()
    fill(host, place)
    (host / "srv").mkdir()
    expect(other_tool(place, "pack", "--quiet", "--root-owned", host, place.depot, "host")[2:], (0,))
    image(place, "x", {"usr/shown": b"one", "usr/other": b"one"})
    store = host / "srv/store"
    store.mkdir(0o700)
    inside = Place.__new__(Place)
    inside.program, inside.store, inside.depot = place.program, store, place.depot
    inside.expect(("init x86-64 system", DONE), ("import-fs host /", DONE), ("import-fs x /var/lib/extensions/x", DONE), ("sysext merge", b"merged 1\nx\n"))
    bind(host, host)
    (host / "proc").mkdir(exist_ok=True)
    mount("proc", host / "proc", "proc")
    bind("/dev", host / "dev")

    def run(*words, says):
        ended = subprocess.run([shutil.which("chroot"), host, "/usr/lib/hostext/activate", "/srv/store", *words], env={"PATH": "/usr/bin:/bin"}, stdin=subprocess.DEVNULL, capture_output=True, timeout=SECONDS)
        expect((ended.stderr, ended.stdout, ended.returncode), (b"", says, 0))

    shown = b"shown 4\n/opt\n/usr\n"
    for words, says, word in ((("switch",), shown, b"one"), (("switch",), shown, b"one"), (("back",), b"off\n", None), (("back",), shown, b"one"), (("off",), b"off\n", None), (("boot",), b"off\n", None)):
        run(*words, says=says)
        if read(host / "usr/shown") != word:
            raise Failed(f"after {words} the host shows {read(host / 'usr/shown')}")
    for path, says in (("usr/lib/hostext/asking.py", "what is to be shown lacks this file of the tool"), ("usr/bin/python3", "what is to be shown has no such program")):
        inside.expect(("sysext unmerge", b"unmerged\n"), (f"remove /{path}", DONE), ("sysext merge", b"merged 1\nx\n"))
        ended = subprocess.run([shutil.which("chroot"), host, "/usr/lib/hostext/activate", "/srv/store", "switch"], env={"PATH": "/usr/bin:/bin"}, stdin=subprocess.DEVNULL, capture_output=True, timeout=SECONDS)
        if ended.returncode != 1 or f"/{path}: {says}" not in ended.stderr.decode() or read(host / "usr/shown") is not None:
            raise Failed(f"without {path} it tells {shortened(ended.stderr)}")
    run("switch", "--even-without", says=b"shown 10\n/opt\n/usr\n")


def library_of_python():
    """The library of the Python that runs this, which a root has at the same path."""
    library = Path(sysconfig.get_paths()["stdlib"])
    if library.parent != Path("/usr/lib"):
        raise Skipped(f"the Python that runs this has its library in {library}, and not below /usr/lib")
    return library


def with_a_library(scene):
    """The scene where a root can have the Python that runs this."""

    def checked(program):
        library_of_python()
        scene(program)

    checked.__name__ = scene.__name__
    return checked


def fill(host, place):
    """A root with what the tool needs to run."""
    library = library_of_python()
    for name in "usr/bin", "usr/lib", "opt", "etc", "dev", "tmp", "usr/lib/hostext", "usr/lib64":
        (host / name).mkdir(parents=True, exist_ok=True)
    for name in "bin", "lib", "lib64":
        (host / name).symlink_to(f"usr/{name}")
    imported = subprocess.run([sys.executable, "-I", "-c", IMPORTED, TOOL], capture_output=True, text=True, check=True, timeout=SECONDS).stdout.split()
    modules = {path for path in map(Path, imported) if path.is_relative_to(library)} | set(library.glob("encodings/*.py"))
    for path in modules:
        copy_to(host, path, path)
    programs = {"usr/bin/python3": os.path.realpath(sys.executable), "usr/bin/sh": os.path.realpath("/bin/sh"), "usr/bin/env": "/usr/bin/env", "usr/bin/hostext": place.program, "usr/bin/hostext_erofs": imager()}
    for name, source in programs.items():
        shutil.copy(source, host / name)
    for path in (*programs.values(), *(path for path in modules if path.suffix == ".so")):
        copy_libraries(path, host)
    for path in TOOL, *(TOP / "tools").glob("*.py"):
        shutil.copy(path, host / "usr/lib/hostext")
    (host / "usr/lib/os-release").write_bytes(b"ID=debian\n")


def copy_libraries(path, host):
    """The libraries of a program, each where the loader looks for it."""
    listed = subprocess.run(["ldd", path], capture_output=True, text=True, timeout=SECONDS).stdout
    for word in listed.split():
        if word.startswith("/") and os.path.exists(word):
            copy_to(host, word, os.path.join(os.path.realpath(os.path.dirname(word)), os.path.basename(word)))


def copy_to(host, source, path):
    """Copies a file to its path in a root."""
    place = host / str(path).lstrip("/")
    place.parent.mkdir(parents=True, exist_ok=True)
    if not place.exists():
        shutil.copy(source, place)


CALLS = [
    *(a_host_without_programs_is_not_shown_at_the_root, a_store_that_would_not_be_found_is_refused, a_root_without_a_hierarchy_is_refused),
    *(a_second_root_is_refused, what_another_store_shows_is_left_alone, no_link_leads_to_a_target, no_link_of_a_tree_leads_a_path_elsewhere),
    *(a_folder_active_of_somebody_else_is_refused, links_in_active_lead_nowhere, another_user_reads_what_the_modes_let_it),
    *(setuid_counts_but_for_an_option, a_damaged_file_is_not_made, a_store_without_a_host_is_told, another_store_in_its_place_is_made_anew),
    no_index_ends_it_with_a_traceback,
]
OF_A_HOST = with_a_library(in_a_memory(a_host_that_shows_itself_goes_on))
scenes = named(*map(in_a_memory, CALLS), OF_A_HOST, *map(in_a_place, (who_may_not_mount_is_told_so, hostext_leaves_active_alone)))
