"""The tools that carry trees between real folders and stores: tree-text, pack and unpack."""
import os
import resource
import shutil
import socket
import stat
import subprocess
import sys

from scenes.devices import become_nobody
from scenes.folders import make_opaque, make_whiteout
from scenes.running import ABC, EMPTY, SECONDS, TOP, Failed, Skipped, expect, named, removing, shortened, tree_text
from scenes.stores import DONE, digest, in_a_place

TOOLS = TOP / "tools"


def tool(place, name, *words, before=None, **options):
    """What a tool writes on standard output and standard error, and its status."""
    around = {**os.environ, "HOSTEXT": str(place.program)}
    run = subprocess.run([TOOLS / name, *words], **{"env": around, "capture_output": True, "timeout": SECONDS, "preexec_fn": before, **options})
    return run.stdout, without_own(run.stderr), run.returncode


def without_own(said):
    """What is told but for the caller's own entries, of which there are some where somebody other than root runs the scenes."""
    if os.getuid() == 0:
        return said
    return b"".join(line for line in said.splitlines(keepends=True) if b", which become root's: " not in line)


def tool_of_nobody(place, name, *words):
    """The same of a tool that a user runs who may do nothing. It is a copy, which that user may read."""
    tools = beside(place, "tools")
    tools.mkdir(exist_ok=True)
    for path in TOOLS / name, *TOOLS.glob("*.py"), place.program:
        shutil.copy(path, tools)
    # what tests make for a while is root's alone
    around = {name: value for name, value in os.environ.items() if name != "TMPDIR"} | {"HOSTEXT": str(tools / place.program.name)}
    for python in "/usr/bin/python3", sys.executable:
        try:
            subprocess.run([python, "-c", ""], preexec_fn=become_nobody, check=True, capture_output=True, timeout=SECONDS)
        except (OSError, subprocess.SubprocessError):
            continue
        return tool(place, python, tools / name, *words, before=become_nobody, env=around)
    raise Skipped("nobody can run python3 here")


def beside(place, name):
    """A path beside the store and the depot."""
    return place.store.with_name(name)


def text_of(place, folder, *options):
    written, told, status = tool(place, "tree-text", *options, folder)
    expect((b"", told, status), (b"", b"", 0))
    return written


def make_socket(path):
    with socket.socket(socket.AF_UNIX) as made:
        made.bind(str(path))


def left(folder):
    return sorted(path.name for path in folder.iterdir())


def holds_nothing(folder):
    if left(folder):
        raise Failed(f"{folder.name} has {left(folder)}")


def fill(folder):
    (folder / "usr/bin").mkdir(parents=True)
    (folder / "usr/bin/tool").write_bytes(b"abc")
    (folder / "usr/bin/tool").chmod(0o755)
    (folder / "usr/bin/link").symlink_to("../../outside")
    (folder / "usr/ü").mkdir(mode=0o555)
    return folder


def pack_and_unpack_give_a_folder_back(place):
    folder, made, empty = fill(beside(place, "folder")), beside(place, "made"), beside(place, "empty")
    expect(tool(place, "pack", folder, place.depot, "a/host"), (b"", b"", 0))
    place.expect(("init x86-64 system", DONE), ("import-fs a/host /srv", DONE))
    empty.mkdir(mode=0o700)
    for out in made, empty:
        expect(tool(place, "unpack", place.store, "/srv", out), (b"", b"", 0))
        if text_of(place, out) != text_of(place, folder):
            raise Failed(f"what was unpacked is {shortened(text_of(place, out))}")
    stand = left(place.store.parent)
    if stand != ["depot", "empty", "folder", "made", "store"] or stat.S_IMODE(empty.stat().st_mode) != 0o700:
        raise Failed(f"beside the store stand {stand}")


def a_tree_text_is_asked_for_by_one_folder(place):
    usage = b"usage: tree-text [--keep-owners | --root-owned] [--quiet] FOLDER\n"
    written, told, status = tool(place, "tree-text", "--help")
    expect((written[: len(usage)], told, status), (usage, b"", 0))
    lacking = b"error: the following arguments are required:"
    expect(tool(place, "tree-text"), (b"", b"%btree-text: %b FOLDER\n" % (usage, lacking), 2))
    usage = b"usage: unpack [OPTION ..] STORE ABS FOLDER\n       unpack {--tar | --erofs FILE | --squashfs FILE} [OPTION ..] STORE ABS\n"
    expect(tool(place, "unpack", "r"), (b"", b"%bunpack: %b ABS\n" % (usage, lacking), 2))
    expect(tool(place, "unpack", "r", "/"), (b"", b"%bunpack: %b FOLDER\n" % (usage, lacking), 2))
    usage = b"usage: pack [OPTION ..] SOURCE DEPOT RES\n"
    expect(tool(place, "pack", "r"), (b"", b"%bpack: %b DEPOT, RES\n" % (usage, lacking), 2))


def a_path_is_told_as_it_is_with_control_characters_escaped(place):
    missing = beside(place, "ü\n'")
    told = os.fsencode(f"{str(missing)[:-2]}\\n': No such file or directory\n")
    expect(tool(place, "tree-text", missing), (b"", b"tree-text: " + told, 1))
    expect(tool(place, "pack", missing, place.depot, "r"), (b"", b"pack: " + told, 1))
    holds_nothing(place.depot)


def all_that_no_tree_text_holds_is_told_at_once(place):
    folder = fill(beside(place, "folder"))
    os.mkfifo(folder / "pipe")
    make_socket(folder / "usr/socket")
    (folder / "usr/a\x1b").touch()
    (folder / "z").symlink_to("a\tb")
    kind = "neither a directory nor a file nor a link nor a whiteout"
    rows = ("pipe", kind), ("usr/a\\x1b", "a control byte in its name"), ("usr/socket", kind), ("z", "a control byte in its target")
    helps = "pack: --leave-out-special leaves out devices, sockets and pipes\n"
    for name, words, advice in ("pack", (folder, place.depot, "r"), helps), ("tree-text", (folder,), ""):
        told = "".join(f"{name}: {folder}/{path}: {reason}\n" for path, reason in rows)
        expect(tool(place, name, *words), (b"", (told + advice).encode(), 1))
    holds_nothing(place.depot)


def what_may_not_be_read_is_told_before_anything_is_copied(place):
    if os.getuid() != 0:
        raise Skipped("it wants root, to become nobody")
    folder = fill(beside(place, "folder"))
    for name in "a", "b":
        (folder / name).mkdir(mode=0o700)
    (folder / "c").touch(mode=0o600)
    for path in place.store.parent, folder:
        path.chmod(0o755)
    place.depot.chmod(0o777)
    told = "".join(f"pack: {folder}/{name}: Permission denied\n" for name in "abc")
    expect(tool_of_nobody(place, "pack", folder, place.depot, "r"), (b"", told.encode(), 1))
    holds_nothing(place.depot)


def what_is_named_and_special_entries_are_left_out(place):
    """As a root has them that an installer made, with devices where this machine lets one be made."""
    folder, wanted = fill(beside(place, "folder")), fill(beside(place, "wanted"))
    for name in "dev", "run":
        (folder / name).mkdir()
        (wanted / name).mkdir()
    special = ["dev/initctl", "run/socket"]
    os.mkfifo(folder / "dev/initctl")
    make_socket(folder / "run/socket")
    try:
        os.mknod(folder / "dev/null", stat.S_IFCHR | 0o666, os.makedev(1, 3))
        special.insert(1, "dev/null")
    except OSError:
        pass
    for path in "proc/1/fd", "var/cache/apt":
        (folder / path).mkdir(parents=True)
        os.mkfifo(folder / path / "pipe")
    (folder / "var/cachet").mkdir()
    (wanted / "var/cachet").mkdir(parents=True)
    without = "--without", "/proc", "--without", "var/cache"
    told = "".join(f"pack: left out: {folder}/{path}\n" for path in special)
    expect(tool(place, "pack", *without, "--leave-out-special", folder, place.depot, "r"), (b"", told.encode(), 0))
    place.expect(("init x86-64 system", DONE), ("import-fs r /", DONE), ("tree", text_of(place, wanted)))


def a_path_to_leave_out_that_is_missing_is_told(place):
    folder = fill(beside(place, "folder"))
    told = "".join(f"pack: --without {path}: nothing below {folder} stands there\n" for path in ("usr/bin/tol", "/"))
    without = "--without", "usr/bin", "--without", "usr/bin/tol", "--without", "/"
    expect(tool(place, "pack", *without, folder, place.depot, "r"), (b"", told.encode(), 1))
    holds_nothing(place.depot)


def a_resource_that_is_there_stays(place):
    folder = fill(beside(place, "folder"))
    expect(tool(place, "pack", folder, place.depot, "r"), (b"", b"", 0))
    before = (place.depot / "r.tree").read_bytes()
    (folder / "more").touch()
    for gone in None, place.depot / "r":
        if gone:
            shutil.rmtree(gone)
        expect(tool(place, "pack", folder, place.depot, "r"), (b"", b"pack: r: it is there already\n", 1))
    if (place.depot / "r.tree").read_bytes() != before or left(place.depot) != ["r.tree"]:
        raise Failed(f"the depot has {left(place.depot)}")


def limited_to(size):
    return lambda: resource.setrlimit(resource.RLIMIT_FSIZE, (size, size))


def a_write_that_fails_leaves_nothing_in_the_depot(place):
    """The limit lets the files be written, and the tree text not; the next time it lets no file be."""
    folder = fill(beside(place, "folder"))
    for size, at in (100, ""), (2, f"{folder}/usr/bin/tool: "):
        told = f"pack: {at}File too large\n".encode()
        expect(tool(place, "pack", folder, place.depot, "r", before=limited_to(size)), (b"", told, 1))
        holds_nothing(place.depot)
    expect(tool(place, "pack", folder, place.depot, "r"), (b"", b"", 0))
    if (place.depot / "r.tree").read_bytes() != text_of(place, folder):
        raise Failed("the text is another than that of the folder")


def folders_that_were_made_for_what_fails_go_again(place):
    """Those in which a resource and a tree were to come; not one in which something stands."""
    place.resource("r", tree_text(f"f 644 3 {ABC} a"), {"a": b"abc"})
    place.expect(("init x86-64 system", DONE), ("import-fs r /", DONE))
    (place.store / "g-2/000/00").write_bytes(b"abd")
    folder, depot = fill(beside(place, "folder")), beside(place, "packed")
    told = f"pack: {folder}/usr/bin/tool: File too large\n".encode()
    expect(tool(place, "pack", folder, depot, "a/b/r", before=limited_to(2)), (b"", told, 1))
    expect(tool(place, "unpack", place.store, "/", beside(place, "x") / "y/out"), (b"", b"unpack: cat /a: hostext: bad store\n", 1))
    if depot.exists() or beside(place, "x").exists():
        raise Failed(f"there stand {left(place.store.parent)}")
    (depot / "a/c").mkdir(parents=True)
    expect(tool(place, "pack", folder, depot, "a/b/r", before=limited_to(2)), (b"", told, 1))
    if left(depot) != ["a"] or left(depot / "a") != ["c"]:
        raise Failed(f"the depot has {left(depot)}")


def nothing_is_unpacked_where_something_stands(place):
    place.expect(("init x86-64 system", DONE))
    out = beside(place, "out")
    out.mkdir()
    (out / "kept").touch()
    expect(tool(place, "unpack", place.store, "/", out), (b"", os.fsencode(f"unpack: {out}: it is not empty\n"), 1))
    if left(out) != ["kept"]:
        raise Failed(f"the folder has {left(out)}")


def as_it_was(place, out, is_there):
    """That nothing of a tree came to stand at the folder, or beside it."""
    if out.exists() != is_there or (is_there and left(out)):
        raise Failed(f"the folder has {left(out)}")
    if any(name.startswith(".") for name in left(out.parent)):
        raise Failed(f"beside the folder stand {left(out.parent)}")


def unpack_that_fails_leaves_no_half_of_a_folder(place):
    """The last file in the order of the tree is damaged in the store; then it is well, and all is written."""
    place.resource("r", tree_text("d 555 a", f"f 644 3 {ABC} a/b", f"f 644 3 {ABC} z"), {"a/b": b"abc", "z": b"abc"})
    place.expect(("init x86-64 system", DONE), ("import-fs r /", DONE))
    out, home = beside(place, "out"), place.store / "g-2/000/01"
    for is_there in False, True:
        if is_there:
            out.mkdir()
        home.write_bytes(b"abd")
        expect(tool(place, "unpack", place.store, "/", out), (b"", b"unpack: cat /z: hostext: bad store\n", 1))
        as_it_was(place, out, is_there)
    home.write_bytes(b"abc")
    expect(tool(place, "unpack", place.store, "/", out), (b"", b"", 0))
    if text_of(place, out) != tree_text("d 555 a", f"f 644 3 {ABC} a/b", f"f 644 3 {ABC} z"):
        raise Failed(f"what was unpacked is {text_of(place, out)}")


def script(path, lines):
    path.write_text(f"#!/bin/sh\n{lines}\n")
    path.chmod(0o755)
    return path


def the_whole_text_is_looked_through_before_a_file_is_read(place):
    """The program is a script, which notes its commands and gives a text whose last line before the end is none."""
    notes, text, out = beside(place, "notes"), beside(place, "text"), beside(place, "out")
    fake = script(beside(place, "fake"), f'echo "$3" >>"{notes}"\ncat "{text}"')
    around = {**os.environ, "HOSTEXT": str(fake)}
    for line, reason in ("d 755 ../b", "a name that no path has"), ("d 755 a", "its path doesn't come after the one before"), ("q b", "it is the line of no entry"):
        text.write_bytes(tree_text(f"f 644 3 {ABC} a", line))
        told = f"unpack: what the store gives is no tree text: line 3: {reason}\n".encode()
        expect(tool(place, "unpack", place.store, "/", out, env=around), (b"", told, 1))
    if set(notes.read_text().split()) != {"tree"}:
        raise Failed(f"the commands are {notes.read_text().split()}")
    as_it_was(place, out, False)


def whiteouts_and_opaque_directories_come_back(place):
    folder, out = beside(place, "folder"), beside(place, "out")
    (folder / "usr/doc").mkdir(parents=True)
    try:
        make_whiteout(folder / "usr/gone")
        make_opaque(folder / "usr/doc")
    except OSError as error:
        raise Skipped(f"no whiteout or opaque directory can be made here: {error.strerror}") from None
    expect(tool(place, "pack", folder, place.depot, "r"), (b"", b"", 0))
    place.expect(("init x86-64 system", DONE), ("import-fs r /", DONE))
    expect(tool(place, "unpack", place.store, "/", out), (b"", b"", 0))
    if text_of(place, out) != text_of(place, folder) or text_of(place, out) != removing("d 755 usr", "o 755 usr/doc", "w usr/gone"):
        raise Failed(f"what was unpacked is {shortened(text_of(place, out))}")


REFUSES = "import os\n\n\ndef refuse(*_, **_options):\n    raise PermissionError(1, 'Operation not permitted')\n\n\nos.mknod = os.setxattr = refuse\n"


def marks_that_cannot_be_made_are_told_before_anything_is_written(place):
    """Python is started with calls that fail, and the program is a script that notes its commands."""
    notes, text, out, refuses = (beside(place, name) for name in ("notes", "text", "out", "refuses"))
    fake = script(beside(place, "fake"), f'echo "$3" >>"{notes}"\ncat "{text}"')
    refuses.mkdir()
    (refuses / "sitecustomize.py").write_text(REFUSES)
    around = {**os.environ, "HOSTEXT": str(fake), "PYTHONPATH": str(refuses)}
    for what, line in ("a whiteout", "w {}"), ("an opaque directory", "o 755 {}"):
        text.write_bytes(removing(f"f 644 3 {ABC} a", line.format("b"), line.format("c")))
        told = "".join(f"unpack: /{path}: {what} can't be made here: Operation not permitted\n" for path in "bc")
        expect(tool(place, "unpack", place.store, "/", out, env=around), (b"", told.encode(), 1))
    if set(notes.read_text().split()) != {"tree"}:
        raise Failed(f"the commands are {notes.read_text().split()}")
    as_it_was(place, out, False)


def who_is_not_root_unpacks_directories_that_may_not_be_written(place):
    if os.getuid() != 0:
        raise Skipped("it wants root, to become nobody")
    text = tree_text("d 555 a", "d 500 a/b", f"f 400 3 {ABC} a/b/c")
    place.resource("r", text, {"a/b/c": b"abc"})
    place.expect(("init x86-64 system", DONE), ("import-fs r /", DONE))
    for path in (*place.store.rglob("*"), place.store, place.store.parent):
        path.chmod(0o755)
    out = beside(place, "out")
    out.mkdir()
    out.chmod(0o777)
    told = b"unpack: lost: owners: 3 (/a, /a/b, /a/b/c)\n"
    expect(tool_of_nobody(place, "unpack", place.store, "/", out), (b"", told, 0))
    if text_of(place, out, "--root-owned") != text:
        raise Failed(f"what was unpacked is {text_of(place, out)}")


def the_program_is_found_once(place):
    """Tools of their own, whose search for the program is a script that notes each start and tells as a build does."""
    place.resource("r", tree_text(*(f"f 644 3 {ABC} {name}" for name in "abc")), {name: b"abc" for name in "abc"})
    place.expect(("init x86-64 system", DONE), ("import-fs r /", DONE))
    tools, notes = beside(place, "tools"), beside(place, "notes")
    tools.mkdir(exist_ok=True)
    for path in TOOLS / "unpack", *TOOLS.glob("*.py"):
        shutil.copy(path, tools)
    script(tools / "program", f'echo "$1" >>"{notes}"\necho "it builds" >&2\necho "{place.program}"')
    around = {name: value for name, value in os.environ.items() if name != "HOSTEXT"}
    found = tool(place, tools / "unpack", place.store, "/", beside(place, "out"), env=around)
    expect(found, (b"", b"it builds\n", 0))
    if notes.read_text() != "hostext\n" or left(beside(place, "out")) != ["a", "b", "c"]:
        raise Failed(f"it was looked for by {notes.read_text()!r}")
    script(tools / "program", "exit 125")
    told = b"unpack: there is no program to read the store with\n"
    expect(tool(place, tools / "unpack", place.store, "/", beside(place, "more"), env=around), (b"", told, 1))


def noting(place, before_a_batch=""):
    """The program in a script that notes its commands, and does something before a batch; and where it notes them."""
    notes, words = beside(place, "notes"), f'"{place.program}" "{place.store}" "{place.depot}"'
    first = f"[ $3 != batch ] || {words} {before_a_batch} >/dev/null\n" if before_a_batch else ""
    made = script(beside(place, "noting"), f'echo "$3" >>"{notes}"\n{first}exec "{place.program}" "$@"')
    return {"env": {**os.environ, "HOSTEXT": str(made)}}, notes


def a_few_commands_read_all_files(place):
    """One batch has all whose paths a line can hold. A copy of the tool takes batches for shorter than they may be."""
    names = "#a", "-", "a\u00a0b", "b c", "c d", "c d/e", "c d/f", "d", "d/e", "x", "ü"
    text = tree_text(*(f"d 755 {name}" if name in ("c d", "d") else f"f 644 3 {ABC} {name}" for name in names))
    place.resource("r", text, {name: b"abc" for name in names if name not in ("c d", "d")})
    place.expect(("init x86-64 system", DONE), ("import-fs r /srv", DONE))
    around, notes = noting(place)
    tools = beside(place, "tools")
    shutil.copytree(TOOLS, tools)
    whole = (tools / "reading.py").read_text()
    (tools / "reading.py").write_text(whole.replace("MOST_SOURCE = 16_777_216", "MOST_SOURCE = 40"))
    for tool_there, batches in (TOOLS / "unpack", 1), (tools / "unpack", 2):
        notes.unlink(missing_ok=True)
        expect(tool(place, tool_there, place.store, "/srv", beside(place, f"out{batches}"), **around), (b"", b"", 0))
        commands = notes.read_text().split()
        if commands[0] != "tree" or sorted(commands[1:]) != ["batch"] * batches + ["cat"] * 3:
            raise Failed(f"the commands are {commands}")
        if text_of(place, beside(place, f"out{batches}")) != text:
            raise Failed(f"what was unpacked is {shortened(text_of(place, beside(place, f'out{batches}')))}")


def files_that_no_line_holds_are_read_side_by_side(place):
    """The program is a script that reads no file until it was started twice, and then gives them in the order of the tree."""
    names = [f"a {at}" for at in range(20)]
    text = tree_text(*(f"f 644 {len(name)} {digest(name.encode())} {name}" for name in sorted(names)))
    place.resource("r", text, {name: name.encode() for name in names})
    place.expect(("init x86-64 system", DONE), ("import-fs r /", DONE))
    notes, out = beside(place, "notes"), beside(place, "out")
    waits = f'for at in $(seq 1000); do [ $(wc -l <"{notes}") -gt 1 ] && break; sleep 0.01; done; [ $at -lt 1000 ] || exit 1'
    fake = script(beside(place, "fake"), f'[ $3 = tree ] || {{ echo "$4" >>"{notes}"; {waits}; }}\nexec "{place.program}" "$@"')
    expect(tool(place, "unpack", place.store, "/", out, env={**os.environ, "HOSTEXT": str(fake)}), (b"", b"", 0))
    if text_of(place, out) != text or sorted(notes.read_text().split("\n")) != sorted(["", *(f"/{name}" for name in names)]):
        raise Failed(f"what was unpacked is {shortened(text_of(place, out))}")


def a_tree_that_changes_meanwhile_is_told(place):
    """By a command between the one that writes the text and the one that writes the files."""
    place.resource("r", tree_text(f"f 644 3 {ABC} a", f"f 644 0 {EMPTY} b", f"f 644 3 {ABC} c", f"f 644 0 {EMPTY} d"), {"a": b"abc", "b": b"", "c": b"abc", "d": b""})
    place.resource("other", tree_text(f"f 644 3 {digest(b'abd')} a"), {"a": b"abd"})
    out = beside(place, "out")
    for command, path in (("remove /a", "/a"), ("remove /b", "/c"), ("remove /d", "/d"), ("import-fs other /", "/a"), ("import-fs other /c", "/c")):
        shutil.rmtree(place.store)
        place.store.mkdir()
        place.expect(("init x86-64 system", DONE), ("import-fs r /", DONE))
        around, _ = noting(place, command)
        expect(tool(place, "unpack", place.store, "/", out, **around), (b"", f"unpack: {path}: the tree changed meanwhile\n".encode(), 1))
        as_it_was(place, out, False)


def a_fault_while_files_are_read_is_told(place):
    """The batch ends early, or after the last byte."""
    place.resource("r", tree_text(f"f 644 3 {ABC} a", f"f 644 0 {EMPTY} b"), {"a": b"abc", "b": b""})
    place.expect(("init x86-64 system", DONE), ("import-fs r /", DONE))
    for home, told in ("g-2/000/00", "cat /a"), ("g-2/000/01", "batch"):
        kept = (place.store / home).read_bytes()
        (place.store / home).write_bytes(b"abd")
        expect(tool(place, "unpack", place.store, "/", beside(place, "out")), (b"", f"unpack: {told}: hostext: bad store\n".encode(), 1))
        as_it_was(place, beside(place, "out"), False)
        (place.store / home).write_bytes(kept)


CALLS = [
    *(pack_and_unpack_give_a_folder_back, a_tree_text_is_asked_for_by_one_folder, a_path_is_told_as_it_is_with_control_characters_escaped),
    *(all_that_no_tree_text_holds_is_told_at_once, what_may_not_be_read_is_told_before_anything_is_copied),
    *(what_is_named_and_special_entries_are_left_out, a_path_to_leave_out_that_is_missing_is_told, a_resource_that_is_there_stays),
    *(a_write_that_fails_leaves_nothing_in_the_depot, folders_that_were_made_for_what_fails_go_again, nothing_is_unpacked_where_something_stands),
    *(unpack_that_fails_leaves_no_half_of_a_folder, the_whole_text_is_looked_through_before_a_file_is_read),
    *(whiteouts_and_opaque_directories_come_back, marks_that_cannot_be_made_are_told_before_anything_is_written),
    *(who_is_not_root_unpacks_directories_that_may_not_be_written, the_program_is_found_once),
    *(a_few_commands_read_all_files, files_that_no_line_holds_are_read_side_by_side, a_tree_that_changes_meanwhile_is_told, a_fault_while_files_are_read_is_told),
]
scenes = named(*map(in_a_place, CALLS))
