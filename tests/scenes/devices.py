"""Real folders as a disk and as a depot: each call at what a folder of the system may have and a disk in memory can't, and
what changes between two calls.

The program of the crate ext_folder_probe makes the calls: a line of its standard input is one, and a line of its standard
output is the answer.
"""
import os
import shutil
import socket
import stat
import subprocess
import tempfile
import threading
from pathlib import Path

from scenes.running import Failed, Skipped, program_of, shortened

SECONDS = 30
NOBODY = 65534


def built():
    """The program: the one that was built here, or the carried one."""
    return program_of("ext_folder_probe")


def become_nobody():
    if os.getuid() == 0:
        os.setgroups([])
        os.setgid(NOBODY)
        os.setuid(NOBODY)


class Device:
    """A running program, and the folder that it works on. A call that has no answer in time ends it."""

    def __init__(self, kind, folder, place="."):
        program = Path(folder).parent / "probe"
        if not program.exists():
            shutil.copy(built(), program)
        streams = {"stdin": subprocess.PIPE, "stdout": subprocess.PIPE, "stderr": subprocess.PIPE}
        self.child = subprocess.Popen([program, kind, place], cwd=folder, preexec_fn=become_nobody, **streams)
        self.late = threading.Timer(SECONDS, self.child.kill)

    def __enter__(self):
        self.late.start()
        return self

    def __exit__(self, *_):
        self.late.cancel()
        self.child.kill()
        self.child.communicate()

    def ask(self, call):
        self.child.stdin.write(f"{call}\n".encode())
        self.child.stdin.flush()
        answer = self.child.stdout.readline()
        if not answer.endswith(b"\n"):
            raise Failed(f"`{call}` had no answer: {shortened(self.child.stderr.read())}")
        return answer.decode().rstrip("\n")

    def expect(self, *calls):
        for call, wanted in calls:
            found = self.ask(call)
            if found != wanted:
                raise Failed(f"`{call}` answers `{found}`, and not `{wanted}`")


def each(calls, answer):
    """The calls, each with the same answer."""
    return [(call, answer) for call in calls]


# Every call of a disk at the name `x`, beside a file `file`.
AT_X = [
    *("kind x", "list x", "read x 0 9", "make_dir x", "make_file x", "append x y", "sync_file x", "sync_dir x"),
    *("rename x z", "rename file x", "remove x"),
]

# Every call of a disk at the name `in` in `x`.
IN_X = [call.replace("x z", "x/in x/z").replace("file x", "x/z x/in") if call.startswith("rename") else call.replace(" x", " x/in") for call in AT_X]

# Entries that are neither files nor folders, and links: how each is made, whether the depot finds what it leads to, and whether
# the system finds nothing below it or refuses.
ODD = {
    "a socket": lambda place: socket.socket(socket.AF_UNIX).bind(os.fspath(place)),
    "a pipe": lambda place: os.mkfifo(place, 0o666),
    "a device": lambda place: os.mknod(place, stat.S_IFCHR | 0o666, os.makedev(1, 3)),
}
LINKS = {
    "a link to a file": ("file", "file 3", "nothing"),
    "a link to a folder": ("to", "nothing", "file 2"),
    "a link to a pipe": ("pipe", "fault", "nothing"),
    "a link to a device": ("/dev/null", "fault", "nothing"),
    "a link that leads nowhere": ("gone", "fault", "nothing"),
    "a link to what is below a file": ("file/gone", "fault", "nothing"),
    "a link to itself": ("x", "fault", "fault"),
    "a loop of links": ("y", "fault", "fault"),
}


def stands(folder):
    """What stands in a folder: each name with its kind, and the bytes of `file`."""
    found = {name: stat.S_IFMT(os.lstat(Path(folder, name)).st_mode) for name in os.listdir(folder)}
    return found, Path(folder, "file").read_bytes()


def odd_entry(folder, make):
    """Every call at an entry that is neither a file nor a folder is a fault, and leaves everything as it was. Below it
    nothing stands."""
    Path(folder, "file").write_text("abc")
    try:
        make(Path(folder, "x"))
    except PermissionError as error:
        raise Skipped(f"it can't be made: {error.strerror}") from None
    before = stands(folder)
    with Device("disk", folder) as disk:
        disk.expect(*each(AT_X, "fault"), ("kind x/in", "nothing"), *each(IN_X[1:], "fault"))
    with Device("depot", folder) as depot:
        depot.expect(("size x", "fault"), ("read x 0 9", "fault"), ("size x/in", "nothing"), ("read x/in 0 9", "fault"))
    if stands(folder) != before:
        raise Failed("a call that failed changed the folder")


def link(folder, text, size, below):
    """For a disk a link is a file of its text's length, which it tells, lists and removes; every other call at it or through it
    is a fault, and leaves everything as it was. For a depot it is what it leads to."""
    Path(folder, "file").write_text("abc")
    Path(folder, "to").mkdir()
    Path(folder, "to/in").write_text("in")
    Path(folder, "y").symlink_to("x")
    os.mkfifo(Path(folder, "pipe"), 0o666)
    Path(folder, "x").symlink_to(text)
    before = stands(folder)
    with Device("disk", folder) as disk:
        disk.expect(("kind x", f"file {len(text)}"), ("list ", "names file pipe to x y"))
        disk.expect(*each((call for call in AT_X if call not in ("kind x", "remove x")), "fault"), *each(IN_X, "fault"))
    with Device("depot", folder) as depot:
        depot.expect(("size x", size), ("size x/in", below), *each(("read x 0 9",), "bytes abc" if size == "file 3" else "fault"))
        depot.expect(("read x/in 0 9", "bytes in" if below == "file 2" else "fault"))
    if stands(folder) != before:
        raise Failed("a call at a link changed the folder")
    with Device("disk", folder) as disk:
        disk.expect(("remove x", "done"), ("kind x", "nothing"), ("make_dir x", "done"), ("make_file x/in", "done"), ("list to", "names in"))
    after = stands(folder)
    if {name: kind for name, kind in after[0].items() if name != "x"} != {name: kind for name, kind in before[0].items() if name != "x"} or after[1] != before[1]:
        raise Failed("to remove a link changed more")


def a_file_where_a_folder_should_be_on_the_way(folder):
    Path(folder, "file").write_text("abc")
    Path(folder, "x").write_text("abc")
    with Device("disk", folder) as disk:
        disk.expect(("kind x/in", "nothing"), *each(IN_X[1:], "fault"), *each(("list x", "sync_dir x"), "fault"))
    with Device("depot", folder) as depot:
        depot.expect(("size x/in", "nothing"), ("read x/in 0 9", "fault"))


def what_is_missing(folder):
    Path(folder, "file").write_text("abc")
    made = ("make_dir x", "make_file x", "rename file x")
    with Device("disk", folder) as disk:
        disk.expect(("kind x", "nothing"), *each((call for call in AT_X[1:] if call not in made), "fault"))
        disk.expect(("kind x/in", "nothing"), *each(IN_X[1:], "fault"))
        disk.expect(*each(("make_dir ", "make_file ", "rename  x", "rename file ", "remove "), "fault"))
    with Device("depot", folder) as depot:
        depot.expect(("size x", "nothing"), ("read x 0 9", "fault"), ("size ", "nothing"), ("read  0 9", "fault"))


def a_folder_that_is_not_empty_and_names_that_are_taken(folder):
    Path(folder, "file").write_text("abc")
    Path(folder, "x").mkdir()
    Path(folder, "x/in").write_text("in")
    with Device("disk", folder) as disk:
        disk.expect(("kind x", "folder"), ("list x", "names in"), ("sync_dir x", "done"))
        disk.expect(*each((call for call in AT_X if call not in ("kind x", "list x", "sync_dir x")), "fault"))
        disk.expect(("make_file file", "fault"), ("make_dir file", "fault"), ("sync_dir file", "fault"), ("list file", "fault"))
    with Device("depot", folder) as depot:
        depot.expect(("size x", "nothing"), ("read x 0 9", "fault"), ("size x/in", "file 2"))


def names_that_are_none_are_not_listed(folder):
    Path(folder, "file").write_text("abc")
    for at, name in enumerate((b"a\x01b", b"a\x7f", b"a\nb", b"\xff\xfe")):
        place = Path(folder, f"d{at}")
        place.mkdir()
        Path(os.fsdecode(os.fsencode(place) + b"/" + name)).write_text("")
        with Device("disk", folder) as disk:
            disk.expect((f"list d{at}", "fault"), (f"kind d{at}", "folder"), (f"make_file d{at}/b", "done"), (f"list d{at}", "fault"))


def names_that_make_no_path_are_not_listed(folder):
    deep = "/".join("d" * 64)
    Path(folder, deep).mkdir(parents=True)
    with Device("disk", folder) as disk:
        disk.expect((f"kind {deep}", "folder"), (f"list {deep}", "names"))
        Path(folder, deep, "e").write_text("")
        disk.expect((f"list {deep}", "fault"), (f"list {deep[:-2]}", "names d"))


def names_come_in_byte_order(folder):
    names = sorted(("b", "a", "a-b", "aa", "ü", "Z", "~", "0", *(f"n{at}" for at in range(3000))), key=str.encode)
    for name in reversed(names):
        Path(folder, name).write_text("")
    with Device("disk", folder) as disk:
        disk.expect(("list ", " ".join(["names", *names])))


def without_permission(folder):
    for place, mode in ("shut", 0), ("fixed", 0o555):
        Path(folder, place).mkdir()
        Path(folder, place, "in").write_text("in")
        Path(folder, place, "in").chmod(0o444)
        Path(folder, place).chmod(mode)
    Path(folder, "file").write_text("abc")
    Path(folder, "file").chmod(0)
    shut = ("list shut", "kind shut/in", "read shut/in 0 9", "append shut/in a", "sync_file shut/in", "sync_dir shut")
    fixed = ("make_dir fixed/d", "make_file fixed/f", "rename fixed/in fixed/f", "remove fixed/in", "append fixed/in a")
    with Device("disk", folder) as disk:
        disk.expect(("kind shut", "folder"), *each(shut, "fault"), *each(("make_file shut/f", "remove shut"), "fault"))
        disk.expect(("list fixed", "names in"), ("read fixed/in 0 9", "bytes in"), ("sync_file fixed/in", "done"), *each(fixed, "fault"))
        disk.expect(("kind file", "file 3"), *each(("read file 0 9", "append file a", "sync_file file"), "fault"), ("rename file x", "done"))
    with Device("depot", folder) as depot:
        depot.expect(("size shut", "nothing"), *each(("size shut/in", "read shut/in 0 9", "read x 0 9"), "fault"), ("size x", "file 3"))


def roots(folder):
    """Roots that are no folder, and roots that are written in another way."""
    Path(folder, "file").write_text("abc")
    Path(folder, "to").mkdir()
    Path(folder, "link").symlink_to("to")
    for root, at in ("", "nothing"), ("gone", "nothing"), ("file", "file 3"):
        with Device("disk", folder, root) as disk:
            disk.expect(("kind ", at), ("kind etc", "nothing"), *each(("list ", "sync_dir ", "make_dir d", "make_file f", "make_dir "), "fault"))
        with Device("depot", folder, root) as depot:
            depot.expect(("size etc/passwd", "nothing"), ("read etc/passwd 0 9", "fault"))
    for root, name in ("to/", "a"), ("link", "b"), ("./to/.", "c"), (os.path.join(folder, "to"), "d"):
        with Device("disk", folder, root) as disk:
            disk.expect(("kind ", "folder"), (f"make_file {name}", "done"), (f"append {name} {name}", "done"), ("sync_dir ", "done"))
    with Device("depot", folder, "to") as depot:
        depot.expect(*((f"read {name} 0 9", f"bytes {name}") for name in "abcd"))


def what_one_device_wrote_new_ones_find(folder):
    pieces = ["a" * 65_536, "b" * 65_536, "cü"]
    with Device("disk", folder) as disk:
        disk.expect(*each(("make_dir d", "make_file d/a", *(f"append d/a {piece}" for piece in pieces), "sync_file d/a", "sync_dir d"), "done"))
        disk.expect(*each(("make_file next", "append next g-1", "sync_file next", "sync_dir ", "rename next current", "sync_dir "), "done"))
    for kind, size in ("disk", "kind"), ("depot", "size"):
        with Device(kind, folder) as device:
            device.expect((f"{size} d/a", "file 131075"), (f"{size} next", "nothing"), ("read current 0 9", "bytes g-1"))
            device.expect(("read d/a 0 200000", f"bytes {''.join(pieces)}"), ("read d/a 131071 4", "bytes bcü"), ("read d/a 131075 9", "bytes "))
    with Device("disk", folder) as disk:
        disk.expect(("append d/a d", "done"), ("read d/a 131072 9", "bytes cüd"), ("list ", "names current d"), ("list d", "names a"))


def what_stays_open_changes_no_answer(folder):
    """A file that was appended to or read is taken away or renamed through the disk, or appended to from outside."""
    Path(folder, "d").mkdir()
    with Device("disk", folder) as disk:
        disk.expect(*each(("make_file d/a", "append d/a 1", "remove d/a"), "done"), *each(("append d/a 2", "sync_file d/a"), "fault"))
        disk.expect(*each(("make_file d/a", "append d/a 1", "rename d/a d/b", "make_file d/a", "append d/a 2", "append d/b 3"), "done"))
        disk.expect(("read d/a 0 9", "bytes 2"), ("read d/b 0 9", "bytes 13"), ("rename d/a d/b", "done"), ("append d/b 4", "done"))
        disk.expect(("read d/b 0 9", "bytes 24"), *each(("sync_file d/b", "append d/b 5", "remove d/b", "make_file d/b", "append d/b 6"), "done"))
        disk.expect(("read d/b 0 9", "bytes 6"), ("list d", "names b"))
        disk.expect(*each(("make_file d/a", "append d/a 12", "rename d/a d/c", "make_file d/a"), "done"), ("append d/a 3", "done"))
        disk.expect(("read d/a 0 9", "bytes 3"), ("read d/c 0 9", "bytes 12"), ("sync_file d/c", "done"), ("sync_file d/a", "done"))
        disk.expect(("read d/c 0 1", "bytes 1"), ("rename d/a d/c", "done"), ("read d/c 1 9", "bytes "), ("read d/c 0 1", "bytes 3"))
        disk.expect(("kind d/c", "file 1"), ("remove d/c", "done"), ("read d/c 0 9", "fault"), ("make_dir d/c", "done"), ("read d/c 0 9", "fault"))
        disk.expect(("read d/b 0 9", "bytes 6"))
        with open(Path(folder, "d/b"), "a") as other:
            other.write("78")
        disk.expect(("kind d/b", "file 3"), ("read d/b 1 9", "bytes 78"), ("read d/b 3 9", "bytes "), ("read d/b 0 9", "bytes 678"))
        disk.expect(*each(("make_file d/e", "append d/e 1", "rename d/b d/e", "append d/e 9", "sync_file d/e"), "done"), ("read d/e 0 9", "bytes 6789"))


def a_file_is_read_piece_after_piece(folder):
    """A file of the depot that is replaced between two pieces is read on as it was opened; from its first byte on it is the new one."""
    for kind, size in ("depot", "size"), ("disk", "kind"):
        Path(folder, "a").write_text("abcdef")
        with Device(kind, folder) as device:
            device.expect((f"{size} a", "file 6"), ("read a 0 2", "bytes ab"), ("read a 2 2", "bytes cd"))
            Path(folder, "new").write_text("123")
            os.replace(Path(folder, "new"), Path(folder, "a"))
            device.expect(("read a 4 9", "bytes ef"), ("read a 6 9", "bytes "), ("read a 6 9", "bytes "), (f"{size} a", "file 3"))
            device.expect(("read a 0 9", "bytes 123"), ("read a 2 9", "bytes 3"), ("read a 1 1", "bytes 2"), ("read a 0 1", "bytes 1"))


def in_a_folder(call, *given):
    """Calls a scene with a folder in which everybody may do everything, since the program runs as nobody where it can."""
    usual = os.umask(0)
    try:
        with tempfile.TemporaryDirectory() as place:
            os.chmod(place, 0o755)
            folder = Path(place, "folder")
            folder.mkdir()
            call(folder, *given)
    finally:
        os.umask(usual)


CALLS = [
    *(a_file_where_a_folder_should_be_on_the_way, what_is_missing, a_folder_that_is_not_empty_and_names_that_are_taken),
    names_that_are_none_are_not_listed,
    *(names_that_make_no_path_are_not_listed, names_come_in_byte_order, without_permission, roots, what_one_device_wrote_new_ones_find),
    *(what_stays_open_changes_no_answer, a_file_is_read_piece_after_piece),
]


def scenes(_program):
    for what, make in ODD.items():
        yield f"in a real folder: {what}", lambda make=make: in_a_folder(odd_entry, make)
    for what, given in LINKS.items():
        yield f"in a real folder: {what}", lambda given=given: in_a_folder(link, *given)
    for call in CALLS:
        yield f"in a real folder: {call.__name__.replace('_', ' ')}", lambda call=call: in_a_folder(call)
