"""The second line on standard error, which says why: where it is a terminal, or the environment asks for it. And who may look
into a store, and which folders an import may have."""
import os
import pty
import shutil
import stat
import subprocess

from scenes.devices import become_nobody
from scenes.running import ABC, SECONDS, Failed, Skipped, expect, named, run, shortened, tree_text
from scenes.stores import DONE, EMPTY_INDEX, HOST, Place, digest, in_a_place

EXPLAIN = {**os.environ, "HOSTEXT_EXPLAIN": "yes"}
SEE = 'see "When a store is damaged" in README'


def told(place, *words, store=None, depot=None, before=None, around=EXPLAIN):
    """What a command writes on standard error, line by line, and its status."""
    found = [os.fsencode(word) for word in (place.program, store or place.store, depot or place.depot, *words)]
    ended = subprocess.run(found, env=around, stdin=subprocess.DEVNULL, capture_output=True, timeout=SECONDS, preexec_fn=before)
    if ended.stdout:
        raise Failed(f"`{words[0]}` writes {shortened(ended.stdout)}")
    return ended.stderr.decode().splitlines(), ended.returncode


def explains(found, line, reason, status):
    wanted = ([f"hostext: {line}", f"hostext: {reason}"] if reason else [f"hostext: {line}"], status)
    if found != wanted:
        raise Failed(f"it ends with {shortened(found)}, and not {shortened(wanted)}")


def a_fault_of_a_device_names_the_call_and_the_path(place):
    gone = place.store.with_name("gone")
    explains(told(place, "tree", store=gone), "disk fault", f"open {gone}: No such file or directory", 5)
    place.expect(("init x86-64 system", DONE))
    (place.store / "g-1/index").unlink()
    (place.store / "g-1/index").symlink_to("../current")
    explains(told(place, "tree"), "disk fault", f"read {place.store}/g-1/index: a link below the store folder is not followed", 5)
    (place.depot / "folder.tree").mkdir()
    os.mkfifo(place.depot / "pipe.tree")
    (place.store / "g-1/index").unlink()
    (place.store / "g-1/index").write_bytes(EMPTY_INDEX)
    explains(told(place, "import-fs", "pipe", "/"), "depot fault", f"look at {place.depot}/pipe.tree: neither a file nor a folder stands there", 6)


def a_refusal_of_the_system_has_its_words(place):
    if os.getuid() != 0:
        raise Skipped("it wants root, to become nobody")
    for folder in place.store.parent, place.store:
        folder.chmod(0o755)
    explains(told(place, "init", "x86-64", "system", before=become_nobody), "disk fault", f"make {place.store}/g-1: Permission denied", 5)
    place.store.chmod(0o700)
    explains(told(place, "tree", before=become_nobody), "disk fault", f"open {place.store}: Permission denied", 5)


def a_full_file_system_is_named(place):
    mounted = subprocess.run(["mount", "-t", "tmpfs", "-o", "size=256k", "tmpfs", place.store], capture_output=True)
    if mounted.returncode:
        raise Skipped("no file system can be mounted here")
    try:
        large = b"x" * 1_000_000
        place.resource("large", tree_text(f"f 644 {len(large)} {digest(large)} a"), {"a": large})
        place.expect(("init x86-64 system", DONE))
        explains(told(place, "import-fs", "large", "/"), "disk fault", f"write {place.store}/g-2/000/00: No space left on device", 5)
    finally:
        subprocess.run(["umount", place.store], check=True)


def control_bytes_are_escaped(place):
    gone = f"{place.store}/\n\x1b[31m\x7fü"
    explains(told(place, "tree", store=gone), "disk fault", f"open {place.store}/\\n\\u{{1b}}[31m\\u{{7f}}ü: No such file or directory", 5)
    found = told(place, "tree", "a\nb")
    explains(found, "usage 2", "the words are tree [PATH], where PATH begins with a slash: not `a\\nb`", 2)


def a_bad_store_names_the_line_or_the_file(place):
    place.resource("host", tree_text(f"f 644 3 {ABC} a"), {"a": b"abc"})
    place.expect(("init x86-64 system", DONE), ("import-fs host /", DONE))
    home = place.store / "g-2/000/00"
    home.write_bytes(b"abd")
    listed = f"{home} is listed with 3 bytes and the digest {ABC}"
    explains(told(place, "check"), "bad store", f"{listed}, and has 3 bytes and the digest {digest(b'abd')}; {SEE}", 8)
    home.write_bytes(b"ab")
    explains(told(place, "check"), "bad store", f"{listed}, and no file of that size stands there; {SEE}", 8)
    index = place.store / "g-2/index"
    index.write_bytes(index.read_bytes().replace(b"attached 0", b"attached x"))
    explains(told(place, "tree"), "bad store", f"line 7 of the index that {place.store}/current names is faulty; {SEE}", 8)
    (place.store / "current").write_bytes(b"g-x\n")
    explains(told(place, "tree"), "bad store", f"{place.store}/current names no generation; {SEE}", 8)


COMMANDS = "init, import-fs, remove, sysext, confext, sysupdate, portable, mark, history, rollback, forget, tree, cat, compare, check, layer, migrate, batch, sample"
INIT = "the words are init ARCH SCOPE [HIERS [HIERS]], where ARCH is x86, x86-64, arm, arm64, riscv64, s390x, ppc64-le or loongarch64, SCOPE is system or initrd, and HIERS are as /usr:/opt"
UPDATES = "the words are sysupdate [--component=NAME] list, check-new, update [VERSION], vacuum or features, or sysupdate components, where sysupdate.NAME.d is a name, NAME doesn't begin with a dash, and VERSION is as 2.0~rc1"
VIEWS = "the words are {} list, status, merge [--force], unmerge, refresh [--force], changes [--force] or explain [--force] PATH, where PATH begins with a slash, and isn't the root"
SERVICES = "the words are portable list, inspect IMAGE [PREFIX ..], is-attached NAME, attach IMAGE [PREFIX ..], detach NAME or reattach IMAGE [PREFIX ..], where IMAGE is a name or begins with a slash, and a name doesn't begin with a dash; attach and reattach take --runtime, --profile=NAME, --copy=copy, symlink, auto or mixed, and --extension=IMAGE, not with --copy=symlink"


HELP = "the help is written by `hostext --help`, without STORE and DEPOT"


def words_that_are_no_command_are_explained(place):
    for words, number, reason in (
        (["init", "x86_64", "system"], 2, f"{INIT}: not `x86_64`"),
        (["init", "x86-64"], 3, f"{INIT}: one is missing"),
        (["sysext", "merge", "--froce"], 3, f"{VIEWS.format('sysext')}: not `--froce`"),
        (["confext"], 2, f"{VIEWS.format('confext')}: one is missing"),
        (["sysupdate", "--component=x"], 3, f"{UPDATES}: one is missing"),
        (["sysupdate", "--component=x", "components"], 3, f"{UPDATES}: not `components`"),
        (["portable", "list", "a"], 3, f"{SERVICES}: not `a`"),
        (["portable", "attach", "a", "--copy=link"], 4, f"{SERVICES}: not `--copy=link`"),
        (["portable", "reattach", "--runtime"], 4, f"{SERVICES}: one is missing"),
        (["portabel"], 1, "`portabel` is no command; is it to be portable?"),
        (["import-fs", "a"], 3, "the words are import-fs RES PATH, where RES.tree is in the depot, and PATH begins with a slash: one is missing"),
        (["remove", "/"], 2, "the words are remove PATH, where PATH begins with a slash, and isn't the root: not `/`"),
        (["sysext", "explain", "--force"], 4, f"{VIEWS.format('sysext')}: one is missing"),
        (["mark", "17"], 2, "the words are mark [K], where K is 1 to 16: not `17`"),
        (["history", "--changes"], 3, "the words are history [--changes G], where G is the number of a generation: one is missing"),
        (["rollback", "g-2"], 2, "the words are rollback G, where G is the number of a generation: not `g-2`"),
        (["forget"], 2, "the words are forget G, where G is the number of a generation: one is missing"),
        (["check", "now"], 2, "the words are check: not `now`"),
        (["batch", "file"], 2, "the words are batch, which reads lines of commands from standard input: not `file`"),
        (["sample", "0"], 2, "the words are sample N, where N is 1 to 500: not `0`"),
        (["sample"], 2, "the words are sample N, where N is 1 to 500: one is missing"),
        (["bacth"], 1, "`bacth` is no command; is it to be batch?"),
        (["imprt-fs", "a", "/"], 1, "`imprt-fs` is no command; is it to be import-fs?"),
        (["c"], 1, "`c` is no command; is it to be confext or cat or compare or check?"),
        (["tree", "/etc/"], 2, "`/etc/` ends in a slash, and no path here does: leave it off"),
        (["import-fs", "a", "//"], 3, "`//` ends in a slash, and no path here does: leave it off"),
        *((["--help"], 1, HELP), (["help"], 1, HELP), (["-h", "tree"], 1, HELP)),
        (["frobnicate"], 1, f"`frobnicate` is no command; the commands are {COMMANDS}"),
        ([""], 1, f"`` is no command; the commands are {COMMANDS}"),
    ):
        explains(told(place, *words), f"usage {number}", reason, 2)
    call = "it is called as hostext STORE DEPOT COMMAND .., or with --help or --version alone"
    for words, call in ([], call), (["--hlep"], call), (["help"], HELP), (["-h"], HELP):
        ended = subprocess.run([place.program, *words], env=EXPLAIN, capture_output=True, timeout=SECONDS)
        explains((ended.stderr.decode().splitlines(), ended.returncode), "usage 1", call, 2)


def the_reason_is_told_to_a_terminal_and_to_nobody_else(place):
    quiet = {name: value for name, value in os.environ.items() if name != "HOSTEXT_EXPLAIN"}
    for around in quiet, {**quiet, "HOSTEXT_EXPLAIN": "no"}:
        explains(told(place, "frobnicate", around=around), "usage 1", None, 2)
    ours, theirs = pty.openpty()
    words = [os.fsencode(word) for word in (place.program, place.store, place.depot, "check", "now")]
    ended = subprocess.run(words, env=quiet, stdin=subprocess.DEVNULL, stdout=subprocess.PIPE, stderr=theirs, timeout=SECONDS)
    os.close(theirs)
    found = os.read(ours, 4096).decode().splitlines()
    os.close(ours)
    explains((found, ended.returncode), "usage 2", "the words are check: not `now`", 2)


def what_a_store_has_is_its_owners_alone(place):
    def commands():
        os.umask(0)

    place.resource("host", HOST, {"usr/a": b""})
    for words in ("init", "x86-64", "system"), ("import-fs", "host", "/"), ("remove", "/usr"):
        expect(place.run(*words, before=commands), (DONE, b"", 0))
        for path in place.store.rglob("*"):
            mode = stat.S_IMODE(path.lstat().st_mode)
            if mode != (0o700 if path.is_dir() else 0o600):
                raise Failed(f"{path} has the mode {mode:o}")


READERS = [("sysupdate", *component, *verb) for component in ((), ("--component=web",)) for verb in (("list",), ("check-new",), ("update",), ("update", "2"))]


def what_reads_the_depot_is_refused_where_it_is_the_store_or_below(place):
    place.resource("host", HOST, {"usr/a": b""})
    place.expect(("init x86-64 system", DONE))
    inner = place.store / "g-7/depot"
    shutil.copytree(place.depot, inner)
    (place.store / "host.tree").write_bytes(HOST)
    link = place.store.with_name("link")
    link.symlink_to(inner)
    reason = "DEPOT is STORE or stands below it, where cleaning would take away what is to be read"
    for depot in place.store, inner, place.store / "g-7", link, place.store / "../store/./g-7/":
        before = place.stands()
        for words in ("import-fs", "host", "/"), ("batch",), *READERS:
            explains(told(place, *words, depot=depot), "usage 1", reason, 2)
            place.holds(before)
    for words in ("tree",), ("check",), ("remove", "/a"), ("sysext", "status"), ("sysupdate", "vacuum"), ("sysupdate", "features"), ("sysupdate", "components"), ("portable", "list"), ("portable", "attach", "a"):
        if run(place.program, [os.fsencode(word) for word in (place.store, place.store, *words)])[2] > 1:
            raise Failed(f"`{words[0]}` does not take STORE for DEPOT")
    shutil.rmtree(place.store / "g-7")
    upper = Place.__new__(Place)
    upper.program, upper.store, upper.depot = place.program, place.depot / "store", place.depot
    upper.store.mkdir()
    upper.expect(("init x86-64 system", DONE), ("import-fs host /", DONE), ("tree", HOST), ("sysupdate list", b"refused 20 no-transfers\n"), ("sysupdate update", b"refused 20 no-transfers\n"))


def an_import_from_too_deep_below_the_store_is_a_fault(place):
    """So deep that a name of the folders above is longer than the system takes: it can't be told that the depot stands in the store."""
    place.expect(("init x86-64 system", DONE))
    folder = os.open(place.store, os.O_RDONLY)
    for name in ["g-7", *"d" * 1400]:
        os.mkdir(name, dir_fd=folder)
        folder, above = os.open(name, os.O_RDONLY, dir_fd=folder), folder
        os.close(above)
    with open("host.tree", "wb", opener=lambda path, flags: os.open(path, flags, dir_fd=folder)) as text:
        text.write(HOST)
    words = [os.fsencode(place.store), b".", b"import-fs", b"host", b"/"]
    expect(run(place.program, words, before=lambda: os.fchdir(folder)), (b"", b"hostext: depot fault\n", 6))
    os.stat("host.tree", dir_fd=folder)
    os.close(folder)
    subprocess.run(["rm", "-r", place.store / "g-7"], check=True)


CALLS = [
    *(a_fault_of_a_device_names_the_call_and_the_path, a_refusal_of_the_system_has_its_words, a_full_file_system_is_named),
    *(control_bytes_are_escaped, a_bad_store_names_the_line_or_the_file, words_that_are_no_command_are_explained),
    *(the_reason_is_told_to_a_terminal_and_to_nobody_else, what_a_store_has_is_its_owners_alone),
    *(what_reads_the_depot_is_refused_where_it_is_the_store_or_below, an_import_from_too_deep_below_the_store_is_a_fault),
]
scenes = named(*map(in_a_place, CALLS))
