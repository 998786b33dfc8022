"""Publishing: what `hostext_publish` makes of a store in a folder that a web server serves, what takes it from there, why it is
refused, and runs that are killed.

The program is the one that HOSTEXT_PUBLISH names, or else what the launcher `hostext_publish` would run."""
import fcntl
import os
import pty
import random
import shutil
import signal
import stat
import subprocess
import time

from scenes.devices import become_nobody
from scenes.locks import ended, locked, waits
from scenes.helping import rows
from scenes.reasons import EXPLAIN, SEE, explains
from scenes.running import ABC, EMPTY, SECONDS, VERSION, Failed, Skipped, expect, named, publisher, run, shortened, tree_text
from scenes.stores import DONE, Place, digest, in_a_place, left_overs, what_stands
from scenes.uses import tree_of

HELP = b"hostext_publish STORE OUT ABS RES NAME\n"
WORDS = "the words are ABS RES NAME, where ABS begins with a slash, RES is a path without one, and NAME is a name that doesn't end in .tree"
CALL = "it is called as hostext_publish STORE OUT ABS RES NAME, or with --help or --version alone"
CLASH = "one of STORE and OUT is the other or stands below it: publishing would write into the store, or a web server serve it"
KILLS, FILES = 80, 200
SUMS, NEXT = "SHA256SUMS", "SHA256SUMS.next"


class Site:
    """A place with a folder beside the store and the depot, in which is published."""

    def __init__(self, place):
        self.program, self.store, self.out = publisher(), place.store, place.store.with_name("out")
        self.out.mkdir()

    def words(self, *words, store=None, out=None):
        return [os.fsencode(word) for word in (self.program, store or self.store, out or self.out, *words)]

    def run(self, *words, **options):
        return run(self.program, self.words(*words)[1:], **options)

    def expect(self, *rows):
        """The words of each run and what it writes; a refusal where the line is one, else done. OUT is the folder in which it runs,
        so that the system takes long paths below it."""
        for words, written in rows:
            status = 1 if written.startswith(b"refused ") else 0
            try:
                found = run(self.program, self.words(*words.split(" "), out=".")[1:], before=lambda: os.chdir(self.out))
                expect(found, (written, b"", status))
            except Failed as reason:
                raise Failed(f"{shortened(words)}: {reason}") from None

    def refused(self, *rows):
        """That each of these runs is refused, and nothing in OUT changes."""
        for words, refusal in rows:
            before = what_stands(self.out)
            self.expect((words, f"refused {refusal}\n".encode()))
            self.same(before, f"{shortened(words)} is refused")

    def told(self, *words, store=None, out=None, around=EXPLAIN, before=None):
        """What a run that writes nothing tells, line by line, and its status."""
        child = subprocess.run(self.words(*words, store=store, out=out), env=around, stdin=subprocess.DEVNULL, capture_output=True, timeout=SECONDS, preexec_fn=before)
        if child.stdout:
            raise Failed(f"it writes {shortened(child.stdout)}")
        return child.stderr.decode().splitlines(), child.returncode

    def same(self, before, when):
        if what_stands(self.out) != before:
            raise Failed(f"{when}, and what stands in OUT is another than before")

    def start(self, *words, **more):
        streams = {"stdin": subprocess.DEVNULL, "stdout": subprocess.PIPE, "stderr": subprocess.PIPE}
        return subprocess.Popen(self.words(*words), **{**streams, **more})

    def takes(self, program):
        """A place over a new store, of which OUT is the depot."""
        other = Place.__new__(Place)
        other.program, other.store, other.depot = program, self.store.with_name("other"), self.out
        other.store.mkdir()
        other.expect(("init x86-64 system", DONE))
        return other


def at_a_site(call):
    """A scene over a new store, a depot and a folder in which is published."""

    def scene(place):
        call(Site(place), place)

    scene.__name__ = call.__name__
    return in_a_place(scene)


def put(place, files):
    """Makes a store that has these files, and no other entry but their directories."""
    place.resource("host", tree_of(files), files)
    place.expect(("init x86-64 system", DONE), ("import-fs host /", DONE))


def checked(folder):
    """That sha256sum(1) finds all that the manifest of a folder lists."""
    if not shutil.which("sha256sum"):
        raise Skipped("there is no sha256sum")
    child = subprocess.run(["sha256sum", "--check", "--strict", "--quiet", SUMS], cwd=folder, stdin=subprocess.DEVNULL, capture_output=True, timeout=SECONDS)
    if child.returncode or child.stdout or child.stderr:
        raise Failed(f"sha256sum tells {shortened(child.stdout + child.stderr)}")


def listed_files(folder, name):
    """The files that the tree text of a resource lists, with their digests."""
    lines = (line.split(" ", 4) for line in (folder / f"{name}.tree").read_text().splitlines() if line.startswith("f "))
    return {path: digest_ for _, _, _, digest_, path in lines}


def whole(folder, name):
    """That the files of a published directory are those that its tree text lists, and no other stands there."""
    wanted = listed_files(folder, name)
    found = {str(path.relative_to(folder / name)): digest(path.read_bytes()) for path in (folder / name).rglob("*") if path.is_file()}
    if found != wanted:
        raise Failed(f"of {name} there stand {len(found)} files, and not the {len(wanted)} that are listed")


def holds(folder, wanted):
    found = {str(path): content for path, (_, content) in what_stands(folder).items()}
    if found != wanted:
        raise Failed(f"there stand {shortened(found)}, and not {shortened(wanted)}")


# What is published.


def a_directory_and_a_file_are_published_listed_and_imported(site, place):
    put(place, {"usr/a": b"abc"})
    text = tree_text(f"f 644 3 {ABC} a")
    first, second = f"{digest(text)}  x.tree\n".encode(), f"{ABC}  y\n".encode()
    site.expect(("/usr r x", b"published 1 3\n"))
    holds(site.out, {"r": None, "r/SHA256SUMS": first, "r/x": None, "r/x.tree": text, "r/x/a": b"abc"})
    site.expect(("/usr/a r y", b"published 1 3\n"))
    holds(site.out / "r", {"SHA256SUMS": first + second, "x": None, "x.tree": text, "x/a": b"abc", "y": b"abc"})
    checked(site.out / "r")
    site.refused(("/usr r x", "34 listed x"), ("/usr/a r x", "34 listed x"), ("/usr r y", "34 listed y"))
    other = site.takes(place.program)
    other.expect(("import-fs r/x /new", DONE), ("cat /new/a", b"abc"), ("tree /new", text))


def eleven_thousand_files_come_out_as_they_were(site, place):
    """With modes, links, empty directories and whiteouts, which stand in the tree text alone."""
    files = {f"usr/share/d{at % 101:03}/f{at:05}": b"content %d\n" % at for at in range(11_001)}
    marks = ["o 700 usr/opaque", "w usr/white", "l 4 to a usr/link", "d 1777 usr/empty"]
    lines = tree_of(files).decode().splitlines()[1:-1]
    text = tree_text(*sorted([*lines, *marks], key=path_of), version=2)
    place.resource("host", text, files)
    place.expect(("init x86-64 system", DONE), ("import-fs host /", DONE))
    size = sum(map(len, files.values()))
    site.expect(("/usr deep/er images", f"published 11001 {size}\n".encode()))
    checked(site.out / "deep/er")
    whole(site.out / "deep/er", "images")
    written = place.run("tree", "/usr")[0]
    if (site.out / "deep/er/images.tree").read_bytes() != written:
        raise Failed("the tree text is another than that of the store")
    if {path.name for path in (site.out / "deep/er/images").iterdir()} != {"share"}:
        raise Failed("folders were made that have no file")
    other = site.takes(place.program)
    other.expect(("import-fs deep/er/images /usr", DONE), ("tree /usr", written), ("check", f"ok 11001 {size}\n".encode()))


def path_of(line):
    """The names of the path of a line of a tree text."""
    parts = {"d": 2, "o": 2, "f": 4, "w": 1}.get(line[0])
    path = line.split(" ", parts)[-1] if parts else line.rsplit(" ", 1)[-1]
    return [name.encode() for name in path.split("/")]


def the_root_an_empty_directory_and_an_empty_file_are_published(site, place):
    place.resource("host", tree_text("d 755 d", f"f 644 0 {EMPTY} e"), {"e": b""})
    place.expect(("init x86-64 system", DONE), ("import-fs host /", DONE))
    site.expect(("/ a/b all", b"published 1 0\n"), ("/d a/b d", b"published 0 0\n"), ("/e a/b e", b"published 1 0\n"), ("/ a -x", b"published 1 0\n"))
    for folder in "a/b", "a":
        checked(site.out / folder)
    found = sorted(str(path.relative_to(site.out)) for path in site.out.rglob("*"))
    if found != ["a", "a/-x", "a/-x.tree", "a/-x/e", "a/SHA256SUMS", "a/b", "a/b/SHA256SUMS", "a/b/all", "a/b/all.tree", "a/b/all/e", "a/b/d.tree", "a/b/e"]:
        raise Failed(f"there stand {found}")


def a_view_is_published_as_it_is_seen(site, place):
    release, below = b"ID=_any\n", "usr/lib/extension-release.d"
    put(place, {"etc/os-release": b"ID=debian\n", "usr/tool": b"old\n", f"var/lib/extensions/x/{below}/extension-release.x": release, "var/lib/extensions/x/usr/tool": b"new\n"})
    place.expect(("sysext merge", b"merged 1\nx\n"))
    site.expect(("/usr r seen", f"published 2 {len(release) + 4}\n".encode()))
    if (site.out / "r/seen/tool").read_bytes() != b"new\n":
        raise Failed("what lies under the view is published")


def an_update_takes_what_was_published(site, place):
    """A version of a directory, and one of a file, beside one that sha256sum(1) listed before without the last newline."""
    old, release, below = b"disk 1\n", b"ID=_any\n", "usr/lib/extension-release.d"
    put(place, {f"image/{below}/extension-release.tool-2": release, "image/usr/tool": b"tool 2\n", "disk": b"disk 2\n"})
    (site.out / "images").mkdir()
    (site.out / "images/disk_1").write_bytes(old)
    (site.out / "images" / SUMS).write_text(f"{digest(old)} *disk_1")
    site.expect(("/image images tool-2", f"published 2 {len(release) + 7}\n".encode()), ("/disk images disk_2", b"published 1 7\n"))
    checked(site.out / "images")
    other = site.takes(place.program)
    transfers = {"etc/sysupdate.d/tool.transfer": transfer("directory", "tool-@v"), "etc/sysupdate.disk.d/disk.transfer": transfer("regular-file", "disk_@v")}
    other.resource("host", tree_of(transfers), transfers)
    other.expect(("import-fs host /", DONE), ("sysupdate update", b"updated 2\n"), ("cat /srv/tool-2/usr/tool", b"tool 2\n"))
    other.expect(("sysupdate --component=disk list", b"2 available\n1 available\n"), ("sysupdate --component=disk update", b"updated 2\n"), ("cat /srv/disk_2", b"disk 2\n"))


def transfer(kind, pattern):
    lines = "[Source]", f"Type={kind}", "Path=/images", f"MatchPattern={pattern}", "[Target]", f"Type={kind}", "Path=/srv"
    return "".join(f"{line}\n" for line in lines).encode()


def what_an_earlier_run_left_goes_and_all_else_stays(site, place):
    put(place, {"usr/a": b"abc"})
    stay = {"r/x.d/stays": b"1", "r/xx": b"2", "r/x.tree.old": b"3", "stays": b"4", "other/SHA256SUMS.next": b"5", "r/y/stays": b"6"}
    for path, content in {**stay, "r/x/b/c": b"left", "r/x/a/d": b"left", "r/x.tree": b"left", f"r/{NEXT}": b"left"}.items():
        (site.out / path).parent.mkdir(parents=True, exist_ok=True)
        (site.out / path).write_bytes(content)
    (site.out / "r/x/link").symlink_to("../../stays")
    site.expect(("/usr r x", b"published 1 3\n"))
    text = tree_text(f"f 644 3 {ABC} a")
    made = {"r/x/a": b"abc", "r/x.tree": text, "r/SHA256SUMS": f"{digest(text)}  x.tree\n".encode()}
    folders = {"r": None, "r/x": None, "r/x.d": None, "r/y": None, "other": None}
    holds(site.out, {**stay, **made, **folders})
    for folder in "r/z", "r/z.tree/in", f"r/{NEXT}":
        (site.out / folder).mkdir(parents=True)
    site.expect(("/usr/a r z", b"published 1 3\n"))
    if (site.out / "r/z").read_bytes() != b"abc" or (site.out / "r/z.tree").exists() or (site.out / "r" / NEXT).exists():
        raise Failed("folders that were left stay")
    checked(site.out / "r")


# Who may read and write.


def everybody_may_read_what_is_published_and_nobody_else_the_store(site, place):
    if os.getuid() != 0:
        raise Skipped("it wants root, to become nobody")
    put(place, {"usr/sub/a": b"abc"})
    expect(site.run("/usr", "r/s", "x", before=lambda: os.umask(0o022)), (b"published 1 3\n", b"", 0))
    for path in (site.out.parent, site.out):
        path.chmod(0o755)
    script = 'cat "$0/r/s/x/sub/a" "$0/r/s/x.tree" && cd "$0/r/s" && sha256sum --check --strict --quiet SHA256SUMS'
    child = subprocess.run(["sh", "-c", script, site.out], stdin=subprocess.DEVNULL, capture_output=True, timeout=SECONDS, preexec_fn=become_nobody)
    expect((child.stdout, child.stderr, child.returncode), (b"abc" + (site.out / "r/s/x.tree").read_bytes(), b"", 0))
    has_modes(site.out, 0o755, 0o644)
    has_modes(place.store, 0o700, 0o600)


def files_that_only_their_owner_may_read_are_counted_where_they_are_published(site, place):
    """By their modes on the host, whatever the umask: a directory of such a mode is none, and neither is what wasn't published."""
    modes = {"a": "600", "b": "0", "c": "4700", "d/e": "400", "f": "640", "g": "604", "h": "644", "i": "610"}
    lines = sorted([*(f"f {mode} 3 {ABC} usr/{path}" for path, mode in modes.items()), "d 700 usr/d", "l 1 a usr/k"], key=lambda line: line.split(" ")[-1].split("/"))
    place.resource("host", tree_text("d 755 usr", *lines, f"f 600 3 {ABC} usra"), {**{f"usr/{path}": b"abc" for path in modes}, "usra": b"abc"})
    place.expect(("init x86-64 system", DONE), ("import-fs host /", DONE), ("import-fs host /other", DONE))
    for words, count, files in (("/usr", "r", "x"), 4, 8), (("/usr/a", "r", "y"), 1, 1), (("/usr/d", "r", "d"), 1, 1), (("/usr/f", "r", "f"), 0, 1), (("/", "r", "all"), 10, 18):
        told = f"hostext: published are also files that only their owner may read on the host: {count}\n".encode() if count else b""
        expect(site.run(*words), (f"published {files} {3 * files}\n".encode(), told, 0))
    expect(site.run("/usr", "r", "x"), (b"refused 34 listed x\n", b"", 1))


def has_modes(top, of_folders, of_files):
    for path in top.rglob("*"):
        mode = stat.S_IMODE(path.lstat().st_mode)
        if mode != (of_folders if path.is_dir() else of_files):
            raise Failed(f"{path} has the mode {mode:o}")


def modes_are_what_the_umask_leaves(site, place):
    put(place, {"usr/sub/a": b"abc"})
    for umask, of_folders, of_files in (0o077, 0o700, 0o600), (0o027, 0o750, 0o640), (0, 0o777, 0o666):
        expect(site.run("/usr", f"{umask:o}", "x", before=lambda umask=umask: os.umask(umask)), (b"published 1 3\n", b"", 0))
        (site.out / f"{umask:o}").chmod(of_folders)
        has_modes(site.out / f"{umask:o}", of_folders, of_files)
        has_modes(place.store, 0o700, 0o600)


def the_store_is_shared_and_out_is_for_one_run_alone(site, place):
    put(place, {"usr/a": b"abc"})
    done, of_store, of_out = b"published 1 3\n", b"hostext: waiting for another command on this store\n", b"hostext: waiting for another run that publishes in OUT\n"
    with locked(site.store, fcntl.LOCK_SH):
        site.expect(("/usr r a", done))
    for at, (folder, how, told) in enumerate(((site.store, fcntl.LOCK_EX, of_store), (site.out, fcntl.LOCK_EX, of_out), (site.out, fcntl.LOCK_SH, of_out))):
        with locked(folder, how):
            child = site.start("/usr", "r", f"b{at}")
            waits(child)
        expect(ended(child), (done, told, 0))
    with locked(site.store), locked(site.out):
        child = site.start("/usr", "r", "c", env={**os.environ, "HOSTEXT_LOCK": "no"})
        expect(ended(child), (done, b"", 0))
        expect(site.run("/usr", "r", "x.tree"), (b"", b"hostext: usage 3\n", 2))
    with locked(site.out):
        child = site.start("/usr", "r", "d")
        waits(child)
        expect(place.run("tree", "/usr"), (tree_text(f"f 644 3 {ABC} a"), b"", 0))
        change = subprocess.Popen([place.program, place.store, place.depot, "remove", "/usr"], stdin=subprocess.DEVNULL, stdout=subprocess.PIPE, stderr=subprocess.PIPE)
        waits(change)
    expect(ended(child), (done, of_out, 0))
    expect(ended(change), (DONE, of_store, 0))
    checked(site.out / "r")


def runs_that_are_started_together_are_all_listed(site, place):
    put(place, {f"usr/{name}": name.encode() for name in "abcdefgh"})
    going = [site.start(f"/usr/{name}", "r", name) for name in "abcdefgh"]
    for child in going:
        written, told, status = ended(child)
        expect((written, b"", status), (b"published 1 1\n", b"", 0))
    checked(site.out / "r")
    names = sorted(line.split("  ")[1] for line in (site.out / "r" / SUMS).read_text().splitlines())
    if names != list("abcdefgh"):
        raise Failed(f"listed are {names}")


# What is refused.


def refusals_come_in_their_order(site, place):
    """Where several hold, the first of them is told."""
    r = site.out / "r"
    r.write_bytes(b"a file")
    site.refused(("/gone r x", "1 no-store"))
    place.resource("host", tree_text(f"f 644 3 {ABC} a", "l 1 a l", "w w", version=2), {"a": b"abc"})
    place.expect(("init x86-64 system", DONE), ("import-fs host /", DONE))
    site.refused(("/gone r x", "8 no-entry /gone"), ("/a/b r x", "8 no-entry /a/b"), ("/l r x", "10 not-file /l"), ("/a r x", "36 out-kind r"), ("/a r/s/t x", "36 out-kind r"))
    long = "/".join(["r", *["d" * 255] * 15, "e" * 238])
    site.refused((f"/ {long} {'n' * 20}", "7 limit path"), (f"/a {long} {'n' * 20}", "7 limit path"), (f"/l {long} {'n' * 20}", "10 not-file /l"))
    r.unlink()
    (r / SUMS).mkdir(parents=True)
    site.refused(("/a r x", "36 out-kind r/SHA256SUMS"))
    (r / SUMS).rmdir()
    (r / SUMS).write_text(f"{ABC}  x\n{ABC}  other\nno line\n")
    site.refused(("/a r x", "35 out-manifest 3"), ("/ r x", "35 out-manifest 3"))
    (r / SUMS).write_text(f"{ABC}  x\n\n")
    site.refused(("/a r x", "35 out-manifest 2"))
    (r / SUMS).write_text(f"{ABC}  x\n{EMPTY}  x\n")
    site.refused(("/a r x", "35 out-manifest 2"))
    (r / SUMS).write_text(f"{ABC}  x\n{ABC}  y.tree\n{ABC}  z/a\n")
    site.refused(("/a r x", "34 listed x"), ("/ r x", "34 listed x"), ("/a r y", "34 listed y"), ("/ r y", "34 listed y"))
    site.expect(("/a r z", b"published 1 3\n"))


def a_manifest_that_would_be_too_long_is_refused(site, place):
    """It may have 67,108,864 bytes: the old one, and the new one with the line and a newline where the last lacks it."""
    put(place, {"a": b"abc"})
    most, line = 67_108_864, len(f"{ABC}  x\n")
    (site.out / "r").mkdir()
    manifest = site.out / "r" / SUMS
    other = f"{ABC}  other\n".encode()

    def of_size(size):
        count = size // len(other) - 1
        text = other * count
        last = size - len(text) - len(f"{ABC}  \n")
        return text + f"{ABC}  {'l' * last}\n".encode()

    for size in most + 1, most, most - line + 1:
        manifest.write_bytes(of_size(size))
        site.expect(("/a r x", b"refused 7 limit text\n"))
    manifest.write_bytes(b"no line\n" + of_size(most - 7))
    site.expect(("/a r x", b"refused 7 limit text\n"))
    manifest.write_bytes(of_size(most - line)[:-1])
    site.expect(("/a r x", b"published 1 3\n"))
    if manifest.stat().st_size != most or not manifest.read_bytes().endswith(b"\n" + f"{ABC}  x\n".encode()):
        raise Failed(f"the manifest has {manifest.stat().st_size:,} bytes")


def what_fits_a_path_is_published(site, place):
    put(place, {"usr/a": b"abc"})
    deep, long = "/".join(["d"] * 63), "/".join([*["d" * 250] * 15, "e" * 250])
    site.expect((f"/usr/a {deep} f", b"published 1 3\n"), (f"/usr {'r' * 250} {'n' * 250}", b"published 1 3\n"))
    site.refused((f"/usr {deep} n", "7 limit path"), (f"/usr/a {deep}/d f", "7 limit path"), (f"/usr/a {long} {'f' * 76}", "7 limit path"))
    site.expect((f"/usr/a {long} {'f' * 71}", b"published 1 3\n"))
    for folder in deep, "r" * 250, long:
        checked(site.out / folder)


def one_folder_in_the_other_is_usage(site, place):
    put(place, {"usr/a": b"abc"})
    inner, above = place.store / "inner", site.out / "stores"
    inner.mkdir()
    above.mkdir()
    shutil.copytree(place.store, above / "store")
    link, to_store = site.out.with_name("link"), site.out.with_name("to-store")
    link.symlink_to(inner)
    to_store.symlink_to(above / "store")
    before = what_stands(place.store), what_stands(site.out)
    outs = place.store, inner, place.store / "inner/..", place.store / "../store/./inner/", link
    stores = site.out, above, above / "store", site.out / "stores/../stores/store", to_store
    for store, out in (*((place.store, out) for out in outs), *((store, site.out) for store in stores)):
        explains(site.told("/usr", "r", "x", store=store, out=out), "usage 1", CLASH, 2)
        explains(site.told("/usr", "r", "x", store=store, out=out, around=without_explaining()), "usage 1", None, 2)
    if (what_stands(place.store), what_stands(site.out)) != before:
        raise Failed("something changed")
    explains(site.told("/usr", "r", "x.tree", out=inner), "usage 3", f"{WORDS}: not `x.tree`", 2)
    site.expect(("/usr r x", b"published 1 3\n"))


def without_explaining():
    return {name: value for name, value in os.environ.items() if name != "HOSTEXT_EXPLAIN"}


def words_that_ask_nothing_are_usage(site, place):
    put(place, {"usr/a": b"abc"})
    longest = "/".join([*["d" * 255] * 15, "e" * 252])
    for words, number, word in (
        ((), 1, None),
        (("/usr",), 2, None),
        (("/usr", "r"), 3, None),
        (("usr", "r", "x"), 1, "usr"),
        (("", "r", "x"), 1, ""),
        (("/usr/", "r", "x"), 1, "/usr/"),
        (("/..", "r", "x"), 1, "/.."),
        (("/usr", "/r", "x"), 2, "/r"),
        (("/usr", "", "x"), 2, ""),
        (("/usr", longest, "x"), 2, longest),
        (("/usr", "r" * 251, "x"), 2, "r" * 251),
        (("/usr", "r", "a/b"), 3, "a/b"),
        (("/usr", "r", ".."), 3, ".."),
        (("/usr", "r", "x.tree"), 3, "x.tree"),
        (("/usr", "r", ".tree"), 3, ".tree"),
        (("/usr", "r", SUMS), 3, SUMS),
        (("/usr", "r", NEXT), 3, NEXT),
        (("/usr", "r", "n" * 251), 3, "n" * 251),
        (("/usr", "r", "a\x1b[31m"), 3, "a\\u{1b}[31m"),
        (("/usr", "r", "x", "y"), 4, "y"),
        (("--help", "r", "x"), 1, "--help"),
    ):
        reason = f"{WORDS}: one is missing" if word is None else f"{WORDS}: not `{word}`"
        explains(site.told(*words), f"usage {number}", reason, 2)
        explains(site.told(*words, store="gone", out="gone"), f"usage {number}", reason, 2)
    for words in [], ["--versions"], ["--help", ""], [b"\xff", b"x", b"/usr", b"r", b"x"]:
        child = subprocess.run([site.program, *words], env=without_explaining(), capture_output=True, timeout=SECONDS)
        expect((child.stdout, child.stderr, child.returncode), (b"", b"hostext: usage 1\n", 2))
    for words in [], ["--versions"]:
        child = subprocess.run([site.program, *words], env=EXPLAIN, capture_output=True, timeout=SECONDS)
        explains((child.stderr.decode().splitlines(), child.returncode), "usage 1", CALL, 2)
    holds(site.out, {})


def the_help_is_one_line_and_the_version_that_of_the_other_program(site, _place):
    for word, wanted in (b"--help", HELP), (b"--version", b"hostext_publish" + VERSION.removeprefix(b"hostext")):
        expect(run(site.program, [word]), (wanted, b"", 0))
        with open("/dev/full", "wb") as full:
            expect(run(site.program, [word], stdout=full)[1:], (b"hostext: write fault\n", 4))


# Faults.


def each_device_that_fails_is_told(site, place):
    put(place, {"usr/a": b"abc"})
    gone = site.out.with_name("gone")
    explains(site.told("/usr", "r", "x", store=gone), "disk fault", f"open {gone}: No such file or directory", 5)
    explains(site.told("/usr", "r", "x", out=gone), "out fault", f"open {gone}: No such file or directory", 6)
    explains(site.told("/usr", "r", "x", store=gone, out=gone), "disk fault", f"open {gone}: No such file or directory", 5)
    (site.out / "r").mkdir()
    os.mkfifo(site.out / "r" / SUMS)
    explains(site.told("/usr", "r", "x"), "out fault", f"look at {site.out}/r/{SUMS}: neither a file nor a folder stands there", 6)
    (site.out / "r" / SUMS).unlink()
    (site.out / "r" / SUMS).symlink_to("../elsewhere")
    explains(site.told("/usr", "r", "x"), "out fault", f"read {site.out}/r/{SUMS}: a link below the store folder is not followed", 6)
    (site.out / "r" / SUMS).unlink()
    with open("/dev/full", "wb") as full:
        expect(site.run("/usr", "r", "x", stdout=full)[1:], (b"hostext: write fault\n", 4))
        expect(site.run("/usr", "r", "x", stdout=full)[1:], (b"hostext: write fault\n", 4))
    site.refused(("/usr r x", "34 listed x"))
    checked(site.out / "r")
    home = place.store / "g-2/000/00"
    home.write_bytes(b"abd")
    before = (site.out / "r" / SUMS).read_bytes()
    reason = f"{home} is listed with 3 bytes and the digest {ABC}, and has 3 bytes and the digest {digest(b'abd')}; {SEE}"
    explains(site.told("/usr", "r", "y"), "bad store", reason, 8)
    if (site.out / "r" / SUMS).read_bytes() != before:
        raise Failed("a damaged file is listed")
    home.write_bytes(b"abc")
    (place.store / "current").write_bytes(b"g-x\n")
    explains(site.told("/usr", "r", "y"), "bad store", f"{place.store}/current names no generation; {SEE}", 8)


def a_folder_that_cannot_be_written_is_told(site, place):
    if os.getuid() != 0:
        raise Skipped("it wants root, to become nobody")
    put(place, {"usr/a": b"abc"})
    program = site.out.with_name("program")
    shutil.copy(site.program, program)
    site.program = program
    for path in (site.out.parent, site.out):
        path.chmod(0o755)
    explains(site.told("/usr", "r", "x", before=become_nobody), "disk fault", f"read {place.store}/current: Permission denied", 5)
    subprocess.run(["chmod", "-R", "a+rX", place.store], check=True)
    explains(site.told("/usr", "r", "x", before=become_nobody), "out fault", f"make {site.out}/r: Permission denied", 6)
    holds(site.out, {})


def a_full_file_system_leaves_the_old_manifest(site, place):
    put(place, {"large": b"x" * 1_000_000, "small": b"abc"})
    mounted = subprocess.run(["mount", "-t", "tmpfs", "-o", "size=256k", "tmpfs", site.out], capture_output=True)
    if mounted.returncode:
        raise Skipped("no file system can be mounted here")
    try:
        site.expect(("/small r a", b"published 1 3\n"))
        before = (site.out / "r" / SUMS).read_bytes()
        expect(site.run("/large", "r", "b"), (b"", b"hostext: out fault\n", 6))
        if (site.out / "r" / SUMS).read_bytes() != before:
            raise Failed("the manifest changed")
        checked(site.out / "r")
        site.expect(("/small r b", b"published 1 3\n"))
        checked(site.out / "r")
    finally:
        subprocess.run(["umount", site.out], check=True)


def more_left_overs_than_one_run_removes_take_two(site, place):
    """They stand at and below the name that is published. A run that is refused removes none."""
    put(place, {"usr/a": b"abc"})
    (site.out / "r").mkdir()
    left_overs(site.out / "r/x", 1_048_577)
    (site.out / "r" / SUMS).write_text(f"{ABC}  x\n")
    site.expect(("/usr r x", b"refused 34 listed x\n"))
    (site.out / "r" / SUMS).unlink()
    explains(site.told("/usr", "r", "x"), "unfinished", "more was left over in OUT than one run removes: give the same words again", 9)
    if any((site.out / "r/x").iterdir()):
        raise Failed("other left-overs than those that were counted are there")
    site.expect(("/usr r x", b"published 1 3\n"))
    checked(site.out / "r")


def the_reason_is_told_to_a_terminal(site, _place):
    ours, theirs = pty.openpty()
    child = subprocess.run(site.words("/usr", "r", "x.tree"), env=without_explaining(), stdin=subprocess.DEVNULL, stdout=subprocess.PIPE, stderr=theirs, timeout=SECONDS)
    os.close(theirs)
    found = os.read(ours, 4096).decode().splitlines()
    os.close(ours)
    explains((found, child.returncode), "usage 3", f"{WORDS}: not `x.tree`", 2)


# Stops.


def a_kill_at_any_moment_leaves_the_old_manifest_or_the_new_one(site, place):
    """And all that it lists. The next run of the same words does the rest. It tests the order of what is made and moved, not the
    syncs: what the system was told is there after a kill."""
    files = {f"usr/share/d{at % 7}/f{at:03}": b"%d\n" % at for at in range(FILES)}
    put(place, files)
    done = f"published {FILES} {sum(map(len, files.values()))}\n".encode()
    began = time.monotonic()
    site.expect(("/usr r v0", done))
    whole_run = time.monotonic() - began
    r, chance, version, seen = site.out / "r", random.Random(7), 1, {"old": 0, "new": 0}
    for _ in range(KILLS):
        before = (r / SUMS).read_bytes()
        child = site.start("/usr", "r", f"v{version}", stdout=subprocess.DEVNULL)
        time.sleep(chance.random() * whole_run)
        child.send_signal(signal.SIGKILL)
        child.communicate(timeout=SECONDS)
        found, line = (r / SUMS).read_bytes(), f"{digest((r / 'v0.tree').read_bytes())}  v{version}.tree\n".encode()
        checked(r)
        if found not in (before, before + line):
            raise Failed(f"the manifest after a kill is {shortened(found)}")
        is_new = found != before
        seen["new" if is_new else "old"] += 1
        if is_new or chance.random() < 0.5:
            site.expect((f"/usr r v{version}", f"refused 34 listed v{version}\n".encode() if is_new else done))
            whole(r, f"v{version}")
            version += 1
    for name in (f"v{at}" for at in range(version)):
        whole(r, name)
    if not seen["old"]:
        raise Failed("no kill came before the end of a run")


def each_refusal_says_what_helps_there(site, place):
    said = rows("What helps after a refusal comes as it does")

    def refuses(row, *words):
        ended = subprocess.run(site.words(*words), env=EXPLAIN, stdin=subprocess.DEVNULL, capture_output=True, timeout=SECONDS)
        number, word = row.split(" ", 1)
        if ended.returncode != 1 or not ended.stdout.decode().startswith(f"refused {number} {word.strip('`')}"):
            raise Failed(f"{words} ends with {ended.returncode}: {shortened(ended.stdout)}")
        wanted = f"hostext: {said.pop(row)}\n"
        if ended.stderr.decode() != wanted:
            raise Failed(f"{words} tells {shortened(ended.stderr)}, and not {shortened(wanted)}")

    refuses("1 `no-store`", "/usr", "r", "x")
    place.resource("host", tree_text("l 3 usr link", "d 755 usr", f"f 644 3 {ABC} usr/a"), {"usr/a": b"abc"})
    place.expect(("init x86-64 system", DONE), ("import-fs host /", DONE))
    refuses("8 `no-entry`", "/gone", "r", "x")
    refuses("10 `not-file`", "/link", "r", "x")
    refuses("7 `limit path`", "/usr", "/".join("r" * 64), "x")
    (site.out / "file").write_bytes(b"")
    refuses("36 `out-kind`", "/usr", "file", "x")
    for name in "large", "faulty":
        (site.out / name).mkdir()
    with open(site.out / "large" / SUMS, "wb") as sums:
        sums.truncate((64 << 20) + 1)
    refuses("7 `limit text`", "/usr", "large", "x")
    (site.out / "faulty" / SUMS).write_bytes(b"x\n")
    refuses("35 `out-manifest`", "/usr", "faulty", "x")
    site.run("/usr", "r", "x")
    refuses("34 `listed`", "/usr", "r", "x")
    if said:
        raise Failed(f"no run is refused by {', '.join(said)}")


CALLS = [
    *(a_directory_and_a_file_are_published_listed_and_imported, eleven_thousand_files_come_out_as_they_were),
    *(the_root_an_empty_directory_and_an_empty_file_are_published, a_view_is_published_as_it_is_seen, an_update_takes_what_was_published),
    *(what_an_earlier_run_left_goes_and_all_else_stays, everybody_may_read_what_is_published_and_nobody_else_the_store),
    *(files_that_only_their_owner_may_read_are_counted_where_they_are_published, modes_are_what_the_umask_leaves),
    *(the_store_is_shared_and_out_is_for_one_run_alone, runs_that_are_started_together_are_all_listed),
    *(refusals_come_in_their_order, a_manifest_that_would_be_too_long_is_refused, what_fits_a_path_is_published),
    *(one_folder_in_the_other_is_usage, words_that_ask_nothing_are_usage, the_help_is_one_line_and_the_version_that_of_the_other_program, each_device_that_fails_is_told),
    *(a_folder_that_cannot_be_written_is_told, a_full_file_system_leaves_the_old_manifest, more_left_overs_than_one_run_removes_take_two),
    *(the_reason_is_told_to_a_terminal, each_refusal_says_what_helps_there),
    a_kill_at_any_moment_leaves_the_old_manifest_or_the_new_one,
]
scenes = named(*map(at_a_site, CALLS))
