"""tools/activate over stores in a memory of their own: what it makes, mounts and shows, what it refuses, and in which ways it mounts.
docs/COMMANDS.md and the manual page say what is expected."""
import contextlib
import errno
import json
import os
import random
import stat
from pathlib import Path

from scenes.activated import ANY, changed_store, done, done_apart, folders_and_files, image, in_a_memory, instead, merged_store, on_a_disk, read, refused, run_here, shows, status_of, tool
from scenes.erofs_trees import put_store, random_tree, same_texts, without_whiteouts
from scenes.mounted import SEED, TIME, seen_text
from scenes.running import Failed, Skipped, expect, imager, named, shortened
from scenes.stores import DONE, digest

import active
import calls
import making
import mounts
import showing
from telling import Teller

TREES = 300
SWITCHES, CHANGES = 50, 20


def told(number, root):
    """What a command tells that shows a generation at a root."""
    return os.fsencode(f"shown {number}\n{root}/opt\n{root}/usr\n")


# What is made and mounted.


def a_generation_is_made_once(place, root):
    merged_store(place)
    done(place, "make", says=b"made 4\n")
    folder = place.store / "active"
    stood = {path: path.stat().st_mtime_ns for path in folder.rglob("*")}
    done(place, "make", says=b"unchanged\n")
    if stood != {path: path.stat().st_mtime_ns for path in folder.rglob("*")}:
        raise Failed("a generation that is there is made again")
    modes = {stat.S_IMODE(path.stat().st_mode) for path in (folder, *folder.rglob("*")) if path.is_dir()}
    if modes != {0o700} or sorted(os.listdir(folder)) != ["files", "g-4", "g-4.erofs"]:
        raise Failed(f"`active` has {sorted(os.listdir(folder))} with the modes {modes}")
    links = {path.relative_to(folder / "files") for path in folder.glob("files/*/*/*")}
    if not links or any(not os.path.samefile(place.store / path, folder / "files" / path) for path in links):
        raise Failed("its links aren't the files of the store")


def what_is_mounted_is_taken_away_again(place, root):
    merged_store(place)
    place.expect(("mark", b"marked 4\n"))
    changed_store(place)
    at = root / "etc"
    for words, number, path, word in (((), 7, "usr/shown", b"two"), (("--mark=4",), 4, "usr/shown", b"one"), (("--path=/usr",), 7, "shown", b"two")):
        done(place, "mount", *words, at, says=b"mounted %d\n" % number)
        if read(at / path) != word:
            raise Failed(f"with {words} it shows {read(at / path)}")
        refused(place, "mount", at, says="a generation is mounted there already")
        done(place, "umount", at, says=b"done\n")
    expect((b"", b"", len(list(at.iterdir()))), (b"", b"", 0))
    refused(place, "umount", at, says="has mounted nothing there")
    done(place, "mount", at)
    with open(at / "usr/shown", "rb"):
        refused(place, "umount", at, says="somebody uses it")
    done(place, "umount", at)


def the_trees_of_random_hosts_are_mounted(place, root):
    """Owners and capabilities among them. All in one process, since it is the mounts that count; opaque directories outside of a view show as
    directories."""
    for at in range(TREES):
        put_store(place, 7, *random_tree(random.Random(SEED + at)))
        text = place.run("tree")[0]
        try:
            same_texts(text_of_mount(place, is_checked=at % 30 == 0), without_whiteouts(text))
        except Failed as reason:
            raise Failed(f"tree {at}: {reason}") from None


def text_of_mount(place, is_checked):
    """The tree text of what is mounted of a store."""
    os.environ.update({"HOSTEXT": str(place.program), "HOSTEXT_EROFS": str(imager())})
    tells = Teller("activate", True)
    with active.locked(place.store, tells) as folder, instead(making, time_after=lambda folder: TIME):
        generation = making.make(folder, place.store, None, is_checked, tells)
        state = active.State(generation.number, "/", {}, False, True, "", "", False)
        with showing.wanted(folder, state, mounts.AT, (b"",)) as wanted:
            (tree,), _ = mounts.trees(wanted)
    top = os.open(".", os.O_RDONLY | os.O_DIRECTORY, dir_fd=tree)
    try:
        return seen_text(top)
    finally:
        os.close(top)
        os.close(tree)


def what_is_mounted_has_a_time_of_its_own(place, root):
    """Later than that of each generation before, also where the clock stood still."""
    merged_store(place)
    done(place, "make")
    changed_store(place)
    done(place, "make")
    times = []
    for number in 4, 6:
        said = json.loads((place.store / f"active/g-{number}").read_text())
        times.append(said["time"])
    done(place, "mount", root / "etc")
    times.append(int((root / "etc/usr/shown").stat().st_mtime))
    if not times[0] < times[1] == times[2]:
        raise Failed(f"the times are {times}")


# What is shown.


def a_generation_is_shown_and_the_one_before_again(place, root):
    merged_store(place)
    done(place, "switch", f"--root={root}", says=told(4, root))
    shows(root, b"one")
    changed_store(place)
    shows(root, b"one")
    if not status_of(place)["waits"]:
        raise Failed("nothing waits")
    for words, says, word in (
        *((("switch", f"--root={root}"), told(6, root), b"two"), (("back",), told(4, root), b"one"), (("back",), told(6, root), b"two")),
        *((("off",), b"off\n", b"own"), (("back",), told(6, root), b"two"), (("back",), b"off\n", b"own"), (("back",), told(6, root), b"two")),
        *((("boot",), told(6, root), b"two"), (("switch", f"--root={root}"), told(6, root), b"two")),
    ):
        done(place, *words, says=says)
        shows(root, word)
    found = status_of(place)
    wanted = {"now": 6, "before": None, "store": 6, "waits": False, "root": str(root), "merged": {"sysext": ["x"]}, "trial": None}
    if {key: found[key] for key in wanted} != wanted or [row["below"] for row in found["shown"]] != [0, 0]:
        raise Failed(f"the status is {found}")


def what_is_merged_no_more_is_taken_away(place, root):
    merged_store(place)
    done(place, "switch", f"--root={root}")
    place.expect(("sysext unmerge", b"unmerged\n"))
    written, said, status = tool(place, "switch", f"--root={root}")
    if (written, status) != (b"shown 5\n", 0) or b"no class is merged" not in said:
        raise Failed(f"it tells {shortened(said)} and {shortened(written)}")
    shows(root, b"own")
    done(place, "back", says=told(4, root))
    shows(root, b"one")


def confext_is_shown_where_that_is_asked_for(place, root):
    merged_store(place)
    files = {"etc/shown": b"etc", "etc/extension-release.d/extension-release.c": ANY}
    place.resource("c", folders_and_files(files), files)
    place.expect(("import-fs c /var/lib/confexts/c", DONE), ("confext merge", b"merged 1\nc\n"))
    written, said, status = tool(place, "switch", f"--root={root}")
    expect((written, said, status), (told(6, root), b"activate: confext is merged, and isn't shown without --confext: etc\n", 0))
    if read(root / "etc/shown") is not None:
        raise Failed("/etc is shown")
    done(place, "switch", f"--root={root}", "--confext", says=os.fsencode(f"shown 6\n{root}/etc\n{root}/opt\n{root}/usr\n"))
    if read(root / "etc/shown") != b"etc":
        raise Failed("/etc isn't shown")
    tool(place, "switch", f"--root={root}")
    if read(root / "etc/shown") is not None:
        raise Failed("/etc is shown still")


def a_tree_that_lacks_a_hierarchy_leaves_that_as_it_is(place, root):
    files = {"usr/lib/os-release": b"ID=debian\n"}
    place.resource("host", folders_and_files(files), files)
    image(place, "x", {"usr/shown": b"one"})
    place.expect(("init x86-64 system", DONE), ("import-fs host /", DONE), ("import-fs x /var/lib/extensions/x", DONE), ("sysext merge", b"merged 1\nx\n"))
    (root / "opt/mine").write_bytes(b"mine")
    done(place, "switch", f"--root={root}", says=os.fsencode(f"shown 4\n{root}/usr\n"))
    if read(root / "opt/mine") != b"mine":
        raise Failed("/opt is gone")


def fifty_switches_are_seen_by_nobody(place, root):
    """A file of /usr is looked at without a pause: it is always there, and what is open at one moment is of one generation."""
    merged_store(place)
    done(place, "switch", f"--root={root}")
    changed_store(place)
    done(place, "make")
    reads, writes = os.pipe()
    looker = os.fork()
    if not looker:
        os.close(writes)
        os._exit(look(root, reads))
    os.close(reads)
    try:
        for _ in range(SWITCHES // 2):
            done_apart(place, "switch", f"--root={root}", "--no-check")
            done_apart(place, "back")
    finally:
        os.close(writes)
        status = os.waitstatus_to_exitcode(os.waitpid(looker, 0)[1])
    if status:
        raise Failed({1: "it was missing once", 2: "two generations were mixed", 3: "it was looked at too seldom"}.get(status, f"the looker ends with {status}"))


def look(root, reads):
    """Looks until the other end of a pipe is closed, and says what was seen."""
    os.set_blocking(reads, False)
    looks, seen = 0, set()
    while True:
        try:
            folder = os.open(root / "usr", os.O_RDONLY | os.O_DIRECTORY)
            found = set()
            for name in "shown", "other":
                with open(os.open(name, os.O_RDONLY, dir_fd=folder), "rb") as file:
                    found.add(file.read())
            os.close(folder)
            with open(root / "usr/shown", "rb") as file:
                seen.add(file.read())
        except FileNotFoundError:
            return 1
        if len(found) != 1 or not found <= {b"one", b"two"}:
            return 2
        looks += 1
        try:
            if not os.read(reads, 1):
                return 0 if looks > 10 * SWITCHES and seen == {b"one", b"two"} else 3
        except BlockingIOError:
            continue


def homes_that_go_leave_what_is_shown_whole(place, root):
    """Twenty changes take the homes away, of which each brings others, and nothing is cached any more."""
    merged_store(place)
    done(place, "switch", f"--root={root}")
    digests = digests_of(root)
    for at in range(CHANGES):
        place.resource("host", *host_of(b"host %d" % at))
        image(place, "x", {"usr/shown": b"more %d" % at})
        place.expect(("sysext unmerge", b"unmerged\n"), ("import-fs host /", DONE), ("import-fs x /var/lib/extensions/x", DONE), ("sysext merge", b"merged 1\nx\n"))
    links = [path.stat().st_nlink for path in place.store.glob("active/files/*/*/*")]
    if links.count(1) < 3:
        raise Failed(f"the store has the homes still: {links}")
    drop_caches()
    if digests_of(root) != digests:
        raise Failed("what is shown changed")
    done(place, "switch", f"--root={root}")
    if read(root / "usr/shown") != b"more %d" % (CHANGES - 1):
        raise Failed("the last change isn't shown")
    done(place, "back")
    drop_caches()
    if digests_of(root) != digests:
        raise Failed("what is shown again is something else")


def host_of(content):
    files = {"usr/a": content, "usr/lib/os-release": b"ID=debian\n", "opt/own": content}
    return folders_and_files(files), files


def digests_of(root):
    return {str(path.relative_to(root)): digest(path.read_bytes()) for path in sorted(root.rglob("*")) if path.is_file()}


def drop_caches():
    with contextlib.suppress(OSError):
        Path("/proc/sys/vm/drop_caches").write_text("2")


# The ways.


def each_way_shows_the_same(place, root):
    """Without handles as layers, without mounts of files that are no devices, and without mounts beneath others."""
    merged_store(place)

    def no_handles(wanted):
        raise OSError(errno.EINVAL, "fsconfig: Invalid argument")

    def no_files(kind, settings, flags):
        if kind == b"erofs" and os.path.isfile(settings[0][1]):
            raise OSError(errno.ENOTBLK, "fsconfig: Block device required")
        return mounted(kind, settings, flags)

    def no_beneath(mount, place, flags=0):
        if flags:
            raise OSError(errno.EINVAL, "move_mount: Invalid argument")
        attach(mount, place)

    mounted, attach = calls.mounted, calls.attach
    changed_store(place)
    place.expect(("mark", b"marked 6\n"))
    changed_store(place, b"one")
    for module, others, way in ((mounts, {"by_handles": no_handles}, {"places"}), (calls, {"mounted": no_files}, {"places"}), (calls, {"attach": no_beneath}, {"places", "handles"})):
        with instead(module, **others):
            for words, word in ((), b"one"), (("--mark=6",), b"two"), ((), b"one"):
                found = run_here(place, "switch", f"--root={root}", *words)
                expect((b"", *found[1:]), (b"", b"", 0))
                shows(root, word)
                if status_of(place)["way"] not in way:
                    raise Failed(f"the way is {status_of(place)['way']}")
            below = {row["below"] for row in status_of(place)["shown"]}
            if below != ({2} if "attach" in others else {0}):
                raise Failed(f"with {others} there lie {below} below")
            expect(run_here(place, "off"), (b"off\n", b"", 0))
        shows(root, b"own")


def a_store_on_a_disk_is_mounted_without_a_loop_device(place, root):
    """And nothing but the mounts that are shown stands anywhere."""
    merged_store(place)
    handle = os.open(place.store, os.O_RDONLY)
    kind = mounts.listed()[mounts.number_at(handle)].kind.decode()
    before = len(mounts.listed())
    done(place, "switch", f"--root={root}")
    shows(root, b"one")
    if (way := status_of(place)["way"]) != "handles":
        raise Skipped(f"Linux {os.uname().release} mounts a store on {kind} by {way} alone")
    if len(mounts.listed()) != before + 2:
        raise Failed("more is mounted than what is shown")
    changed_store(place)
    for words, word in (("switch", f"--root={root}"), b"two"), (("back",), b"one"), (("off",), b"own"):
        done(place, *words)
        shows(root, word)
    if len(mounts.listed()) != before:
        raise Failed("something stays mounted")


def what_a_kernel_lacks_is_told_by_name(place, root):
    merged_store(place)
    for number, says in ((errno.ENOSYS, b"has no calls for this"), (errno.ENODEV, b"this kernel has no "), (errno.EPERM, b"may not mount"), (errno.EINVAL, b"by handles: ")):

        def fails(*_, number=number):
            raise OSError(number, os.strerror(number))

        with instead(calls, called=fails, open_below=calls.open_below, open_without_links=calls.open_without_links):
            written, said, status = run_here(place, "switch", f"--root={root}")
        if (written, status) != (b"", 1) or says not in said:
            raise Failed(f"it tells {shortened(said)}")
        shows(root, b"own")

    def older(wanted):
        raise OSError(errno.EINVAL, "fsconfig: Invalid argument")

    release = os.uname_result(("Linux", "any", "6.1.0-50-amd64", "any", "x86_64"))
    with instead(mounts, by_handles=older, by_places=older), instead(os, uname=lambda: release):
        said = run_here(place, "switch", f"--root={root}")[1]
    if b"this is Linux 6.1.0-50-amd64: generations are mounted from Linux 6.5 on: for an older one `hostext-unpack` writes" not in said:
        raise Failed(f"it tells {shortened(said)}")


CALLS = [
    *(a_generation_is_made_once, what_is_mounted_is_taken_away_again, the_trees_of_random_hosts_are_mounted, what_is_mounted_has_a_time_of_its_own),
    *(a_generation_is_shown_and_the_one_before_again, what_is_merged_no_more_is_taken_away, confext_is_shown_where_that_is_asked_for),
    *(a_tree_that_lacks_a_hierarchy_leaves_that_as_it_is, fifty_switches_are_seen_by_nobody, homes_that_go_leave_what_is_shown_whole),
    *(each_way_shows_the_same, what_a_kernel_lacks_is_told_by_name),
]
scenes = named(*map(in_a_memory, CALLS), on_a_disk(a_store_on_a_disk_is_mounted_without_a_loop_device))
