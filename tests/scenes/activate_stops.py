"""tools/activate is ended at each of its calls, on a disk that is full, or beside another run: what was shown stands there, or what is to be
shown, and the next command goes on."""
import fcntl
import json
import os
import shutil
import subprocess

from scenes.activated import TOOL, apart, changed_store, done, done_apart, in_a_memory, killed_at, merged_store, read, shows, tool
from scenes.chroots import mount
from scenes.running import SECONDS, Failed, expect, imager, named, shortened
from scenes.stores import Place

import trials

WORDS = {b"one", b"two", b"own"}


def shown_word(root):
    """What a root shows: at each of its files one generation, or its own tree."""
    usr, other = read(root / "usr/shown"), read(root / "usr/other")
    if usr not in WORDS or other != (None if usr == b"own" else usr):
        raise Failed(f"the root shows {usr} and {other}")
    return usr


def copied(place, folder):
    """A copy of a place."""
    shutil.copytree(place.store.parent, folder, symlinks=True)
    own = Place.__new__(Place)
    own.program, own.store, own.depot = place.program, folder / "store", folder / "depot"
    return own


def each_kill_leaves(place, root, words, before, after):
    """A command is ended after each of its calls; what it leaves is that of before or after, and the same command ends its work."""

    def at(number):
        folder = place.store.parent.with_name(f"at-{number}")
        own = copied(place, folder)
        before(own)
        is_killed = killed_at(own, number, *words)
        found = shown_word(root)
        if found not in after:
            raise Failed(f"ended after call {number}, `{words}` leaves {found}")
        # what is back already would go back once more
        done_apart(own, *(("switch", f"--root={root}", "--mark=4") if words[0] == "back" and found == after[-1] else words))
        if shown_word(root) != after[-1]:
            raise Failed(f"ended after call {number}, `{words}` shows {shown_word(root)} the next time")
        done_apart(own, "off")
        if shown_word(root) != b"own":
            raise Failed(f"ended after call {number}, `off` leaves {shown_word(root)}")
        shutil.rmtree(folder)
        return is_killed

    number = 1
    while at(number):
        number += 1
    return number - 1


def marked(place):
    """A store with a mark of its first view, 4, and another one now, 7."""
    merged_store(place)
    place.expect(("mark", b"marked 4\n"))
    changed_store(place)


def a_kill_at_each_call_of_the_first_switch(place, root):
    marked(place)
    count = each_kill_leaves(place, root, ("switch", f"--root={root}"), lambda own: None, (b"own", b"two"))
    if count < 15:
        raise Failed(f"it was ended at {count} calls alone")


def a_kill_at_each_call_of_a_further_switch(place, root):
    marked(place)

    def before(own):
        done_apart(own, "switch", "--mark=4", f"--root={root}")
        done_apart(own, "make")

    if each_kill_leaves(place, root, ("switch", f"--root={root}"), before, (b"one", b"two")) < 5:
        raise Failed("it was ended at few calls alone")


def a_kill_at_each_call_of_the_way_back(place, root):
    marked(place)

    def before(own):
        done_apart(own, "switch", "--mark=4", f"--root={root}")
        done_apart(own, "switch", f"--root={root}")

    if each_kill_leaves(place, root, ("back",), before, (b"two", b"one")) < 5:
        raise Failed("it was ended at few calls alone")


def a_kill_at_each_call_of_boot_with_a_generation_that_is_tried(place, root):
    """Which is shown once: the next time what was shown before is."""
    marked(place)

    def before(own):
        done_apart(own, "switch", "--mark=4", f"--root={root}")
        handle = os.open(own.store / "active", os.O_RDONLY)
        trials.begin(handle, 7)
        os.close(handle)
        done_apart(own, "switch", f"--root={root}")
        if (own.store / "active/trial").read_text() != "7 tried\n":
            raise Failed("a generation is shown, and isn't noted as tried")

    number = 1
    while True:
        folder = place.store.parent.with_name(f"at-{number}")
        own = copied(place, folder)
        before(own)
        is_killed = killed_at(own, number, "boot")
        if shown_word(root) not in (b"one", b"two"):
            raise Failed(f"ended after call {number}, it shows {shown_word(root)}")
        written, said, status = apart(own, "boot")
        expect((written, b"", status), (os.fsencode(f"shown 4\n{root}/opt\n{root}/usr\n"), b"", 0))
        shows(root, b"one")
        done_apart(own, "off")
        shutil.rmtree(folder)
        if not is_killed:
            break
        number += 1
    if number < 5:
        raise Failed("it was ended at few calls alone")


def boot_shows_what_was_shown_and_cleans(place, root):
    merged_store(place)
    for word in b"two", b"one", b"two":
        done(place, "switch", f"--root={root}")
        changed_store(place, word)
    done(place, "make")
    folder = place.store / "active"
    done(place, "boot")
    if sorted(path.name for path in folder.glob("*.erofs")) != ["g-10.erofs", "g-4.erofs", "g-6.erofs", "g-8.erofs"]:
        raise Failed(f"in the run of a machine in which something was shown it cleans: {sorted(os.listdir(folder))}")
    stop_the_machine(place, root)
    shows(root, b"own")
    links = len(list(folder.glob("files/*/*/*")))
    done(place, "boot", says=os.fsencode(f"shown 8\n{root}/opt\n{root}/usr\n"))
    shows(root, b"one")
    if sorted(path.name for path in folder.glob("*.erofs")) != ["g-6.erofs", "g-8.erofs"] or not len(list(folder.glob("files/*/*/*"))) < links:
        raise Failed(f"`active` has {sorted(os.listdir(folder))} and as many links as before")
    done(place, "back", says=os.fsencode(f"shown 6\n{root}/opt\n{root}/usr\n"))
    shows(root, b"two")


def stop_the_machine(place, root):
    """What a start of the machine finds: nothing is mounted, and the notes are those of another run."""
    for name in "usr", "opt":
        subprocess.run(["umount", root / name], check=True, timeout=SECONDS)
    for name in "now", "before":
        path = place.store / "active" / name
        if path.exists():
            path.write_text(json.dumps(json.loads(path.read_text()) | {"machine": "another"}))


def boot_shows_what_was_shown_before_a_generation_that_hung(place, root):
    merged_store(place)
    done(place, "switch", f"--root={root}")
    changed_store(place)
    handle = os.open(place.store / "active", os.O_RDONLY)
    trials.begin(handle, 6)
    done(place, "switch", f"--root={root}")
    shows(root, b"two")
    stop_the_machine(place, root)
    written, said, status = tool(place, "boot")
    expect((written, status), (os.fsencode(f"shown 4\n{root}/opt\n{root}/usr\n"), 0))
    if b"generation 6 was tried and not found healthy" not in said:
        raise Failed(f"it tells {shortened(said)}")
    shows(root, b"one")
    # found healthy, it is shown again
    trials.end(handle)
    done(place, "switch", f"--root={root}")
    stop_the_machine(place, root)
    done(place, "boot", says=os.fsencode(f"shown 6\n{root}/opt\n{root}/usr\n"))


def a_disk_that_is_full_leaves_what_was_shown(place, root):
    """A small one, filled up to each of some sizes; with room again the same command ends its work."""
    small = place.store.parent.with_name("small")
    small.mkdir()
    mount("tmpfs", small, "tmpfs")
    subprocess.run(["mount", "-o", "remount,size=1m,nr_inodes=600", small], check=True, timeout=SECONDS)
    own = Place(place.program, small)
    marked(own)
    done(own, "switch", "--mark=4", f"--root={root}")
    filler = small / "filler"
    for left in range(0, 24_000, 4_000):
        (small / "spare").unlink(missing_ok=True)
        free = os.statvfs(small).f_bavail * 4096
        filler.write_bytes(bytes(max(0, free - left)))
        written, said, status = tool(own, "switch", f"--root={root}")
        if status == 1 and b"No space left" not in said and b"Quota" not in said and b"write fault" not in said or status not in (0, 1) or b"Traceback" in said:
            raise Failed(f"with {left} bytes left it ends with {status} and tells {shortened(said)}")
        if shown_word(root) != (b"two" if status == 0 else b"one"):
            raise Failed(f"with {left} bytes left it shows {shown_word(root)}")
        if status == 0:
            break
        filler.unlink()
    else:
        done(own, "switch", f"--root={root}")
    shows(root, b"two")
    done(own, "off")


def two_at_once_wait_for_each_other(place, root):
    marked(place)
    done(place, "make")
    handle = os.open(place.store / "active", os.O_RDONLY)
    fcntl.flock(handle, fcntl.LOCK_EX)
    env = {**os.environ, "HOSTEXT": str(place.program), "HOSTEXT_EROFS": str(imager())}
    words = ("switch", f"--root={root}"), ("switch", "--mark=4", f"--root={root}"), ("make", "--mark=4")
    waiting = [subprocess.Popen([TOOL, place.store, *more], env=env, stdin=subprocess.DEVNULL, stdout=subprocess.PIPE, stderr=subprocess.PIPE) for more in words]
    for child in waiting:
        if child.stderr.readline() != b"activate: waiting for another run on this store\n":
            raise Failed("it doesn't wait")
    shows(root, b"own")
    os.close(handle)
    for child in waiting:
        written, said = child.communicate(timeout=SECONDS)
        expect((b"", said, child.returncode), (b"", b"", 0))
    shown_word(root)
    if len(list((place.store / "active").glob("*.erofs"))) != 2:
        raise Failed("one of them made nothing")


def a_store_that_changes_meanwhile_is_waited_for(place, root):
    marked(place)
    handle = os.open(place.store, os.O_RDONLY)
    fcntl.flock(handle, fcntl.LOCK_EX)
    env = {**os.environ, "HOSTEXT": str(place.program), "HOSTEXT_EROFS": str(imager())}
    child = subprocess.Popen([TOOL, place.store, "make"], env=env, stdin=subprocess.DEVNULL, stdout=subprocess.PIPE, stderr=subprocess.PIPE)
    if child.stderr.readline() != b"activate: waiting for another command on this store\n":
        raise Failed("it doesn't wait")
    os.close(handle)
    expect((*child.communicate(timeout=SECONDS), child.returncode), (b"made 7\n", b"", 0))


CALLS = [
    *(a_kill_at_each_call_of_the_first_switch, a_kill_at_each_call_of_a_further_switch, a_kill_at_each_call_of_the_way_back),
    *(a_kill_at_each_call_of_boot_with_a_generation_that_is_tried, boot_shows_what_was_shown_and_cleans),
    *(boot_shows_what_was_shown_before_a_generation_that_hung, a_disk_that_is_full_leaves_what_was_shown),
    *(two_at_once_wait_for_each_other, a_store_that_changes_meanwhile_is_waited_for),
]
scenes = named(*map(in_a_memory, CALLS))
