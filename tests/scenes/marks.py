"""Marks over real folders: what is marked comes back whole, what a mark costs on the disk, and that a kill leaves the host of before
or of after."""
import hashlib
import random
import shutil
import signal
import time

from scenes.locks import start
from scenes.running import ABC, EMPTY, Failed, directories, expect, named, shortened, tree_text
from scenes.batches import batch
from scenes.stores import DONE, in_a_place
from scenes.views import ANY, EXTENSIONS, host, image

SEED, KILLS, MANY = 44, 40, 11_001
OLD = tree_text("d 755 app", f"f 755 3 {ABC} app/run", f"f 644 0 {EMPTY} app/state")
NEW = tree_text("d 755 app", f"f 755 0 {EMPTY} app/run")


def installed(place):
    """A host with a program, in generation 2."""
    place.resource("old", OLD, {"app/run": b"abc", "app/state": b""})
    place.resource("new", NEW, {"app/run": b""})
    place.expect(("init x86-64 system", DONE), ("import-fs old /opt", DONE))


def a_failed_upgrade_is_taken_back(place):
    installed(place)
    place.expect(("mark", b"marked 2\n"), ("import-fs new /opt", DONE), ("remove /opt/app/run", DONE), ("cat /opt/app/run", b"refused 8 no-entry /opt/app/run\n"))
    place.expect(("history", b"2 4 2\n"), ("rollback 2", DONE), ("cat /opt/app/run", b"abc"), ("tree /opt", OLD), ("check", b"ok 4 6\n"), ("history", b"2 4 2\n"))


def a_number_without_a_mark_is_refused(place):
    place.expect(*((f"{words} 1", b"refused 1 no-store\n") for words in ("rollback", "forget", "history --changes")), ("mark", b"refused 1 no-store\n"), ("history", b"refused 1 no-store\n"))
    installed(place)
    place.expect(("history", b""), ("mark", b"marked 2\n"))
    before = place.stands()
    for number in 1, 3, 4_294_967_295:
        place.expect(*((f"{words} {number}", b"refused 37 no-mark %d\n" % number) for words in ("rollback", "forget", "history --changes")))
    place.holds(before)


def what_changed_since_a_mark_is_told(place):
    installed(place)
    place.expect(("mark", b"marked 2\n"), ("history --changes 2", b""), ("import-fs new /opt", DONE), ("history --changes 2", b"* /opt/app/run\n- /opt/app/state\n"))
    place.expect(("import-fs old /srv", DONE), ("remove /opt", DONE))
    lines = [b"- /opt", b"- /opt/app", b"- /opt/app/run", b"- /opt/app/state", b"+ /srv", b"+ /srv/app", b"+ /srv/app/run", b"+ /srv/app/state"]
    place.expect(("history --changes 2", b"".join(line + b"\n" for line in lines)), ("rollback 2", DONE), ("history --changes 2", b""))


def the_youngest_marks_stay(place):
    installed(place)
    for generation in range(2, 20):
        place.expect(("mark", b"marked %d\n" % generation))
    place.expect(("history", b"".join(b"%d 4 2\n" % generation for generation in range(19, 3, -1))), ("mark 3", b"marked 20\n"))
    place.expect(("history", b"20 4 2\n19 4 2\n18 4 2\n"), ("forget 19", DONE), ("history", b"20 4 2\n18 4 2\n"), ("forget 19", b"refused 37 no-mark 19\n"))


def a_merged_host_comes_back_merged(place):
    host(place)
    image(place, "tool", ANY, {"usr/bin/t": b"abc"})
    place.expect(("sysext merge", b"merged 1\ntool\n"))
    marked = place.run("mark")[0]
    number = int(marked.split()[1])
    place.expect(("sysext unmerge", b"unmerged\n"), (f"remove /{EXTENSIONS}/tool", DONE), (f"rollback {number}", DONE), ("sysext status", b"merged 1\ntool\n"), ("cat /usr/bin/t", b"abc"))
    place.expect(("remove /usr/bin/t", b"refused 4 read-only /usr/bin/t\n"), ("sysext refresh", b"merged 1\ntool\n"), ("sysext unmerge", b"unmerged\n"), ("cat /usr/bin/t", b"refused 8 no-entry /usr/bin/t\n"))


def a_batch_marks_breaks_and_rolls_back(place):
    installed(place)
    expect(batch(place, "mark", "remove /opt", "history", "rollback 2", "cat /opt/app/run", "rollback 9"), (b"marked 2\ndone\n2 4 2\ndone\nabcrefused 37 no-mark 9\n", b"", 0))
    expect(batch(place, "forget 2", "history", "rollback 2", "check"), (b"done\nrefused 37 no-mark 2\nok 2 3\n", b"", 0))


def folders(place):
    return sorted(path.name for path in place.store.iterdir() if path.is_dir())


def what_is_forgotten_gives_its_room_back(place):
    """The generation that holds a mark's files stands as long as the mark, and goes with the change after `forget`."""
    installed(place)
    place.expect(("mark", b"marked 2\n"), ("remove /opt", DONE), ("import-fs new /srv", DONE), ("remove /srv", DONE))
    if "g-2" not in folders(place):
        raise Failed(f"a mark's files are gone: {folders(place)} stand")
    place.expect(("forget 2", DONE), ("import-fs new /srv", DONE), ("remove /srv", DONE))
    if "g-2" in folders(place) or len(folders(place)) > 3:
        raise Failed(f"after `forget` there are {folders(place)}")


def size_of(place):
    return sum(path.stat().st_size for path in place.store.rglob("*") if path.is_file() and path.name != "index")


def marks_hold_each_file_once(place):
    """Sixteen marks of a host of 11,001 files: in the store folder each file stands once, beside the indexes."""
    files = {f"{number // 100:03}/{number:06}": b"%d" % number for number in range(MANY)}
    rows = [f"d 755 {at:03}" for at in range((MANY + 99) // 100)]
    rows += [f"f 644 {len(content)} {hashlib.sha256(content).hexdigest()} {path}" for path, content in files.items()]
    place.resource("many", tree_text(*sorted(rows, key=lambda row: row.split()[-1].encode().split(b"/"))), files)
    replies = DONE * 2 + b"".join(b"marked %d\n" % generation for generation in range(2, 18))
    expect(batch(place, "init x86-64 system", "import-fs many /usr", *["mark"] * 16), (replies, b"", 0))
    whole = sum(map(len, files.values()))
    found = size_of(place) - len((place.store / "current").read_bytes())
    if found != whole:
        raise Failed(f"the files of {MANY:,} with {whole:,} bytes take {found:,} with sixteen marks")
    place.expect(("check", b"ok %d %d\n" % (17 * MANY, 17 * whole)))


def killed(place, command, seconds):
    """Whether the command was killed, so many seconds after its start, before it had ended."""
    child = start(place, *command.split())
    time.sleep(seconds)
    child.send_signal(signal.SIGKILL)
    child.communicate()
    return child.returncode == -signal.SIGKILL


def kills_leave_before_or_after(place, command, kills, chance, look):
    """Kills a command at so many random moments, over the store as it stands: what is looked at is then that of before or of after,
    and `check` passes. The moments are drawn so that about half of them come before the end. The store is at last as it was."""
    held = place.store.with_name("held")
    shutil.copytree(place.store, held)

    def take_back():
        shutil.rmtree(place.store)
        shutil.copytree(held, place.store)

    before = look(place)
    if place.run(*command.split())[2]:
        raise Failed(f"`{command}` is refused")
    ends, window, early = (before, look(place)), 0.02, 0
    for _ in range(kills):
        take_back()
        was_killed = killed(place, command, chance.random() * window)
        window *= 1.2 if was_killed else 0.8
        early += was_killed
        if look(place) not in ends or place.run("check")[2]:
            raise Failed(f"after a kill of `{command}` there is {shortened(look(place))}")
    take_back()
    shutil.rmtree(held)
    if not 5 <= early <= kills - 5:
        raise Failed(f"of {kills} kills of `{command}` {early} came before its end")


def seen(place):
    return tuple(place.run(word)[0] for word in ("tree", "history"))


def a_kill_leaves_the_host_of_before_or_of_after(place):
    """Of `mark`, `rollback` and `forget`: what is seen and what is marked are those of before or of after. The host has many entries,
    so that there is time."""
    place.resource("folders", directories(MANY))
    installed(place)
    place.expect(("import-fs folders /srv", DONE))
    place.expect(("mark", b"marked 3\n"), ("import-fs new /opt", DONE))
    chance = random.Random(SEED)
    for command in "mark", "rollback 3", "forget 3":
        kills_leave_before_or_after(place, command, KILLS, chance, seen)


CALLS = [
    *(a_failed_upgrade_is_taken_back, a_number_without_a_mark_is_refused, what_changed_since_a_mark_is_told, the_youngest_marks_stay),
    *(a_merged_host_comes_back_merged, a_batch_marks_breaks_and_rolls_back, what_is_forgotten_gives_its_room_back),
    *(marks_hold_each_file_once, a_kill_leaves_the_host_of_before_or_of_after),
]
scenes = named(*map(in_a_place, CALLS))
