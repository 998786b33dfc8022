"""Links below a store folder: none is followed. Cleaning takes one away as it takes a file, and nothing behind it is touched."""
import shutil

from scenes.running import ABC, EMPTY, Failed, expect, named, shortened, tree_text
from scenes.stores import DONE, FAULTS, Place, in_a_place, what_stands

BEFORE = tree_text("d 755 a", f"f 644 3 {ABC} a/x", "d 755 b")
AFTER = tree_text("d 755 a", f"f 644 3 {ABC} a/x")
CHANGE, BROUGHT = "remove /b", "import-fs one /c"
LISTED = b"ok 1 3\n"


def fill(place):
    """A store in its third generation, whose file has its home in the second one, left-overs, and a folder outside."""
    place.resource("host", BEFORE, {"a/x": b"abc"})
    place.resource("one", tree_text(f"f 644 0 {EMPTY} y"), {"y": b""})
    place.expect(("init x86-64 system", DONE), ("import-fs host /", DONE), ("import-fs one /b/c", DONE), ("remove /b/c", DONE))
    (place.store / "g-9/000").mkdir(parents=True)
    (place.store / "g-9/000/00").write_bytes(b"left")
    (place.store / "next").write_bytes(b"g-9\n")
    outside = place.store.with_name("outside")
    outside.mkdir()
    (outside / "file").write_bytes(b"abc")
    (outside / "folder/000").mkdir(parents=True)
    (outside / "folder/000/00").write_bytes(b"abc")
    (outside / "folder/index").write_bytes(b"an index")
    (outside / "empty").mkdir()
    return outside


def put_link(path, text):
    """Puts a link in place of what stands at a path."""
    if path.is_dir() and not path.is_symlink():
        shutil.rmtree(path)
    else:
        path.unlink(missing_ok=True)
    path.symlink_to(text)


# What a link is to: a file, folders, nothing, itself, and the store's own entries.
def targets(outside, path):
    return [*(str(outside / name) for name in ("file", "folder", "empty", "gone")), path.name, ".", "abc", str(path.parent / "g-4")]


# At each path of the current generation: how a command ends that comes to a link of so many bytes there, and whether each does. A
# link is a file of its text's length, so `current` can't be as long, and a file that is listed with 3 bytes is another one.
NEEDED = {
    "current": (lambda size: 8 if size > 13 else 5, True),
    "g-4": (lambda size: 5, True),
    "g-4/index": (lambda size: 5, True),
    "g-2": (lambda size: 5, False),
    "g-2/000": (lambda size: 5, False),
    "g-2/000/00": (lambda size: 5 if size == 3 else 8, False),
}
LEFT = ("next", "g-9", "g-9/000", "g-9/000/00", "g-3", "g-7", "g-9/link", "g-9/000/link")


def ends(place, command, wanted):
    """That a command ends with a fault of the disk, or writes this."""
    found = place.run(*command.split(" "))
    try:
        expect(found, (b"", FAULTS[wanted], wanted) if isinstance(wanted, int) else (wanted, b"", 0))
    except Failed as reason:
        raise Failed(f"`{command}`: {reason}") from None


def each_link(place, paths):
    """A store with a link at one of the paths, for each path and each target."""
    fill(place)
    folders = [place.store, place.store.with_name("outside")]
    for folder in folders:
        folder.rename(folder.with_suffix(".kept"))
    for name in paths:
        for at in range(8):
            for folder in folders:
                shutil.rmtree(folder, ignore_errors=True)
                shutil.copytree(folder.with_suffix(".kept"), folder)
            path = place.store / name
            text = targets(folders[1], path)[at]
            put_link(path, text)
            yield name, len(text), folders[1]


def same(what, found, wanted):
    if found != wanted:
        raise Failed(f"{what} is {shortened(found)}, and was {shortened(wanted)}")


def a_link_at_a_path_of_a_store_is_a_fault_that_changes_nothing(place):
    for name, size, outside in each_link(place, NEEDED):
        around, inside = what_stands(outside), what_stands(place.store)
        status, whole = NEEDED[name][0](size), NEEDED[name][1]
        for command, wanted in ("tree", status if whole else BEFORE), ("cat /a/x", status), ("check", status):
            ends(place, command, wanted)
            same(f"after `{command}` with a link at {name} the store", what_stands(place.store), inside)
        ends(place, CHANGE, status if whole else DONE)
        same(f"what a link at {name} leads to", what_stands(outside), around)
        if whole:
            same(f"with a link at {name} the store", what_stands(place.store), inside)
        else:
            ends(place, "tree", AFTER)
            ends(place, "check", status)


def a_link_among_left_overs_is_taken_away_and_not_what_it_leads_to(place):
    for name, _, outside in each_link(place, LEFT):
        around = what_stands(outside)
        for command, wanted in ("tree", BEFORE), ("cat /a/x", b"abc"), ("check", LISTED), (CHANGE, DONE), ("tree", AFTER), ("check", LISTED):
            ends(place, command, wanted)
        same(f"what a link at {name} leads to", what_stands(outside), around)
        left = {path.name for path in place.store.iterdir()}
        same("what stands in the store folder", left, {"current", "g-2", "g-4", "g-5"})
        ends(place, BROUGHT, DONE)


def a_link_to_another_name_of_the_store_deletes_nothing(place):
    for name, text in ("g-9", "g-4"), ("g-9", "."), ("next", "../outside"), ("next", "g-2"), ("g-9", "current"):
        shutil.rmtree(place.store.with_name("outside"), ignore_errors=True)
        shutil.rmtree(place.store)
        place.store.mkdir()
        outside = fill(place)
        put_link(place.store / name, text)
        around = what_stands(outside)
        for command, wanted in (CHANGE, DONE), ("tree", AFTER), ("cat /a/x", b"abc"), ("check", LISTED):
            ends(place, command, wanted)
        same("the folder outside", what_stands(outside), around)


def the_store_folder_itself_may_be_a_link(place):
    real = place.store.with_name("real")
    place.store.rename(real)
    place.store.symlink_to("real")
    place.resource("host", BEFORE, {"a/x": b"abc"})
    (real / "g-9").mkdir()
    place.expect(("init x86-64 system", DONE), ("import-fs host /", DONE), ("cat /a/x", b"abc"), ("check", LISTED), (CHANGE, DONE), ("tree", AFTER))
    if not place.store.is_symlink() or (real / "g-9").exists():
        raise Failed("the link is gone, or what was left over is there")


def links_of_a_depot_are_followed(place):
    place.resource("host", BEFORE, {"a/x": b"abc"})
    (place.depot / "host/a/x").rename(place.depot / "file")
    (place.depot / "host/a/x").symlink_to("../../file")
    (place.depot / "host").rename(place.depot / "folder")
    (place.depot / "host").symlink_to("folder")
    place.expect(("init x86-64 system", DONE), ("import-fs host /", DONE), ("cat /a/x", b"abc"))


CALLS = [
    *(a_link_at_a_path_of_a_store_is_a_fault_that_changes_nothing, a_link_among_left_overs_is_taken_away_and_not_what_it_leads_to),
    *(a_link_to_another_name_of_the_store_deletes_nothing, the_store_folder_itself_may_be_a_link, links_of_a_depot_are_followed),
]
scenes = named(*map(in_a_place, CALLS))
