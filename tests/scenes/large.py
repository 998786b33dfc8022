"""Each command over a large store, with memory enough: it does its work, and never says that memory ran out. What looks at no store has
such scenes beside its own, and so have `batch`, in batches.py, and publishing."""
from scenes.running import directories, named, tree_text
from scenes.stores import DONE, OLD_INDEX, digest, in_a_place, left_overs, lines
from scenes.views import ANY, released

# How many there are of whatever a command goes over, and the bytes of the longest file.
MANY = 10_000
LONG = 1_048_576
NUMBERS = range(10_000, 10_000 + MANY)
NEWEST = NUMBERS[-1] + MANY // 2
TRANSFER = lines("[Source]", "Type=directory", "Path=/images", "MatchPattern=foo_@v", "[Target]", "Type=directory", "Path=/srv/foo")

# Of each of two hosts the files, and what there is so often: an image of each class has as many directories, beside masks; and there
# are instances, folders of components, and features.
OF_VIEWS = {
    "usr/lib/os-release": b"ID=debian\n",
    "srv/large": b"0123456789abcdef" * (LONG // 16),
    **{f"var/lib/extensions/x/{path}": content for path, content in released("x", ANY, {}).items()},
    **{f"var/lib/confexts/y/{path}": content for path, content in released("y", ANY, {}, "configuration").items()},
}
MANY_OF_VIEWS = {"var/lib/extensions/x/usr/e{}": None, "var/lib/confexts/y/etc/e{}": None, "etc/extensions/m{}": "/dev/null", "run/confexts/m{}": "/dev/null"}
OF_UPDATES = {"srv/on": b"[Feature]\nEnabled=yes\n", "etc/sysupdate.d/foo.transfer": TRANSFER}
MANY_OF_UPDATES = {"srv/foo/foo_{}": None, "usr/lib/sysupdate.c{}.d": None, "etc/sysupdate.f.d/f{}.feature": "/srv/on"}


def put(place, files, repeated):
    """A new store of these files, and of a directory or a link to a target for each number; the text of its tree."""
    above = {"/".join(path.split("/")[:depth]) for path in [*files, *repeated] for depth in range(1, path.count("/") + 1)}
    found = {path: f"d 755 {path}" for path in above}
    found |= {path: f"f 644 {len(content)} {digest(content)} {path}" for path, content in files.items()}
    for at, to in repeated.items():
        found |= {path: f"l {len(to)} {to} {path}" if to else f"d 755 {path}" for path in map(at.format, NUMBERS)}
    text = tree_text(*(found[path] for path in sorted(found, key=lambda path: path.replace("/", "\0"))))
    place.resource("host", text, files)
    place.expect(("init x86-64 system", DONE), ("import-fs host /", DONE))
    return text


def many(shape):
    """A line of this shape for each number."""
    return map(shape.format, NUMBERS)


def version(number):
    return f"{number}{' available' * (number > NEWEST - MANY)}{' installed' * (number <= NUMBERS[-1])}"


def a_class_is_listed_merged_and_unmerged(place, name, masks, image, hierarchy, folder):
    """The masks are in the search directory of this path, and the image that fits is at the other one."""
    stem = image[-1]
    release = f"{hierarchy}/{folder}", f"{hierarchy}/{folder}/extension-release.{stem}"
    listed = *many(f"m{{0}} masked {masks}/m{{0}}"), f"{stem} image {image} fits"
    added = sorted([*many(f"+ {hierarchy}/e{{}}"), *(f"+ {path}" for path in release)])
    merged = lines("merged 1", stem)
    place.expect((f"{name} list", lines(*listed)), (f"{name} changes", lines(*added)))
    place.expect((f"{name} explain {hierarchy}/e{NUMBERS[-1]}", lines(f"image {stem} d 755")), (f"{name} status", b"unmerged\n"))
    place.expect((f"{name} merge", merged), (f"{name} status", merged), (f"{name} refresh", merged), (f"{name} unmerge", b"unmerged\n"))


def a_large_host_is_told_checked_and_merged(place):
    """After `init` has removed as many left-overs."""
    left_overs(place.store / "g-7", MANY)
    text, size = put(place, OF_VIEWS, MANY_OF_VIEWS), sum(map(len, OF_VIEWS.values()))
    place.expect(("tree", text), ("cat /srv/large", OF_VIEWS["srv/large"]), ("check", b"ok %d %d\n" % (len(OF_VIEWS), size)))
    a_class_is_listed_merged_and_unmerged(place, "sysext", "/etc/extensions", "/var/lib/extensions/x", "/usr", "lib/extension-release.d")
    a_class_is_listed_merged_and_unmerged(place, "confext", "/run/confexts", "/var/lib/confexts/y", "/etc", "extension-release.d")


def many_versions_go_come_back_and_make_room(place):
    """What vacuum takes away a rollback brings back, and then an update takes it away for a version of as many entries."""
    text, offered = put(place, OF_UPDATES, MANY_OF_UPDATES), directories(MANY)
    place.resource(f"images/foo_{NEWEST}", offered)
    listed = digest(offered)
    (place.depot / "images/SHA256SUMS").write_bytes(lines(*(f"{listed}  foo_{number}.tree" for number in range(NEWEST - MANY + 1, NEWEST + 1))))
    place.expect(("sysupdate components", lines(f"components {MANY + 1}", *many("c{}"), "f")))
    place.expect(("sysupdate --component=f features", lines(*many("f{} on"))))
    place.expect(("sysupdate list", lines(*map(version, range(NEWEST, NUMBERS[0] - 1, -1)))), ("sysupdate check-new", lines(str(NEWEST))))
    gone = [f"/srv/foo/foo_{number}" for number in NUMBERS[:-2]]
    place.expect(("mark", b"marked 2\n"), ("history", b"2 %d 2\n" % (text.count(b"\n") - 2)))
    place.expect(("sysupdate vacuum", lines(f"removed {MANY - 2}", *gone)))
    place.expect(("history --changes 2", lines(*(f"- {path}" for path in gone))), ("rollback 2", DONE))
    place.expect(("history --changes 2", b""), ("sysupdate update", lines(f"updated {NEWEST}")))
    place.expect((f"tree /srv/foo/foo_{NEWEST}", offered), ("forget 2", DONE), ("history", b""), ("remove /srv/foo", DONE))


def an_old_text_of_many_entries_is_migrated(place):
    entries = [f"d 755 {number}" for number in NUMBERS]
    place.index(1, OLD_INDEX.replace(b"root 0\n", lines(f"root {MANY}", *entries)))
    place.expect(("migrate", DONE), ("tree", tree_text(*entries)))


CALLS = a_large_host_is_told_checked_and_merged, many_versions_go_come_back_and_make_room, an_old_text_of_many_entries_is_migrated
scenes = named(*map(in_a_place, CALLS))
