"""Where a path comes from, and what a merge changes, over real stores: random hosts and images, each looked at in a second way, by what
`tree` writes before and after a refresh."""
import hashlib
import random

from scenes.batches import batch
from scenes.running import EMPTY, Failed, expect, named, shortened, tree_text
from scenes.stores import DONE, in_a_place
from scenes.views import ANY, EXTENSIONS, host, image, released, resource

SEED, HOSTS = 43, 800
NAMES = ["a", "b", "c"]


def the_layers_of_a_path_are_told(place):
    host(place, entries={"usr/bin/t": b"abc", "usr/share/doc": b""})
    image(place, "one", ANY, {"usr/bin/t": b""})
    image(place, "two", ANY, {"usr/bin/t": b"0123456789", "usr/share": b"0"})
    digest = hashlib.sha256
    base = b"base f 644 3 %b\n" % digest(b"abc").hexdigest().encode()
    one, two = b"image one f 644 0 %b\n" % EMPTY.encode(), b"image two f 644 10 %b\n" % digest(b"0123456789").hexdigest().encode()
    place.expect(("sysext explain /usr/bin/t", two + one + base), ("sysext explain /usr/share/doc", b"image two covers /usr/share\nbase f 644 0 %b\n" % EMPTY.encode()))
    place.expect(("sysext explain /usr/bin", b"image two d 755\nimage one d 755\nbase d 755\n"), ("sysext explain /usr", b"image two d 755\nimage one d 755\nbase d 755\n"))
    place.expect(("sysext explain /etc/motd", b"base f 644 0 %b\n" % EMPTY.encode()), ("sysext explain /usr/none", b"refused 8 no-entry /usr/none\n"), ("confext explain /usr/bin/t", base))
    changes = [b"* /usr/bin/t", b"+ /usr/lib/extension-release.d", b"+ /usr/lib/extension-release.d/extension-release.one", b"+ /usr/lib/extension-release.d/extension-release.two", b"* /usr/share", b"- /usr/share/doc"]
    told = b"".join(line + b"\n" for line in changes)
    before = place.stands()
    place.expect(("sysext changes", told), ("confext changes", b""))
    place.holds(before)
    place.expect(("sysext merge", b"merged 2\none\ntwo\n"), ("sysext changes", told), ("sysext explain /usr/bin/t", two + one + base))


def an_image_that_does_not_fit_is_told_by_force_alone(place):
    host(place)
    image(place, "other", b"ID=fedora\n", {"usr/x": b""})
    place.expect(("sysext changes", b""), ("sysext explain /usr/x", b"refused 8 no-entry /usr/x\n"))
    told = b"+ /usr/lib/extension-release.d\n+ /usr/lib/extension-release.d/extension-release.other\n+ /usr/x\n"
    place.expect(("sysext changes --force", told), ("sysext explain --force /usr/x", b"image other f 644 0 %b\n" % EMPTY.encode()))


def faults_of_the_host_are_told_first(place):
    place.expect(("sysext changes", b"refused 1 no-store\n"), ("sysext explain /usr/x", b"refused 1 no-store\n"))
    host(place, b'ID="deb\n')
    place.expect(("sysext changes", b"refused 6 bad-host-release 1\n"), ("sysext explain /usr", b"refused 6 bad-host-release 1\n"))


def part(rng, depth=0):
    """Random entries of a tree, by their paths: directories, opaque ones, files, links and whiteouts."""
    found = {}
    for name in NAMES:
        kind = rng.choice("ddofflw " if depth < 2 else "offlw   ")
        if kind in "do":
            found[name] = f"{kind} {rng.choice(('755', '700'))} {{path}}"
            found.update({f"{name}/{below}": entry for below, entry in part(rng, depth + 1).items()})
        elif kind == "f":
            found[name] = rng.choice((b"", b"0", b"1"))
        elif kind == "l":
            found[name] = "l 1 a {path}"
        elif kind == "w":
            found[name] = "w {path}"
    return found


def plain(entries):
    """Entries as a host may have them."""
    return {path: entry.replace("o ", "d ", 1) if str(entry).startswith("o ") else entry for path, entry in entries.items() if not str(entry).startswith("w ")}


def below(folder, entries):
    return {f"{folder}/{path}": entry for path, entry in entries.items()}


def rows(text):
    """The entries of a tree text by their paths, without the directories' kinds."""
    found = {}
    for row in text.splitlines()[1:-1]:
        fields = row.split(b" ")
        size = int(fields[1]) if fields[0] == b"l" else 0
        cut = row.split(b" ", 2 if fields[0] in b"do" else 4)[-1] if fields[0] != b"l" else row[len(b"l %d " % size) + size + 1 :]
        found[cut] = row[: len(row) - len(cut) - 1]
    return found


def differences(old, new):
    order = sorted({*old, *new}, key=lambda path: path.split(b"/"))
    signs = [(b"+" if path not in old else b"-" if path not in new else b"*", path) for path in order if old.get(path) != new.get(path)]
    return b"".join(b"%b /%b\n" % each for each in signs)


def made(place, rng):
    """The commands that make a random host with up to three images, and the paths of which it is asked."""
    base = below("usr", plain(part(rng)))
    resource(place, "host", {"usr": "d 755 {path}", "usr/lib/os-release": b"ID=debian\nVERSION_ID=12\n", **base})
    lines, asked = ["init x86-64 system", "import-fs host /"], {*base}
    for at in range(rng.randrange(4)):
        entries = below("usr", part(rng))
        asked |= {*entries}
        resource(place, f"image-{at}", released(f"x-{at}", ANY if rng.random() < 0.8 else b"ID=fedora\n", entries))
        lines.append(f"import-fs image-{at} /{EXTENSIONS}/x-{at}")
    paths = sorted({*asked, "usr", "usr/a/b/c", "usr/b/a", "opt", "etc"})
    return lines, rng.sample(paths, min(len(paths), 12))


def replies(place, lines):
    """What a batch replies to each line, told apart by a line after each."""
    found, told, status = batch(place, *(line for each in lines for line in (each, "compare 1 1")))
    parts = found.split(b"equal\n")
    if status or told or len(parts) != len(lines) + 1 or parts[-1]:
        raise Failed(f"a batch of {len(lines)} lines writes {shortened(found)}, {told} and {status}")
    return parts[:-1]


def wanted_first(row):
    """Which first lines tell that a merged host shows this row at a path, without the layer."""
    return {b"o" + row[1:], row} if row[:1] == b"d" else {row}


def judge(path, told, row):
    first = told.splitlines()[0]
    if first.startswith(b"refused 8"):
        shown = None
    else:
        words = first.split(b" ", 2)
        kind = words[2] if words[0] == b"image" else first.split(b" ", 1)[1]
        shown = None if kind == b"w" or kind.startswith(b"covers ") else kind
    right = shown is None if row is None else shown in wanted_first(row) or (row[:1] == b"l" and shown == b"l a")
    if not right:
        raise Failed(f"of /{path} `explain` writes {shortened(told)}, and a refresh shows {row}")


def look(place, rng):
    lines, paths = made(place, rng)
    force, merged = rng.choice(("", " --force")), rng.choice(([], ["sysext merge"]))
    asks = [f"sysext explain{force} /{path}" for path in paths]
    told = replies(place, [*lines, *merged, *asks, f"sysext changes{force}", "sysext unmerge", "tree", f"sysext refresh{force}", "tree"])
    explained, (changes, _, old, _, new) = told[-len(asks) - 5 : -5], told[-5:]
    if changes != differences(rows(old), rows(new)):
        raise Failed(f"`changes{force}` writes {shortened(changes)}, and a refresh changes {shortened(differences(rows(old), rows(new)))}")
    for path, answer in zip(paths, explained):
        judge(path, answer, rows(new).get(path.encode()))


def random_hosts_are_told_as_a_refresh_shows_them(program):
    """Eight hundred of them, each drawn by its own number."""
    for at in range(HOSTS):
        in_a_place(lambda place, at=at: look(place, random.Random(SEED * HOSTS + at)))(program)


CALLS = [the_layers_of_a_path_are_told, an_image_that_does_not_fit_is_told_by_force_alone, faults_of_the_host_are_told_first]
NAMED = named(*map(in_a_place, CALLS), random_hosts_are_told_as_a_refresh_shows_them)


def scenes(program):
    yield from NAMED(program)
