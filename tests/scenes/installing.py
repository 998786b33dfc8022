"""Updates and making room over real folders: images that an update installs and a refresh shows, a link that goes to what came, an
update that is killed at any moment, and depots that are cut off in the middle."""
import random
import shutil
import signal
import subprocess
import time

from scenes.running import SECONDS, Failed, expect, named, shortened, tree_text
from scenes.stores import DONE, digest, in_a_place
from scenes.uses import tree_of

RELEASE, EXTENSION = b"ID=debian\n", "usr/lib/extension-release.d/extension-release."
UNCHANGED = b"unchanged\n"
KILLS, FILES = 80, 200
# The bytes of a line of a manifest before its name.
DIGEST = 66


def transfer(kind, pattern, target, *more):
    """A transfer file over the folder images of the depot, with more lines for its target."""
    lines = "[Source]", f"Type={kind}", "Path=/images", f"MatchPattern={pattern}", "[Target]", f"Type={kind}", f"Path={target}", *more
    return "".join(f"{line}\n" for line in lines).encode()


TOOL = transfer("directory", "tool-@v", "/var/lib/extensions")
DISK = transfer("regular-file", "disk_@v.raw", "/srv/disks", "CurrentSymlink=latest", "Mode=0600")


def image(version, more=()):
    """The files of an image tool-VERSION."""
    return {f"{EXTENSION}tool-{version}": RELEASE, "usr/tool": f"tool {version}\n".encode(), **dict(more)}


def offer(place, *versions):
    """Puts versions into the folder images of the depot, in place of all that stood there: of each an image and a file."""
    shutil.rmtree(place.depot / "images", ignore_errors=True)
    for version in versions:
        place.resource(f"images/tool-{version}", tree_of(image(version)), image(version))
        (place.depot / f"images/disk_{version}.raw").write_text(f"disk {version}\n")
    list_all(place)


def list_all(place):
    """Writes the manifest of what stands in the folder images, as sha256sum(1) does."""
    images = place.depot / "images"
    listed = (path for path in sorted(images.iterdir()) if path.is_file() and path.name != "SHA256SUMS")
    (images / "SHA256SUMS").write_text("".join(f"{digest(path.read_bytes())}  {path.name}\n" for path in listed))


def begin(place, **transfers):
    """A host with transfer files of these names."""
    files = {"etc/os-release": RELEASE, **{f"etc/sysupdate.d/{name}.transfer": text for name, text in transfers.items()}}
    place.resource("host", tree_of(files), files)
    place.expect(("init x86-64 system", DONE), ("import-fs host /", DONE))


def checked(files, *contents):
    """What `check` writes of so many files, which have these bytes."""
    if files != len(contents):
        raise Failed(f"there are {len(contents)} files, and not {files}")
    return f"ok {files} {sum(map(len, contents))}\n".encode()


def lists(place, *lines):
    place.expect(("sysupdate list", "".join(f"{line}\n" for line in lines).encode()))


def an_image_is_installed_and_a_refresh_shows_it(place):
    """What is merged stays until then, and is kept though the image that it came from goes. What stands in the depot is copied."""
    begin(place, tool=TOOL)
    offer(place, 1, 2)
    lists(place, "2 available", "1 available")
    place.expect(("sysupdate update 1", b"updated 1\n"), ("sysext list", b"tool-1 image /var/lib/extensions/tool-1 fits\n"))
    place.expect(("sysext merge", b"merged 1\ntool-1\n"), ("cat /usr/tool", b"tool 1\n"), ("sysupdate check-new", b"2\n"))
    place.expect(("sysupdate update", b"updated 2\n"), ("cat /usr/tool", b"tool 1\n"), ("sysupdate update", UNCHANGED))
    place.expect(("sysext refresh", b"merged 2\ntool-1\ntool-2\n"), ("cat /usr/tool", b"tool 2\n"))
    offer(place, 2, 3)
    place.expect(("sysupdate update", b"updated 3\n"), ("sysupdate vacuum", b"removed 0\n"), ("sysext status", b"merged 2\ntool-1\ntool-2\n"))
    shutil.rmtree(place.depot / "images")
    place.expect(("sysext refresh", b"merged 2\ntool-2\ntool-3\n"), ("cat /usr/tool", b"tool 3\n"), ("check", checked(9, RELEASE, TOOL, *image(2).values(), *image(3).values(), RELEASE, RELEASE, b"tool 3\n")))
    place.expect(("sysupdate update", b"refused 24 not-in-depot images/SHA256SUMS\n"))


def what_is_asked_for_is_installed_though_it_is_older(place):
    """And what is neither offered nor there is refused. An update of one batch is found by its next lines."""
    begin(place, tool=TOOL, disk=DISK)
    offer(place, 5, 3)
    place.expect(("sysupdate update", b"updated 5\n"), ("sysupdate update 3", b"updated 3\n"), ("sysupdate update 3", UNCHANGED))
    place.expect(("sysupdate update 4", b"refused 27 no-such-version 4\n"), ("sysupdate update 5", UNCHANGED))
    lists(place, "5 available installed", "3 available installed")
    place.expect(("cat /srv/disks/disk_3.raw", b"disk 3\n"), ("check", checked(9, RELEASE, TOOL, DISK, *image(3).values(), *image(5).values(), b"disk 3\n", b"disk 5\n")))


def a_link_leads_to_what_came(place):
    begin(place, disk=DISK)
    offer(place, 1, 2)

    def stands(*lines):
        place.expect(("tree /srv", tree_text("d 755 disks", *lines)))

    def file(version):
        return f"f 600 7 {digest(b'disk %d' % version + bytes([10]))} disks/disk_{version}.raw"

    place.expect(("sysupdate update 1", b"updated 1\n"))
    stands(file(1), "l 10 disk_1.raw disks/latest")
    place.expect(("sysupdate update", b"updated 2\n"))
    stands(file(1), file(2), "l 10 disk_2.raw disks/latest")


def making_room_removes_the_oldest_that_nothing_protects(place):
    """Where it has nothing to remove it makes no generation. What one target keeps doesn't matter to another."""
    text = "[Transfer]\nProtectVersion=1\n".encode() + transfer("regular-file", "disk_@v.raw", "/srv", "InstancesMax=3")
    begin(place, disk=text, tool=TOOL)
    disks = {f"disk_{version}.raw": b"disk %d\n" % version for version in (1, 2, 3, 4, 10)}
    place.resource("disks", tree_of(disks), disks)
    for version in 1, 10:
        place.resource(f"tool-{version}", tree_of(image(version)), image(version))
        place.expect((f"import-fs tool-{version} /var/lib/extensions/tool-{version}", DONE))
    place.expect(("import-fs disks /srv", DONE))
    offer(place, 10)
    place.expect(("sysupdate vacuum", b"removed 2\n/srv/disk_2.raw\n/srv/disk_3.raw\n"))
    lists(place, "10 available installed", "4 partial", "1 installed protected")
    before = place.stands()
    place.expect(("sysupdate vacuum", b"removed 0\n"), ("sysupdate update", UNCHANGED))
    place.holds(before)


def a_component_is_updated_by_itself(place):
    files = {"etc/os-release": RELEASE, "etc/sysupdate.d/tool.transfer": TOOL, "etc/sysupdate.disk.d/disk.transfer": DISK}
    place.resource("host", tree_of(files), files)
    place.expect(("init x86-64 system", DONE), ("import-fs host /", DONE))
    offer(place, 7)
    place.expect(("sysupdate --component=disk update", b"updated 7\n"), ("sysext list", b""), ("cat /srv/disks/latest", b"refused 10 not-file /srv/disks/latest\n"))
    place.expect(("sysupdate check-new", b"7\n"), ("sysupdate --component=disk vacuum", b"removed 0\n"), ("sysupdate --component=none update", b"refused 20 no-transfers\n"))


def what_is_in_the_way_is_told_and_stays(place):
    """A directory where a file is to be written, a file on the way, and what is merged."""
    begin(place, disk=transfer("regular-file", "disk_@v.raw", "/usr/disks"))
    offer(place, 1)
    for path, refused in ("disks/disk_1.raw/in", "refused 29 clash /usr/disks/disk_1.raw"), ("disks", "refused 9 not-directory /usr/disks"):
        shutil.rmtree(place.depot / "way", ignore_errors=True)
        place.resource("way", tree_of({path: b"way"}), {path: b"way"})
        place.expect(("import-fs way /usr", DONE))
        before = place.stands()
        place.expect(("sysupdate update", f"{refused}\n".encode()))
        place.holds(before)
    place.resource("image", tree_of(image(1)), image(1))
    place.expect(("remove /usr", DONE), ("import-fs image /var/lib/extensions/tool-1", DONE), ("sysext merge", b"merged 1\ntool-1\n"))
    place.expect(("sysupdate update", b"refused 4 read-only /usr/disks/disk_1.raw\n"), ("sysext unmerge", b"unmerged\n"), ("sysupdate update", b"updated 1\n"))


# Stops.


def many(place, version):
    """An image of so many files, and a file beside it."""
    files = image(version, ((f"usr/share/f{at:03}", f"{version} of {at}".encode()) for at in range(FILES - 3)))
    place.resource(f"images/tool-{version}", tree_of(files), files)
    (place.depot / f"images/disk_{version}.raw").write_text(f"disk {version}\n")
    list_all(place)


def kept_of(place):
    """A copy of the store folder."""
    kept = place.store.with_name("kept")
    shutil.copytree(place.store, kept)
    return kept


def bring_back(place, kept):
    shutil.rmtree(place.store)
    shutil.copytree(kept, place.store)


def a_kill_at_any_moment_of_an_update_leaves_the_tree_before_or_after(place):
    """Two targets get a version, both give up their oldest, and a link changes: never one without the others. A next update does
    the rest. It tests the order of what is named and moved, not the syncs: what the system was told is there after a kill."""
    begin(place, tool=TOOL, disk=DISK)
    for version in 1, 2:
        many(place, version)
        place.expect(("sysupdate update", f"updated {version}\n".encode()))
    many(place, 3)
    kept, before = kept_of(place), place.run("tree")[0]
    words = [place.program, place.store, place.depot, "sysupdate", "update"]
    began = time.monotonic()
    subprocess.run(words, check=True, capture_output=True, timeout=SECONDS)
    whole, after = time.monotonic() - began, place.run("tree")[0]
    chance, seen = random.Random(7), set()
    for _ in range(KILLS):
        bring_back(place, kept)
        child = subprocess.Popen(words, stdout=subprocess.DEVNULL, stderr=subprocess.DEVNULL)
        time.sleep(chance.random() * whole)
        child.send_signal(signal.SIGKILL)
        child.wait()
        found = place.run("tree")[0]
        if found not in (before, after):
            raise Failed(f"the tree after a kill is {shortened(found)}")
        seen.add(found)
        ended = place.run("check")
        if ended[2]:
            raise Failed(f"`check` after a kill ends with {shortened(ended)}")
        place.expect(("sysupdate update", UNCHANGED if found == after else b"updated 3\n"), ("tree", after))
    if before not in seen:
        raise Failed("no kill came before the end of an update")


# Depots that are cut off.


def kept_as_it_was(place, before, tree, command, refused):
    """That a command is refused, and nothing is other than before: what stood stands, and what is left over the next change removes."""
    place.expect((command, f"{refused}\n".encode()), ("tree", tree), ("sysext status", b"merged 1\ntool-1\n"))
    found = place.stands()
    if {path: found.get(path) for path in before} != before:
        raise Failed(f"`{command}` is refused, and changes the store")


def at_version_1(place):
    """A host at version 1, which is merged, with 2 in the depot: what stands in the store, and the tree."""
    begin(place, tool=TOOL, disk=DISK)
    offer(place, 1)
    place.expect(("sysupdate update", b"updated 1\n"), ("sysext merge", b"merged 1\ntool-1\n"))
    offer(place, 1, 2)
    return place.stands(), place.run("tree")[0]


def told_of(text, cut):
    """What `sysupdate update 2` is to write of a manifest of two lines that is cut there. A line is faulty where it is cut within its
    digest or before its name; where it is cut in its name it lists another one, and it is whole once all of the name is there, also
    without the newline."""
    lines, end = text[:cut].split(b"\n"), len("disk_2.raw")
    last = len(lines[-1])
    if 0 < last <= DIGEST:
        return f"refused 22 bad-manifest {len(lines)} images/SHA256SUMS\n"
    return "updated 2\n" if len(lines) > 1 or last == DIGEST + end else "refused 27 no-such-version 2\n"


def a_manifest_that_is_cut_at_any_byte_offers_whole_names_alone(place):
    begin(place, disk=DISK)
    offer(place, 1, 2)
    text = f"{digest(b'disk 2' + bytes([10]))}  disk_2.raw\n{digest(b'x')}  other\n".encode()
    kept, before, tree, told = kept_of(place), place.stands(), place.run("tree")[0], set()
    for cut in range(len(text)):
        (place.depot / "images/SHA256SUMS").write_bytes(text[:cut])
        wanted = told_of(text, cut)
        place.expect(("sysupdate update 2", wanted.encode()))
        if wanted.startswith("refused"):
            place.holds(before)
        else:
            place.expect(("cat /srv/disks/disk_2.raw", b"disk 2\n"))
            bring_back(place, kept)
        told.add(wanted[:12])
    place.expect(("tree", tree))
    if len(told) != 3:
        raise Failed(f"it writes no more than {told}")


def mend(path, content):
    path.parent.mkdir(parents=True, exist_ok=True)
    path.write_bytes(content)


def a_file_of_the_depot_that_is_gone_or_cut_is_told_and_the_next_try_goes_through(place):
    """Each file that an update reads, in turn: gone, cut to its half, longer, and with other bytes of the same number."""
    before, tree = at_version_1(place)
    kept, images = kept_of(place), place.depot / "images"
    for name in "SHA256SUMS", "tool-2.tree", "disk_2.raw", "tool-2/usr/tool", f"tool-2/{EXTENSION}tool-2":
        content = (images / name).read_bytes()
        listed = f"{len(content)} {digest(content)}"
        (images / name).unlink()
        kept_as_it_was(place, before, tree, "sysupdate update", f"refused 24 not-in-depot images/{name}")
        changed = {len(content) // 2: content[: len(content) // 2], len(content) + 1: content + b"x", len(content): b"x" + content[1:]}
        for size, other in changed.items() if name != "SHA256SUMS" else ():
            mend(images / name, other)
            kept_as_it_was(place, before, tree, "sysupdate update 2", f"refused 25 mismatch images/{name} {listed_of(name, listed, other)} {size} {digest(other)}")
        mend(images / name, content)
        place.expect(("sysupdate update", b"updated 2\n"), ("sysext refresh", b"merged 2\ntool-1\ntool-2\n"), ("cat /usr/tool", b"tool 2\n"))
        bring_back(place, kept)


def listed_of(name, listed, other):
    """What a refusal has of a file that is listed so: a manifest has no sizes, so of what it lists the size that was read stands there."""
    return listed if "/" in name else f"{len(other)} {listed.split()[1]}"


CALLS = [
    *(an_image_is_installed_and_a_refresh_shows_it, what_is_asked_for_is_installed_though_it_is_older, a_link_leads_to_what_came),
    *(making_room_removes_the_oldest_that_nothing_protects, a_component_is_updated_by_itself, what_is_in_the_way_is_told_and_stays),
    *(a_kill_at_any_moment_of_an_update_leaves_the_tree_before_or_after, a_manifest_that_is_cut_at_any_byte_offers_whole_names_alone),
    a_file_of_the_depot_that_is_gone_or_cut_is_told_and_the_next_try_goes_through,
]
scenes = named(*map(in_a_place, CALLS))
