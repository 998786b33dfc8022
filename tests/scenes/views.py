"""Views in real stores: which images are found, what is said of each, and what merging, refreshing and unmerging write."""
import hashlib

from scenes.running import ABC, EMPTY, named, tree_text
from scenes.stores import DONE, in_a_place, lines

OS_RELEASE = lines(
    *('PRETTY_NAME="Debian GNU/Linux 12 (bookworm)"', 'NAME="Debian GNU/Linux"', 'VERSION_ID="12"', 'VERSION="12 (bookworm)"'),
    *("VERSION_CODENAME=bookworm", "ID=debian", 'HOME_URL="https://www.debian.org/"'),
)
DEBIAN = b"ID=debian\nVERSION_ID=12\n"
ANY = b"ID=_any\n"
EXTENSIONS = "var/lib/extensions"


def resource(place, name, entries):
    """A resource of these entries: files by their bytes, links by their targets, and all directories."""
    paths = {"/".join(path.split("/")[:depth]) for path in entries for depth in range(1, path.count("/") + 1)}
    files = {path: content for path, content in entries.items() if isinstance(content, bytes)}

    def line(path):
        content = entries.get(path)
        if content is None:
            return f"d 755 {path}"
        if isinstance(content, bytes):
            return f"f 644 {len(content)} {hashlib.sha256(content).hexdigest()} {path}"
        return content.format(path=path)

    every = sorted(paths | set(entries), key=lambda path: path.encode().split(b"/"))
    place.resource(name, tree_text(*map(line, every), version=2 if any(str(each)[:2] in ("w ", "o ") for each in entries.values()) else 1), files)


def put(place, name, entries, where="/"):
    """Such a resource, imported at a path."""
    resource(place, name, entries)
    place.expect((f"import-fs {name} {where}", DONE))


def released(name, release, entries, kind="extension"):
    """An image with its release file."""
    folder = "usr/lib/extension-release.d" if kind == "extension" else "etc/extension-release.d"
    return {f"{folder}/extension-release.{name}": release, **entries}


def image(place, name, release, entries, below=EXTENSIONS, stem=None, kind="extension"):
    put(place, f"images/{name}", released(stem or name, release, entries, kind), f"/{below}/{name}")


def host(place, release=OS_RELEASE, entries=()):
    place.expect(("init x86-64 system", DONE))
    put(place, "host", {"etc/os-release": "l 21 ../usr/lib/os-release {path}", "etc/motd": b"", "usr/lib/os-release": release, **dict(entries)})


def masks_and_images_in_files_are_told_and_not_merged(place):
    host(place)
    image(place, "foo", ANY, {"usr/x": b""})
    put(place, "mask", {"foo": "l 9 /dev/null {path}"}, "/etc/extensions")
    put(place, "raw", {"disk.raw": b"abc"}, "/srv/raw")
    put(place, "more", {"disk.raw": b"abc"}, "/run/extensions")
    place.expect(("sysext list", b"disk raw /run/extensions/disk.raw\nfoo masked /etc/extensions/foo\n"))
    before = place.stands()
    place.expect(("sysext merge", b"merged 0\n"), ("sysext status", b"unmerged\n"), ("sysext unmerge", b"unmerged\n"))
    place.holds(before)


def the_newest_version_for_the_host_is_picked(place):
    host(place)
    for name in ("foo_9", "foo_10", "foo_11_arm64"):
        image(place, name, ANY, {}, f"{EXTENSIONS}/foo.v", "foo")
    place.expect(("sysext list", b"foo image /var/lib/extensions/foo.v/foo_10 fits\n"))


def faulty_release_files_are_told(place):
    host(place, b'ID="deb\n')
    image(place, "ok", ANY, {"usr/x": b""})
    place.expect(("sysext list", b"refused 6 bad-host-release 1\n"), ("sysext merge", b"refused 6 bad-host-release 1\n"), ("sysext status", b"unmerged\n"))
    place.expect(("remove /usr/lib/os-release", DONE), ("sysext merge", b"refused 5 no-host-release\n"), ("sysext refresh", b"refused 5 no-host-release\n"))


def what_is_merged_goes_with_the_next_refresh(place):
    host(place)
    image(place, "bad", b'ID="x\n', {})
    image(place, "ok", ANY, {"usr/x": b""})
    place.expect(("sysext list", b"bad broken /var/lib/extensions/bad bad-release 1\nok image /var/lib/extensions/ok fits\n"))
    place.expect(("sysext merge", b"merged 1\nok\n"), ("sysext merge", b"refused 3 merged\n"), ("remove /usr/x", b"refused 4 read-only /usr/x\n"))
    place.expect(("remove /var/lib/extensions/ok", DONE), ("sysext refresh", b"merged 0\n"), ("sysext status", b"unmerged\n"), ("cat /usr/x", b"refused 8 no-entry /usr/x\n"))


def views_of_both_classes_come_and_go(place):
    host(place)
    image(place, "tools-9", DEBIAN, {"usr/bin/t": b"abc"})
    image(place, "tools-10", ANY, {"usr/bin/t": b""})
    image(place, "site", DEBIAN, {"etc/motd": b"abc"}, "var/lib/confexts", kind="configuration")
    place.expect(("sysext list", b"tools-9 image /var/lib/extensions/tools-9 fits\ntools-10 image /var/lib/extensions/tools-10 fits\n"))
    place.expect(("sysext merge", b"merged 2\ntools-9\ntools-10\n"), ("cat /usr/bin/t", b""), ("remove /var/lib/extensions/tools-10", DONE), ("cat /usr/bin/t", b""))
    place.expect(("sysext refresh", b"merged 1\ntools-9\n"), ("cat /usr/bin/t", b"abc"), ("confext merge", b"merged 1\nsite\n"), ("cat /etc/motd", b"abc"))
    place.expect(("sysext unmerge", b"unmerged\n"), ("confext status", b"merged 1\nsite\n"), ("confext list", b"site image /var/lib/confexts/site fits\n"))
    place.expect(("confext refresh", b"merged 1\nsite\n"), ("confext unmerge", b"unmerged\n"), ("cat /etc/motd", b""))


def an_image_that_does_not_fit_is_merged_by_force_alone(place):
    host(place)
    image(place, "other", b"ID=fedora\n", {"usr/x": b"abc"})
    put(place, "bare", {"usr/y": b""}, f"/{EXTENSIONS}/bare")
    place.expect(("sysext list", b"bare broken /var/lib/extensions/bare no-release\nother image /var/lib/extensions/other id\n"))
    place.expect(("sysext merge", b"merged 0\n"), ("sysext merge --force", b"merged 1\nother\n"), ("cat /usr/x", b"abc"), ("sysext refresh", b"merged 0\n"))
    place.expect(("sysext refresh --force", b"merged 1\nother\n"), ("sysext unmerge", b"unmerged\n"))


def an_opaque_usr_hides_that_of_the_host(place):
    host(place, entries={"usr/bin/t": b"abc"})
    place.resource("dark", tree_text("o 700 usr", "d 755 usr/lib", "d 755 usr/lib/extension-release.d", f"f 644 {len(ANY)} {hashlib.sha256(ANY).hexdigest()} usr/lib/extension-release.d/extension-release.dark", version=2), {"usr/lib/extension-release.d/extension-release.dark": ANY})
    place.expect(("import-fs dark /var/lib/extensions/dark", DONE), ("sysext merge", b"merged 1\ndark\n"))
    place.expect(("cat /usr/bin/t", b"refused 8 no-entry /usr/bin/t\n"), ("tree /usr/lib/extension-release.d", tree_text(f"f 644 {len(ANY)} {hashlib.sha256(ANY).hexdigest()} extension-release.dark")))
    place.expect(("sysext unmerge", b"unmerged\n"), ("cat /usr/bin/t", b"abc"))


def hierarchies_are_those_that_init_was_given(place):
    place.expect(("init x86-64 system /srv /etc", DONE))
    put(place, "host", {"usr/lib/os-release": OS_RELEASE, "usr/x": b"abc"})
    put(place, "one", released("one", ANY, {"srv/a": b"abc", "usr/x": b""}), f"/{EXTENSIONS}/one")
    place.expect(("sysext merge", b"merged 1\none\n"), ("cat /srv/a", b"abc"), ("cat /usr/x", b"abc"), ("remove /usr/x", DONE), ("remove /srv", b"refused 4 read-only /srv\n"))
    place.expect(("sysext unmerge", b"unmerged\n"), ("tree /srv", b"refused 8 no-entry /srv\n"))


def a_link_in_place_of_a_hierarchy_gives_way_to_a_directory(place):
    host(place, entries={"opt": "l 7 var/opt {path}", "var/opt/a": b"abc"})
    image(place, "one", ANY, {"opt/b": b""})
    place.expect(("sysext merge", b"merged 1\none\n"), ("tree /opt", tree_text(f"f 644 0 {EMPTY} b")), ("sysext unmerge", b"unmerged\n"))
    place.expect(("tree /opt", b"refused 9 not-directory /opt\n"), ("cat /var/opt/a", b"abc"))


def a_link_to_itself_in_place_of_etc_has_no_release_file(place):
    place.expect(("init x86-64 system", DONE))
    put(place, "host", {"etc": "l 3 etc {path}"})
    place.expect(("sysext merge", b"refused 5 no-host-release\n"), ("sysext list", b"refused 5 no-host-release\n"))


CALLS = [
    *(masks_and_images_in_files_are_told_and_not_merged, the_newest_version_for_the_host_is_picked, faulty_release_files_are_told),
    *(what_is_merged_goes_with_the_next_refresh, views_of_both_classes_come_and_go, an_image_that_does_not_fit_is_merged_by_force_alone),
    *(an_opaque_usr_hides_that_of_the_host, hierarchies_are_those_that_init_was_given),
    *(a_link_in_place_of_a_hierarchy_gives_way_to_a_directory, a_link_to_itself_in_place_of_etc_has_no_release_file),
]
scenes = named(*map(in_a_place, CALLS))
