"""Portable services over real folders: what a session leaves in the store, units of Debian packages and what systemd says of them with
their drop-ins, a thousand attachments, and kills."""
import os
import random
import re
import shutil
import subprocess
from pathlib import Path

from scenes.batches import batch
from scenes.devices import become_nobody
from scenes.installing import list_all
from scenes.marks import kills_leave_before_or_after
from scenes.running import SECONDS, Failed, Skipped, expect, named, shortened, tree_text
from scenes.stores import DONE, digest, in_a_place
from scenes.tools import beside, tool
from scenes.uses import tree_of

UNITS, ADDED = "usr/lib/systemd/system", "systemd/system.attached"
PROFILES = "usr/lib/systemd/portable/profile"
PROFILE = b"[Service]\nPrivateTmp=yes\n"
RELEASE = b"ID=debian\n"
SEED, KILLS, MANY, SERVICES = 47, 50, 300, 150
# Units of packages that most Debian systems have, by what their names begin with.
PACKAGED = "apt-daily", "dpkg-db-backup", "e2scrub", "fstrim", "man-db"
SUFFIXES = ".service", ".socket", ".target", ".timer", ".path"


def image(*units):
    """The files of an image with these units, each with bytes of its own."""
    return {"usr/lib/os-release": RELEASE, **{f"{UNITS}/{unit}": f"# {unit}\n".encode() for unit in units}}


def put(place, name, files, where):
    place.resource(name, tree_of(files), files)
    place.expect((f"import-fs {name} {where}", DONE))


def begin(place):
    """A host with the profile that is taken where none is named."""
    place.expect(("init x86-64 system", DONE))
    put(place, "host", {"etc/os-release": RELEASE, f"{PROFILES}/default/service.conf": PROFILE}, "/")


def attached(*units):
    return "".join(f"{line}\n" for line in (f"attached {len(units)}", *units)).encode()


def told(*rows):
    """What `portable list` writes of images in /var/lib/portables, by their names and states."""
    return "".join(f"{name} image /var/lib/portables/{name} {state}\n" for name, state in rows).encode()


def drop_in(name, place, *extensions):
    return "".join(f"{line}\n" for line in (f"# hostext portable {name}", "[Service]", f"RootDirectory={place}", *(f"ExtensionDirectories={path}" for path in extensions))).encode()


def file_line(content, path):
    return f"f 644 {len(content)} {digest(content)} {path}"


def a_service_is_attached_told_and_taken_away(place):
    begin(place)
    put(place, "app", image("app.service", "app-x.timer", "apple.service", "app.mount"), "/var/lib/portables/app_1")
    own = drop_in("app_1", "/var/lib/portables/app_1")
    place.expect(("portable list", told(("app_1", "detached"))), ("portable attach app_1", attached("app-x.timer", "app.service")), ("portable list", told(("app_1", "attached"))))
    place.expect(("portable is-attached app_1", b"attached\n"), (f"cat /etc/{ADDED}/app.service.d/20-portable.conf", own))
    linked = f"/{PROFILES}/default/service.conf"
    rows = file_line(b"# app-x.timer\n", "app-x.timer"), file_line(b"# app.service\n", "app.service"), "d 755 app.service.d", f"l {len(linked)} {linked} app.service.d/10-profile.conf"
    place.expect((f"tree /etc/{ADDED}", tree_text(*rows, file_line(own, "app.service.d/20-portable.conf"))))
    before = place.stands()
    place.expect(("portable attach app_1", b"refused 18 already-attached\n"), ("portable attach app_2", b"refused 11 no-image\n"), ("portable reattach app_1 --profile=none", b"refused 16 no-profile\n"))
    place.holds(before)
    place.expect(("portable reattach app_1 --runtime", attached("app-x.timer", "app.service")), ("portable is-attached app_1", b"attached-runtime\n"), (f"tree /etc/{ADDED}", tree_text()))
    place.expect(("portable detach app_1", b"detached\n"), ("portable detach app_1", b"refused 19 not-attached\n"), (f"tree /run/{ADDED}", tree_text()), ("portable list", told(("app_1", "detached"))))


def a_new_version_takes_the_place_of_the_old_one(place):
    """Also one that stands elsewhere; and a mark keeps the old one."""
    begin(place)
    put(place, "one", image("app.service", "app-old.timer"), "/var/lib/portables/app_1")
    put(place, "two", image("app.service", "app-new.timer"), "/srv/app_2")
    place.expect(("portable attach app_1", attached("app-old.timer", "app.service")), ("mark", b"marked 5\n"))
    place.expect(("portable reattach /srv/app_2", attached("app-new.timer", "app.service")), ("portable is-attached app_1", b"detached\n"), ("portable is-attached app_2", b"attached\n"))
    place.expect((f"cat /etc/{ADDED}/app.service.d/20-portable.conf", drop_in("app_2", "/srv/app_2")), ("tree /etc/portables", tree_text("l 10 /srv/app_2 app_2")))
    place.expect(("remove /srv/app_2", DONE), ("portable list", told(("app_1", "detached"))), ("portable is-attached app_2", b"attached\n"))
    place.expect(("rollback 5", DONE), ("portable is-attached app_1", b"attached\n"), ("portable is-attached app_2", b"detached\n"), (f"cat /etc/{ADDED}/app-old.timer", b"# app-old.timer\n"))
    place.expect((f"cat /etc/{ADDED}/app-new.timer", f"refused 8 no-entry /etc/{ADDED}/app-new.timer\n".encode()), ("portable detach app_1", b"detached\n"), (f"tree /etc/{ADDED}", tree_text()))


def an_image_that_an_update_brought_is_attached(place):
    begin(place)
    transfer = "[Source]", "Type=directory", "Path=/images", "MatchPattern=app_@v", "[Target]", "Type=directory", "Path=/var/lib/portables", "InstancesMax=2"
    put(place, "transfers", {"app.transfer": "".join(f"{line}\n" for line in transfer).encode()}, "/etc/sysupdate.d")
    for version in 1, 2, 3:
        files = image("app.service", f"app-{version}.timer")
        place.resource(f"images/app_{version}", tree_of(files), files)
        list_all(place)
        verb = "reattach" if version > 1 else "attach"
        place.expect(("sysupdate update", f"updated {version}\n".encode()), (f"portable {verb} app_{version}", attached(f"app-{version}.timer", "app.service")), (f"portable is-attached app_{version}", b"attached\n"))
    place.expect(("portable list", told(("app_2", "detached"), ("app_3", "attached"))), (f"cat /etc/{ADDED}/app-3.timer", b"# app-3.timer\n"))


def a_merged_view_is_left_as_it_is(place):
    """A merged /etc can't be written; what is merged into /usr doesn't matter, and shows its units to no attachment of images."""
    begin(place)
    put(place, "app", image("app.service"), "/var/lib/portables/app_1")
    put(place, "config", {"etc/extension-release.d/extension-release.c": b"ID=_any\n", "etc/c": b"c"}, "/var/lib/confexts/c")
    place.expect(("confext merge", b"merged 1\nc\n"), ("portable attach app_1", f"refused 4 read-only /etc/{ADDED}/app.service\n".encode()))
    place.expect(("portable attach app_1 --runtime", attached("app.service")), ("confext unmerge", b"unmerged\n"), ("portable reattach app_1", attached("app.service")), ("confext merge", b"merged 1\nc\n"))
    place.expect((f"cat /etc/{ADDED}/app.service", b"# app.service\n"), ("portable detach app_1", f"refused 4 read-only /etc/{ADDED}/app.service\n".encode()), ("portable is-attached app_1", b"attached\n"))


# Units of packages.


def packaged():
    """The units of Debian packages on this machine: each name with its file."""
    folder = Path("/", UNITS)
    found = {}
    for path in sorted(folder.iterdir()) if folder.is_dir() else ():
        if path.is_file() and not path.is_symlink() and path.suffix in SUFFIXES and any(re.match(f"{prefix}[-.@]", path.name) for prefix in PACKAGED):
            found[path.name] = path.read_bytes()
    if not any(name.endswith(".service") for name in found):
        raise Skipped("there is no unit of a Debian package")
    return found


def attach_packaged(place):
    """Attaches such units from an image that tools/pack packed, and writes out what stands then in /etc: the units and that folder."""
    units, root = packaged(), beside(place, "root")
    for path, content in {"etc/os-release": RELEASE, **{f"{UNITS}/{name}": content for name, content in units.items()}}.items():
        root.joinpath(path).parent.mkdir(parents=True, exist_ok=True)
        root.joinpath(path).write_bytes(content)
    expect(tool(place, "pack", root, place.depot, "debian"), (b"", b"", 0))
    begin(place)
    place.expect(("import-fs debian /var/lib/portables/debian_12", DONE))
    prefixes = [prefix for prefix in PACKAGED if any(re.match(f"{prefix}[-.@]", name) for name in units)]
    place.expect((f"portable inspect debian_12 {' '.join(prefixes)}", b"image /var/lib/portables/debian_12\nid debian\nversion -\n" + "".join(f"unit {name}\n" for name in sorted(units)).encode()))
    place.expect((f"portable attach debian_12 {' '.join(prefixes)} --copy=copy", attached(*sorted(units))))
    expect(tool(place, "unpack", place.store, "/etc", beside(place, "etc")), (b"", b"", 0))
    return units, beside(place, "etc") / ADDED


def units_of_packages_are_attached_as_they_stand(place):
    units, folder = attach_packaged(place)
    services = {name for name in units if name.endswith(".service")}
    wanted = {**units, **{f"{name}.d/10-profile.conf": PROFILE for name in services}, **{f"{name}.d/20-portable.conf": drop_in("debian_12", "/var/lib/portables/debian_12") for name in services}}
    found = {str(path.relative_to(folder)): path.read_bytes() for path in folder.rglob("*") if path.is_file()}
    if found != wanted:
        raise Failed(f"{shortened(sorted(found))} stands there, or other bytes")
    place.expect(("portable detach debian_12", b"detached\n"), (f"tree /etc/{ADDED}", tree_text()))


def verified(folder, names):
    """What systemd-analyze says of units in a folder, without the paths in it. Which manual pages there are doesn't count."""
    ended = subprocess.run(["systemd-analyze", "verify", "--man=no", *(folder / name for name in names)], stdout=subprocess.PIPE, stderr=subprocess.STDOUT, timeout=SECONDS)
    return ended.stdout.decode().replace(f"{folder}/", "")


def systemd_reads_the_drop_ins_of_units_of_packages(place):
    """It has no more to say of the units with their drop-ins than without; and it does look at these."""
    if not shutil.which("systemd-analyze"):
        raise Skipped("there is no systemd-analyze")
    units, folder = attach_packaged(place)
    alone = beside(place, "alone")
    alone.mkdir()
    for name, content in units.items():
        (alone / name).write_bytes(content)
    # An instance of a template needs a name of its own.
    names = [name for name in units if "@." not in name]
    if (found := verified(folder, names)) != (said := verified(alone, names)):
        raise Failed(f"it says {shortened(found)}, and of the units alone {shortened(said)}")
    service = next(name for name in names if name.endswith(".service"))
    for spoiled in "RootDirectory", "RootDirectories":
        (folder / f"{service}.d/20-portable.conf").write_text(f"[Service]\n{spoiled}=var\n")
        if spoiled not in (found := verified(folder, names)):
            raise Failed(f"of a drop-in with {spoiled}=var it says {shortened(found)}")


def as_systemd_reads(folder, unit):
    """What a manager of the system that only loads its units, as a user who may do nothing, knows of one in a folder, by the names of
    its settings."""
    manager = next((path for path in ("/usr/lib/systemd/systemd", "/lib/systemd/systemd") if os.access(path, os.X_OK)), None)
    if not manager:
        raise Skipped("there is no systemd")
    around = {**os.environ, "SYSTEMD_UNIT_PATH": f"{folder}:", "HOME": str(folder), "XDG_RUNTIME_DIR": str(folder)}
    words = manager, "--test", "--system", f"--unit={unit}", "--log-target=console"
    ended = subprocess.run(words, env=around, capture_output=True, timeout=SECONDS, preexec_fn=None if os.getuid() else become_nobody)
    found = re.search(rf"^\s*-> Unit {re.escape(unit)}:$(.*?)^\s*-> Unit ", ended.stdout.decode(errors="replace"), re.M | re.S)
    if not found:
        raise Skipped("no manager loads units here")
    return dict(re.findall(r"^\s*(\w+): (.*)$", found[1], re.M))


def systemd_finds_the_root_and_the_extensions_that_are_named(place):
    """Also where names have a `%`, which begins a specifier, and a root spaces and quotes."""
    begin(place)
    root, extensions = "/srv/5%n of \"it/app_1%i", ("/srv/e%n", "/srv/f")
    place.resource("app", tree_of(files := image("app.service")), files)
    expect(place.run("import-fs", "app", root), (DONE, b"", 0))
    for extension in extensions:
        name = extension.split("/")[-1]
        put(place, name.replace("%", ""), {f"usr/lib/extension-release.d/extension-release.{name}": b"ID=_any\n"}, extension)
    expect(place.run("portable", "attach", root, "app", *(f"--extension={extension}" for extension in extensions)), (attached("app.service"), b"", 0))
    folder = beside(place, "units")
    (folder / "app.service.d").mkdir(parents=True)
    for name in "app.service", "app.service.d/20-portable.conf":
        (folder / name).write_bytes(b"[Service]\nExecStart=/bin/true\n" * (name == "app.service") + place.run("cat", f"/etc/{ADDED}/{name}")[0])
    for path in folder.parent, folder, folder / "app.service.d":
        path.chmod(0o755)
    known = as_systemd_reads(folder, "app.service")
    found = known.get("RootDirectory"), known.get("ExtensionDirectories")
    if found != (root, " ".join(extensions)):
        raise Failed(f"it knows {found}, and not {root} and {extensions}")


# Many of them, and stops.


def in_batches(place, *rows):
    """Carries out commands with their replies, a hundred in a batch."""
    for at in range(0, len(rows), 100):
        lines, replies = zip(*rows[at : at + 100])
        expect(batch(place, *lines), (b"".join(replies), b"", 0))


def hundreds_of_services_are_attached_and_told(place):
    begin(place)
    stems = [f"s{at:04}" for at in range(MANY)]
    files = {f"{stem}_1/{path}": content for stem in stems for path, content in image(f"{stem}.service").items()}
    put(place, "services", files, "/var/lib/portables")
    in_batches(place, *((f"portable attach {stem}_1", attached(f"{stem}.service")) for stem in stems))
    place.expect(("portable list", told(*((f"{stem}_1", "attached") for stem in stems))), (f"portable is-attached {stems[-1]}_1", b"attached\n"))
    if place.run("check")[2]:
        raise Failed("`check` finds something")
    in_batches(place, *((f"portable detach {stem}_1", b"detached\n") for stem in stems[::2]))
    place.expect(("portable list", told(*((f"{stem}_1", "attached" if at % 2 else "detached") for at, stem in enumerate(stems)))))


def seen(place):
    return tuple(place.run(*words.split())[0] for words in ("portable list", "portable is-attached app_1", "portable is-attached app_2", "tree"))


def a_kill_leaves_a_service_attached_or_detached(place):
    """Of `attach`, and of `reattach`, where it is the old version or the new one; and each time what comes next goes through."""
    begin(place)
    units = [f"app-{at:03}.service" for at in range(SERVICES)]
    put(place, "one", image(*units), "/var/lib/portables/app_1")
    put(place, "two", image(*units, "app.timer"), "/var/lib/portables/app_2")
    chance = random.Random(SEED)
    kills_leave_before_or_after(place, "portable attach app_1", KILLS, chance, seen)
    place.expect(("portable attach app_1", attached(*units)), ("portable is-attached app_2", b"detached\n"))
    kills_leave_before_or_after(place, "portable reattach app_2", KILLS, chance, seen)
    place.expect(("portable reattach app_2", attached(*units, "app.timer")), ("portable is-attached app_1", b"detached\n"), ("portable detach app_2", b"detached\n"))


CALLS = [
    *(a_service_is_attached_told_and_taken_away, a_new_version_takes_the_place_of_the_old_one, an_image_that_an_update_brought_is_attached),
    *(a_merged_view_is_left_as_it_is, units_of_packages_are_attached_as_they_stand, systemd_reads_the_drop_ins_of_units_of_packages),
    systemd_finds_the_root_and_the_extensions_that_are_named,
    *(hundreds_of_services_are_attached_and_told, a_kill_leaves_a_service_attached_or_detached),
]
scenes = named(*map(in_a_place, CALLS))
