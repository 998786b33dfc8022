"""Extension images that are made out of Debian packages: what they have, what is left out and told, and packages that are refused."""
import bz2
import gzip
import io
import lzma
import os
import shutil
import signal
import subprocess
import tarfile
import time

from scenes import tars
from scenes.keeping import modes_below
from scenes.running import ABC, SECONDS, Failed, Skipped, expect, named, owned, shortened, tree_text
from scenes.stores import DONE, digest, in_a_place
from scenes.tools import TOOLS, beside, holds_nothing, left, tool

NAME = "image-from-packages"
PACKERS = {"": bytes, ".gz": gzip.compress, ".xz": lzma.compress, ".bz2": bz2.compress}
UNIT = b"[Service]\nExecStart=/usr/bin/x\n[Install]\nWantedBy=multi-user.target\n"


def entry(name, content=None, mode=None, kind=None, target="", owner=0):
    """A member of a tar: a directory where nothing else is said."""
    info = tarfile.TarInfo(name)
    info.type = kind or (tarfile.DIRTYPE if content is None else tarfile.REGTYPE)
    info.mode, info.size, info.linkname, info.uid = mode or (0o755 if content is None else 0o644), len(content or b""), target, owner
    return info, content


def link(name, target, kind=tarfile.SYMTYPE):
    return entry(name, kind=kind, target=target)


def tar_of(entries):
    out = io.BytesIO()
    with tarfile.open(fileobj=out, mode="w", format=tarfile.GNU_FORMAT) as tar:
        for info, content in entries:
            tar.addfile(info, io.BytesIO(content) if content is not None else None)
    return out.getvalue()


def package(place, name, entries, control=(), ending=".xz", architecture="all", data=None):
    """Makes a package beside the store, and gives its path."""
    fields = f"Package: {name}\nVersion: 1\nArchitecture: {architecture}\nDescription: x\n y\n".encode()
    controls = [entry("./"), entry("./control", fields), *(entry(f"./{file}", text) for file, text in control)]
    packed = PACKERS[ending](tar_of(entries) if data is None else data)
    path = beside(place, f"{name}.deb")
    path.write_bytes(tars.package((b"debian-binary", b"2.0\n"), (b"control.tar%b" % ending.encode(), PACKERS[ending](tar_of(controls))), (b"data.tar%b" % ending.encode(), packed)))
    return path


def usual(place, name="x", **options):
    """A package with a program, its library beside usr, a file in etc, a unit and a hard link."""
    entries = [entry("./"), entry("./etc/"), entry("./etc/x.conf", b"x"), entry("./lib/"), entry("./lib/libx.so.1", b"abc"), link("./lib/libx.so", "libx.so.1")]
    entries += [entry("./usr/"), entry("./usr/bin/"), entry("./usr/bin/x", b"abc", 0o4755, owner=5), link("./usr/bin/y", "./usr/bin/x", tarfile.LNKTYPE)]
    entries += [entry("./lib/systemd/system/x.service", UNIT), entry("./opt/"), entry("./opt/ü", b"abc")]
    control = ("postinst", b"#!/bin/sh\nadduser --system x\nupdate-alternatives --install\n"), ("triggers", b"# none\nactivate-noawait ldconfig\n")
    return package(place, name, entries, control, **options)


def release(arch=""):
    return f"ID=_any\n{arch}".encode()


def rest(name, content):
    path = "usr/lib/extension-release.d"
    return f"d 755 {path}", f"f 644 {len(content)} {digest(content)} {path}/extension-release.{name}"


def usual_text(name, content, x="4755:5:0"):
    of_unit = f"f 644 {len(UNIT)} {digest(UNIT)} usr/lib/systemd/system/x.service"
    lines = *("d 755 opt", f"f 644 3 {ABC} opt/ü", "d 755 usr", "d 755 usr/bin", f"f {x} 3 {ABC} usr/bin/x", f"f {x} 3 {ABC} usr/bin/y", "d 755 usr/lib"), *rest(name, content)
    return (owned if ":" in x else tree_text)(*lines, "l 9 libx.so.1 usr/lib/libx.so", f"f 644 3 {ABC} usr/lib/libx.so.1", "d 755 usr/lib/systemd", "d 755 usr/lib/systemd/system", of_unit)


LEFT_OUT = (
    "left out of x: etc: 1 (etc/x.conf)",
    "nothing runs the scripts of x: postinst, which deal with users and groups, alternatives",
    "nothing runs the triggers of x: ldconfig",
    "nothing enables the units of x: x.service",
)


def lines_told(*lines):
    return "".join(f"{NAME}: {line}\n" for line in lines).encode()


def an_image_has_what_its_hierarchies_show_and_the_rest_is_told(place):
    for at, ending in enumerate(PACKERS):
        name = f"i{at}"
        file = usual(place, ending=ending, architecture="amd64")
        expect(tool(place, NAME, place.depot, f"images/{name}", file), (b"", lines_told(*LEFT_OUT), 0))
        if (text := (place.depot / f"images/{name}.tree").read_bytes()) != usual_text(name, release("ARCHITECTURE=x86-64\n")):
            raise Failed(f"the image is {shortened(text)}")
        if modes_below(place.depot / f"images/{name}") != ({"0o600"}, {"0o700"}) or left(place.depot / "images") != sorted(f"i{one}{end}" for one in range(at + 1) for end in ("", ".tree")):
            raise Failed(f"in the depot stand {left(place.depot / 'images')}")
    expect(tool(place, NAME, "--quiet", "--root-owned", place.depot, "images/x", file), (b"", b"", 0))
    if (text := (place.depot / "images/x.tree").read_bytes()) != usual_text("x", release("ARCHITECTURE=x86-64\n"), "4755"):
        raise Failed(f"of root's own the image is {shortened(text)}")
    host = b"ID=debian\n"
    place.resource("host", tree_text("d 755 usr", "d 755 usr/lib", f"f 644 {len(host)} {digest(host)} usr/lib/os-release"), {"usr/lib/os-release": host})
    place.expect(("init x86-64 system", DONE), ("import-fs host /", DONE), ("import-fs images/x /var/lib/extensions/x", DONE), ("sysext merge", b"merged 1\nx\n"), ("cat /usr/bin/y", b"abc"))


def a_package_by_zstd_is_read_where_zstd_is_there(place):
    if not shutil.which("zstd"):
        raise Skipped("there is no zstd")
    pack = lambda content: subprocess.run(["zstd", "-cq"], input=content, stdout=subprocess.PIPE, check=True, timeout=SECONDS).stdout
    PACKERS[".zst"] = pack
    try:
        file = usual(place, ending=".zst")
    finally:
        del PACKERS[".zst"]
    expect(tool(place, NAME, "--quiet", place.depot, "z", file), (b"", b"", 0))
    if (place.depot / "z.tree").read_bytes() != usual_text("z", release()):
        raise Failed("the image is another one")
    whole = file.read_bytes()
    file.write_bytes(whole[:-300] + b"x" * 300)
    expect(tool(place, NAME, place.depot, "y", file)[::2], (b"", 1))
    if left(place.depot) != ["z", "z.tree"]:
        raise Failed(f"in the depot stand {left(place.depot)}")


def a_configuration_extension_has_etc_for_the_release_that_is_named(place):
    file, os_release = usual(place), beside(place, "os-release")
    os_release.write_text('NAME="x y"\nID="debian"\nVERSION_ID=\'12\'\nVERSION_ID_x=3\n')
    told = lines_told("left out of x: lib: 3 (lib/libx.so.1, lib/libx.so, lib/systemd/system/x.service)", "left out of x: opt: 1 (opt/ü)", "left out of x: usr: 2 (usr/bin/x, usr/bin/y)", *LEFT_OUT[1:3])
    expect(tool(place, NAME, "--confext", f"--release={os_release}", place.depot, "c", file), (b"", told, 0))
    content = b"ID=debian\nVERSION_ID=12\n"
    lines = "d 755 etc", "d 755 etc/extension-release.d", f"f 644 {len(content)} {digest(content)} etc/extension-release.d/extension-release.c", f"f 644 1 {digest(b'x')} etc/x.conf"
    if (text := (place.depot / "c.tree").read_bytes()) != tree_text(*lines):
        raise Failed(f"the image is {shortened(text)}")
    os_release.write_text("NAME=x\n")
    expect(tool(place, NAME, f"--release={os_release}", place.depot, "d", file), (b"", lines_told(f"{os_release}: it has no ID that can be read"), 1))


def what_two_packages_have_alike_stands_once_and_else_is_refused(place):
    top = entry("./usr/"), entry("./usr/a", mode=0o700)
    one = package(place, "one", [*top, entry("./usr/a/b", b"abc"), link("./usr/c", "a")])
    same = package(place, "same", [entry("./usr/"), entry("./usr/a", owner=5), entry("./usr/a/b", b"abc"), link("./usr/c", "a"), entry("./usr/d", b"abc")])
    expect(tool(place, NAME, place.depot, "r", one, same), (b"", b"", 0))
    wanted = "d 755 usr", "d 700 usr/a", f"f 644 3 {ABC} usr/a/b", "l 1 a usr/c", f"f 644 3 {ABC} usr/d", "d 755 usr/lib", *rest("r", release())
    if (text := (place.depot / "r.tree").read_bytes()) != tree_text(*wanted):
        raise Failed(f"the image is {shortened(text)}")
    rows = ("./usr/a/b", b"abd"), ("./usr/a/b", b"abc", 0o755), ("./usr/c", b"abc"), ("./usr/a", b"abc"), ("./usr/c/d", b"abc"), ("./usr/a/b", b"abc", 0o644, None, "", 7)
    for at, (path, *words) in enumerate(rows):
        other = package(place, "other", [entry("./usr/"), entry(path, *words)])
        reason = "usr/c is no directory, of one" if path.endswith("c/d") else "one has something else there"
        expect(tool(place, NAME, place.depot, f"s{at}", one, other), (b"", lines_told(f"{other}: {path}: {reason}"), 1))
    machine = [package(place, name, [*top], architecture=name) for name in ("amd64", "arm64")]
    expect(tool(place, NAME, place.depot, "t", *machine), (b"", lines_told("packages of several architectures: amd64 is of amd64, arm64 is of arm64"), 1))
    if left(place.depot) != ["r", "r.tree"]:
        raise Failed(f"in the depot stand {left(place.depot)}")


def a_package_that_leads_elsewhere_is_refused_by_name(place):
    outside = beside(place, "outside")
    outside.mkdir()
    way = f"{'../' * 12}{str(outside).lstrip('/')}"
    rows = [
        ([entry("/usr/x", b"x")], "/usr/x: an absolute name"),
        ([entry(f"./usr/{way}/x", b"x")], f"./usr/{way}/x: a name that leads out"),
        ([entry("../x", b"x")], "../x: a name that leads out"),
        ([entry("./etc/../x", b"x")], "./etc/../x: a name that leads out"),
        ([link("./usr/a", str(outside)), entry("./usr/a/x", b"x")], "./usr/a/x: usr/a is no directory, of x"),
        ([link("./usr", str(outside)), entry("./usr/x", b"x")], "./usr: no directory, where a hierarchy has to be one"),
        ([entry("./usr/a/x", b"x"), link("./usr/a", str(outside)), entry("./usr/a/y", b"y")], "./usr/a: x has something else there"),
        ([link("./usr/x", "/etc/passwd", tarfile.LNKTYPE)], "./usr/x: an absolute name"),
        ([link("./usr/x", "./etc/passwd", tarfile.LNKTYPE)], "./usr/x: a hard link to ./etc/passwd, which is no file of the image"),
        ([entry("./usr/x", kind=tarfile.FIFOTYPE)], "./usr/x: neither a directory nor a file nor a link"),
        ([entry("./usr/x", kind=tarfile.CHRTYPE)], "./usr/x: neither a directory nor a file nor a link"),
        ([entry("./usr/x", b"x", owner=2**33)], "./usr/x: an owner 8589934592:0, where a user and a group are numbers up to 4,294,967,294"),
        ([entry("./usr/a\nb", b"x")], "./usr/a\\nb: a control byte in its name"),
        ([entry(f"./usr/{'n' * 256}", b"x")], f"./usr/{'n' * 256}: a name that no path has"),
        ([link("./usr/a", "b\tc")], "./usr/a: a control byte in its target"),
        ([entry("./usr/lib/extension-release.d/extension-release.r", b"ID=_any\n")], None),
        ([entry("./var/x", b"x")], None),
    ]
    told = "usr/lib/extension-release.d/extension-release.r: x has it, and the image needs its own", "no package has anything in usr or opt"
    for entries, reason in rows:
        file = package(place, "x", entries)
        found = tool(place, NAME, "--quiet", place.depot, "r", file)
        if reason is not None and not found[1].startswith(lines_told(f"{file}: {reason}")) or reason is None and found[1] not in [lines_told(line) for line in told]:
            raise Failed(f"where {reason} is wanted it tells {shortened(found[1])}")
        expect((found[0], b"", found[2]), (b"", b"", 1))
        holds_nothing(place.depot)
        holds_nothing(outside)


def a_package_that_is_none_is_refused_by_name(place):
    good = usual(place)
    whole = good.read_bytes()
    data = whole.index(b"data.tar") + 60
    expect(tool(place, NAME, "--quiet", place.depot, "good", good), (b"", b"", 0))
    text = (place.depot / "good.tree").read_bytes().replace(b"release.good", b"release.r")
    bad = beside(place, "bad.deb")
    half = tar_of([entry("./usr/a", b"x" * 3_000), entry("./usr/b", b"y")])
    rows = [b"", b"x", b"!<arch>\n", whole[:100], whole[:data], whole[: data + 99], whole[:-9], tars.package((b"debian-binary", b"2.0\n"))]
    rows += [whole[:at] + bytes(byte ^ 255 for byte in whole[at : at + 4]) + whole[at + 4 :] for at in (data - 10, data + 2, data + 99, len(whole) - 20)]
    cut = package(place, "cut", [], data=half[:4_000]), package(place, "torn", [], data=half[:3_584] + b"\x07" * 512 + bytes(10_240)), package(place, "more", [], data=half + b"z" * 3_000_000), package(place, "short", [], data=half[:1_000])
    rows += [tars.package((b"data.tar", half)), tars.package((b"debian-binary", b"3.0\n"), (b"data.tar", half)), whole + tars.package((b"data.tar", half))[8:]]
    huge = tarfile.TarInfo("././@LongLink")
    huge.type, huge.size = tarfile.GNUTYPE_LONGNAME, 100_000_000
    rows += [file.read_bytes() for file in cut] + [package(place, "huge", [], data=huge.tobuf() + bytes(100_000_256)).read_bytes()]
    for content in rows:
        bad.write_bytes(content)
        written, told, status = tool(place, NAME, "--quiet", place.depot, "r", bad)
        if (written, status) != (b"", 1) or not told.startswith(f"{NAME}: {bad}: ".encode()) or told.count(b"\n") != 1:
            raise Failed(f"of row {rows.index(content)}, {len(content)} bytes, it tells {status} {shortened(told)}")
        if left(place.depot) != ["good", "good.tree"]:
            raise Failed(f"in the depot stand {left(place.depot)}")
    if text != usual_text("r", release()):
        raise Failed(f"the image is {shortened(text)}")


def what_stands_there_stays_and_a_signal_leaves_nothing(place):
    file = usual(place)
    expect(tool(place, NAME, "--quiet", "--public", place.depot, "r", file, before=lambda: os.umask(0o022)), (b"", b"", 0))
    if modes_below(place.depot / "r") != ({"0o644"}, {"0o755"}):
        raise Failed(f"the modes are {modes_below(place.depot / 'r')}")
    expect(tool(place, NAME, place.depot, "r", file), (b"", lines_told("r: it is there already"), 1))
    expect(tool(place, NAME, place.depot, "../r", file), (b"", lines_told("../r: a name that no path has"), 1))
    large = package(place, "large", [entry("./usr/"), *(entry(f"./usr/{at}", os.urandom(20_000)) for at in range(1_000))], ending="")
    for number, status in (signal.SIGTERM, 143), (signal.SIGINT, 130):
        child = subprocess.Popen([TOOLS / NAME, place.depot, "s", large], stdout=subprocess.PIPE, stderr=subprocess.PIPE)
        until = time.monotonic() + SECONDS
        while not any((path / "files").exists() for path in place.depot.glob(".image-*")):
            if child.poll() is not None or time.monotonic() > until:
                child.kill()
                raise Failed(f"nothing is written: {child.communicate()}")
        child.send_signal(number)
        expect((*child.communicate(timeout=SECONDS), child.returncode), (b"", b"", status))
        if sorted(path.name for path in place.depot.iterdir()) != ["r", "r.tree"]:
            raise Failed(f"in the depot stand {left(place.depot)}")


CALLS = [
    *(an_image_has_what_its_hierarchies_show_and_the_rest_is_told, a_package_by_zstd_is_read_where_zstd_is_there),
    *(a_configuration_extension_has_etc_for_the_release_that_is_named, what_two_packages_have_alike_stands_once_and_else_is_refused),
    *(a_package_that_leads_elsewhere_is_refused_by_name, a_package_that_is_none_is_refused_by_name, what_stands_there_stays_and_a_signal_leaves_nothing),
]
scenes = named(*map(in_a_place, CALLS))
