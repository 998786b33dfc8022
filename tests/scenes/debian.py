"""tools/deb: that it packs what tools/install installs, byte for byte the same each time, and that Debian's tools take the package, put
it into a system and take it out again."""
import gzip
import hashlib
import os
import shutil
import signal
import stat
import subprocess
import sys
import time
from pathlib import Path

from scenes.keeping import need_root
from scenes.running import SECONDS, TOP, Failed, Skipped, expect, named, shortened
from scenes.stores import in_a_place
from scenes.tools import beside, holds_nothing, left, script, tool

sys.path.insert(0, str(TOP / "tools"))

import ending

NAME = "hostext_0.3.0_amd64.deb"
PYTHON = b"#!/usr/bin/env python3\n", b"#!/usr/bin/python3\n"
# What the package has that isn't installed, and the other way round.
OWN = "usr/share/doc/hostext/copyright", "usr/share/doc/hostext/changelog"
FOREIGN = "usr/share/hostext/installed", "usr/share/doc/hostext/LICENSE-APACHE", "usr/share/doc/hostext/LICENSE-MIT"
# Installs the package in the root of a system, on which a layer is laid that goes with the name space; and takes it out again.
IN_A_ROOT = """set -e
mount -t tmpfs none "$2"
mkdir "$2/upper" "$2/work" "$2/root"
mount -t overlay overlay -o "lowerdir=$1,upperdir=$2/upper,workdir=$2/work" "$2/root"
cp "$3" "$2/root/tmp/hostext.deb"
within() { chroot "$root" env -i PATH=/usr/sbin:/usr/bin:/sbin:/bin HOME=/root LC_ALL=C "$@"; }
root=$2/root
within dpkg --install --force-depends /tmp/hostext.deb >&2
within hostext --version
within hostext . . compare 1 2
if within dpkg --status python3 >/dev/null 2>&1; then
    for tool in activate fetch pack tend tree-text unpack update; do within "hostext-$tool" --help >/dev/null; done
fi
within dpkg --purge hostext >&2
rm "$root/tmp/hostext.deb"
find "$root" -xdev -name '*hostext*'
"""


def need(*names):
    for name in names:
        if not shutil.which(name):
            raise Skipped(f"there is no {name}")


def packed(place, folder, **options):
    """The package that tools/deb makes in a new folder beside the store."""
    need("dpkg-deb", "dpkg")
    out = beside(place, folder)
    out.mkdir()
    expect(tool(place, "deb", out, **options), (f"{out / NAME}\n".encode(), b"", 0))
    if left(out) != [NAME]:
        raise Failed(f"it makes {left(out)}")
    return out / NAME


def umask_of_an_owner():
    os.umask(0o077)


def the_same_sources_make_the_same_package(place):
    one = packed(place, "one").read_bytes()
    around = {**os.environ, "HOSTEXT": str(place.program), "TZ": "Asia/Tokyo", "LC_ALL": "C"}
    other = packed(place, "other", env=around, before=umask_of_an_owner)
    if other.read_bytes() != one:
        raise Failed("with another umask and another time zone the package is another")
    third = packed(place, "third", env={**around, "SOURCE_DATE_EPOCH": "1000000000"})
    if third.read_bytes() == one:
        raise Failed("SOURCE_DATE_EPOCH changes nothing")
    listed = subprocess.run(["dpkg-deb", "--contents", third], env={**os.environ, "TZ": "UTC"}, capture_output=True, text=True, check=True).stdout.splitlines()
    if others := [line for line in listed if " root/root " not in line or " 2001-09-09 01:46 " not in line]:
        raise Failed(f"of other owners or times are {shortened(others)}")


def content_of(place):
    """The bytes of a file, which may stand there compressed."""
    return place.read_bytes() if place.exists() else gzip.decompress(Path(f"{place}.gz").read_bytes())


def the_package_has_what_is_installed(place):
    package, root, installed = packed(place, "out"), beside(place, "root"), beside(place, "installed")
    subprocess.run(["dpkg-deb", "--raw-extract", package, root], check=True)
    expect(tool(place, "install", f"DESTDIR={installed}", "/usr"), (b"", b"", 0))
    files = [str(path.relative_to(installed)) for path in installed.rglob("*") if path.is_symlink() or path.is_file()]
    for path in set(files) - set(FOREIGN):
        one, other = installed / path, root / path
        if one.is_symlink():
            if os.readlink(one) != os.readlink(other):
                raise Failed(f"{path} leads to {os.readlink(other)}")
        elif one.read_bytes().replace(*PYTHON, 1) != content_of(other):
            raise Failed(f"{path} has other bytes")
        elif other.exists() and stat.S_IMODE(one.stat().st_mode) != stat.S_IMODE(other.stat().st_mode):
            raise Failed(f"{path} has other modes")
    found = [str(path.relative_to(root)).removesuffix(".gz") for path in root.rglob("*") if path.is_symlink() or path.is_file()]
    found = {path for path in found if not path.startswith("DEBIAN/")}
    if found != set(files) - set(FOREIGN) | set(OWN):
        raise Failed(f"these are in one of both: {sorted(found ^ (set(files) - set(FOREIGN) | set(OWN)))}")
    sums = {path: hashlib.md5((root / path).read_bytes()).hexdigest() for path in (str(one.relative_to(root)) for one in root.rglob("*") if one.is_file() and not one.is_symlink()) if not path.startswith("DEBIAN/")}
    if (root / "DEBIAN/md5sums").read_text() != "".join(f"{sums[path]}  {path}\n" for path in sorted(sums)):
        raise Failed("md5sums has other sums")
    said = (root / "usr/share/doc/hostext/copyright").read_text()
    for line in (TOP / "LICENSE-MIT").read_text().splitlines():
        if line not in said:
            raise Failed(f"`copyright` hasn't {line!r}")


def lintian_tells_no_error(place):
    """But for the symbols of programs that were built here, which those that are carried don't have."""
    need("lintian")
    words = "--allow-root", "--fail-on", "error,warning", "--suppress-tags", "unstripped-binary-or-object"
    ended = subprocess.run(["lintian", *words, packed(place, "out")], stdin=subprocess.DEVNULL, capture_output=True, text=True, timeout=SECONDS)
    if ended.returncode:
        raise Failed(f"lintian ends with {ended.returncode}: {shortened(ended.stdout)} {shortened(ended.stderr)}")


def dpkg_installs_it_and_takes_it_away(place):
    """In a root that has nothing but what dpkg keeps of packages."""
    need_root()
    package, root = packed(place, "out"), beside(place, "root")
    (root / "var/lib/dpkg").mkdir(parents=True)
    for name in "status", "available":
        (root / "var/lib/dpkg" / name).touch()
    for words in ("--force-depends", "--install", package), ("--remove", "hostext"):
        ended = subprocess.run(["dpkg", f"--root={root}", "--force-script-chrootless", *words], stdin=subprocess.DEVNULL, capture_output=True, text=True, timeout=SECONDS)
        if ended.returncode:
            raise Failed(f"dpkg {words[0]} ends with {ended.returncode}: {ended.stderr}")
        if words[0] != "--remove":
            expect(tool(place, root / "usr/bin/hostext", ".", ".", "compare", "1", "2"), (b"less\n", b"", 0))
    if found := [str(path) for path in root.rglob("*hostext*")]:
        raise Failed(f"left are {found}")


def a_debian_system_takes_it_and_is_left_as_it_was(place):
    need_root()
    need("unshare", "dpkg-deb")
    root = os.environ.get("HOSTEXT_ROOT")
    if not root or not Path(root, "var/lib/dpkg/status").is_file():
        raise Skipped("HOSTEXT_ROOT names no folder with the root of a Debian system")
    package, room = packed(place, "out"), beside(place, "room")
    room.mkdir()
    words = ["unshare", "--mount", "sh", "-c", IN_A_ROOT, "sh", root, room, package]
    ended = subprocess.run(words, stdin=subprocess.DEVNULL, capture_output=True, text=True, timeout=SECONDS)
    lines = ended.stdout.splitlines()
    if ended.returncode or lines[0] != "hostext 0.3.0" or lines[-1] != "less":
        raise Failed(f"it ends with {ended.returncode}: {shortened(ended.stdout)} {shortened(ended.stderr)}")


def what_can_not_be_packed_is_told(place):
    need("dpkg-deb", "dpkg")
    out = beside(place, "out")
    out.mkdir()
    (out / NAME).write_bytes(b"before")
    around = {**os.environ, "HOSTEXT": str(place.program)}
    for words, more, why in [
        (["--maintainer", "nobody", out], {}, b"deb: nobody: a maintainer is told as NAME <ADDRESS>\n"),
        ([out / "none"], {}, b"deb: %s: there is no such folder\n" % os.fsencode(out / "none")),
        ([out], {"SOURCE_DATE_EPOCH": "now"}, b"deb: SOURCE_DATE_EPOCH is now, and no count of seconds\n"),
        ([out], {"HOSTEXT": "/nowhere"}, b"deb: install: /nowhere: No such file or directory\n"),
    ]:
        expect(tool(place, "deb", *words, env={**around, **more}), (b"", why, 1))
    bin = beside(place, "bin")
    bin.mkdir()
    script(bin / "dpkg-deb", "echo no room >&2; exit 2")
    expect(tool(place, "deb", out, env={**around, "PATH": f"{bin}:{around['PATH']}"}), (b"", b"deb: no room\n", 1))
    if left(out) != [NAME] or (out / NAME).read_bytes() != b"before":
        raise Failed(f"the folder has {left(out)}")


def a_signal_leaves_nothing(place):
    need("dpkg-deb", "dpkg")
    out, bin, room = (beside(place, name) for name in ("out", "bin", "room"))
    for folder in out, bin, room:
        folder.mkdir()
    script(bin / "dpkg-deb", f"touch {bin}/begun; exec sleep 100")
    around = {**os.environ, "HOSTEXT": str(place.program), "PATH": f"{bin}:{os.environ['PATH']}", "TMPDIR": str(room)}
    for number in signal.SIGINT, signal.SIGTERM, signal.SIGHUP:
        (bin / "begun").unlink(missing_ok=True)
        child = subprocess.Popen([TOP / "tools/deb", out], env=around, stdin=subprocess.DEVNULL, stdout=subprocess.PIPE, stderr=subprocess.PIPE, preexec_fn=ending.heed)
        began = time.monotonic()
        while not (bin / "begun").exists() and time.monotonic() < began + SECONDS:
            time.sleep(0.05)
        child.send_signal(number)
        expect((*child.communicate(timeout=SECONDS), child.returncode), (b"", b"", 128 + number))
        holds_nothing(out)
        holds_nothing(room)


scenes = named(
    *map(in_a_place, (the_same_sources_make_the_same_package, the_package_has_what_is_installed, lintian_tells_no_error, dpkg_installs_it_and_takes_it_away)),
    *map(in_a_place, (a_debian_system_takes_it_and_is_left_as_it_was, what_can_not_be_packed_is_told, a_signal_leaves_nothing)),
)
