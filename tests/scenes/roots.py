"""The root of a whole system goes into a store and comes out again, with its owners and capabilities, and works as before.

HOSTEXT_ROOT names a folder that has one, as `debootstrap --variant=minbase --include=LIST bookworm DIR` makes it, where LIST, as
`sudo,iputils-ping,cron,man-db,postgresql`, is what more it has. Root alone can give its owners. Nothing of it is changed.
"""
import filecmp
import os
import re
import shutil
import stat
import subprocess
import time
from pathlib import Path

from scenes.chroots import need_mounts
from scenes.keeping import need_root
from scenes.owned import NET_RAW, capability_of, stands
from scenes.running import Failed, Skipped, expect, named, shortened
from scenes.stores import DONE, in_a_place
from scenes.tools import beside, tool

SECONDS = 600
# What rsync tells of an entry of which the time alone is another.
OTHER_TIME = re.compile(r"\.[fdL]\.\.t\.{6} ")
# Where what a root has is tried: the programs of these paths.
TRIED = "usr/bin/ping", "usr/bin/sudo", "usr/bin/crontab", "usr/bin/chage", "usr/bin/man", "usr/bin/pg_ctlcluster"
# Users of a root do there what its owners, its capabilities, setuid and setgid let them. All that is mounted and started goes at the end.
USERS = """set -e
root=$1
mount --bind "$root" "$root"
mount -o remount,bind,suid,dev,exec "$root"
mount -t proc proc "$root/proc"
mount --rbind /dev "$root/dev"
within() { chroot "$root" env -i PATH=/usr/sbin:/usr/bin:/sbin:/bin HOME=/root LC_ALL=C "$@" </dev/null; }
as() { user=$1; shift; within su --shell /bin/sh "$user" --command "$*"; }
within useradd --create-home walker
as walker 'ping -c 1 -W 9 127.0.0.1' >&2 && echo ping
echo 'walker ALL=(ALL) NOPASSWD: ALL' >"$root/etc/sudoers.d/walker"
chmod 440 "$root/etc/sudoers.d/walker"
as walker 'sudo -n id -un'
as walker 'echo "1 2 3 4 5 true" | crontab - && crontab -l' | tail -n 1
within stat --format='%a %U:%G' /var/spool/cron/crontabs/walker
as walker 'chage -l walker' >&2 && echo chage
as man 'touch /var/cache/man/written' && echo man
set -- $(within pg_lsclusters --no-header)
within pg_ctlcluster "$1" "$2" start -- -o "-c listen_addresses=''" >&2
as postgres "psql --no-align --tuples-only --command 'select 6 * 7'"
within pg_ctlcluster "$1" "$2" stop >&2
"""
DID = "ping", "root", "1 2 3 4 5 true", "600 walker:crontab", "chage", "man", "42"


def entries_below(folder):
    """What stands at each path below a folder: its kind and mode, its owner, a link's target and a file's capability."""
    found, waiting = {}, [folder]
    while waiting:
        for entry in os.scandir(waiting.pop()):
            status = entry.stat(follow_symlinks=False)
            link = os.readlink(entry.path) if entry.is_symlink() else None
            found[os.path.relpath(entry.path, folder)] = status.st_mode, status.st_uid, status.st_gid, link, capability_of(entry.path)
            if entry.is_dir(follow_symlinks=False):
                waiting.append(entry.path)
    return found


def differing(one, other):
    """The paths at which two folders have other entries, or files of other bytes."""
    found, beside_it = entries_below(one), entries_below(other)
    paths = sorted(path for path in found.keys() | beside_it.keys() if found.get(path) != beside_it.get(path))
    files = [path for path, (mode, *_) in found.items() if stat.S_ISREG(mode) and path in beside_it]
    return paths + [path for path in files if not filecmp.cmp(os.path.join(one, path), os.path.join(other, path), shallow=False)]


class Clock:
    """Seconds that steps take, for who runs it."""

    def __init__(self):
        self.last, self.told = time.monotonic(), []

    def step(self, name):
        now = time.monotonic()
        self.told.append(f"{name} {now - self.last:.1f} s")
        self.last = now


def root_of_a_system():
    need_root()
    root = os.environ.get("HOSTEXT_ROOT")
    if not root or not Path(root).is_dir():
        raise Skipped("HOSTEXT_ROOT names no folder with the root of a system")
    return root


def slowly(place, *rows):
    """Each command and what it writes, with more time than a scene has."""
    for command, written in rows:
        expect(tool(place, place.program, place.store, place.depot, *command.split(" "), timeout=SECONDS), (written, b"", 0))


def packed(place, root):
    """Packs a root, and gives the paths that were left out and the tree text."""
    written, told, status = tool(place, "pack", "--leave-out-special", root, place.depot, "root", timeout=SECONDS)
    expect((written, status), (b"", 0))
    begin = "pack: left out: "
    left_out = {os.path.relpath(line.removeprefix(begin), root) for line in told.decode().splitlines() if line.startswith(begin)}
    return left_out, (place.depot / "root.tree").read_bytes()


def an_image(place):
    """A folder as an extension image whose files have owners and a capability of their own, and its entries."""
    image = beside(place, "image")
    (image / "usr/bin").mkdir(parents=True)
    release = image / "usr/lib/extension-release.d/extension-release.tool"
    release.parent.mkdir(parents=True)
    release.write_text("ID=_any\n")
    for name, owner, mode in ("tool-raw", (0, 0), 0o755), ("tool-mail", (0, 8), 0o2755):
        (image / "usr/bin" / name).write_text(name)
        os.chown(image / "usr/bin" / name, *owner)
        (image / "usr/bin" / name).chmod(mode)
    os.setxattr(image / "usr/bin/tool-raw", "security.capability", NET_RAW)
    return image, stands(image)


def rsync_tells_times_alone(one, other, more):
    """Compared are bytes, modes, owners and extended attributes; the other folder has more paths, which rsync would delete."""
    if not shutil.which("rsync"):
        return
    words = ["rsync", "--dry-run", "--archive", "--itemize-changes", "--checksum", "--xattrs", "--numeric-ids", "--no-D", "--delete", f"{one}/", f"{other}/"]
    ended = subprocess.run(words, capture_output=True, text=True, timeout=SECONDS)
    lines = [line for line in ended.stdout.splitlines() if not OTHER_TIME.match(line) and not line.startswith("skipping non-regular file ")]
    deleted = {line.split(maxsplit=1)[1].rstrip("/") for line in lines if line.startswith("*deleting ")}
    if ended.returncode or deleted != more or len(lines) != len(more):
        raise Failed(f"rsync tells {shortened([line for line in lines if not line.startswith('*deleting ')])} {shortened(deleted ^ more)} {ended.stderr}")


def a_whole_root_comes_back_but_for_what_was_left_out(place):
    """With an image that is merged over it, from a mark of which it comes back. Times don't come back: the store keeps none."""
    root, out, clock = root_of_a_system(), beside(place, "out"), Clock()
    left_out, text = packed(place, root)
    clock.step("pack")
    files = [line.split(b" ") for line in text.splitlines() if line.startswith(b"f ")]
    slowly(place, ("init x86-64 system", DONE), ("import-fs root /", DONE))
    clock.step("import-fs")
    slowly(place, ("check", b"ok %d %d\n" % (len(files), sum(int(line[2]) for line in files))))
    clock.step("check")
    slowly(place, ("tree", text), ("mark", b"marked 2\n"))
    clock.step("tree and mark")
    image, entries = an_image(place)
    expect(tool(place, "pack", image, place.depot, "tool"), (b"", b"", 0))
    slowly(place, ("import-fs tool /var/lib/extensions/tool", DONE), ("sysext merge", b"merged 1\ntool\n"))
    clock.step("merge")
    expect(tool(place, "unpack", place.store, "/", out, timeout=SECONDS), (b"", b"", 0))
    clock.step("unpack")
    place_of_image = "var/lib/extensions/tool"
    shown = {path for path in entries if not os.path.lexists(os.path.join(root, path))}
    more = shown | {f"{place_of_image}/{path}" for path in entries} | {place_of_image, os.path.dirname(place_of_image)}
    if (found := set(differing(root, out))) != left_out | more:
        raise Failed(f"these differ, or don't though they were left out: {shortened(sorted(found ^ (left_out | more)))}")
    if (there := stands(out / place_of_image)) != entries or any(entries_below(out)[path] != entries[path] for path in shown):
        raise Failed(f"the image has {shortened(there)}, and not {shortened(entries)}")
    rsync_tells_times_alone(root, out, more)
    slowly(place, ("rollback 2", DONE), ("tree", text))
    print(f"a root of {len(text.splitlines()) - 2:,} entries, {len(files):,} of them files: {', '.join(clock.told)}")


def what_users_of_a_root_may_do_they_may_do_where_it_was_unpacked(place):
    root, out = root_of_a_system(), beside(place, "out")
    need_mounts()
    if lacking := [path for path in TRIED if not os.path.lexists(os.path.join(root, path))]:
        raise Skipped(f"the root of HOSTEXT_ROOT has no {lacking[0]}")
    packed(place, root)
    slowly(place, ("init x86-64 system", DONE), ("import-fs root /", DONE))
    expect(tool(place, "unpack", place.store, "/", out, timeout=SECONDS), (b"", b"", 0))
    words = ["unshare", "--mount", "--pid", "--fork", "--kill-child", "sh", "-c", USERS, "sh", out]
    ended = subprocess.run(words, stdin=subprocess.DEVNULL, capture_output=True, text=True, timeout=SECONDS)
    if ended.returncode or tuple(ended.stdout.splitlines()) != DID:
        raise Failed(f"it ends with {ended.returncode}: {shortened(ended.stdout)} {ended.stderr[-400:]}")


scenes = named(in_a_place(a_whole_root_comes_back_but_for_what_was_left_out), in_a_place(what_users_of_a_root_may_do_they_may_do_where_it_was_unpacked))
