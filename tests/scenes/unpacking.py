"""The ways out of a store beside a folder: tars and images of file systems, the times of what is written, and the lock meanwhile."""
import fcntl
import io
import os
import shutil
import signal
import subprocess
import tarfile
import time

from scenes.folders import make_opaque, make_whiteout
from scenes.keeping import mode_of, need_root
from scenes.locks import locked
from scenes.neighbours import FINE, Slow, hidden
from scenes.running import ABC, EMPTY, SECONDS, Failed, Skipped, expect, named, removing, shortened, tree_text
from scenes.stores import DONE, digest, in_a_place
from scenes.tools import TOOLS, beside, left, script, text_of, tool

LONG = "/".join(["n" * 60, "ü" * 60, "b" * 60])
BIG = b"0123456789abcdef" * 200_000
# The digest of the tar of the small tree.
SMALL_TAR = "3f76f79ad2dd5373e96d7cdfcf02967ec26ddf66c5a12eb640ef52e4e3ab982a"


def around(place, **more):
    """The environment without a time, but for what is given."""
    found = {name: value for name, value in os.environ.items() if name not in ("SOURCE_DATE_EPOCH", "TMPDIR")}
    return {**found, "HOSTEXT": str(place.program), "TMPDIR": str(place.store.parent), **more}


def tar_of(place, *words, **more):
    return tool(place, "unpack", "--tar", *words, place.store, "/", env=around(place, **more))


def small(place):
    """A host with a directory, two files, a link, and paths that don't fit into a plain header."""
    above = [f"d 755 {'/'.join(LONG.split('/')[: at + 1])}" for at in range(2)]
    lines = *("d 1777 a", f"f 4755 3 {ABC} a/b c", f"f 644 0 {EMPTY} a/d", "l 9 ../a/to b a-l"), *above, f"l 200 {'t' * 200} {LONG}", f"f 600 {len(BIG)} {digest(BIG)} z"
    place.resource("r", tree_text(*lines), {"a/b c": b"abc", "a/d": b"", "z": BIG})
    place.expect(("init x86-64 system", DONE), ("import-fs r /", DONE))
    return tree_text(*lines)


def rows_of(written):
    """The entries of a tar as Python reads them."""
    with tarfile.open(fileobj=io.BytesIO(written)) as tar:
        return [(entry.name, entry.type, entry.mode, entry.size, entry.mtime, entry.uid, entry.gid, entry.uname, entry.gname, entry.linkname) for entry in tar]


def a_tar_has_the_tree_in_path_order_with_one_time(place):
    small(place)
    written, told, status = tar_of(place)
    expect((b"", told, status), FINE)
    plain = 0, 0, 0, "", ""
    names = LONG.split("/")
    wanted = [
        *(("a", b"5", 0o1777, 0, *plain, ""), ("a/b c", b"0", 0o4755, 3, *plain, ""), ("a/d", b"0", 0o644, 0, *plain, ""), ("a-l", b"2", 0o777, 0, *plain, "../a/to b")),
        *(("/".join(names[: at + 1]), b"5", 0o755, 0, *plain, "") for at in range(2)),
        *((LONG, b"2", 0o777, 0, *plain, "t" * 200), ("z", b"0", 0o600, len(BIG), *plain, "")),
    ]
    if rows_of(written) != wanted or len(written) % 10_240:
        raise Failed(f"the tar of {len(written)} bytes has {shortened(rows_of(written))}")
    with tarfile.open(fileobj=io.BytesIO(written)) as tar:
        if tar.extractfile("z").read() != BIG or tar.extractfile("a/b c").read() != b"abc":
            raise Failed("the files of the tar have other bytes")


def the_same_tree_gives_the_same_tar(place):
    """Its digest stands here, so that it is the same everywhere. Another store of the tree, other times and another user change nothing."""
    small(place)
    first = tar_of(place)
    expect((b"", *first[1:]), FINE)
    if digest(first[0]) != SMALL_TAR:
        raise Failed(f"the tar's digest is {digest(first[0])}")
    shutil.rmtree(place.store)
    place.store.mkdir()
    place.expect(("init arm64 system", DONE), ("import-fs r /", DONE), ("remove /z", DONE), ("import-fs r /", DONE))
    if tar_of(place) != first:
        raise Failed("the tar of another store of the same tree has other bytes")


def the_time_is_that_of_the_option_else_of_the_environment(place):
    place.resource("r", tree_text("d 755 a", f"f 644 3 {ABC} a/b", "l 1 b c"), {"a/b": b"abc"})
    place.expect(("init x86-64 system", DONE), ("import-fs r /", DONE))
    for words, more, seconds in ((), {}, 0), (("--mtime=8589934591",), {"SOURCE_DATE_EPOCH": "5"}, 8**11 - 1), ((), {"SOURCE_DATE_EPOCH": "1700000000"}, 1_700_000_000):
        written, told, status = tar_of(place, *words, **more)
        expect((b"", told, status), FINE)
        if {row[4] for row in rows_of(written)} != {seconds}:
            raise Failed(f"the times are {rows_of(written)}")
    for said in "-1", "1.5", "", "8589934592", "x":
        reason = b"it is no number of seconds from 0 to 8,589,934,591\n"
        expect(tar_of(place, SOURCE_DATE_EPOCH=said), (b"", b"unpack: SOURCE_DATE_EPOCH: " + reason, 1))
        written, told, status = tar_of(place, f"--mtime={said}")
        if (written, status) != (b"", 2) or not told.endswith(b"argument --mtime: " + reason):
            raise Failed(f"of the time {said!r} it says {shortened(told)}")


def a_folder_has_one_time_where_one_is_given(place):
    need_root()
    text = tree_text("d 555 a", f"f 444 3 {ABC} a/b", "l 1 b a/c", "d 700 d", "d 755 d/e")
    place.resource("r", text, {"a/b": b"abc"})
    place.expect(("init x86-64 system", DONE), ("import-fs r /", DONE))
    for name, is_there in ("new", False), ("there", True):
        out = beside(place, name)
        if is_there:
            out.mkdir()
        expect(tool(place, "unpack", "--mtime=1000000000", place.store, "/", out), FINE)
        times = {path.lstat().st_mtime for path in (*out.rglob("*"), *(() if is_there else (out,)))}
        if times != {1_000_000_000} or text_of(place, out) != text:
            raise Failed(f"the times are {times}")
    began = time.time() - 2
    expect(tool(place, "unpack", place.store, "/", beside(place, "now"), env=around(place, SOURCE_DATE_EPOCH="5")), FINE)
    if any(path.lstat().st_mtime < began for path in beside(place, "now").rglob("*")):
        raise Failed("without the option a folder has other times than now")


def tar_compares_what_was_unpacked_with_its_tar(place):
    """And what tar unpacks has the tree text of the store."""
    text = small(place)
    out, unpacked, file = beside(place, "out"), beside(place, "unpacked"), beside(place, "tar")
    written, told, status = tar_of(place, "--mtime=1000000000")
    expect((b"", told, status), FINE)
    file.write_bytes(written)
    expect(tool(place, "unpack", "--mtime=1000000000", place.store, "/", out), FINE)
    unpacked.mkdir()
    for words in ("--compare", "-f", file, "-C", out), ("--extract", "-p", "-f", file, "-C", unpacked):
        ended = subprocess.run(["tar", *words], capture_output=True, timeout=SECONDS)
        if ended.returncode or ended.stdout or ended.stderr:
            raise Failed(f"tar {words[0]} tells {shortened(ended.stdout + ended.stderr)}")
    for folder in out, unpacked:
        if text_of(place, folder) != text:
            raise Failed(f"what was unpacked is {shortened(text_of(place, folder))}")
    (out / "z").write_bytes(BIG[:-1] + b"x")
    if not subprocess.run(["tar", "--compare", "-f", file, "-C", out], capture_output=True, timeout=SECONDS).returncode:
        raise Failed("tar tells no difference of another file")


def whiteouts_and_opaque_directories_stand_in_a_tar(place):
    text = removing("d 755 a", "o 755 a/o", "w a/w")
    place.resource("r", text)
    place.expect(("init x86-64 system", DONE), ("import-fs r /", DONE))
    written, told, status = tar_of(place)
    expect((b"", told, status), FINE)
    with tarfile.open(fileobj=io.BytesIO(written)) as tar:
        found = [(entry.name, entry.type, (entry.devmajor, entry.devminor), entry.pax_headers) for entry in tar]
    mark = {"SCHILY.xattr.user.overlay.opaque": "y"}
    if found != [("a", b"5", (0, 0), {}), ("a/o", b"5", (0, 0), mark), ("a/w", b"3", (0, 0), {})]:
        raise Failed(f"the tar has {found}")
    marks_come_back(place, ["tar", "--extract", "-p", "--xattrs", "-f", "-", "-C"], text, written)


def marks_come_back(place, words, text, given=None):
    """That a program unpacks whiteouts and opaque directories as overlayfs has them, where they can be made here."""
    out = beside(place, "marks")
    out.mkdir()
    try:
        make_whiteout(out / "whiteout")
        make_opaque(out)
    except OSError as error:
        raise Skipped(f"no whiteout or opaque directory can be made here: {error.strerror}") from None
    (out / "whiteout").unlink()
    ended = subprocess.run([*words, out], input=given, capture_output=True, timeout=SECONDS)
    if ended.returncode or text_of(place, out) != text:
        raise Failed(f"{words[0]} unpacks {shortened(text_of(place, out))} {shortened(ended.stderr)}")


def a_tar_of_other_bytes_than_listed_does_not_end_well(place):
    """Of other bytes of a small and of a large file, and of a fault after the last one."""
    place.resource("r", tree_text(f"f 644 3 {ABC} a", f"f 644 {len(BIG)} {digest(BIG)} b"), {"a": b"abc", "b": BIG})
    place.expect(("init x86-64 system", DONE), ("import-fs r /", DONE))
    fake, text = beside(place, "fake"), beside(place, "text")
    text.write_bytes(tree_text(f"f 644 3 {ABC} a", f"f 644 {len(BIG)} {digest(BIG)} b"))
    for name, gives in ("b", f"printf abc; yes | head -c {len(BIG)}"), ("a", "printf abd"):
        script(fake, f'[ $3 = tree ] && exec cat "{text}"\n{gives}')
        written, told, status = tool(place, "unpack", "--tar", place.store, "/", env=around(place, HOSTEXT=str(fake)))
        expect((b"", told, status), (b"", f"unpack: /{name}: the tree changed meanwhile\n".encode(), 1))
        ended = subprocess.run(["tar", "-tf", "-"], input=written, capture_output=True, timeout=SECONDS)
        if not written or not ended.returncode:
            raise Failed(f"of {name} there is a tar that ends well: {shortened(ended.stdout)}")
    script(fake, f'[ $3 = tree ] && exec cat "{text}"\nprintf abc; cat "{beside(place, "big")}"; echo fault >&2; exit 8')
    beside(place, "big").write_bytes(BIG)
    written, told, status = tool(place, "unpack", "--tar", place.store, "/", env=around(place, HOSTEXT=str(fake)))
    expect((b"", told, status), (b"", b"unpack: batch: fault\n", 1))
    if not subprocess.run(["tar", "-tf", "-"], input=written, capture_output=True, timeout=SECONDS).returncode:
        raise Failed("there is a tar that ends well after a fault")


def one_place_is_asked_for(place):
    small(place)
    image = beside(place, "image")
    for words in ((), ("--tar", "--erofs", image), ("--erofs", image, "--squashfs", image)):
        expect(tool(place, "unpack", *words, place.store, "/", *([] if len(words) > 1 else ["x", "y"]))[::2], (b"", 2))
    expect(tool(place, "unpack", "--tar", place.store, "/", beside(place, "out"))[::2], (b"", 2))
    if image.exists() or beside(place, "out").exists():
        raise Failed("something was written")


def need(*programs):
    for program in programs:
        if not shutil.which(program, path=f"{os.environ.get('PATH', '')}:/usr/sbin"):
            raise Skipped(f"there is no {program}")


def images_are_the_tree_and_the_same_twice(place, option, maker, extractor):
    """By another store, in a folder that lists its names in another order, and at another second."""
    need(maker, extractor[0])
    text = small(place)
    one, two, out = (beside(place, name) for name in ("one", "two", "out"))
    expect(tool(place, "unpack", "--mtime=1000000000", option, one, place.store, "/"), FINE)
    if mode_of(one) != 0o600 or hidden(one.parent):
        raise Failed(f"the image has the mode {mode_of(one):o}, and beside it stand {left(one.parent)}")
    time.sleep(1.1)
    expect(tool(place, "unpack", option, two, place.store, "/", env=around(place, SOURCE_DATE_EPOCH="1000000000")), FINE)
    if one.read_bytes() != two.read_bytes():
        raise Failed("an image of the same tree has other bytes")
    ended = subprocess.run([word.format(out=out, image=one) for word in extractor], capture_output=True, timeout=SECONDS)
    if ended.returncode or text_of(place, out) != text:
        raise Failed(f"the image has {shortened(text_of(place, out))} {shortened(ended.stderr)}")
    times = {path.lstat().st_mtime for path in (out, *out.rglob("*"))}
    owners = {(path.lstat().st_uid, path.lstat().st_gid) for path in (out, *out.rglob("*"))} if os.getuid() == 0 else {(0, 0)}
    if times != {1_000_000_000} or owners != {(0, 0)} or mode_of(out) != 0o755:
        raise Failed(f"the image has the times {times}, the owners {owners} and the mode {mode_of(out):o}")
    told = f"unpack: {one}: it is there already\n".encode()
    expect(tool(place, "unpack", option, one, place.store, "/"), (b"", told, 1))


# fsck.erofs gives an owner after the mode, which takes setuid off.
EROFS = "--erofs", "mkfs.erofs", ("fsck.erofs", "--extract={out}", "--no-preserve-owner", "{image}")
SQUASHFS = "--squashfs", "mksquashfs", ("unsquashfs", "-quiet", "-no-progress", "-d", "{out}", "{image}")


def an_image_of_erofs_is_the_tree_and_the_same_twice(place):
    images_are_the_tree_and_the_same_twice(place, *EROFS)


def an_image_of_squashfs_is_the_tree_and_the_same_twice(place):
    images_are_the_tree_and_the_same_twice(place, *SQUASHFS)


def marks_stand_in_images(place):
    need("mksquashfs", "unsquashfs")
    text, image = removing("d 755 a", "o 755 a/o", "w a/w"), beside(place, "image")
    place.resource("r", text)
    place.expect(("init x86-64 system", DONE), ("import-fs r /", DONE))
    expect(tool(place, "unpack", "--squashfs", image, place.store, "/"), FINE)
    marks_come_back(place, ["sh", "-c", f'rmdir "$0" && unsquashfs -quiet -no-progress -d "$0" "{image}"'], text)


def a_maker_of_images_that_is_missing_or_fails_leaves_nothing(place):
    """Programs of these names stand in a folder that is the whole PATH but for what Python needs."""
    small(place)
    image, makers = beside(place, "image"), beside(place, "makers")
    makers.mkdir()
    for name in "env", "sh", "python3":
        (makers / name).symlink_to(shutil.which(name))
    stood = left(place.store.parent)
    for option, maker, package in ("--erofs", "mkfs.erofs", "erofs-utils"), ("--squashfs", "mksquashfs", "squashfs-tools"):
        script(makers / maker, 'case "$*" in --help) echo " --tar=X" ;; -version) echo "mksquashfs version 4.5" ;; *) echo first >&2; echo "it has failed" >&2; exit 3 ;; esac')
        expect(tool(place, "unpack", option, image, place.store, "/", env=around(place, PATH=str(makers))), (b"", f"unpack: {maker}: it has failed\n".encode(), 1))
        if left(place.store.parent) != stood:
            raise Failed(f"there stand {left(place.store.parent)}")
    program = script(makers / "mksquashfs", "echo mksquashfs version 4.4-git")
    told = b"unpack: this mksquashfs reads no tar, as that of version 4.5 does\n"
    expect(tool(place, "unpack", "--squashfs", image, place.store, "/", env=around(place, PATH=str(makers))), (b"", told, 1))
    program.unlink()
    if not os.path.lexists("/usr/sbin/mksquashfs") and not os.path.lexists("/sbin/mksquashfs"):
        told = b"unpack: there is no mksquashfs, which Debian has in the package squashfs-tools\n"
        expect(tool(place, "unpack", "--squashfs", image, place.store, "/", env=around(place, PATH=str(makers))), (b"", told, 1))
    told = b"unpack: mksquashfs: a time has at most 4,294,967,295 seconds\n"
    expect(tool(place, "unpack", "--squashfs", image, "--mtime=4294967296", place.store, "/", env=around(place, PATH=str(makers))), (b"", told, 1))


def a_signal_ends_the_maker_and_leaves_nothing(place):
    """The program of the image notes its number and reads nothing more. The tool is ended alone, without its program."""
    small(place)
    image, makers, note = beside(place, "image"), beside(place, "makers"), beside(place, "note")
    makers.mkdir()
    script(makers / "mksquashfs", f'case "$*" in -version) echo "mksquashfs version 10.0" ;; *) echo $$ >"{note}"; exec sleep 600 ;; esac')
    for number, status in (signal.SIGINT, 130), (signal.SIGTERM, 143), (signal.SIGHUP, 129):
        note.unlink(missing_ok=True)
        path = f"{makers}:{os.environ['PATH']}"
        child = subprocess.Popen([TOOLS / "unpack", "--squashfs", image, place.store, "/"], env=around(place, PATH=path), stdout=subprocess.PIPE, stderr=subprocess.PIPE)
        until = time.monotonic() + SECONDS
        while not note.exists() or not note.read_text().endswith("\n"):
            if child.poll() is not None or time.monotonic() > until:
                child.kill()
                raise Failed(f"the image isn't begun: {child.communicate()}")
            time.sleep(0.01)
        child.send_signal(number)
        expect((*child.communicate(timeout=SECONDS), child.returncode), (b"", b"", status))
        if hidden(image.parent) or image.exists():
            raise Failed(f"there stand {left(image.parent)}")
        if os.path.exists(f"/proc/{int(note.read_text())}"):
            raise Failed("the program of the image runs on")


def a_signal_ends_a_tar_that_nobody_reads(place):
    small(place)
    for number, status in (signal.SIGTERM, 143), (signal.SIGINT, 130):
        child = subprocess.Popen([TOOLS / "unpack", "--quiet", "--tar", place.store, "/"], env=around(place), stdout=subprocess.PIPE, stderr=subprocess.PIPE)
        # a first piece has come, and the pipe has no room for the rest
        begin = os.read(child.stdout.fileno(), 1)
        child.send_signal(number)
        child.wait(SECONDS)
        rest, told = child.communicate(timeout=SECONDS)
        expect((b"", told, child.returncode), (b"", b"", status))
        if len(begin + rest) > len(BIG) or hidden(place.store.parent):
            raise Failed(f"{len(rest)} bytes came, and there stand {left(place.store.parent)}")


def a_reader_of_a_tar_that_ends_early_is_told(place):
    small(place)
    read, write = os.pipe()
    os.close(read)
    found = tool(place, "unpack", "--tar", "--quiet", place.store, "/", env=around(place), capture_output=False, stdout=write, stderr=subprocess.PIPE)
    os.close(write)
    expect(found[1:], (b"unpack: Broken pipe\n", 1))
    if hidden(place.store.parent):
        raise Failed(f"there stand {left(place.store.parent)}")


def a_store_is_read_beside_other_readers_and_after_a_change(place):
    """It is locked as long as it is read, for changes alone, and waits for one with a line."""
    small(place)
    with locked(place.store, fcntl.LOCK_SH):
        expect(tar_of(place, "--quiet")[1:], (b"", 0))
    with locked(place.store):
        child = subprocess.Popen([TOOLS / "unpack", "--tar", place.store, "/"], env=around(place), stdout=subprocess.DEVNULL, stderr=subprocess.PIPE)
        told = child.stderr.readline()
        expect((b"", told, child.poll()), (b"", b"unpack: waiting for another command on this store\n", None))
        expect(tar_of(place, "--quiet", HOSTEXT_LOCK="no")[1:], (b"", 0))
    expect((b"", child.communicate(timeout=SECONDS)[1], child.returncode), FINE)
    slow = Slow(place, "unpack", "--quiet", place.store, "/", beside(place, "out"))
    handle = os.open(place.store, os.O_RDONLY)
    try:
        fcntl.flock(handle, fcntl.LOCK_EX | fcntl.LOCK_NB)
        raise Failed("a store that is read isn't locked")
    except BlockingIOError:
        fcntl.flock(handle, fcntl.LOCK_SH | fcntl.LOCK_NB)
    finally:
        os.close(handle)
    expect(slow.end(), FINE)


CALLS = [
    *(a_tar_has_the_tree_in_path_order_with_one_time, the_same_tree_gives_the_same_tar, the_time_is_that_of_the_option_else_of_the_environment),
    *(a_folder_has_one_time_where_one_is_given, tar_compares_what_was_unpacked_with_its_tar, whiteouts_and_opaque_directories_stand_in_a_tar),
    *(a_tar_of_other_bytes_than_listed_does_not_end_well, one_place_is_asked_for),
    *(an_image_of_erofs_is_the_tree_and_the_same_twice, an_image_of_squashfs_is_the_tree_and_the_same_twice, marks_stand_in_images),
    *(a_maker_of_images_that_is_missing_or_fails_leaves_nothing, a_signal_ends_the_maker_and_leaves_nothing),
    *(a_signal_ends_a_tar_that_nobody_reads, a_reader_of_a_tar_that_ends_early_is_told, a_store_is_read_beside_other_readers_and_after_a_change),
]
scenes = named(*map(in_a_place, CALLS))
