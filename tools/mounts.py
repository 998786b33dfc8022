"""Mounts of a generation, none of which stands anywhere before it is whole: its image, and over it overlayfs with the links of its homes as
the layer that has the files' bytes.

There are two ways, each tried where the kernel refuses the one before. By handles the image is mounted without a loop device, and
neither it nor the links need a path. By places the image is mounted at a folder that only a process of its own sees, on a loop device
where the kernel wants one, and the layers are told by paths there; Linux has that from 6.5 on.
"""
import errno
import fcntl
import os
import pickle
import re
import socket
import struct
from typing import NamedTuple

import calls
from entries import Refused, reasons_of, shown

HANDLES, PLACES = "handles", "places"
LEAST = 6, 5
LAYER = calls.READ_ONLY | calls.NO_DEV | calls.NO_SUID | calls.NO_EXEC
OVER = (b"ro", True), (b"metacopy", b"on"), (b"redirect_dir", b"on")
LOOP_CONFIGURE, LOOP_CTL_GET_FREE = 0x4C0A, 0x4C82
LO_FLAGS = 1 | 4
TRIES = 100
MOST_TOLD = 65_536
# What the sources of mounts have of generations that are shown, and of those that are mounted at a folder.
SHOWN, AT = b"g", b"at"
SOURCE = re.compile(rb"hostext-(g|at)-([1-9][0-9]{0,9})-([0-9a-f]+-[0-9a-f]+)")
ESCAPED = re.compile(rb"\\([0-7]{3})")
OLDER = "generations are mounted from Linux 6.5 on: for an older one `hostext-unpack` writes a tree out, or an image of it"


class Wanted(NamedTuple):
    """What is to be mounted of a generation: its image and the folder with its links, by handles and paths, under which source, with which
    flags, and which paths of it."""

    image: int
    links: int
    folder: str
    source: bytes
    flags: int
    paths: tuple


class Mount(NamedTuple):
    """A mount of this process, as the system lists it."""

    number: int
    above: int
    place: bytes
    kind: bytes
    source: bytes

    @property
    def said(self):
        """Whether it is shown or at a folder, its generation, and its store; nothing where no generation is mounted there."""
        found = SOURCE.fullmatch(self.source) if self.kind == b"overlay" else None
        return (found[1], int(found[2]), found[3]) if found else None


def store_word(store):
    """What tells a store from others as long as the machine runs, in the source of a mount."""
    status = os.fstat(store)
    return b"%x-%x" % (status.st_dev, status.st_ino)


def source_of(kind, number, store):
    return b"hostext-%b-%d-%b" % (kind, number, store_word(store))


def unescaped(text):
    return ESCAPED.sub(lambda found: bytes((int(found[1], 8),)), text)


def listed():
    """The mounts of this process, by their numbers."""
    found = {}
    with open("/proc/self/mountinfo", "rb") as file:
        for line in file:
            head, _, tail = line.partition(b" - ")
            number, above, _, _, place = head.split(b" ")[:5]
            kind, source = tail.split(b" ")[:2]
            found[int(number)] = Mount(int(number), int(above), unescaped(place), kind, unescaped(source))
    return found


def number_at(handle):
    """The number of the mount in which a handle is open."""
    with open(f"/proc/self/fdinfo/{handle}", encoding="ascii") as file:
        return next(int(line.split()[1]) for line in file if line.startswith("mnt_id:"))


def trees(wanted):
    """A mount for each path of a generation, which stands nowhere yet, or nothing where the tree lacks it; and the way by which they were
    had."""
    try:
        return by_handles(wanted), HANDLES
    except OSError as first:
        check_cause(first)
        try:
            return apart(wanted), PLACES
        except OSError as second:
            raise reason_of(first, second) from None


def check_cause(error):
    """Refuses what no other way helps with."""
    if error.errno in (errno.EPERM, errno.EACCES):
        raise Refused("this user, or the namespace in which it runs, may not mount: it takes root, with CAP_SYS_ADMIN")
    if error.errno in (errno.ENOSYS, errno.ENODEV):
        raise Refused(lacking(error))
    if error.errno in (errno.ENOSPC, errno.ENOMEM, errno.EMFILE, errno.ENFILE):
        raise error


def lacking(error):
    if error.errno == errno.ENOSYS:
        return f"Linux {os.uname().release} has no calls for this: {OLDER}"
    with open("/proc/filesystems", encoding="ascii") as file:
        there = file.read().split()
    missing = " and no ".join(name for name in ("erofs", "overlay") if name not in there) or "such file system"
    return f"this kernel has no {missing}: load the module, or take a kernel that has it, as Debian's linux-image"


def reason_of(*errors):
    release = tuple(map(int, re.findall(r"\d+", os.uname().release)[:2]))
    advice = (f"this is Linux {os.uname().release}: {OLDER}",) if release < LEAST else ()
    return Refused(*(f"by {way}: {reasons_of(error)[0]}" for way, error in zip((HANDLES, PLACES), errors)), *advice)


def part_of(whole, path):
    """A mount of its own of a directory of a mount; nothing where no entry is there."""
    try:
        place = calls.open_below(whole, path or b".")
    except FileNotFoundError:
        return None
    except OSError as error:
        if error.errno in (errno.ENOTDIR, errno.ELOOP):
            raise Refused(f"/{shown(path)}: it is no directory in what is to be mounted, or a link leads there") from None
        raise
    try:
        return calls.clone(place)
    finally:
        os.close(place)


def links_of(wanted):
    """The handle of the folder with the links, as these mounts have it: one of another space of mounts can be no layer."""
    links = os.open(wanted.folder, os.O_PATH | os.O_DIRECTORY)
    if os.path.samestat(os.fstat(links), os.fstat(wanted.links)):
        return links
    os.close(links)
    raise Refused(f"{shown(wanted.folder)}: another folder was put there meanwhile")


def by_handles(wanted):
    links = links_of(wanted)
    try:
        return from_layers(wanted, links)
    finally:
        os.close(links)


def from_layers(wanted, links):
    image = calls.mounted(b"erofs", ((b"source", calls.by_handle(wanted.image)), (b"ro", True)), LAYER)
    try:
        layers = (b"lowerdir+", image), (b"datadir+", links)
        whole = calls.mounted(b"overlay", ((b"source", wanted.source), *OVER, *layers), wanted.flags)
    finally:
        os.close(image)
    try:
        return [part_of(whole, path) for path in wanted.paths]
    finally:
        os.close(whole)


def by_places(wanted):
    """The same in a process that has mounts of its own: all that it lets stand somewhere goes with it."""
    calls.leave_mounts()
    links = links_of(wanted)
    place = os.open(os.path.dirname(wanted.folder), os.O_PATH | os.O_DIRECTORY)
    image = image_mount(wanted.image)
    calls.attach(image, place)
    layers = b"%b::%b" % (calls.by_handle(image), calls.by_handle(links))
    whole = calls.mounted(b"overlay", ((b"source", wanted.source), *OVER, (b"lowerdir", layers)), wanted.flags)
    calls.attach(whole, image)
    return [part_of(whole, path) for path in wanted.paths]


def image_mount(image):
    """An image's mount, by its file, or on a loop device."""
    try:
        return calls.mounted(b"erofs", ((b"source", calls.by_handle(image)), (b"ro", True)), LAYER)
    except OSError:
        device = looped(image)
        try:
            return calls.mounted(b"erofs", ((b"source", calls.by_handle(device)), (b"ro", True)), LAYER)
        finally:
            os.close(device)


def looped(file):
    """A loop device on a file, until nothing uses it. Another process may take one before it is configured here."""
    for left in reversed(range(TRIES)):
        with open("/dev/loop-control", "rb") as control:
            number = fcntl.ioctl(control, LOOP_CTL_GET_FREE)
        try:
            device = os.open(f"/dev/loop{number}", os.O_RDONLY)
            try:
                fcntl.ioctl(device, LOOP_CONFIGURE, loop_config(file))
                return device
            except OSError:
                os.close(device)
                raise
        except OSError as error:
            if not left or error.errno not in (errno.EBUSY, errno.ENXIO, errno.ENOENT):
                raise


def loop_config(file):
    info = struct.pack("<5Q4I64s64s32s2Q", 0, 0, 0, 0, 0, 0, 0, 0, LO_FLAGS, b"", b"", b"", 0, 0)
    return struct.pack("<2I", file, 0) + info + bytes(64)


def in_a_child(work):
    """Calls something in a process of its own: what it gives, with its handles, or the error that it raises."""
    ours, theirs = socket.socketpair()
    child = os.fork()
    if not child:
        answer_and_end(work, theirs)
    theirs.close()
    try:
        told, handles, _, _ = socket.recv_fds(ours, MOST_TOLD, 64)
    finally:
        ours.close()
        os.waitpid(child, 0)
    if not told:
        raise Refused("a process of its own ended before it told anything")
    error, answer = pickle.loads(told)
    if error:
        raise answer
    return answer, list(handles)


def answer_and_end(work, theirs):
    try:
        try:
            answer, handles = work()
            told = pickle.dumps((False, answer))
        except (OSError, Refused) as reason:
            told, handles = pickle.dumps((True, plain(reason))), []
        socket.send_fds(theirs, [told], handles)
    finally:
        os._exit(0)


def plain(reason):
    """A reason that another process reads back."""
    return Refused(*reason.args) if isinstance(reason, Refused) else OSError(reason.errno, reason.strerror, reason.filename)


def apart(wanted):
    """What by_places gives in a process of its own."""

    def work():
        found = by_places(wanted)
        return [tree is not None for tree in found], [tree for tree in found if tree is not None]

    are_there, handles = in_a_child(work)
    return [handles.pop(0) if is_there else None for is_there in are_there]
