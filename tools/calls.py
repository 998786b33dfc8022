"""The system's calls on mounts, by handles. Their numbers are the same on each architecture that hostext knows.

A call that fails raises an OSError that names it, with what the kernel tells of a file system that it doesn't mount.
"""
import ctypes
import os
import struct
from contextlib import suppress

LIBRARY = ctypes.CDLL(None, use_errno=True)
OPEN_TREE, MOVE_MOUNT, FSOPEN, FSCONFIG, FSMOUNT, OPENAT2 = 428, 429, 430, 431, 432, 437

CLOEXEC = os.O_CLOEXEC
HERE = -100
EMPTY_PATH = 0x1000
CLONE = 1
FROM_HANDLE, TO_HANDLE, BENEATH = 0x4, 0x40, 0x200
FSOPEN_CLOEXEC = FSMOUNT_CLOEXEC = 1
SET_FLAG, SET_STRING, SET_HANDLE, CREATE = 0, 1, 5, 6
READ_ONLY, NO_SUID, NO_DEV, NO_EXEC = 1, 2, 4, 8
NO_MAGIC_LINKS, NO_LINKS, IN_ROOT = 0x2, 0x4, 0x10
DETACH, NO_FOLLOW = 2, 8
NEW_MOUNTS = 0x20000
PRIVATE_BELOW = 0x4000 | 0x40000


def checked(name, result):
    if result < 0:
        number = ctypes.get_errno()
        raise OSError(number, f"{name}: {os.strerror(number)}")
    return result


def called(name, number, *words):
    """A call by its number, with texts, numbers and nothing as its words."""
    given = [ctypes.c_char_p(word) if isinstance(word, bytes) else ctypes.c_long(word or 0) for word in words]
    return checked(name, LIBRARY.syscall(ctypes.c_long(number), *given))


def open_below(root, path, flags=os.O_PATH | os.O_DIRECTORY):
    """The handle of what stands at a path below the handle of a folder, to which no link leads."""
    how = struct.pack("<QQQ", flags | CLOEXEC, 0, IN_ROOT | NO_LINKS | NO_MAGIC_LINKS)
    return opened(root, path, how)


def open_without_links(path, flags=os.O_PATH | os.O_DIRECTORY):
    """The same of a path of this process."""
    return opened(HERE, path, struct.pack("<QQQ", flags | CLOEXEC, 0, NO_LINKS | NO_MAGIC_LINKS))


def opened(folder, path, how):
    return called("openat2", OPENAT2, folder, path, how, len(how))


def clone(place):
    """A mount of its own, which stands nowhere yet, of what a mount has at a handle."""
    return called("open_tree", OPEN_TREE, place, b"", CLONE | CLOEXEC | EMPTY_PATH)


def attach(mount, place, flags=0):
    """Lets a mount that stands nowhere yet stand at the handle of a folder: over what stands there, or beneath it."""
    called("move_mount", MOVE_MOUNT, mount, b"", place, b"", FROM_HANDLE | TO_HANDLE | flags)


def detach(place):
    """Takes the mount away whose root a handle leads to. Who uses it keeps it as long."""
    checked("umount2", LIBRARY.umount2(by_handle(place), DETACH))


def unmount(folder, name):
    """Takes the topmost mount at a name in a folder away, which nobody may use."""
    checked("umount2", LIBRARY.umount2(by_handle(folder) + b"/" + name, NO_FOLLOW))


def by_handle(handle):
    """The path that leads to what a handle of this process is open at."""
    return b"/proc/self/fd/%d" % handle


def leave_mounts():
    """From here on what this process mounts is seen by it alone, and by those that it starts."""
    checked("unshare", LIBRARY.unshare(NEW_MOUNTS))
    checked("mount", LIBRARY.mount(None, b"/", None, ctypes.c_ulong(PRIVATE_BELOW), None))


def sync_all(handle):
    """Makes durable what was done in the file system of a handle."""
    checked("syncfs", LIBRARY.syncfs(handle))


def mounted(kind, settings, flags):
    """A mount of a file system, which stands nowhere yet: its settings are texts, handles or flags."""
    context = called("fsopen", FSOPEN, kind, FSOPEN_CLOEXEC)
    try:
        for name, value in settings:
            configure(context, name, value)
        called("fsconfig", FSCONFIG, context, CREATE, None, None, 0)
        return called("fsmount", FSMOUNT, context, FSMOUNT_CLOEXEC, flags)
    except OSError as error:
        if told := said(context):
            error.strerror += f" ({told})"
        raise
    finally:
        os.close(context)


def configure(context, name, value):
    if value is True:
        called("fsconfig", FSCONFIG, context, SET_FLAG, name, None, 0)
    elif isinstance(value, int):
        called("fsconfig", FSCONFIG, context, SET_HANDLE, name, None, value)
    else:
        called("fsconfig", FSCONFIG, context, SET_STRING, name, value, 0)


def said(context):
    """What the kernel tells of a mount that failed, if it does."""
    lines = []
    with suppress(OSError):
        while line := os.read(context, 4096):
            lines.append(line.decode(errors="replace").strip().removeprefix("e ").removeprefix("w "))
    return "; ".join(lines)
