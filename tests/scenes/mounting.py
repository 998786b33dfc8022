"""File systems of a process of its own: loop devices, mounts, and spaces of mounts and processes that go with it however it ends."""
import ctypes
import errno
import fcntl
import os
import shutil
import signal
import struct
import sys
import time
from contextlib import contextmanager
from pathlib import Path

from scenes.running import Failed, Skipped

LIBC = ctypes.CDLL(None, use_errno=True)
CLONE_NEWNS, CLONE_NEWPID = 0x20000, 0x20000000
MS_REC, MS_PRIVATE = 0x4000, 0x40000
PR_SET_PDEATHSIG = 1
LOOP_CONFIGURE, LOOP_CTL_GET_FREE = 0x4C0A, 0x4C82
LO_FLAGS_AUTOCLEAR, LO_FLAGS_DIRECT_IO = 4, 16
# A loop device may be taken by another process before it is configured here, and what was mounted may be busy for a moment.
TRIES, PAUSE = 200, 0.01


def called(name, *given):
    if getattr(LIBC, name)(*given):
        number = ctypes.get_errno()
        raise OSError(number, f"{name}: {os.strerror(number)}")


def mount(source, folder, kind, options="", flags=0):
    called("mount", os.fsencode(source), os.fsencode(folder), kind.encode(), ctypes.c_ulong(flags), options.encode())


def unmount(folder):
    for _ in range(TRIES):
        try:
            return called("umount2", os.fsencode(folder), 0)
        except OSError as error:
            if error.errno != errno.EBUSY:
                raise
        time.sleep(PAUSE)
    raise Failed(f"{folder} stays busy")


def why_not():
    """What is missing of this machine for loop devices and FUSE, or nothing."""
    if os.geteuid():
        return "only root may mount"
    missing = next((device for device in ("/dev/loop-control", "/dev/fuse") if not os.access(device, os.R_OK | os.W_OK)), None)
    return f"there is no {missing}" if missing else None


def leave_space(kind):
    """Gives the process another space: one of mounts for itself, or one of processes for its next child."""
    try:
        called("unshare", kind)
    except OSError as error:
        raise Skipped(f"no space of its own is to be had here for mounts and processes: {error}") from None


def end_with(parent):
    """Lets the process end when its parent does."""
    called("prctl", PR_SET_PDEATHSIG, signal.SIGKILL)
    if not os.path.exists(f"/proc/{parent}"):
        os._exit(1)


def apart(call):
    """Calls something in spaces of its own, of mounts and of processes, and gives the status. No other process sees what is mounted there, or
    keeps that alive; and however it ends, what it mounted and started goes with it."""
    leave_space(CLONE_NEWPID)
    parent, child = os.getpid(), os.fork()
    if not child:
        status = 1
        try:
            os.setsid()
            end_with(parent)
            leave_space(CLONE_NEWNS)
            mount("none", "/", "", flags=MS_REC | MS_PRIVATE)
            status = call()
        except Exception as reason:
            print(f"FAILED: {reason or type(reason).__name__}")
        finally:
            sys.stdout.flush()
            os._exit(status)
    try:
        return os.waitstatus_to_exitcode(os.waitpid(child, 0)[1])
    except BaseException:
        os.kill(child, signal.SIGKILL)
        os.waitpid(child, 0)
        raise


def configured(number, file, flags):
    """A handle of a loop device that stands on a file, until it is neither mounted nor open."""
    device = os.open(f"/dev/loop{number}", os.O_RDWR | os.O_CLOEXEC)
    info = struct.pack("<5Q4I64s64s32s2Q", 0, 0, 0, 0, 0, 0, 0, 0, LO_FLAGS_AUTOCLEAR | flags, b"", b"", b"", 0, 0)
    try:
        fcntl.ioctl(device, LOOP_CONFIGURE, struct.pack("<2I", file, 0) + info + bytes(64))
    except OSError:
        os.close(device)
        raise
    return device


@contextmanager
def looped(path, is_direct=False):
    """A loop device that stands on a file."""
    file = os.open(path, os.O_RDWR | os.O_CLOEXEC | (os.O_DIRECT if is_direct else 0))
    device = None
    try:
        for _ in range(TRIES):
            with open("/dev/loop-control") as control:
                number = fcntl.ioctl(control, LOOP_CTL_GET_FREE)
            try:
                device = configured(number, file, LO_FLAGS_DIRECT_IO if is_direct else 0)
                break
            except OSError as error:
                if error.errno not in (errno.EBUSY, errno.ENXIO, errno.ENOENT):
                    raise
            time.sleep(PAUSE)
        else:
            raise Skipped("no loop device is free")
        if is_direct and Path(f"/sys/block/loop{number}/loop/dio").read_text() != "1\n":
            raise Failed("the loop device does no direct I/O")
        yield f"/dev/loop{number}"
    finally:
        os.close(file)
        if device is not None:
            os.close(device)


@contextmanager
def mounted(path, folder, kind, options="", is_direct=False):
    """The file system of a file, mounted on a folder."""
    with looped(path, is_direct) as device:
        mount(device, folder, kind, options)
    try:
        yield
    finally:
        unmount(folder)


def copied(source, target):
    """Copies a file, of which what is a hole stays one."""
    with open(source, "rb") as old, open(target, "wb") as new:
        size, at = os.fstat(old.fileno()).st_size, 0
        new.truncate(size)
        while at < size:
            try:
                at = os.lseek(old.fileno(), at, os.SEEK_DATA)
            except OSError:
                break
            end = os.lseek(old.fileno(), at, os.SEEK_HOLE)
            os.lseek(new.fileno(), at, os.SEEK_SET)
            while at < end:
                at += os.sendfile(new.fileno(), old.fileno(), at, end - at)


def lacks(*programs):
    """The first of these programs that is missing, or nothing."""
    return next((program for program in programs if not shutil.which(program)), None)
