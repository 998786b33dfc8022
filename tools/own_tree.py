"""The `/etc` of a host's own tree, also where a generation of a store is shown over it.

What is shown there came out of a store, and may say anything. Where a generation lies on top, a process of its own takes it off in a
space of mounts of its own, and hands over what lies below: nobody else sees that.
"""
import os
from contextlib import contextmanager

import calls
import mounts
from entries import FOLDER_ONLY, Refused, open_file, shown

ETC = "etc"
OTHERS_WRITE = 0o022


def etc_at(root):
    """The handle of what stands at the path of `/etc`."""
    top = os.open(root, os.O_RDONLY | os.O_DIRECTORY)
    try:
        return os.open(ETC, FOLDER_ONLY, dir_fd=top)
    finally:
        os.close(top)


def is_shown(handle):
    """Whether a folder stands in a generation that is shown or mounted, of any store."""
    return mounts.listed()[mounts.number_at(handle)].said is not None


def uncovered(root):
    """The same once nothing is shown over it, for this process alone."""
    calls.leave_mounts()
    handle = etc_at(root)
    while is_shown(handle):
        calls.detach(handle)
        os.close(handle)
        handle = etc_at(root)
    return None, [handle]


def below_what_is_shown(root):
    try:
        return mounts.in_a_child(lambda: uncovered(root))[1][0]
    except OSError as error:
        where, reason = shown(os.path.join(root, ETC)), error.strerror or str(error)
        raise Refused(f"{where}: a generation is shown there, and the host's own can't be opened below it: {reason}") from None


@contextmanager
def own_etc(root):
    """The handle of the host's own `/etc`."""
    handle = etc_at(root)
    if is_shown(handle):
        os.close(handle)
        handle = below_what_is_shown(root)
    try:
        yield handle
    finally:
        os.close(handle)


def check_owner(handle, path):
    """Refuses what others than root, or who runs this, may write."""
    status = os.fstat(handle)
    if status.st_uid not in (0, os.geteuid()) or status.st_mode & OTHERS_WRITE:
        raise Refused(f"{shown(path)}: it has to be root's, and writable by nobody else")


@contextmanager
def told_as(path):
    """A call that fails is told with a path."""
    try:
        yield
    except OSError as error:
        error.filename = path
        raise
    except Refused as refused:
        if refused.args == ("it is no file",):
            raise Refused(f"{shown(path)}: it is no file") from None
        raise


@contextmanager
def folder(name, above, path):
    """The handle of a folder that is root's; None where there is none."""
    try:
        with told_as(path):
            handle = os.open(name, FOLDER_ONLY, dir_fd=above)
    except FileNotFoundError:
        yield None
        return
    try:
        check_owner(handle, path)
        yield handle
    finally:
        os.close(handle)


def file(name, above, path):
    """The handle of a file that is root's."""
    with told_as(path):
        handle, _ = open_file(name, above)
    try:
        check_owner(handle, path)
    except Refused:
        os.close(handle)
        raise
    return handle
