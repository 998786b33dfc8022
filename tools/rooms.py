"""Rooms: folders in which a tool makes what it moves to its place once it is whole.

A room is worked in by its handle, so that nobody who may rename it leads the tool elsewhere. It is locked by flock(2) as long as its
tool runs. One whose lock is free was left by a run that was killed, and goes with the next run there. It has to be the caller's own
and open to nobody else, and to have nothing that the tool doesn't make.
"""
import fcntl
import os
import stat
from contextlib import contextmanager, suppress

import ending
from entries import FOLDER_ONLY, Refused

MODE = 0o700


@contextmanager
def made(path):
    """A folder that is made where it is missing, with those above it. Where what is done there fails, they go again."""
    missing, above = [], path
    while not os.path.lexists(above):
        missing.append(above)
        above = os.path.dirname(above) or os.curdir
    try:
        os.makedirs(path, exist_ok=True)
        yield
    except BaseException:
        for folder in missing:
            # something may stand in it by now
            with suppress(OSError):
                os.rmdir(folder)
        raise


class Room:
    """A room in a folder, by its name there and its handle."""

    def __init__(self, folder, name):
        self.folder, self.name = folder, name
        self.handle = os.open(name, FOLDER_ONLY, dir_fd=folder)

    def close(self):
        os.close(self.handle)

    def stands(self):
        """Whether it is what stands at its name."""
        try:
            there = os.stat(self.name, dir_fd=self.folder, follow_symlinks=False)
        except FileNotFoundError:
            return False
        return os.path.samestat(there, os.fstat(self.handle))

    def is_own(self, names):
        """Whether the caller made it, with nothing in it but these names."""
        status = os.fstat(self.handle)
        is_closed = status.st_uid == os.geteuid() and status.st_mode & 0o777 == MODE
        return is_closed and names.issuperset(os.listdir(self.handle))

    def lock(self):
        fcntl.flock(self.handle, fcntl.LOCK_EX | fcntl.LOCK_NB)

    def remove(self):
        empty(self.handle)
        if self.stands():
            os.rmdir(self.name, dir_fd=self.folder)


def new_room(folder, prefix):
    """A new room, locked. Another run that looks for what was left may lock it first, and take it away: then it is made anew."""
    while True:
        name = prefix + os.urandom(8).hex()
        os.mkdir(name, MODE, dir_fd=folder)
        with suppress(FileNotFoundError):
            room = Room(folder, name)
            if is_locked(room) and room.stands():
                if room.is_own(frozenset()):
                    return room
                raise Refused(f"{name}: somebody else changed what was made here")
            room.close()


def is_locked(room):
    try:
        room.lock()
    except BlockingIOError:
        return False
    except OSError:
        # this file system has no such locks, and so nothing is taken away on it
        pass
    return True


def clear(folder, prefix, names):
    """Takes away the rooms that killed runs left in a folder. What can't be looked at or locked stays."""
    for name in os.listdir(folder):
        if name.startswith(prefix):
            with suppress(OSError):
                clear_room(Room(folder, name), names)


def clear_room(room, names):
    try:
        room.lock()
        if room.is_own(names) and room.stands():
            room.remove()
    finally:
        room.close()


def in_a_room(folder, prefix, work):
    """Calls `work` with a new room, which goes at the end, also where a signal ends it."""
    ending.hold()
    room = new_room(folder, prefix)
    try:
        try:
            ending.let_go()
            work(room)
        finally:
            ending.hold()
    finally:
        room.remove()
        room.close()
        ending.let_go()


def empty(handle):
    """Takes away what stands in a folder, whatever its modes."""
    os.fchmod(handle, MODE)
    for name in os.listdir(handle):
        try:
            os.unlink(name, dir_fd=handle)
        except IsADirectoryError:
            below = opened(name, handle)
            try:
                empty(below)
            finally:
                os.close(below)
            os.rmdir(name, dir_fd=handle)


def opened(name, folder):
    """The handle of a folder whose modes may bar its owner. Nobody else reaches the one that it stands in."""
    try:
        return os.open(name, FOLDER_ONLY, dir_fd=folder)
    except PermissionError:
        os.chmod(name, MODE, dir_fd=folder)
        return os.open(name, FOLDER_ONLY, dir_fd=folder)
