"""Small files of a folder that a tool works on by its handle: read without following a link, and written so that after a stop at any
moment the old text stands there or the new one."""
import os

from entries import Refused, open_file, shown, write_all

# What is written here is shorter by far.
MOST_BYTES = 1_048_576
FRESH = ".new"


def read(folder, name):
    """The bytes of a file in a folder, or nothing where none stands there."""
    try:
        handle, status = open_file(name, folder)
    except FileNotFoundError:
        return None
    except Refused:
        raise Refused(f"{shown(name)}: it is no file") from None
    with open(handle, "rb") as file:
        if status.st_size > MOST_BYTES:
            raise Refused(f"{shown(name)}: it has more than {MOST_BYTES:,} bytes")
        return file.read(MOST_BYTES)


def write(folder, name, content):
    """Puts a text in place of what a file has. It is durable when this returns."""
    fresh = name + FRESH
    remove(folder, fresh)
    handle = os.open(fresh, os.O_WRONLY | os.O_CREAT | os.O_EXCL | os.O_NOFOLLOW, 0o600, dir_fd=folder)
    try:
        write_all(handle, content)
        os.fsync(handle)
    finally:
        os.close(handle)
    os.rename(fresh, name, src_dir_fd=folder, dst_dir_fd=folder)
    os.fsync(folder)


def remove(folder, name):
    """Takes a file away, and says whether one stood there."""
    try:
        os.unlink(name, dir_fd=folder)
    except FileNotFoundError:
        return False
    return True
