"""What makes an entry that was written into a folder that of its tree: its owner, its mode, its capability and its time.

They are given in this order, since Linux takes setuid, setgid and the capability off a file that gets an owner. All is given by handles,
and to a link by its name in a handle, so no link is followed. What can't be given here is noted, and ends nothing: an owner by who isn't
root, or one that this user namespace or file system doesn't know; a capability where these, or this file system, let none be given.
"""
import errno
import os

from attributes import CAPABILITY

# What a call says where this user can't make it, or where a number or an attribute is none here.
CANNOT = errno.EPERM, errno.EINVAL, errno.EOPNOTSUPP, errno.ENOSYS, errno.EOVERFLOW


def can(call, *words, **options):
    """Makes a call, and gives whether it can be made here. One that fails by something else, as a full disk, raises that."""
    try:
        call(*words, **options)
    except OSError as error:
        if error.errno not in CANNOT:
            raise
        return False
    return True


def has_owner(owner, status):
    """Some file systems give another owner, and say nothing of it."""
    return (status.st_uid, status.st_gid) == owner


class Settling:
    """Settles the entries of a tree that are written, with one time, or with none where they keep the time at which they were made.
    Where something else gives the owners of all, none is given here."""

    def __init__(self, tree, time=None, gives_owners=True):
        self.tree, self.gives_owners, self.times = tree, gives_owners, None if time is None else (time, time)

    def settle_file(self, handle, attributes, names):
        is_owned = self.own(handle, attributes, names)
        mode = self.tree.file_mode(attributes, is_owned)
        os.fchmod(handle, mode)
        if mode != self.tree.file_mode(attributes):
            self.tree.lost_setid.append(names)
        if attributes.capability and not can(os.setxattr, handle, CAPABILITY, attributes.capability.value()):
            self.tree.lost_capabilities.append(names)
        self.settle_time(handle)

    def settle_directory(self, handle, attributes, names):
        self.own(handle, attributes, names)
        os.fchmod(handle, attributes.mode)
        self.settle_time(handle)

    def settle_link(self, name, folder, attributes, names):
        """Settles a link, which has no mode of its own."""
        place = {"dir_fd": folder, "follow_symlinks": False}
        if self.gives_owners:
            can(os.chown, name, *attributes.owner, **place)
            self.note_owner(attributes, os.stat(name, **place), names)
        self.settle_time(name, **place)

    def own(self, handle, attributes, names):
        """Gives an owner, and tells whether it is the entry's now."""
        if not self.gives_owners:
            return True
        can(os.fchown, handle, *attributes.owner)
        return self.note_owner(attributes, os.fstat(handle), names)

    def note_owner(self, attributes, status, names):
        is_owned = has_owner(attributes.owner, status)
        if not is_owned:
            self.tree.lost_owners.append(names)
        return is_owned

    def settle_time(self, entry, **place):
        if self.times:
            os.utime(entry, self.times, **place)
