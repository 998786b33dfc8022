"""The owners and the capabilities that the entries of a folder have in a tree text, and what is told of them.

Root has each as it is. Where somebody else packs a folder his own entries become root's, so that what he made himself has the same text
for everybody: those of his user with one of his groups.
"""
import os
import stat

from attributes import CAPABILITY, ROOT, Attributes, capability_of, owner_of
from entries import Refused
from telling import Found
from walking import CHANGED

UNSAID = "file capabilities that no tree text says"
SETID = stat.S_ISUID | stat.S_ISGID


def names_of_attributes(handle):
    """The names of extended attributes; none where a file system has none, or lets nobody see them."""
    try:
        return set(os.listxattr(handle, follow_symlinks=isinstance(handle, int)))
    except OSError:
        return set()


def has_capability(handle):
    """Whether a file has one: to list its attributes takes less time than to be told that it hasn't this one."""
    try:
        return CAPABILITY in os.listxattr(handle)
    except OSError:
        return False


def value_at(handle):
    """The bytes of a capability. None are those of one that the system doesn't say."""
    try:
        return os.getxattr(handle, CAPABILITY)
    except OSError:
        return b""


class Owners:
    """Whose the entries of a folder are. `given` has the options: all may be root's, or the caller's own keep their owner."""

    def __init__(self, given):
        self.all_root, self.user, self.groups = given.root_owned, os.geteuid(), {os.getegid(), *os.getgroups()}
        self.keeps_own = given.keep_owners or self.user == 0

    def becomes_root(self, status):
        """Whether an entry is the caller's own, and becomes root's."""
        return not (self.keeps_own or self.all_root) and status.st_uid == self.user and status.st_gid in self.groups

    def of(self, status):
        return ROOT if self.all_root or self.becomes_root(status) else owner_of(status.st_uid, status.st_gid)


class Attributed:
    """The attributes of a folder's entries, as they are read for their lines. What is told of them is noted, of what is the caller's own
    when an entry is looked at before. `unsaid` has the files whose capability no tree text says, where these were looked at before, too:
    then no other one is lost."""

    def __init__(self, folder, given, unsaid=None):
        self.folder, self.owners, self.unsaid, self.known = folder, Owners(given), unsaid, {}
        self.own, self.setid, self.lost = Found(), Found(), Found()

    def look(self, names, status, _handle):
        if not self.owners.becomes_root(status) or stat.S_ISCHR(status.st_mode):
            return
        self.own.add(os.path.join(self.folder, *names))
        if stat.S_ISREG(status.st_mode) and status.st_mode & SETID:
            self.setid.add(os.path.join(self.folder, *names))

    def look_at_capability(self, names, handle):
        """Looks at the capability of a file that has one."""
        if capability_of(value_at(handle)) is None:
            self.unsaid.add(names)
            self.lost.add(os.path.join(self.folder, *names))

    def read(self, names, status, handle=None):
        """The attributes of an entry; the handle is that of a file."""
        key = status.st_mode, status.st_uid, status.st_gid
        found = self.known.get(key)
        if found is None:
            found = self.known[key] = Attributes(stat.S_IMODE(status.st_mode), self.owners.of(status))
        if handle is None or not has_capability(handle):
            return found
        return found._replace(capability=self.capability(names, handle))

    def capability(self, names, handle):
        found = capability_of(value_at(handle))
        if found is None and self.unsaid is None:
            self.lost.add(os.path.join(self.folder, *names))
        elif found is None and names not in self.unsaid:
            raise Refused(CHANGED)
        return found

    def losses(self):
        return [f"lost: {UNSAID}: {self.lost}"] if self.lost.count else []

    def lines(self):
        """What is told of the caller's own entries."""
        lines = [f"your own, which become root's: {self.own}; --keep-owners keeps their owner"] if self.own.count else []
        return lines + ([f"setuid and setgid, which become root's: {self.setid}"] if self.setid.count else [])


def add_options(parser):
    """The options of a tool that say whose entries are."""
    chosen = parser.add_mutually_exclusive_group()
    chosen.add_argument("--keep-owners", action="store_true", help="keep the owner of your own entries in a folder, too")
    chosen.add_argument("--root-owned", action="store_true", help="give all to root")
