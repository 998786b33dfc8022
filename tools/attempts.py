"""How far an update with health checks is: the file `update` of the folder `active`, of one line, and the file `refused`, a line for each
version that failed its checks. Both are written by rename, so that a stop leaves one step or the next.

The line is `STEP MARK GENERATION BOOT VERSION`. MARK is what the host was marked by before the update, GENERATION the one that is tried,
or 0 before there is one, and BOOT the identity of the boot in which it was last to be shown, or `-`. Each step says what is to be done
next:

    marking     the host is to be marked, where the mark isn't there yet
    updating    the version is to be installed, and what is merged is to be merged anew
    installed   the generation is to be shown, and then to be checked
    good        the mark is to be dropped
    bad         the version is to be refused, and the store to go back to the mark
    back        what the mark had is to be shown, and the mark to be dropped
"""
import fcntl
import re
from contextlib import contextmanager
from typing import NamedTuple

import notes
from entries import Refused

NAME, REFUSED = "update", "refused"
MARKING, UPDATING, INSTALLED, GOOD, BAD, BACK = "marking", "updating", "installed", "good", "bad", "back"
LINE = re.compile(rb"(marking|updating|installed|good|bad|back) ([0-9]{1,10}) ([0-9]{1,10}) (-|[0-9a-f-]{36}) ([^\n]+)\n")
NO_BOOT = b"-"
# The youngest ones stay.
MOST_REFUSED = 1_000


class Attempt(NamedTuple):
    step: str
    mark: int
    generation: int
    boot: bytes
    version: bytes

    def at(self, step, **changes):
        return self._replace(step=step, **changes)


@contextmanager
def locked(active):
    """The lock under which something is written in the folder. No program is run meanwhile."""
    fcntl.flock(active, fcntl.LOCK_EX)
    try:
        yield
    finally:
        fcntl.flock(active, fcntl.LOCK_UN)


def read(active):
    """How far the update is; nothing where none is under way."""
    text = notes.read(active, NAME)
    if text is None:
        return None
    found = LINE.fullmatch(text)
    if not found:
        raise Refused(f"{NAME}: it tells of no update: take it away where none is under way")
    return Attempt(found[1].decode(), int(found[2]), int(found[3]), found[4], found[5])


def write(active, attempt):
    with locked(active):
        notes.write(active, NAME, b"%b %d %d %b %b\n" % (attempt.step.encode(), *attempt[1:]))


def end(active):
    with locked(active):
        notes.remove(active, NAME)


def refused_versions(active):
    return (notes.read(active, REFUSED) or b"").split(b"\n")[:-1]


def refuse(active, version):
    """Has a version skipped from now on."""
    with locked(active):
        before = refused_versions(active)
        if version not in before:
            notes.write(active, REFUSED, b"".join(b"%b\n" % one for one in [*before, version][-MOST_REFUSED:]))
