"""Makes what a mount needs of a generation: hard links of its homes, and its image.

The store is locked as by a reader from the look at `current` on, until all is made. The links come first and are synced, then the image,
which is written beside its place, synced and renamed, and last what was known of it. So what has a note is whole. Where it is there
already nothing is made: the index is the one of then, or else the image that is written again is the same.
"""
import os
import subprocess
import time
from contextlib import contextmanager
from typing import NamedTuple

import asking
import calls
import ending
import homes
import notes
from active import Known, check_stands
from entries import Refused, reasons_of, shown, stamp_of
from reading import Store, program, reason_of

MOST_REFUSAL_BYTES = 65_536


class Generation(NamedTuple):
    """A generation that is made: its number, and which hierarchies are merged, each with its class."""

    number: int
    classes: dict
    is_new: bool


def classes_of(standing):
    """The hierarchies of each class that is merged, with its name."""
    return {os.fsdecode(name): owner.decode() for owner in standing.merged for name in standing.hierarchies[owner]}


def make(active, path, mark, is_checked, tells):
    """Makes the current generation of a store, or that of a mark, where it isn't made yet."""
    with Store(path, tells) as store:
        check_stands(path, active.store)
        standing = asking.what_stands(active.store, mark)
        number, classes = standing.generation, classes_of(standing)
        known = active.known(number)
        is_the_same = known is not None and is_made_of(active, store, standing, mark, known)
        if is_checked and not (is_the_same and known.is_checked):
            check(active, store, mark)
        if is_the_same:
            more = known._replace(index=standing.index or known.index, classes=classes, is_checked=known.is_checked or is_checked)
            if more != known:
                active.know(number, more)
            return Generation(number, classes, False)
        known = Known(time_after(active), standing.index, is_checked, classes)
        write(active, store, number, mark, known)
        return Generation(number, classes, True)


def is_made_of(active, store, standing, mark, known):
    """Whether what is made is of this generation, and not of one with the same number of another store that stood here."""
    number = standing.generation
    if standing.index and standing.index == known.index:
        return True
    with written(active, store, number, mark, known.time) as name:
        return active.bytes_of(name) == active.bytes_of(active.image(number))


def time_after(active):
    """A time for the entries of an image, after that of each one before."""
    known = [known.time for known in map(active.known, active.made()) if known]
    return max(int(time.time()), *(before + 1 for before in known), 0)


def check(active, store, mark):
    """Compares each file with its digest. That of the program looks at what is seen, at what lies under views and at all marks."""
    if mark is None:
        store.read("check")
        return
    for home, (size, digest) in asking.files_at_mark(active.store, mark).items():
        try:
            found = stamp_of(home, folder=active.store)
        except (OSError, Refused) as error:
            raise Refused(f"{shown(home)}: {reasons_of(error)[0]}: the store is damaged, and generation {mark} with it") from None
        if found != (size, digest):
            raise Refused(f"{shown(home)}: its bytes are others than listed: the store is damaged, and generation {mark} with it")


def write(active, store, number, mark, known):
    with written(active, store, number, mark, known.time) as name:
        homes.link(homes.homes_of(active.bytes_of(name), number), active.store, active.links)
        calls.sync_all(active.links)
        notes.remove(active.handle, f"g-{number}")
        os.rename(name, active.image(number), src_dir_fd=active.handle, dst_dir_fd=active.handle)
        os.fsync(active.handle)
    active.know(number, known)


@contextmanager
def written(active, store, number, mark, seconds):
    """The name of a file in `active` with the image of a generation, which goes where it wasn't renamed."""
    name = active.image(number) + notes.FRESH
    notes.remove(active.handle, name)
    file = os.open(name, os.O_RDWR | os.O_CREAT | os.O_EXCL | os.O_NOFOLLOW, 0o600, dir_fd=active.handle)
    try:
        try:
            print_image(store, mark, seconds, file)
            os.fsync(file)
        finally:
            os.close(file)
        yield name
    finally:
        notes.remove(active.handle, name)


def print_image(store, mark, seconds, file):
    options = (*(() if mark is None else (f"--mark={mark}",)), f"--time={seconds}")
    streams = {"stdin": subprocess.DEVNULL, "stdout": file, "stderr": subprocess.PIPE}
    around = {**(store.around or os.environ), "HOSTEXT_EXPLAIN": "yes"}
    with ending.started([program("hostext_erofs"), store.place, *options], env=around, **streams) as child:
        told = child.communicate()[1]
    if child.returncode:
        said = os.pread(file, MOST_REFUSAL_BYTES, 0) if child.returncode == 1 else told
        raise reason_of(("hostext_erofs", *options), child.returncode, said)
