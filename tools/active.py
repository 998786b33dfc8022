"""The folder `active` of a store: what activate keeps there, and whose it is.

  files/         hard links of the homes of generations that are made
  g-N.erofs      the image of generation N, and `g-N`, what was known of it when it was made
  now, before    what is shown, and what was shown before: each a line of JSON, written whole or not at all
  trial          the generation that is being tried

It belongs to who runs the tool, and nobody else may enter it. A command that changes something there locks it first, and the store after
that.
"""
import fcntl
import json
import os
import stat
from contextlib import contextmanager
from typing import NamedTuple

import notes
from asking import MOST_GENERATION
from entries import FOLDER_ONLY, Refused, shown

ACTIVE, LINKS = "active", "files"
MODE = 0o700
NOW, BEFORE = "now", "before"
OTHERS_WRITE = stat.S_IWGRP | stat.S_IWOTH
ROOT = "/"


class State(NamedTuple):
    """What is shown: which generation, at which root, the hierarchies with their classes, and how; in which run of the machine; and whether
    it is one that was shown before."""

    generation: int
    root: str
    hierarchies: dict
    has_confext: bool
    has_suid: bool
    way: str
    machine: str
    is_back: bool


class Known(NamedTuple):
    """What was known of a generation when its image was made."""

    time: int
    index: tuple
    is_checked: bool
    classes: dict


class Active:
    """The folder, by its handle, and that of the store in which it stands."""

    def __init__(self, path, store, handle, links):
        self.path, self.store, self.handle, self.links = path, store, handle, links

    def image(self, number):
        return f"g-{number}.erofs"

    def bytes_of(self, name):
        with open(os.open(name, os.O_RDONLY | os.O_NOFOLLOW, dir_fd=self.handle), "rb") as file:
            return file.read()

    def state(self, name):
        return taken(name, State, said_in(self.handle, name))

    def put(self, name, state):
        """Notes what is shown, or that nothing is."""
        if state is None:
            if notes.remove(self.handle, name):
                os.fsync(self.handle)
        elif state != self.state(name):
            notes.write(self.handle, name, text_of(state))

    def known(self, number):
        """What is known of a generation that is made; nothing where it isn't."""
        found = taken(f"g-{number}", Known, said_in(self.handle, f"g-{number}"))
        return found if found and is_file(self.handle, self.image(number)) else None

    def know(self, number, known):
        notes.write(self.handle, f"g-{number}", text_of(known))

    def made(self):
        """The numbers of the generations of which something stands here."""
        heads = (name.removeprefix("g-").partition(".")[0] for name in os.listdir(self.handle) if name.startswith("g-"))
        return sorted({int(head) for head in heads if head.isdigit()})

    def drop(self, number):
        for name in f"g-{number}", self.image(number), self.image(number) + notes.FRESH:
            notes.remove(self.handle, name)


def is_file(folder, name):
    try:
        return stat.S_ISREG(os.stat(name, dir_fd=folder, follow_symlinks=False).st_mode)
    except FileNotFoundError:
        return False


def text_of(record):
    return json.dumps(record._asdict(), sort_keys=True).encode() + b"\n"


def said_in(folder, name):
    text = notes.read(folder, name)
    if text is None:
        return None
    try:
        return json.loads(text)
    except (ValueError, RecursionError):
        raise spoilt(name) from None


def spoilt(name):
    return Refused(f"active/{name}: it isn't what this tool writes: take it away, and `switch` makes it anew")


def taken(name, kind, said):
    """A record by its text: each field of the kind that it has to be."""
    if said is None:
        return None
    if not isinstance(said, dict) or set(said) != set(kind._fields):
        raise spoilt(name)
    fields = {field: tuple(value) if isinstance(value, list) else value for field, value in said.items()}
    for field, wanted in kind.__annotations__.items():
        if type(fields[field]) is not wanted:
            raise spoilt(name)
    if not all(map(is_fine, fields.items())):
        raise spoilt(name)
    return kind(**fields)


def is_fine(field):
    name, value = field
    if name == "generation":
        return 1 <= value <= MOST_GENERATION
    if name == "root":
        return value.startswith(ROOT) and "\0" not in value
    if name == "time":
        return 0 <= value <= 9_223_372_036_854_775_807
    if name == "index":
        return all(type(number) is int for number in value)
    if name in ("hierarchies", "classes"):
        return all(is_name(key) for key in value) and (name == "classes" or all(isinstance(owner, str) for owner in value.values()))
    return True


def is_name(text):
    return isinstance(text, str) and text not in ("", ".", "..") and "/" not in text and "\0" not in text


def machine():
    """What tells one run of the machine from the others."""
    with open("/proc/sys/kernel/random/boot_id", encoding="ascii") as file:
        return file.read().strip()


def check_owner(status, what):
    """Refuses a folder in which somebody else may write: what stands there would be shown."""
    if status.st_uid != os.geteuid() or status.st_mode & OTHERS_WRITE:
        raise Refused(f"{what}: it has to be the caller's own, and nobody else's to write in: `chown -R root: STORE; chmod -R go= STORE`")


@contextmanager
def store_at(path):
    """The handle of a store's folder, which is the caller's own."""
    handle = os.open(path, os.O_RDONLY | os.O_DIRECTORY)
    try:
        check_owner(os.fstat(handle), shown(path))
        yield handle
    finally:
        os.close(handle)


def folder_in(above, name, what):
    """The handle of a folder that is made where it is missing, and that nobody else may enter."""
    try:
        os.mkdir(name, MODE, dir_fd=above)
        os.fsync(above)
    except FileExistsError:
        pass
    try:
        handle = os.open(name, FOLDER_ONLY, dir_fd=above)
    except NotADirectoryError:
        raise Refused(f"{what}: it is no folder: take it away") from None
    status = os.fstat(handle)
    if status.st_uid != os.geteuid() or stat.S_IMODE(status.st_mode) != MODE:
        os.close(handle)
        raise Refused(f"{what}: it has to be the caller's own, with the mode {MODE:o}")
    return handle


def lock(handle, kind, tells):
    try:
        fcntl.flock(handle, kind | fcntl.LOCK_NB)
    except BlockingIOError:
        tells.tell("waiting for another run on this store")
        fcntl.flock(handle, kind)


@contextmanager
def locked(path, tells):
    """The folder `active` of a store, locked for a command that changes something."""
    with store_at(path) as store:
        place = os.path.join(os.path.realpath(path), ACTIVE)
        handle = folder_in(store, ACTIVE, shown(place))
        try:
            lock(handle, fcntl.LOCK_EX, tells)
            check_stands(path, store)
            links = folder_in(handle, LINKS, f"{shown(place)}/{LINKS}")
            try:
                yield Active(place, store, handle, links)
            finally:
                os.close(links)
        finally:
            os.close(handle)


def check_stands(path, store):
    """Whoever had the lock before may have put another folder at the store's path."""
    if not os.path.samestat(os.stat(path), os.fstat(store)):
        raise Refused(f"{shown(path)}: another folder was put there meanwhile")


@contextmanager
def seen(path):
    """The same for a command that only looks: nothing is made, and nothing locked. There is no folder where nothing was made yet."""
    with store_at(path) as store:
        try:
            handle = os.open(ACTIVE, FOLDER_ONLY, dir_fd=store)
        except FileNotFoundError:
            yield Active(None, store, None, None)
            return
        try:
            yield Active(os.path.join(os.path.realpath(path), ACTIVE), store, handle, None)
        finally:
            os.close(handle)
