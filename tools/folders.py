"""Packs a folder: it is walked twice, first to see what of it is taken and what is lost, and then to copy it."""
import os
from contextlib import contextmanager

from entries import Refused, shown
from losses import Losses
from owners import Attributed
from packing import TEXT, Copies, write_text
from texts import tree_text
from trees import SPECIAL
from usr_merge import below_usr, beside_usr, warning
from walking import Walk, is_special


class Choice:
    """Which places are taken: none that was named, and no special ones where these are left out."""

    def __init__(self, given, tells, handle):
        self.without = {tuple(name for name in path.split(b"/") if name): path for path in given.without}
        self.leaves_out_special, self.folder, self.tells = given.leave_out_special, given.SOURCE, tells
        top = b"/proc/self/fd/%d" % handle
        missing = [path for names, path in self.without.items() if not names or not os.path.lexists(os.path.join(top, *names))]
        if missing:
            raise Refused(*(f"--without {shown(path)}: nothing below {shown(self.folder)} stands there" for path in missing))

    def full(self, names):
        return os.path.join(self.folder, *names)

    def takes(self, names, status):
        if names in self.without:
            return False
        if self.leaves_out_special and is_special(status):
            self.tells.tell(f"left out: {shown(self.full(names))}")
            return False
        return True


def places_of(walk, losses, given, tells):
    """What is packed, once what is lost was told."""
    losses.look_at_top(walk.handle)
    try:
        places = walk.places()
    except Refused as refused:
        advice = SPECIAL[1:] if walk.has_special else ()
        raise Refused(*refused.args, *advice) from None
    if given.usr_merge:
        places = below_usr(walk.folder, places)
    elif beside := beside_usr(places):
        tells.tell(warning(beside))
    if given.strict and losses.lines():
        raise Refused(*losses.lines())
    tells.tell(*losses.attributed.lines(), *losses.lines())
    return places


@contextmanager
def looked_through(given, tells, handle):
    """A folder by its handle, with the places of it that are packed, once what is lost was told, and what reads their attributes."""
    attributed = Attributed(given.SOURCE, given, set())
    losses = Losses(given.SOURCE, attributed)
    with Walk(given.SOURCE, tells, Choice(given, tells, handle).takes, losses.look, handle) as walk:
        yield walk, places_of(walk, losses, given, tells), attributed


def write_folder(walk, places, attributed, room, place):
    """Writes the files and the tree text in a room."""
    with Copies(room, place) as copies:
        text = tree_text(list(walk.lines(places, attributed, copies.copy)))
    write_text(room, TEXT, (text,))
