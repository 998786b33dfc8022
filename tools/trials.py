"""The trial of a generation that is shown and not yet found healthy: the file `trial` of the folder `active`, which is told by its
handle and is locked by whoever writes there.

Its one line is `N fresh` where generation N was not shown yet, and `N tried` from then on. So a machine that stops, or hangs, before N
was found healthy finds `N tried` when it starts again, and shows what it showed before.
"""
import os
import re

import notes

TRIAL = "trial"
FRESH, TRIED = b"fresh", b"tried"
LINE = re.compile(rb"([1-9][0-9]{0,9}) (fresh|tried)\n")


def begin(active, number):
    """Generation `number` is to be tried."""
    put(active, number, FRESH)


def take(active, number):
    """Notes that a generation is about to be shown, where it is to be tried. That is durable when this returns."""
    if state(active) == (number, FRESH):
        put(active, number, TRIED)


def is_spent(active, number):
    """Whether a generation was shown once and never found healthy."""
    return state(active) == (number, TRIED)


def end(active):
    """No generation is being tried any more."""
    if notes.remove(active, TRIAL):
        os.fsync(active)


def state(active):
    """The number of the generation that is being tried, and whether it was shown; nothing where none is, or where the line is none."""
    found = LINE.fullmatch(notes.read(active, TRIAL) or b"")
    return (int(found[1]), found[2]) if found else None


def put(active, number, word):
    notes.write(active, TRIAL, b"%d %b\n" % (number, word))
