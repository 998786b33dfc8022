"""What a merged /usr has of the folders that stood beside it: bin, sbin, lib and lib64."""
import os
import stat

from entries import MOST_ENTRIES, Refused, check_path, shown
from walking import Place

BESIDE = b"bin", b"sbin", b"lib", b"lib64"
USR = (b"usr",)


def beside_usr(places):
    """Which of these folders stand there. A link, as to usr/bin, is none."""
    return [place.names[0] for place in places if len(place.names) == 1 and place.names[0] in BESIDE and is_directory(place)]


def warning(beside):
    """What is told of such folders where they stay."""
    return f"{', '.join(map(shown, beside))}: no hierarchy of an extension image shows what stands there; --usr-merge puts it below usr"


def is_directory(place):
    return place.kind == stat.S_IFDIR


def below_usr(folder, places):
    """The places of a tree that has below usr what stands in such folders. Directories are joined; one that is in both has what usr
    has of it. A usr that is missing is made."""
    beside = set(beside_usr(places))
    if not beside:
        return places
    found = {place.path: place for place in places if place.path[0] not in beside}
    usr = found.setdefault(USR, Place((), USR, stat.S_IFDIR))
    if not is_directory(usr):
        raise Refused(f"{shown(os.path.join(folder, *USR))}: no directory, so nothing can be put below it")
    add(folder, found, [place for place in places if place.path[0] in beside])
    return sorted(found.values(), key=lambda place: place.path)


def add(folder, found, moved):
    """Adds what is moved to what is found. Where both have an entry that isn't a directory in both, all such paths are told."""
    reasons = []
    for place in moved:
        full, path = os.path.join(folder, *place.names), (*USR, *place.path)
        there = found.setdefault(path, place._replace(path=path))
        if there.names != place.names and not (is_directory(there) and is_directory(place)):
            reasons.append(f"{shown(full)}: {shown(os.path.join(folder, *there.names))} stands there too")
        try:
            check_path(path)
        except Refused as reason:
            reasons.append(f"{shown(full)}: below usr it has {reason}")
    if len(found) > MOST_ENTRIES:
        reasons.append(f"{shown(folder)}: {len(found):,} entries, where a tree has at most {MOST_ENTRIES:,}")
    if reasons:
        raise Refused(*reasons)
