"""What a manifest and tree texts list: the files that a depot is to have, and which of them it lacks."""
from typing import NamedTuple, Optional

from depots import MANIFEST
from entries import MOST_LISTED, MOST_TREE_BYTES, Refused, check_path, shown
from texts import Faulty, entries_in

OWN = b".fetch", b"SHA256SUMS"
TREE = b".tree"


class File(NamedTuple):
    """A file that a depot is to have: below which directory of its own or none, its path there, its digest, and its size where one is
    listed."""

    directory: bytes
    path: bytes
    digest: str
    size: Optional[int]

    @property
    def names(self):
        return (self.directory, *self.path.split(b"/")) if self.directory else (self.path,)

    def is_at(self, stamp):
        return stamp is not None and stamp[1] == self.digest and self.size in (None, stamp[0])


def is_name(name):
    try:
        check_path(tuple(name.split(b"/")))
    except Refused:
        return False
    return b"/" not in name


def directory_of(name):
    """The directory whose tree text has this name, or nothing where the name is that of a file."""
    directory = name.removesuffix(TREE)
    return directory if directory != name and is_name(directory) else None


def is_tree(file):
    return not file.directory and directory_of(file.path) is not None


def path_of(file):
    return shown(b"/".join(file.names))


def published(manifest, note):
    """The listed names that stand for something, with their digests. The others are told."""
    for why, is_passed in ("that no file can have", lambda name: not is_name(name)), ("that fetch keeps for itself", lambda name: name.startswith(OWN)):
        names = sorted(filter(is_passed, manifest))
        manifest = {name: digest for name, digest in manifest.items() if not is_passed(name)}
        if names:
            note(f"passed over: {len(names):,} names {why}, as {shown(names[0])}")
    for name in manifest:
        if directory_of(name) in manifest:
            raise Refused(f"{shown(MANIFEST)}: it lists {shown(directory_of(name))} as a file and as a directory")
    return manifest


def chosen(names, wanted):
    """The listed names of the wanted resources, or of all where none is named."""
    missing = [name for name in wanted if name not in names and name + TREE not in names]
    if missing:
        raise Refused(*(f"{shown(name)}: the manifest doesn't list it" for name in missing))
    return {name for name in names if not wanted or name in wanted or directory_of(name) in wanted}


def listed_in(text, content):
    """The path, the digest and the size of each file that a tree text lists."""
    try:
        found = [(b"/".join(names), fields[2].decode(), int(fields[1])) for kind, fields, names in entries_in(content) if kind == b"f"]
    except Faulty as fault:
        raise Refused(f"{path_of(text)}: {fault}") from None
    if sum(size for _, _, size in found) > MOST_TREE_BYTES:
        raise Refused(f"{path_of(text)}: its files have more than {MOST_TREE_BYTES:,} bytes")
    return found


def files_of(texts, read):
    """The files that tree texts list. Those of one digest are one text, and read once."""
    same, count, found = {}, 0, []
    for text in texts:
        same.setdefault(text.digest, []).append(text)
    for one, *others in same.values():
        content = read(one)
        count += content.count(b"\n") * (1 + len(others))
        if count > MOST_LISTED:
            raise Refused(f"{path_of(one)}: with it the directories list more than {MOST_LISTED:,} entries; name the resources that are wanted")
        listed = listed_in(one, content)
        found += [File(directory_of(text.path), *row) for text in (one, *others) for row in listed]
    return found


def lacking(depot, files):
    """The files that a depot lacks, and of each digest that it has one file with its size."""
    missing, standing = [], {}
    for file, stamp in zip(files, depot.stamps(file.names for file in files)):
        if file.is_at(stamp):
            standing[file.digest] = file if file.size is not None else file._replace(size=stamp[0])
        else:
            missing.append(file)
    return missing, standing


def one_of_each(missing, standing):
    """One of the missing files for each digest that stands nowhere. Bytes have one size, so two can't be listed with one digest."""
    known = dict(standing)
    for file in missing:
        other = known.setdefault(file.digest, file)
        if other.size is None:
            known[file.digest] = file
        elif file.size not in (None, other.size):
            raise Refused(f"{path_of(file)}: it is listed with another size than {path_of(other)}, and with the same digest")
    return [file for digest, file in known.items() if digest not in standing]


def reader_of(depot, missing):
    """What reads a tree text: one of those that came, or else the one in the depot."""
    came = {text.digest for text in missing}
    return lambda text: depot.read_room(text.digest) if text.digest in came else depot.read(text.path) or b""
