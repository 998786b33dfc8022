"""Trees as a list of entries, made as real folders with what overlayfs reads, and read from them."""
import os
import stat
from pathlib import Path

from scenes.folders import make_whiteout

OPAQUE = "trusted.overlay.opaque"


def directory(mode=0o755):
    return "d", mode


def opaque(mode=0o755):
    return "o", mode


def file(content=b"", mode=0o644):
    return "f", mode, content


def link(target):
    return "l", target


WHITEOUT = ("w",)


def names(path):
    return path.split("/")


def parents(path):
    """The paths above one, the shortest first."""
    parts = names(path)
    return ["/".join(parts[:at]) for at in range(1, len(parts))]


def is_below(path, above):
    return path.startswith(f"{above}/")


def below(tree, above):
    """What stands below a path, by its path there."""
    return {path[len(above) + 1 :]: entry for path, entry in tree.items() if is_below(path, above)}


def at_and_below(tree, above):
    return {path: entry for path, entry in tree.items() if path == above or is_below(path, above)}


def without(tree, above):
    return {path: entry for path, entry in tree.items() if path != above and not is_below(path, above)}


def with_parents(tree):
    """The tree with the directories that its entries need."""
    return {**{above: directory() for path in tree for above in parents(path)}, **tree}


def put_below(tree, above, other):
    """The tree with another one below a path, and nothing else there."""
    return with_parents({**without(tree, above), above: other.get("", directory()), **{f"{above}/{path}": entry for path, entry in other.items() if path}})


def in_order(tree):
    return sorted(tree.items(), key=lambda item: names(item[0]))


def write(tree, folder):
    """Makes the entries of a tree in a folder that is there, with their modes."""
    folder = Path(folder)
    for path, entry in in_order(tree):
        place = folder / path
        if entry[0] in "do":
            place.mkdir(exist_ok=True)
            if entry[0] == "o":
                os.setxattr(place, OPAQUE, b"y")
        elif entry[0] == "f":
            place.write_bytes(entry[2])
            for name, value in entry[3:]:
                os.setxattr(place, name, value)
        elif entry[0] == "l":
            os.symlink(os.fsencode(entry[1]), os.fsencode(place))
        else:
            make_whiteout(place)
    for path, entry in reversed(in_order(tree)):
        if entry[0] in "dof":
            os.chmod(folder / path, entry[1])


def read(folder, above=""):
    """The entries of a folder, by their paths. What is listed and isn't there is none: the name of a whiteout, which the kernel lists
    where one layer alone has the directory."""
    found = {}
    for entry in os.scandir(folder):
        path = f"{above}{entry.name}"
        try:
            status = entry.stat(follow_symlinks=False)
        except FileNotFoundError:
            continue
        mode = stat.S_IMODE(status.st_mode)
        if stat.S_ISDIR(status.st_mode):
            found[path] = directory(mode)
            found.update(read(entry.path, f"{path}/"))
        elif stat.S_ISREG(status.st_mode):
            found[path] = file(Path(entry.path).read_bytes(), mode)
        elif stat.S_ISLNK(status.st_mode):
            found[path] = link(os.readlink(entry.path))
        else:
            found[path] = ("special", stat.S_IFMT(status.st_mode), status.st_rdev)
    return found


def read_text(text, files):
    """The entries of a tree text; `files` gives the bytes of a digest."""
    found = {}
    for line in text.decode().splitlines()[1:-1]:
        kind, rest = line.split(" ", 1)
        if kind in "do":
            mode, path = rest.split(" ", 1)
            found[path] = kind, int(mode, 8)
        elif kind == "f":
            mode, _, digest, path = rest.split(" ", 3)
            found[path] = file(files[digest], int(mode, 8))
        elif kind == "l":
            length, rest = rest.split(" ", 1)
            target = rest.encode()[: int(length)].decode()
            found[rest[len(target) + 1 :]] = link(target)
        else:
            found[rest] = WHITEOUT
    return found


def differing(one, other):
    """The first path at which two trees differ, with what each has there, or nothing."""
    paths = sorted((path for path in one.keys() | other.keys() if one.get(path) != other.get(path)), key=names)
    return f"{paths[0]} is {one.get(paths[0])}, and not {other.get(paths[0])}" if paths else None
