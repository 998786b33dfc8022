"""Random hosts with images, from each of which the real host of systemd-sysext or systemd-confext is made and a store of hostext, so
that both merge them and what comes of it is compared."""
import argparse
import copy
import hashlib
import importlib.machinery
import importlib.util
import random
import sys
from dataclasses import dataclass, field
from pathlib import Path

from scenes.chroots import Machine
from scenes.real_trees import WHITEOUT, below, differing, directory, file, is_below, link, opaque, put_below, read, read_text, with_parents, without, write
from scenes.running import TOP, Failed, run, shortened
from scenes.stores import Place
from scenes.updates import compared

sys.path.insert(0, str(TOP / "tools"))
from telling import Teller

SEARCHED = {
    "sysext": ("etc/extensions", "run/extensions", "var/lib/extensions"),
    "confext": ("run/confexts", "var/lib/confexts", "usr/local/lib/confexts", "usr/lib/confexts"),
}
# Where one of them leads that is a link.
THERE = "srv/there"
HIERARCHIES = {"sysext": ("opt", "usr"), "confext": ("etc",)}
RELEASES = {"sysext": "usr/lib/extension-release.d/extension-release.", "confext": "etc/extension-release.d/extension-release."}
FITS, DEBIAN = b"ID=_any\n", b"ID=debian\nVERSION_ID=12\n"
MODES = 0o755, 0o755, 0o700, 0o711, 0o1777, 0o2755
FILE_MODES = 0o644, 0o644, 0o600, 0o755, 0o4755
NAMES = "app", "tool-9", "tool-10", "x.y", "b_2", "b_10", "2net", "z~1", "lib64"
# What a merged hierarchy has of its own.
OWN = {"sysext": (".systemd-sysext", "extensions"), "confext": (".systemd-confext", "confexts")}


@dataclass
class Image:
    """An image of a host: its name, where it stands, what it has, and where its entry leads to where that is a link."""

    name: str
    place: str
    tree: dict
    linked: str = None

    def release(self, kind):
        return RELEASES[kind] + self.name


@dataclass
class Stack:
    """A host with images. What rows take off is kept too: names and paths that stand for others, and bytes that stand for others."""

    version: int
    kind: str
    force: bool
    host: dict
    images: list
    odd: list = field(default_factory=list)
    names: dict = field(default_factory=dict)
    paths: dict = field(default_factory=dict)
    contents: dict = field(default_factory=dict)

    @property
    def hierarchies(self):
        return HIERARCHIES[self.kind]

    def tree(self):
        """The whole tree of the host."""
        tree = with_parents(self.host)
        for image in self.images:
            place = image.linked or image.place
            tree = put_below(tree, place, with_parents(image.tree))
            if image.linked:
                tree = with_parents({**tree, image.place: link(f"/{image.linked}")})
        return tree


def grown(chance, depth, kinds):
    """Entries of few names, so that those of several layers meet."""
    tree = {}
    for name in ("a", "b", "c"):
        kind = chance.choice(kinds)
        if kind == "file":
            tree[name] = file(chance.choice((b"", b"abc", b"def")), chance.choice(FILE_MODES))
        elif kind == "link":
            tree[name] = link(chance.choice(("a", "../b", "/dev/null", "c/a")))
        elif kind == "whiteout":
            tree[name] = WHITEOUT
        elif kind in ("directory", "opaque") and depth:
            tree[name] = (opaque if kind == "opaque" else directory)(chance.choice(MODES))
            tree.update({f"{name}/{path}": entry for path, entry in grown(chance, depth - 1, kinds).items()})
    return tree


BASE_KINDS = "file", "link", "directory", "directory", "none"
IMAGE_KINDS = *BASE_KINDS, "whiteout", "opaque"


def released(chance, kind):
    """A release file that fits the host, or doesn't."""
    level, scope = kind.upper() + "_LEVEL", kind.upper() + "_SCOPE"
    lines = [f"ID={chance.choice(('_any', '_any', 'debian', 'debian', 'fedora'))}"]
    lines += chance.choice(([], [], ["VERSION_ID=12"], ["VERSION_ID=11"], ['VERSION_ID="12"']))
    lines += chance.choice(([], [], [], [f"{level}=1"], [f"{level}=2"]))
    lines += chance.choice(([], [], [], [f"{scope}=system"], [f"{scope}=portable"], [f"{scope}='initrd  system'"]))
    lines += chance.choice(([], [], [], ["ARCHITECTURE=x86-64"], ["ARCHITECTURE=_any"], ["ARCHITECTURE=arm64"], ["ARCHITECTURE="]))
    chance.shuffle(lines)
    return "".join(f"{line}\n" for line in lines).encode()


def host_release(chance, kind):
    lines = ["ID=debian", *chance.choice((["VERSION_ID=12"], ["VERSION_ID=12"], [])), *chance.choice(([], [], [f"{kind.upper()}_LEVEL=2"]))]
    return "".join(f"{line}\n" for line in lines).encode()


def drawn_host(chance, kind):
    where = "etc/os-release" if kind == "sysext" and chance.random() < 0.3 else "usr/lib/os-release"
    host = {"usr": directory(chance.choice(MODES)), "usr/lib": directory(), "opt": directory(), "etc": directory(chance.choice(MODES)), "var/lib": directory(), where: file(host_release(chance, kind))}
    for top in ("usr", "opt", "etc"):
        host.update({f"{top}/{path}": entry for path, entry in grown(chance, 2, BASE_KINDS).items()})
    return host


def drawn_image(chance, kind, name, fits=None):
    """An image with its release file."""
    tree = {}
    for top in sorted({*chance.sample(("usr", "opt", "etc"), chance.choice((1, 2, 2, 3))), RELEASES[kind].split("/")[0]}):
        tree[top] = directory(chance.choice(MODES))
        tree.update({f"{top}/{path}": entry for path, entry in grown(chance, 2, IMAGE_KINDS).items()})
    tree[RELEASES[kind] + name] = file(fits or released(chance, kind))
    return Image(name, f"{chance.choice(SEARCHED[kind])}/{name}", with_parents(tree))


def are_apart(names):
    """Whether no two names are one version."""
    return all(compared(one, other) for at, one in enumerate(names) for other in names[:at])


def drawn(seed, version, odd):
    """A stack of a seed, to which some of the odd things are done that a row tells."""
    chance = random.Random(f"stack {seed}")
    kind = chance.choice(("sysext", "sysext", "confext")) if version >= 254 else "sysext"
    images = [drawn_image(chance, kind, name) for name in chance.sample(NAMES, chance.choice((1, 2, 3, 3, 4, 5, 6)))]
    for image in images:
        if chance.random() < 0.15:
            image.linked = f"srv/{image.name}"
    stack = Stack(version, kind, chance.random() < 0.15, drawn_host(chance, kind), images)
    for make in chance.sample(odd, min(len(odd), chance.choice((0, 1, 1, 2, 2, 3)))):
        make(chance, stack)
        stack.odd.append(make.__name__)
    for folder in SEARCHED[kind]:
        made_way(stack, folder)
    return stack


def made_way(stack, folder):
    """Nothing stands below a search directory that is a file; below one that is a link it stands where that leads."""
    entry = stack.host.get(folder, directory())
    if entry[0] == "d":
        return
    inside = below(stack.host, folder)
    stack.host = {**without(stack.host, folder), folder: entry}
    if entry[0] == "f":
        stack.images = [image for image in stack.images if not is_below(image.place, folder)]
        return
    stack.host.update({f"{THERE}/{path}": one for path, one in inside.items()})
    for image in stack.images:
        if is_below(image.place, folder):
            image.place = image.place.replace(folder, THERE)


def merged_names(tree, kind):
    told = tree.get("/".join((HIERARCHIES[kind][-1], *OWN[kind])))
    return told[2].decode().split() if told else []


def shown(tree, stack):
    """What is at and below the hierarchies of a class."""
    own = [f"{top}/{OWN[stack.kind][0]}" for top in stack.hierarchies]
    return {path: entry for path, entry in tree.items() if path.split("/")[0] in stack.hierarchies and not any(path == name or is_below(path, name) for name in own)}


def of_systemd(systemd, stack, folder):
    """What systemd merges of a stack, what its hierarchies show then, and after they were unmerged."""
    machine, tool = Machine(systemd, folder / "machine"), f"systemd-{stack.kind}"
    machine.root.mkdir(mode=0o755)
    write(stack.tree(), machine.root)
    machine.open()
    told = machine.run(tool, "merge", *(["--force"] if stack.force else []))
    seen = read_hierarchies(machine.root, stack)
    machine.run(tool, "unmerge")
    return merged_names(seen, stack.kind), shown(seen, stack), shown(read_hierarchies(machine.root, stack), stack), told


def read_hierarchies(root, stack):
    """The tree at the hierarchies, one that is a link as the directory to which it leads."""
    found = {}
    for top in stack.hierarchies:
        place = Path(root, top)
        if place.is_symlink():
            place = Path(root, str(place.readlink()).lstrip("/"))
        if place.is_dir():
            found[top] = directory(place.stat().st_mode & 0o7777)
            found.update(read(place, f"{top}/"))
    return found


def packed(folder, depot, name):
    """Packs a folder as tools/pack does."""
    given = dict(SOURCE=str(folder).encode(), DEPOT=str(depot).encode(), RES=name.encode(), without=[], format=None, image=None, most_bytes=the_pack().MOST_TREE_BYTES)
    given |= dict.fromkeys(("layers", "leave_out_special", "usr_merge", "strict", "public", "keep_owners", "root_owned"), False) | {"quiet": True}
    the_pack().pack(argparse.Namespace(**given), Teller("pack", True))


def the_pack():
    if "pack" not in sys.modules:
        loader = importlib.machinery.SourceFileLoader("pack", str(TOP / "tools/pack"))
        module = importlib.util.module_from_spec(importlib.util.spec_from_loader("pack", loader))
        loader.exec_module(module)
        sys.modules["pack"] = module
    return sys.modules["pack"]


def contents_of(tree):
    return {hashlib.sha256(entry[2]).hexdigest(): entry[2] for entry in tree.values() if entry[0] == "f"}


def of_hostext(program, stack, folder):
    """The same of hostext, in a store."""
    base = folder / "hostext"
    (base / "root").mkdir(parents=True, mode=0o755)
    place, tree = Place(program, base), stack.tree()
    write(tree, base / "root")
    packed(base / "root", place.depot, "host")
    force = " --force" if stack.force else ""
    source = f"init x86-64 system\nimport-fs host /\n{stack.kind} merge{force}\ntree\n{stack.kind} unmerge\ntree\n"
    written, told, status = run(program, [bytes(place.store), bytes(place.depot), b"batch"], source.encode())
    replies, texts = parted(written)
    if status or told or replies[:2] != ["done", "done"] or len(texts) != 2:
        raise Failed(f"hostext ended with {status}: {shortened(told)} {shortened(written)}")
    files = contents_of(tree)
    names = [] if replies[2].startswith(("merged 0", "refused 5", "refused 6")) else replies[3 : 3 + int(replies[2].split()[1])]
    return names, *(shown(read_text(text, files), stack) for text in texts), (written[:80].decode(), "", status)


def parted(written):
    """The lines of replies, and the tree texts among them."""
    lines, texts, text = [], [], None
    for line in written.split(b"\n")[:-1]:
        if text is None and line.startswith(b"hostext-tree "):
            text = []
        if text is None:
            lines.append(line.decode())
            continue
        text.append(line)
        if line == b"end":
            texts.append(b"\n".join(text) + b"\n")
            text = None
    return lines, texts


def taken_back(tree, stack):
    """A tree of hostext's, with the paths and bytes that rows put there taken back."""
    found = {}
    for path, entry in tree.items():
        path = stack.paths.get(path, path)
        if path is not None:
            found[path] = (*entry[:2], stack.contents.get(entry[2], entry[2])) if entry[0] == "f" else entry
    return found


def normalised(given, rows):
    """The same as hostext gets it: what rows tell is taken off. And the rows that had something to take off."""
    given, used = copy.deepcopy(given), []
    for row in rows:
        before = copy.deepcopy(given)
        row(given)
        if given != before:
            used.append(row.__name__)
    return given, used


def compare(systemd, program, stack, rows, folder):
    """Merges a stack by both, and fails where something differs that no row tells. Gives the rows that were used."""
    wanted = of_systemd(systemd, stack, folder)
    given, used = normalised(stack, rows)
    found = of_hostext(program, given, folder)
    names = [given.names.get(name, name) for name in found[0]]
    said = f"{stack.kind}{' --force' * stack.force}, with {stack.odd}; systemd says {shortened(' '.join(wanted[3][1].split()))}, hostext {found[3][0]!r}"
    if names != wanted[0]:
        raise Failed(f"merged are {names}, and not {wanted[0]}; {said}")
    for when, one, other in zip(("merged", "unmerged"), found[1:3], wanted[1:3]):
        if why := differing(taken_back(one, given), other):
            raise Failed(f"once it was {when} {why}; {said}")
    return [*used, *["merged something"] * bool(names)]
