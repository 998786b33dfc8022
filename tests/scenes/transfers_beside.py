"""Random transfers with their sources and targets, from each of which the real host of systemd-sysupdate is made and a store and a depot
of hostext, so that both tell and install versions and what comes of it is compared."""
import copy
import hashlib
import os
import random
from dataclasses import dataclass, field

from scenes.chroots import Machine
from scenes.real_trees import at_and_below, differing, directory, file, link, read, read_text, with_parents, without, write
from scenes.running import Failed, run, shortened
from scenes.stacks import contents_of, normalised, packed, parted
from scenes.stores import Place

POOL = "1", "2", "3", "4", "9", "10", "1.1", "2.5", "3-1", "4+1"
PATTERNS = {"directory": ("tool_@v", "@v.d", "x-@v"), "regular-file": ("foo_@v.raw", "@v.img", "a-@v"), "url-file": ("foo_@v.raw", "@v.img", "a-@v")}
FOLDER, MANIFEST = "etc/sysupdate.d", "SHA256SUMS"
# What a cut-off update leaves there.
PART = ".#sysupdate"


@dataclass
class Transfer:
    """A transfer: what its file says, what its source offers and which instances its target has, by versions."""

    name: str
    kind: str
    pattern: str
    source: str
    target: str
    offers: dict
    instances: dict
    most: int = 2
    protect: list = field(default_factory=list)
    on_a_line: bool = False
    minimum: str = None
    mode: str = None
    link: str = None
    features: list = field(default_factory=list)
    tails: dict = field(default_factory=dict)

    @property
    def is_directory(self):
        return self.kind == "directory"

    def named(self, version):
        return self.pattern.replace("@v", version)

    def text(self):
        protect = [" ".join(self.protect)] if self.on_a_line else self.protect
        path = "file:///" if self.kind == "url-file" else "/"
        target = [f"Type={'directory' if self.is_directory else 'regular-file'}", f"Path=/{self.target}", f"MatchPattern={self.pattern}"]
        given = {"InstancesMax": self.most, "Mode": self.mode, "CurrentSymlink": self.link}
        lines = [
            *("[Transfer]", "Verify=no", *(f"ProtectVersion={word}" for word in protect), *(f"Features={name}" for name in self.features)),
            *([f"MinVersion={self.minimum}"] if self.minimum else []),
            *("[Source]", f"Type={self.kind}", f"Path={path}{self.source}", f"MatchPattern={self.pattern}"),
            *("[Target]", *target, *(f"{key}={value}" for key, value in given.items() if value is not None)),
        ]
        return "".join(f"{line}\n" for line in lines).encode()


@dataclass
class Updating:
    """A host with transfers, and what it is asked; which files are others than their manifests list. What rows take off is kept too:
    whether it is asked for news and counts what it lists before, paths that stand for others, versions that aren't listed, or not as available, tops of directories that keep their modes,
    links of which counts where they lead, and versions that are one; and what systemd answered, and left below /var."""

    transfers: list
    features: dict
    host: dict
    command: str
    manifests: dict = field(default_factory=dict)
    asks_for_news: bool = True
    lists_before: bool = True
    paths: dict = field(default_factory=dict)
    unlisted: set = field(default_factory=set)
    unoffered: set = field(default_factory=set)
    keeps_tops: bool = False
    answer: tuple = ()
    left: tuple = ()
    leads: set = field(default_factory=set)
    same: dict = field(default_factory=dict)
    wrong: str = None
    wrongs: dict = field(default_factory=dict)
    odd: list = field(default_factory=list)

    def is_on(self, transfer):
        return not transfer.features or any(self.features.get(name) for name in transfer.features)

    def tree(self):
        """The tree of the host."""
        tree = dict(self.host)
        for transfer in self.transfers:
            tree[f"{FOLDER}/{transfer.name}.transfer"] = file(transfer.text())
            for version, entry in transfer.instances.items():
                tree.update(placed(f"{transfer.target}/{transfer.named(version)}{transfer.tails.get(version, '')}", entry))
        for name, is_on in self.features.items():
            tree[f"{FOLDER}/{name}.feature"] = file(f"[Feature]\nEnabled={'yes' if is_on else 'no'}\n".encode())
        return with_parents(tree)

    def sources(self):
        """What the sources have, by their paths."""
        found = {}
        for transfer in self.transfers:
            found.setdefault(transfer.source, directory())
            for version, entry in transfer.offers.items():
                found.update(placed(f"{transfer.source}/{transfer.named(version)}", self.standing(transfer, version, entry)))
        return found

    def standing(self, transfer, version, entry):
        """What stands in a source, which may be another file than its manifest lists."""
        return file(entry[2].upper(), entry[1]) if self.wrongs.get(transfer.name) == version else entry


def placed(path, entry):
    """An entry at a path, or a directory there with all that it has."""
    return {path: entry} if isinstance(entry, tuple) else {f"{path}/{name}".rstrip("/"): one for name, one in entry.items()}


def resource(chance, kind, version, what):
    """A file of a version, or a directory."""
    content = f"{what} of version {version} {chance.randrange(1000)}\n".encode() * 2
    if kind != "directory":
        return file(content)
    return {"": directory(), "a": file(content, chance.choice((0o644, 0o600, 0o755))), "b": directory(chance.choice((0o755, 0o700))), "b/c": link("../a")}


def drawn_transfer(chance, at, versions):
    kind = chance.choice(tuple(PATTERNS))
    offered = [version for version in versions if chance.random() < 0.75]
    installed = [version for version in versions if chance.random() < 0.4]
    transfer = Transfer(
        f"{at}0-t",
        kind,
        chance.choice(PATTERNS[kind]),
        f"srv/s{at}",
        f"var/lib/t{at}",
        {version: resource(chance, kind, version, "source") for version in offered},
        {version: resource(chance, kind, version, "target") for version in installed},
        chance.choice((2, 2, 3, 4)),
        chance.sample(versions, chance.choice((0, 0, 1))),
    )
    transfer.minimum = chance.choice((None, None, None, None, "1"))
    transfer.mode = None if kind == "directory" else chance.choice(("600", "0644", "755"))
    transfer.link = chance.choice((None, None, "current", f"/var/current-{at}"))
    return transfer


def drawn(seed, odd):
    """Transfers of a seed, to which some of the odd things are done that a row tells."""
    chance = random.Random(f"updates {seed}")
    versions = chance.sample(POOL, 5)
    transfers = [drawn_transfer(chance, at, versions) for at in range(chance.choice((1, 2, 2, 3)))]
    if chance.random() < 0.5:
        whole = [version for version in versions if version in transfers[0].instances]
        for transfer in transfers:
            transfer.instances = {version: transfer.instances.get(version) or resource(chance, transfer.kind, version, "target") for version in whole}
    host = {"usr/lib/os-release": file(b"ID=debian\n"), "var/lib": directory(), **{transfer.target: directory() for transfer in transfers if transfer.instances}}
    command = chance.choice(("update", "update", "update", "vacuum", f"update {chance.choice(versions)}", "update 77"))
    case = Updating(transfers, {}, host, command)
    for make in chance.sample(odd, min(len(odd), chance.choice((0, 1, 1, 2, 3)))):
        make(chance, case)
        case.odd.append(make.__name__)
    for transfer in case.transfers:
        entry = case.host.get(transfer.target, directory())
        if entry[0] != "d":
            transfer.instances, transfer.tails = {}, {}
            case.host = {**without(case.host, transfer.target), transfer.target: entry}
    return case


def manifest(lines):
    return "".join(f"{digest}  {name}\n" for name, digest in sorted(lines.items())).encode()


def digest(content):
    return hashlib.sha256(content).hexdigest()


def sums(case, transfer):
    """The manifest of a source of files."""
    listed = {transfer.named(version): digest(entry[2]) for version, entry in transfer.offers.items() if isinstance(entry, tuple)}
    return case.manifests.get(transfer.source, lambda text: text)(manifest(listed))


# What the tables of systemd-sysupdate say.
TICK = "\u2713"


def listed_by_systemd(written):
    """The versions of a table, each with what is told of it."""
    rows, found = written.splitlines(), []
    if not rows:
        return found
    columns = rows[0].index("INSTALLED"), rows[0].index("AVAILABLE"), rows[0].index("ASSESSMENT")
    for row in filter(str.strip, rows[1:]):
        words = set(row[columns[2] :].strip().split("+"))
        version = row[: columns[0]].split()[-1]
        flags = {"available"} if TICK in row[columns[1] : columns[2]] else set()
        if TICK in row[columns[0] : columns[1]]:
            flags.add("partial" if "incomplete" in words else "installed")
        flags |= words & {"obsolete", "protected"}
        # of other versions nothing is told of protection
        flags |= {"any"} if not words & {"installed", "protected"} else set()
        found.append((version, flags))
    return found


def listed(rows, case):
    """What is listed, but for what rows take off."""
    if rows is None:
        return None
    rows = [(case.same.get(version, version), flags) for version, flags in rows]
    rows = [(version, flags - {"available"} if version in case.unoffered else flags) for version, flags in rows]
    return [(version, flags) for version, flags in rows if version not in case.unlisted and flags & {"available", "installed", "partial"}]


def same_lists(one, other):
    return [version for version, _ in one] == [version for version, _ in other] and all(
        found == flags if "any" not in flags else found - {"protected"} == flags - {"any", "protected"} for (_, found), (_, flags) in zip(one, other)
    )


def of_systemd(systemd, case, folder):
    """What systemd tells before and after a command, what the command came to, and what is below /var then."""
    machine = Machine(systemd, folder / "machine")
    machine.root.mkdir(mode=0o755)
    tree = {**case.tree(), **with_parents(case.sources())}
    for transfer in case.transfers:
        if transfer.kind == "url-file":
            tree[f"{transfer.source}/{MANIFEST}"] = file(sums(case, transfer))
    write(with_parents(tree), machine.root)
    machine.open()
    call = lambda *words: machine.run("systemd-sysupdate", *words)
    before, news = call("list"), call("check-new")
    verb, *versions = case.command.split(" ")
    done = call("--sync=no", verb, *versions)
    after = call("list")
    if done[2]:
        answer = ("failed",)
    elif verb == "vacuum":
        answer = ("vacuumed",)
    elif "Successfully installed update" in done[1]:
        answer = ("installed", done[1].split("Successfully installed update '")[1].split("'")[0])
    else:
        answer = ("unchanged",)
    lists = [None if told[2] else listed_by_systemd(told[0]) for told in (before, after)]
    var = {f"var/{path}": entry for path, entry in read(machine.root / "var").items() if PART not in path}
    return lists, news[0].strip() or None, answer, var, done


def of_hostext(program, case, folder):
    """The same of hostext."""
    base = folder / "hostext"
    base.mkdir()
    place, tree, files = Place(program, base), case.tree(), contents_of({**case.tree(), **case.sources()})
    (base / "root").mkdir(mode=0o755)
    write(tree, base / "root")
    packed(base / "root", place.depot, "host")
    for transfer in case.transfers:
        offer(case, transfer, place, base)
    news = ["sysupdate check-new"] * case.asks_for_news
    commands = ["init x86-64 system", "import-fs host /", "sysupdate list", *news, *([f"sysupdate {case.command}"] if case.command else []), "sysupdate list", "tree"]
    replies = []
    for command in commands:
        written, told, status = run(program, [bytes(place.store), bytes(place.depot), *command.encode().split(b" ")])
        if status not in (0, 1) or told:
            raise Failed(f"hostext {command} ended with {status}: {told}")
        replies.append(written.decode())
    lists = [None if reply.startswith("refused") else [(line.split(" ")[0], set(line.split(" ")[1:])) for line in reply.splitlines()] for reply in (replies[2], replies[-2])]
    newer = replies[3].strip() if case.asks_for_news and not replies[3].startswith("refused") else None
    reply = replies[-3] if case.command else "unchanged\n"
    words = {"updated": ("installed", *reply.split()[1:]), "unchanged": ("unchanged",), "removed": ("vacuumed",), "refused": ("failed",)}
    var = at_and_below(read_text(replies[-1].encode(), files), "var")
    return lists, newer, words[reply.split()[0]], {path: entry for path, entry in var.items() if path != "var"}, reply


def offer(case, transfer, place, base):
    """Puts the resources of a source into the depot, and its manifest."""
    folder = place.depot / transfer.source
    folder.mkdir(parents=True, exist_ok=True)
    if not transfer.is_directory:
        for version, entry in transfer.offers.items():
            (folder / transfer.named(version)).write_bytes(case.standing(transfer, version, entry)[2])
        (folder / MANIFEST).write_bytes(sums(case, transfer))
        return
    for at, (version, entries) in enumerate(transfer.offers.items()):
        made = base / f"{transfer.name}-{at}"
        made.mkdir()
        write({path: entry for path, entry in entries.items() if path}, made)
        packed(made, place.depot, f"{transfer.source}/{transfer.named(version)}")
    (folder / MANIFEST).write_bytes(manifest({path.name: digest(path.read_bytes()) for path in folder.glob("*.tree")}))


def taken_back(case, found, wanted):
    """A tree of hostext's with what rows put there taken back."""
    found = {case.paths.get(path, path): entry for path, entry in found.items() if case.paths.get(path, path) is not None}
    if case.keeps_tops:
        for transfer in filter(lambda transfer: transfer.is_directory, case.transfers):
            for path in [path for path in found if path.rpartition("/")[0] == transfer.target and found[path][0] == "d" and path in wanted]:
                found[path] = wanted[path]
    for path in case.leads & found.keys() & wanted.keys():
        found[path], wanted[path] = leading(path, found[path]), leading(path, wanted[path])
    return found


def leading(path, entry):
    """A link with where it leads from the root."""
    return link(os.path.normpath(os.path.join("/", path, "..", entry[1]))) if entry[0] == "l" else entry


def compare(systemd, program, case, rows, folder):
    """Asks both, and fails where something differs that no row tells. Gives the rows that were used."""
    lists, news, answer, var, said = of_systemd(systemd, case, folder)
    case.answer, case.left = answer, tuple(var)
    given, used = normalised(case, rows)
    found = of_hostext(program, given, folder)
    told = f"with {case.odd}; systemd says {shortened(' '.join(said[1].split())[-300:])}, hostext {found[4]!r} to {given.command!r}"
    wanted_lists, found_lists = ([listed(one, given) for one in both] for both in (lists, found[0]))
    same = lambda words: words and tuple(given.same.get(word, word) for word in words)
    if same(found[2]) != same(answer):
        raise Failed(f"it came to {found[2]}, and not {answer}; {told}; {wanted_lists[0]} {found[0][0]}")
    for when, one, other in zip(("before", "after"), found_lists, wanted_lists):
        if when == "before" and not given.lists_before:
            continue
        if (one is None) != (other is None) or one is not None and not same_lists(one, other):
            raise Failed(f"{when} it lists {one}, and not {other}; {told}")
    if given.asks_for_news and same([found[1]]) != same([news]):
        raise Failed(f"news are {found[1]}, and not {news}; {told}")
    if why := differing(taken_back(given, found[3], var), var):
        raise Failed(f"{why}; {told}")
    return [*used, answer[0]]
