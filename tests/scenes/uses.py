"""The uses of the program that tests/hostile goes through: a table by command, so that a later command is a row."""
import hashlib
import shutil
import subprocess
from dataclasses import dataclass
from pathlib import Path

from scenes.owners import with_owners
from scenes.running import HOST as LAYERED, Failed, shortened, tree_text
from scenes.stores import DONE, OLD_INDEX

# How long a command may take.
SECONDS = 10


def tree_of(files):
    """The text of a tree of these files, and of the folders that they need."""
    lines = {}
    for path, content in files.items():
        for folder in list(Path(path).parents)[:-1]:
            lines[str(folder)] = f"d 755 {folder}"
        lines[path] = f"f 644 {len(content)} {hashlib.sha256(content).hexdigest()} {path}"
    return tree_text(*(lines[path] for path in sorted(lines, key=lambda path: path.split("/"))))


def owned_tree(files):
    """The same with owners at half of the entries, and capabilities at some of the files."""
    return with_owners(tree_of(files))


RELEASE = b"ID=debian\n"
IMAGE = "usr/lib/extension-release.d/extension-release."
# What the depot has. `few` has a file of the host's bytes, and one without any; of `large` a file is written in two pieces.
RESOURCES = {
    "host": {"etc/os-release": RELEASE, "own": b"own", "usr/tool": b"tool 1\n"},
    "few": {"a/new": b"new", "a/same": b"own", "none": b""},
    "large": {"large": b"0123456789" * 7_000},
    "many": {f"f{at:02}": b"content %d" % at for at in range(20)},
    "other": {"other": b"other"},
    "x": {f"{IMAGE}x": RELEASE + b"\n", "usr/tool": b"tool x\n"},
    "y": {f"{IMAGE}y": b"ID=fedora\n", "usr/more": b"more\n"},
    **{name: {f"etc/extension-release.d/extension-release.{name}": RELEASE, f"etc/{name}.conf": name.encode()} for name in "cd"},
}
TRANSFER = b"""[Transfer]
ProtectVersion=1
Features=beta
[Source]
Type=regular-file
Path=/images
MatchPattern=foo_@v.raw
[Target]
Type=regular-file
Path=/var/lib/foo
"""
RESOURCES["transfers"] = {"10-foo.transfer": TRANSFER, "beta.feature": b"[Feature]\nEnabled=yes\n"}
RESOURCES["foo"] = {"foo_1.raw": b"one"}
RESOURCES["foos"] = {"foo_0.raw": b"zero", "foo_1.raw": b"one", "foo_1.1.raw": b"more"}
# Transfers of an image and of a file, with a link to the file that came, and those of which one file is another than listed.
TOOL = b"""[Source]
Type=directory
Path=/images
MatchPattern=tool_@v
[Target]
Type=directory
Path=/var/lib/extensions
"""
LINKED = TRANSFER.replace(b"Features=beta\n", b"") + b"CurrentSymlink=latest\n"
RESOURCES["two-transfers"] = {"10-tool.transfer": TOOL, "20-foo.transfer": LINKED}
RESOURCES["wrong-transfers"] = {"10-tool.transfer": TOOL, "20-foo.transfer": LINKED.replace(b"/images", b"/wrong")}
RESOURCES["images/tool_2"] = {f"{IMAGE}tool_2": RELEASE, "usr/tool": b"tool 2\n", "usr/more": b"0123456789" * 7_000}
# An image of a portable service, and a profile.
RESOURCES["app"] = {"usr/lib/os-release": RELEASE, "usr/lib/systemd/system/app.service": b"service\n", "usr/lib/systemd/system/app.socket": b"socket\n"}
RESOURCES["profile"] = {"service.conf": b"[Service]\n"}
# The last command of each look: whatever came before, a change is possible.
NEXT = "import-fs other /next"


# What the sources of updates list.
LISTED = {"foo_2.raw": b"two", "tool_2.tree": owned_tree(RESOURCES["images/tool_2"])}


def list_updates(folder, content=LISTED["foo_2.raw"]):
    """Puts a file into a source of updates, and the manifest."""
    (folder / "foo_2.raw").write_bytes(content)
    lines = (f"{hashlib.sha256(content).hexdigest()}  {name}\n" for name, content in LISTED.items())
    (folder / "SHA256SUMS").write_text("".join(lines))


def fill(place):
    """Puts the resources into the depot of a place, with one that lacks its last file, a text that is none, and two sources of
    updates, of which one has another file than it lists."""
    for name, files in RESOURCES.items():
        place.resource(name, owned_tree(files), files)
    place.resource("less", owned_tree({"a": b"a", "b": b"b", "c": b"c"}), {"a": b"a", "b": b"b"})
    place.resource("bad", b"hostext-tree 1\nend\nend\n")
    (place.depot / "wrong").mkdir()
    list_updates(place.depot / "images")
    list_updates(place.depot / "wrong", b"owt")


def an_old_text(place):
    """A store whose index is of the form before."""
    place.index(1, OLD_INDEX)


def left_overs(place):
    """What a command leaves over that was cut off before its switch: the coming generation, and `next`; and a later one."""
    current = place.store / "current"
    coming = f"g-{int(current.read_text()[2:]) + 1 if current.exists() else 1}"
    left = {f"{coming}/000/00": b"left", f"{coming}/index": b"left", "g-90/index": b"", "next": f"{coming}\n".encode()}
    for path, content in left.items():
        (place.store / path).parent.mkdir(parents=True, exist_ok=True)
        (place.store / path).write_bytes(content)


@dataclass(frozen=True)
class Use:
    """A command as it is tried: what it writes; the commands that make its store in an empty folder, among which may be a
    function that puts something there; what it writes where it was done already; what stands on standard input; whether it
    looks at a store, and whether it has to wait for it; whether the short run leaves it out; and of a batch its lines, each with
    its reply."""

    command: str
    reply: bytes
    before: tuple = ()
    again: bytes = None
    source: bytes = b""
    stored: bool = True
    waits: bool = False
    long: bool = False
    lines: tuple = ()

    @property
    def name(self):
        """Under which it is counted."""
        words = self.command.split(" ")
        return " ".join(words[:2]) if words[0] in ("sysext", "confext", "sysupdate", "portable") else words[0]

    @property
    def title(self):
        last = self.before[-1] if self.before else "nothing"
        before = last.__name__.replace("_", " ") if callable(last) else f"`{last}`"
        return f"`{self.command}` after {before}{', which waits' if self.waits else ''}"

    @property
    def steps(self):
        """The commands that it is, one after another, each with its reply: itself, or the lines of a batch."""
        return self.lines or ((self.command, self.reply),)

    @property
    def stores(self):
        """What makes the store before all of the steps, and after each."""
        found = [self.before]
        for command, reply in self.steps:
            is_done = self.stored and not reply.startswith(b"refused ")
            found.append((*found[-1], command) if is_done else found[-1])
        return found

    def replied(self, written):
        """How many of its steps have their whole replies in what was written."""
        done, whole = 0, b""
        for _, reply in self.steps:
            whole += reply
            done += written.startswith(whole)
        return done

    @property
    def has_stops(self):
        return self.stored and not self.waits

    @property
    def commands(self):
        """What a look runs: whether the store is whole, the command again, and one more change."""
        return ["tree", "check", self.command, "tree", "check", NEXT, "tree", "check"]


def batch(*lines, before=(), again):
    """A batch of these lines, each with its reply; `again` are the replies where they were done already."""
    source = "".join(f"{line}\n" for line, _ in lines).encode()
    return Use("batch", b"".join(reply for _, reply in lines), before, again, source, lines=lines)


INIT = ("init x86-64 system",)
ON_HOST = (*INIT, "import-fs host /")
WITH_IMAGES = (*ON_HOST, "import-fs y /var/lib/extensions/y", "import-fs x /var/lib/extensions/x")
MERGED = (*WITH_IMAGES, "sysext merge")
FORCED = (*WITH_IMAGES, "sysext merge --force", "remove /var/lib/extensions/y")
# After these the next change makes room.
ROOM_TO_MAKE = ("import-fs many /srv", "remove /srv")
# Worked out by the rule of a sample of one image.
SAMPLE = b"entries 37\nfiles 23\nbytes 229\nsha256 bb3fd3417f076a5781f53ec623961780a1f6db97f22a19d1f161bace29f6bedc\n"
WITH_CONFIGURATION = (*ON_HOST, "import-fs c /var/lib/confexts/c")
CONFIGURED = (*WITH_CONFIGURATION, "confext merge")
TRANSFERS = (*ON_HOST, "import-fs transfers /etc/sysupdate.d")
# With three versions of a file, of which two go where another one comes.
BOTH_TRANSFERS = (*ON_HOST, "import-fs foos /var/lib/foo", "import-fs two-transfers /etc/sysupdate.d")
WITH_ROOM = (*BOTH_TRANSFERS, *ROOM_TO_MAKE)
MISMATCH = f"refused 25 mismatch wrong/foo_2.raw 3 {hashlib.sha256(b'two').hexdigest()} 3 {hashlib.sha256(b'owt').hexdigest()}\n".encode()
MARKED = (*ON_HOST, "mark")
CHANGED = (*MARKED, "remove /own")
LAYERS = b"".join(b"%b %b\n" % (layer, owned_tree({"tool": content}).splitlines()[1].removesuffix(b" tool")) for layer, content in ((b"image x", b"tool x\n"), (b"base", b"tool 1\n")))
CHANGES = b"+ /usr/lib\n+ /usr/lib/extension-release.d\n+ /usr/lib/extension-release.d/extension-release.x\n* /usr/tool\n"
NO_MARK = b"refused 37 no-mark 2\n"
WITH_SERVICE = (*ON_HOST, "import-fs profile /usr/lib/systemd/portable/profile/default", "import-fs app /var/lib/portables/app_1")
# With a second version elsewhere, and an extension.
ELSEWHERE = (*WITH_SERVICE, "import-fs app /home/app_2", "import-fs x /var/lib/extensions/x")
ATTACHED = (*ELSEWHERE, "portable attach app_1")
UNITS = b"attached 2\napp.service\napp.socket\n"
IS_ATTACHED, NOT_ATTACHED = b"refused 18 already-attached\n", b"refused 19 not-attached\n"
EXISTS, IS_MERGED = b"refused 2 store-exists\n", b"refused 3 merged\n"
ONE, BOTH, NONE = b"merged 1\nx\n", b"merged 2\nx\ny\n", b"unmerged\n"
USES = [
    Use("init x86-64 system", DONE, again=EXISTS),
    Use("init x86-64 system /usr /etc", DONE, (left_overs,), again=EXISTS),
    Use("init x86-64 system", EXISTS, INIT),
    Use("import-fs host /", DONE, INIT),
    Use("import-fs few /srv", DONE, ON_HOST),
    Use("import-fs few /new", DONE, (*ON_HOST, "import-fs other /")),
    Use("import-fs few /srv", DONE, (*ON_HOST, left_overs)),
    Use("import-fs large /srv", DONE, ON_HOST),
    Use("import-fs many /", DONE, ON_HOST),
    Use("import-fs host /", DONE, (*INIT, "import-fs many /", "import-fs other /")),
    Use("import-fs gone /", b"refused 24 not-in-depot gone.tree\n", ON_HOST),
    Use("import-fs bad /", b"refused 23 bad-tree 3 bad.tree\n", ON_HOST),
    Use("import-fs less /", b"refused 24 not-in-depot less/c\n", ON_HOST),
    Use("import-fs host /usr", b"refused 4 read-only /usr\n", MERGED),
    Use("remove /own", DONE, ON_HOST, again=b"refused 8 no-entry /own\n"),
    Use("remove /own", DONE, ON_HOST, again=b"refused 8 no-entry /own\n", waits=True),
    Use("remove /gone", b"refused 8 no-entry /gone\n", ON_HOST),
    Use("sysext list", b"x image /var/lib/extensions/x fits\ny image /var/lib/extensions/y id\n", WITH_IMAGES),
    Use("sysext status", ONE, MERGED),
    Use("sysext merge", ONE, WITH_IMAGES, again=IS_MERGED),
    Use("sysext merge --force", BOTH, WITH_IMAGES, again=IS_MERGED),
    Use("sysext merge", b"refused 5 no-host-release\n", INIT),
    Use("sysext merge", ONE, (*WITH_IMAGES, *ROOM_TO_MAKE), again=IS_MERGED, long=True),
    Use("sysext refresh", ONE, FORCED),
    Use("sysext refresh", ONE, (*FORCED, *ROOM_TO_MAKE), long=True),
    Use("sysext unmerge", NONE, (*MERGED, *ROOM_TO_MAKE), long=True),
    Use("sysext refresh --force", BOTH, MERGED),
    Use("sysext unmerge", NONE, MERGED),
    Use("sysext unmerge", NONE, WITH_IMAGES),
    Use("sysext changes", CHANGES, WITH_IMAGES),
    Use("sysext explain /usr/tool", LAYERS, WITH_IMAGES),
    Use("confext list", b"c image /var/lib/confexts/c fits\n", WITH_CONFIGURATION),
    Use("confext status", NONE, WITH_CONFIGURATION),
    Use("confext merge", b"merged 1\nc\n", WITH_CONFIGURATION, again=IS_MERGED),
    Use("confext refresh", b"merged 2\nc\nd\n", (*CONFIGURED, "import-fs d /var/lib/confexts/d")),
    Use("confext unmerge", NONE, CONFIGURED),
    Use("sysupdate list", b"2 available\n1 installed protected\n", (*TRANSFERS, "import-fs foo /var/lib/foo")),
    Use("sysupdate check-new", b"2\n", TRANSFERS),
    Use("sysupdate check-new", b"refused 20 no-transfers\n", ON_HOST),
    Use("sysupdate update", b"updated 2\n", TRANSFERS, again=b"unchanged\n"),
    Use("sysupdate update 2", b"updated 2\n", BOTH_TRANSFERS, again=b"unchanged\n"),
    Use("sysupdate update", b"updated 2\n", WITH_ROOM, again=b"unchanged\n", long=True),
    Use("sysupdate update", b"unchanged\n", (*BOTH_TRANSFERS, "sysupdate update 2")),
    Use("sysupdate update", MISMATCH, (*ON_HOST, "import-fs foos /var/lib/foo", "import-fs wrong-transfers /etc/sysupdate.d")),
    Use("sysupdate update 3", b"refused 27 no-such-version 3\n", BOTH_TRANSFERS),
    Use("sysupdate vacuum", b"removed 1\n/var/lib/foo/foo_0.raw\n", BOTH_TRANSFERS, again=b"removed 0\n"),
    Use("sysupdate vacuum", b"removed 0\n", TRANSFERS),
    Use("sysupdate features", b"beta on\n", TRANSFERS),
    Use("sysupdate components", b"components 0\n", TRANSFERS),
    Use("portable list", b"app_1 image /var/lib/portables/app_1 attached\n", ATTACHED),
    Use("portable inspect app_1", b"image /var/lib/portables/app_1\nid debian\nversion -\nunit app.service\nunit app.socket\n", WITH_SERVICE),
    Use("portable is-attached app_1", b"attached\n", ATTACHED),
    Use("portable attach app_1", UNITS, WITH_SERVICE, again=IS_ATTACHED),
    Use("portable attach app_1", UNITS, (*WITH_SERVICE, left_overs), again=IS_ATTACHED),
    Use("portable attach /home/app_2 --copy=mixed --runtime", UNITS, ELSEWHERE, again=IS_ATTACHED),
    Use("portable attach --extension=x --copy=copy app_1", UNITS, (*ELSEWHERE, *ROOM_TO_MAKE), again=IS_ATTACHED, long=True),
    Use("portable attach app_1 --profile=none", b"refused 16 no-profile\n", WITH_SERVICE),
    Use("portable reattach /home/app_2", UNITS, ATTACHED),
    Use("portable reattach /home/app_2 --runtime", UNITS, (*ATTACHED, *ROOM_TO_MAKE), long=True),
    Use("portable reattach app_1", NOT_ATTACHED, WITH_SERVICE),
    Use("portable detach app_1", b"detached\n", ATTACHED, again=NOT_ATTACHED),
    Use("portable detach app_1", NOT_ATTACHED, WITH_SERVICE),
    Use("mark", b"marked 2\n", ON_HOST, again=b"marked 3\n"),
    Use("mark 1", b"marked 4\n", CHANGED, again=b"marked 5\n"),
    Use("history", b"2 5 3\n", CHANGED),
    Use("history --changes 2", b"- /own\n", CHANGED),
    Use("rollback 2", DONE, CHANGED),
    Use("rollback 2", DONE, (*CHANGED, *ROOM_TO_MAKE), long=True),
    Use("rollback 2", NO_MARK, ON_HOST),
    Use("forget 2", DONE, CHANGED, again=NO_MARK),
    Use("tree", owned_tree(RESOURCES["host"]), ON_HOST),
    Use("tree /etc", owned_tree({"os-release": RELEASE}), ON_HOST),
    Use("tree /etc", owned_tree({"os-release": RELEASE}), ON_HOST, waits=True),
    Use("cat /own", b"own", ON_HOST),
    Use("cat /srv/large", RESOURCES["large"]["large"], (*ON_HOST, "import-fs large /srv")),
    Use("check", b"ok 9 71\n", MERGED),
    Use("migrate", DONE, (an_old_text,), again=b"unchanged\n"),
    Use("migrate", b"unchanged\n", ON_HOST),
    batch(*((line, DONE) for line in ("init x86-64 system", "import-fs few /srv", "remove /srv/a")), again=EXISTS + DONE + DONE),
    batch(
        ("import-fs few /srv", DONE),
        ("remove /gone", b"refused 8 no-entry /gone\n"),
        ("remove /own", DONE),
        ("cat /srv/a/new", b"new"),
        before=ON_HOST,
        again=DONE + b"refused 8 no-entry /gone\nrefused 8 no-entry /own\nnew",
    ),
    batch(("mark", b"marked 2\n"), ("remove /own", DONE), ("rollback 2", DONE), before=ON_HOST, again=b"marked 5\ndone\ndone\n"),
    batch(("portable attach app_1", UNITS), ("portable reattach /home/app_2", UNITS), ("portable detach app_2", b"detached\n"), before=ELSEWHERE, again=UNITS + UNITS + b"detached\n"),
    Use("compare 1.0 1", b"greater\n", ON_HOST, stored=False),
    Use("sample 1", SAMPLE, ON_HOST, stored=False),
    Use("layer", LAYERED, ON_HOST, source=LAYERED, stored=False),
]


class Room:
    """A place with a full depot, and the stores that uses begin with, each made once."""

    def __init__(self, place, folder):
        self.place, self.folder = place, folder
        self.found = {}
        fill(place)

    def run(self, command, source=b""):
        """What a command writes, and its status."""
        words = [self.place.program, self.place.store, self.place.depot, *command.split(" ")]
        try:
            ended = subprocess.run(words, input=source, capture_output=True, timeout=SECONDS)
        except subprocess.TimeoutExpired:
            raise Failed(f"`{command}` had not ended after {SECONDS} seconds") from None
        return ended.stdout, ended.returncode

    def stored(self, before):
        """A store that these commands made. A copy stands in the place."""
        shutil.rmtree(self.place.store)
        if before in self.found:
            shutil.copytree(self.found[before], self.place.store)
            return self.found[before]
        self.place.store.mkdir()
        for command in before:
            self.make(command)
        kept = self.found[before] = self.folder / f"kept-{len(self.found)}"
        shutil.copytree(self.place.store, kept)
        return kept

    def make(self, command):
        if callable(command):
            command(self.place)
            return
        written, status = self.run(command)
        if status:
            raise Failed(f"`{command}` ends with {status}: {shortened(written)}")

    def look(self, use, before):
        """What each command of a look at such a store writes, and its status."""
        self.stored(before)
        return [self.run(command, use.source) for command in use.commands]

    def states(self, use):
        """What a look has to show before the command and after each of its steps. It has to write what the table says."""
        states = [self.look(use, store) for store in use.stores]
        again = use.reply if use.again is None else use.again
        for found, wanted in (states[0][2], use.reply), (states[-1][2], again):
            if found != (wanted, 1 if wanted.startswith(b"refused ") and not use.lines else 0):
                raise Failed(f"{use.title} ends with {shortened(found)}, and is to write {shortened(wanted)}")
        return states
