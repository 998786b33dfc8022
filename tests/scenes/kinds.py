"""The kinds of inputs that tests/mutations makes hostile: of each what it begins with, how the program is run on it, and what has to come
of that by a second reading of the rules of docs/FORMATS.md."""
import hashlib
import re
import zlib

from scenes import base_texts, transfers
from scenes.command_words import IN_A_LINE, NOT_IN_A_LINE, place_of
from scenes.index_texts import MOST_BYTES, Index
from scenes.judging import expect
from scenes.manifests import reading
from scenes.mutating import of_seed
from scenes.owners import with_owners, without_owners
from scenes.releases import read_release, verdict
from scenes.replies import Replies
from scenes.running import ABC, EMPTY, TOP, Failed, tree_text
from scenes.stores import EMPTY_INDEX, KEPT, MERGED, OLD_INDEX
from scenes.tree_texts import Faulty, entry_of, is_name, layered, names_of, read_sequence, read_tree, resolved, text_of
from scenes.updates import compared
from scenes.uses import RESOURCES, TRANSFER, list_updates, owned_tree, tree_of
from scenes.words import CHAIN, ORDERS

EXAMPLES = TOP / "examples/depot"
CONFIGURATION = {"etc/extension-release.d/extension-release.conf": b"ID=_any\n", "etc/conf.d/conf": b"conf\n"}
CONTENTS = {EMPTY.encode(): b"", ABC.encode(): b"abc"}


def digits_of(content):
    return hashlib.sha256(content).hexdigest().encode()


def files_below(folder):
    return {str(path.relative_to(folder)): path.read_bytes() for path in folder.rglob("*") if path.is_file() and not path.is_symlink()}


def example(name):
    """The tree text of a resource of the examples, with owners at half of its entries, others in each."""
    return with_owners((EXAMPLES / f"{name}.tree").read_bytes(), name.encode())


def copy_examples(bench):
    """Puts the resources of the examples, and some of the uses, into the depot."""
    for name in "host", "images/tool-2", "images/vendor":
        bench.resource(name, example(name), files_below(EXAMPLES / name))
    used = "few", "x", "foos", "two-transfers", "images/tool_2", "app", "profile"
    for name, files in {**{name: RESOURCES[name] for name in used}, "conf": CONFIGURATION}.items():
        bench.resource(name, owned_tree(files), files)
    list_updates(bench.depot / "images")


MERGED_STORE = (
    *("init x86-64 system", "import-fs host /", "import-fs images/tool-2 /var/lib/extensions/tool-2", "import-fs images/vendor /var/lib/extensions/vendor"),
    *("import-fs few /srv", "import-fs conf /var/lib/confexts/conf", "sysext merge", "confext merge"),
)


class Kind:
    """A kind of inputs: `many` are tried by one run of the program. `judge` raises Failed where one of them comes out otherwise than its
    rules say. Each store is put back afterwards."""

    many = 1

    def __init__(self, bench):
        self.bench = bench
        self.prepare()
        self.bases = self.found_bases()

    def prepare(self):
        copy_examples(self.bench)
        self.bench.make(*MERGED_STORE)

    def text(self, seed):
        return of_seed(self.name, seed, self.bases)

    def expect_index(self):
        """That a change left a sound index, of the text that its entries need."""
        current = (self.bench.store / "current").read_bytes()
        text, generation = (self.bench.store / current.decode().strip() / "index").read_bytes(), int(current[2:])
        try:
            is_written = Index(text, generation).is_written()
        except Faulty as fault:
            raise Failed(f"line {fault.line} of the index that it wrote is faulty") from None
        if not is_written:
            raise Failed(f"it wrote an index with {text[:15]}")

    @property
    def name(self):
        return type(self).__name__.lower().replace("_", "-")


def fault_line(ended):
    """The faulty line that a bad store is told with, 0 for `current`, or nothing."""
    found = re.search(rb"(?:line ([0-9]+) of the index|(current) names no generation)", ended.told)
    return found and int(found[1] or 0)


class Stored(Kind):
    """Inputs that are a file of the store."""

    LOOK = b"tree", b"sysext status", b"confext status", b"check"

    def generation(self):
        return int(self.bench.kept["current"][2:])

    def looks(self, index, homes):
        """What a look at the store of an index writes, and its status."""
        written = index.tree_text() + index.status_text("sysext") + index.status_text("confext")
        files = list(index.files())
        for size, digest, generation, number in files:
            content = homes.get(f"g-{generation}/{number[:3].decode()}/{number[3:].decode()}")
            if content is None or len(content) != size or digits_of(content) != digest:
                return written, 8
        return written + b"ok %d %d\n" % (len(files), sum(size for size, *_ in files)), 0

    def judge_index(self, text, generation, **changed):
        """Looks at the store, whose index this is."""
        ended = self.bench.batch(self.LOOK, len(text))
        try:
            written, status = self.looks(Index(text, generation), {**self.bench.kept, **changed})
        except Faulty as fault:
            expect(ended, b"", 8)
            if fault_line(ended) != fault.line:
                raise Failed(f"it tells line {fault_line(ended)}, and the first faulty one is {fault.line}") from None
        else:
            expect(ended, written, status)
        self.bench.expect_kept(**changed)

    def judge(self, texts):
        for text in texts:
            try:
                self.judge_one(text)
            finally:
                (self.bench.store / self.path).write_bytes(self.bench.kept[self.path])


class Current(Stored):
    path = "current"

    def found_bases(self):
        return [*(b"g-%d\n" % number for number in (1, 2, 3, 5, self.generation(), 4_294_967_295)), self.bench.kept["current"]]

    def judge_one(self, text):
        (self.bench.store / "current").write_bytes(text)
        found = re.fullmatch(rb"g-([1-9][0-9]{0,9})\n", text)
        if not found or int(found[1]) > 4_294_967_295:
            ended = self.bench.batch(self.LOOK, len(text))
            expect(ended, b"", 8)
            if fault_line(ended) != 0:
                raise Failed(f"it tells line {fault_line(ended)} of a `current` that names no generation")
            self.bench.expect_kept(current=text)
        else:
            self.judge_index(self.bench.kept.get(f"g-{int(found[1])}/index", b""), int(found[1]), current=text)


class Indexes(Stored):
    @property
    def path(self):
        return f"g-{self.generation()}/index"

    def found_bases(self):
        own = [content for path, content in sorted(self.bench.kept.items()) if path.endswith("/index")]
        return [*own * 6, *map(without_owners, own * 2), *base_texts.index_texts(), EMPTY_INDEX, OLD_INDEX, MERGED, KEPT]

    def judge_one(self, text):
        (self.bench.store / self.path).write_bytes(text)
        self.judge_index(text, self.generation(), **{self.path: text})


class Homes(Stored):
    """A damaged file is told by each command that needs its bytes, and by no other."""

    SHOWN = "/srv/a/new"
    COMMANDS = "check", f"cat {SHOWN}", "import-fs few /srv/again"

    def found_bases(self):
        index = Index(self.bench.kept[f"g-{self.generation()}/index"], self.generation())
        _, (_, _, _, generation, number) = index.host.root.entries[names_of(self.SHOWN[1:].encode())]
        self.path = f"g-{int(generation)}/{number[:3].decode()}/{number[3:].decode()}"
        self.whole = self.bench.batch((b"tree", b"check")).written
        return [self.bench.kept[self.path]]

    def judge_one(self, text):
        home, command = self.bench.store / self.path, self.COMMANDS[zlib.crc32(text) % 3]
        home.write_bytes(text)
        is_whole = text == self.bench.kept[self.path]
        tree = self.whole[: self.whole.rindex(b"ok ")]
        ended = self.bench.batch((b"tree", command.encode()), len(text))
        reply = {"check": self.whole[len(tree) :], f"cat {self.SHOWN}": text}.get(command, b"done\n")
        expect(ended, tree + (reply if is_whole else b""), 0 if is_whole else 8)
        is_import = command.startswith("import-fs")
        if not (is_whole and is_import):
            self.bench.expect_kept(is_import, **{self.path: text})
        if is_import:
            self.bench.restore()


class Imported(Kind):
    """Inputs that are tree texts of the depot, which lists files of one folder. Those that are refused are all tried before the others,
    so that the store can be looked at."""

    many, target = 40, b"/"

    def prepare(self):
        copy_examples(self.bench)
        self.files = {}
        for text in base_texts.tree_texts():
            self.add_files(text)
        folder = self.bench.depot / "all"
        for path, content in self.files.items():
            folder.joinpath(path).parent.mkdir(parents=True, exist_ok=True)
            folder.joinpath(path).write_bytes(content)
        for at in range(self.many):
            (self.bench.depot / f"m{at}").symlink_to("all")
        self.bench.make(*self.STORE)

    def add_files(self, text):
        """The files of a tree text whose bytes are known, but where a folder stands, or a file where a folder has to."""
        examples = {digits_of(content): content for name in ("host", "images/tool-2", "images/vendor") for content in files_below(EXAMPLES / name).values()}
        for line in text.splitlines():
            entry = entry_of(line)
            content = entry and entry[0] == b"f" and {**CONTENTS, **examples}.get(entry[1][2])
            path = entry and b"/".join(entry[2]).decode()
            if isinstance(content, bytes) and self.has_room(path):
                self.files.setdefault(path, content)

    def has_room(self, path):
        return not any(other.startswith(f"{path}/") or path.startswith(f"{other}/") for other in self.files)

    def found_bases(self):
        return base_texts.tree_texts()

    def refusal(self, name, tree):
        """The refusal of a sound text, or nothing where it is imported."""
        files = [(b"/".join((name, *names)), int(fields[1]), fields[2]) for names, (kind, fields) in sorted(tree.entries.items()) if kind == b"f"]
        places = [self.target.strip(b"/") + b"/" + b"/".join(names) for names in tree.entries]
        if not all(names_of(path) for path, _, _ in files) or not all(names_of(path.lstrip(b"/")) for path in places):
            return b"refused 7 limit path\n"
        if sum(size for _, size, _ in files) > MOST_BYTES - self.bytes_beside:
            return b"refused 7 limit bytes\n"
        return next((found for found in (self.refused_file(*file) for file in files) if found), None)

    bytes_beside = 0

    def refused_file(self, path, size, digest):
        content = self.files.get(path.partition(b"/")[2].decode())
        if content is None:
            return b"refused 24 not-in-depot %b\n" % path
        seen = content[: size + 1]
        if (len(seen), digits_of(seen)) != (size, digest):
            return b"refused 25 mismatch %b %d %b %d %b\n" % (path, size, digest, len(seen), digits_of(seen))
        return None

    def sorted_out(self, texts):
        """The imports that are refused, each with its reply, and the names and trees of the others."""
        refused, sound = [], []
        for at, text in enumerate(texts):
            name = b"m%d" % at
            (self.bench.depot / f"m{at}.tree").write_bytes(text)
            try:
                tree = read_tree(text)
            except Faulty as fault:
                refused.append((name, b"refused 23 bad-tree %d %b.tree\n" % (fault.line, name)))
                continue
            reply = self.refusal(name, tree)
            refused += [(name, reply)] if reply else []
            sound += [] if reply else [(name, tree)]
        return refused, sound

    def judge(self, texts):
        refused, sound = self.sorted_out(texts)
        size = max(map(len, texts))
        try:
            ended = self.bench.batch((b"import-fs %b %b" % (name, self.target) for name, _ in refused), size)
            expect(ended, b"".join(reply for _, reply in refused))
            self.bench.expect_kept(leaves_over(ended))
            if sound:
                self.judge_sound(sound, size)
        finally:
            self.bench.restore()


def leaves_over(ended):
    """Whether a file was refused when the coming generation was begun already."""
    return bool(re.search(rb"^refused (24|25) ", ended.written, re.M))


class Trees(Imported):
    """Each is imported as the whole host, and then shown and checked."""

    STORE = ("init x86-64 system",)

    def judge_sound(self, sound, size):
        lines, wanted = [], b""
        for name, tree in sound:
            lines += [b"import-fs %b /" % name, b"tree", b"check"]
            sizes = [int(fields[1]) for kind, fields in tree.entries.values() if kind == b"f"]
            wanted += b"done\n" + text_of(tree.entries) + b"ok %d %d\n" % (len(sizes), sum(sizes))
        expect(self.bench.batch(lines, size), wanted)
        self.expect_index()


class Images(Imported):
    """Each is imported as an image and merged, and the view is shown and taken away."""

    target = b"/var/lib/extensions/x"
    STORE = ("init x86-64 system", "import-fs host /")

    def prepare(self):
        super().prepare()
        self.host = read_tree(example("host"))
        self.bytes_beside = sum(int(fields[1]) for kind, fields in self.host.entries.values() if kind == b"f")

    def found_bases(self):
        """Texts of the examples, those with the name that the image has here, and others."""
        renamed = [text.replace(b"release.tool-2", b"release.x").replace(b"release.vendor", b"release.x") for text in base_texts.tree_texts()]
        return [text for text in renamed if b"usr" in text or b"opt" in text]

    def view(self, tree):
        """The tree with the image merged."""
        entries = {**{names: entry for names, entry in self.host.entries.items()}, **self.imported(tree)}
        hierarchies = [(b"opt",), (b"usr",)]
        shown = layered([self.inside(self.host.entries, hierarchies), self.inside(tree.entries, hierarchies)])
        return {**{names: entry for names, entry in entries.items() if names[:1] not in hierarchies}, **shown}

    def inside(self, entries, hierarchies):
        tree = read_tree(tree_text())
        tree.entries = {names: entry for names, entry in entries.items() if names[:1] in hierarchies}
        return tree

    def imported(self, tree):
        above = names_of(self.target[1:])
        return {above: (b"d", (b"755",)), **{above + names: entry for names, entry in tree.entries.items()}}

    def judge_sound(self, sound, size):
        for name, tree in sound:
            lines = b"import-fs %b %b" % (name, self.target), b"sysext list", b"sysext refresh", b"tree", b"check", b"sysext unmerge", b"tree", b"remove %b" % self.target
            written = self.bench.batch(lines, size)
            self.judge_replies(tree, written)
            self.expect_index()

    def judge_replies(self, tree, ended):
        found = re.fullmatch(rb"done\nx (?:image|broken) /var/lib/extensions/x ([^\n]+)\n(.*)", ended.written, re.S)
        if not found or found[1] != self.said(tree):
            raise Failed(f"`sysext list` tells {found and found[1]}, and not {self.said(tree)}")
        fits = found[1] == b"fits"
        base = text_of({**self.host.entries, **self.imported(tree)})
        view = text_of(self.view(tree)) if fits else base
        rest = re.escape(b"merged 1\nx\n" if fits else b"merged 0\n") + re.escape(view) + rb"ok [0-9]+ [0-9]+\nunmerged\n" + re.escape(base) + rb"done\n"
        if ended.status or not re.fullmatch(rest, found[2], re.S):
            raise Failed(f"it ended with {ended.status}, and of an image that {found[1].decode()} it wrote {found[2][-400:]}")

    def said(self, tree):
        """The verdict on an image, or why it is broken."""
        entries = tree.entries
        if any(entries.get((name,), (b"d",))[0] not in (b"d", b"o") for name in (b"opt", b"usr")):
            return b"not-directory"
        if (b"usr", b"lib", b"os-release") in entries:
            return b"has-os-release"
        kind, fields = entries.get(resolved(entries, b"usr/lib/extension-release.d/extension-release.x"), (None, ()))
        if kind != b"f":
            return b"no-release"
        return said_of(b"SYSEXT", self.host_release(), self.content(fields[2]))

    def host_release(self):
        return read_release((EXAMPLES / "host/usr/lib/os-release").read_bytes())

    def content(self, digest):
        return next(content for content in self.files.values() if digits_of(content) == digest)


def said_of(extension, host, data):
    """What `list` says of an image with this release file."""
    try:
        return verdict(extension, host, read_release(data))
    except Faulty as fault:
        return b"bad-release %d" % fault.line


class Layers(Kind):
    """Sources of `layer`."""

    def found_bases(self):
        return base_texts.sequences()

    def judge(self, texts):
        for text in texts:
            ended = self.bench.tried(["layer"], text)
            try:
                expect(ended, text_of(layered(read_sequence(text))))
            except Faulty as fault:
                expect(ended, b"refused 23 bad-tree %d -\n" % fault.line, 1)


def one_file(name, content):
    """The text of a tree of one file."""
    return tree_text(f"f 644 {len(content)} {digits_of(content).decode()} {name}")


class Host_Releases(Kind):
    """Release files of the host, each of which is imported; then what is said of some images."""

    many = 40
    RELEASES = {
        "a": b"ID=_any\n", "b": b"ID=debian\nVERSION_ID=12\n", "c": b"ID=debian\nSYSEXT_LEVEL=1\n", "d": b"ID=linux\n", "e": b"ARCHITECTURE=arm\nID=_any\n",
        "f": b"ID=debian\nVERSION_ID=12.5\nSYSEXT_LEVEL=2\n", "g": b"SYSEXT_SCOPE=initrd\nID=_any\n", "h": b"VERSION_ID=12\n",
    }

    def prepare(self):
        images = {f"{name}/usr/lib/extension-release.d/extension-release.{name}": content for name, content in self.RELEASES.items()}
        self.bench.resource("images", tree_of(images), images)
        self.bench.make("init x86-64 system", "import-fs images /var/lib/extensions")

    def found_bases(self):
        own = (EXAMPLES / "host/usr/lib/os-release").read_bytes()
        shown = b"ID=debian\nVERSION_ID='12'\nSYSEXT_LEVEL=\"1\"\n# a comment\nNAME=\"A \\\"b\\\" c\"\n", b'PRETTY_NAME="D 12"\nID=debian\n\nVERSION_ID="12.5"\nSYSEXT_LEVEL=2\n'
        return [own, *shown, b"ID=linux\n", *self.RELEASES.values(), *base_texts.releases()]

    def said(self, text):
        """What `sysext list` writes where the host has this release file."""
        try:
            host = read_release(text)
        except Faulty as fault:
            return b"refused 6 bad-host-release %d\n" % fault.line
        return b"".join(b"%b image /var/lib/extensions/%b %b\n" % (name.encode(), name.encode(), said_of(b"SYSEXT", host, release)) for name, release in self.RELEASES.items())

    def judge(self, texts):
        lines, wanted = [], b""
        for at, text in enumerate(texts):
            self.bench.resource(f"r{at}", one_file("os-release", text), {"os-release": text})
            lines += [b"import-fs r%d /etc" % at, b"sysext list"]
            wanted += b"done\n" + self.said(text)
        try:
            expect(self.bench.batch(lines, max(map(len, texts))), wanted)
        finally:
            self.bench.restore()


class Releases(Kind):
    """Release files of images, all of which are imported as one tree. The names of half of the images are of configuration extensions."""

    many = 40
    HOST = b"ID=debian\nVERSION_ID=12\nSYSEXT_LEVEL=1\nCONFEXT_LEVEL=2\n"
    WAYS = (b"SYSEXT", "var/lib/extensions", "usr/lib", b"sysext"), (b"CONFEXT", "var/lib/confexts", "etc", b"confext")

    def prepare(self):
        self.bench.resource("host", one_file("os-release", self.HOST), {"os-release": self.HOST})
        self.bench.make("init x86-64 system", "import-fs host /etc")

    def found_bases(self):
        extra = b"ID=debian\nSYSEXT_LEVEL=1\nCONFEXT_LEVEL=2\n", b'ID="debian"\nVERSION_ID=\'12\'\nSYSEXT_SCOPE="system initrd"\nARCHITECTURE=x86-64\nCONFEXT_SCOPE=system\n'
        return [*extra, *Host_Releases.RELEASES.values(), *base_texts.releases()]

    def judge(self, texts):
        names = [f"i{at:02}" for at in range(len(texts))]
        lines, wanted = [], b""
        for extension, place, below, command in self.WAYS:
            files = {f"{name}/{below}/extension-release.d/extension-release.{name}": text for name, text in zip(names, texts)}
            resource = command.decode()
            self.bench.resource(resource, tree_of(files), files)
            lines += [b"import-fs %b /%b" % (command, place.encode()), command + b" list"]
            said = (b"%b image /%b/%b %b\n" % (name.encode(), place.encode(), name.encode(), self.said(extension, text)) for name, text in zip(names, texts))
            wanted += b"done\n" + b"".join(self.broken(line) for line in said)
        try:
            expect(self.bench.batch(lines, max(map(len, texts))), wanted)
        finally:
            self.bench.restore()

    def said(self, extension, text):
        return said_of(extension, read_release(self.HOST), text)

    def broken(self, line):
        return line.replace(b" image ", b" broken ", 1) if b" bad-release " in line else line


COMPONENTS = 40
HOST_RELEASE = b"ID=debian\nVERSION_ID=12\nIMAGE_ID=foo\nIMAGE_VERSION=7\nBUILD_ID=b1\n"
SPECIFIERS = {b"A": b"7", b"B": b"b1", b"M": b"foo", b"o": b"debian", b"w": b"12", b"a": b"x86-64", b"%": b"%"}
INSTANCES = {f"var/lib/foo/{name}": b"x" for name in ("foo_1.raw", "foo_2.raw", "bar-3", "tool_1.conf", "foo_2~rc1.raw", "1.0")}
INSTANCES |= {f"var/lib/extensions/{name}/in": b"x" for name in ("tool-1", "tool-2.0", "foo_1")}
LISTED = {name.encode(): digits_of(name.encode()) for name in ("foo_1.raw", "foo_2.raw", "foo_3.raw", "bar-4", "tool-1.tree", "tool-3.tree", "tool_2.conf", "foo_2~rc2.raw", "2.0")}
LISTED |= {b"foo_5_%b.raw" % digits_of(b"five"): digits_of(b"five"), b"foo_6_%b.raw" % digits_of(b"five"): digits_of(b"six")}
SUMS = b"".join(digits + b"  " + name + b"\n" for name, digits in LISTED.items())


class Updating(Kind):
    """Inputs that are a file of a component of updates; each component has one."""

    many = COMPONENTS

    def folder(self, at):
        return f"etc/sysupdate.c{at:02}.d"

    def host(self, files):
        """The resource of a host with these files."""
        whole = {"etc/os-release": HOST_RELEASE, **INSTANCES, **files}
        text = owned_tree(whole)
        self.bench.resource("updated", text, whole)
        return read_tree(text).entries

    def lines(self, count, *verbs):
        return [b"sysupdate --component=c%02d %b" % (at, verb) for at in range(count) for verb in verbs]


class Manifests(Updating):
    """Each is the manifest of the source of a component's transfer. Nothing is changed by any of them."""

    PATTERNS = b"foo_@v_@h.raw foo_@v.raw @v"

    def prepare(self):
        text = TRANSFER.replace(b"Features=beta\n", b"").replace(b"foo_@v.raw", self.PATTERNS)
        files = {f"{self.folder(at)}/10-foo.transfer": text.replace(b"/images", b"/images/c%02d" % at) for at in range(self.many)}
        self.entries = self.host(files)
        self.bench.make("init x86-64 system", "import-fs updated /")
        self.transfer = transfers.Transfer(text, SPECIFIERS)
        for at in range(self.many):
            (self.bench.depot / f"images/c{at:02}").mkdir(parents=True)

    def found_bases(self):
        return [SUMS, SUMS.replace(b"  ", b" *"), b"", *base_texts.manifests()]

    def told(self, at, text):
        try:
            listed = read_manifest(text)
        except Faulty as fault:
            return b"refused 22 bad-manifest %d images/c%02d/SHA256SUMS\n" % (fault.line, at) * 2
        return b"".join(transfers.told(self.transfer, listed, self.entries))

    def judge(self, texts):
        for at, text in enumerate(texts):
            (self.bench.depot / f"images/c{at:02}/SHA256SUMS").write_bytes(text)
        ended = self.bench.batch(self.lines(len(texts), b"list", b"check-new"), max(map(len, texts)))
        expect(ended, b"".join(self.told(at, text) for at, text in enumerate(texts)))
        self.bench.expect_kept()


def read_manifest(text):
    """The digests of a manifest by their names."""
    said = reading(text)
    if said[:1] and said[0].startswith(b"fault "):
        raise Faulty(int(said[0][6:]))
    return {line[65:]: line[:64] for line in said}


class Transfers(Updating):
    """Each is the transfer file of a component, which has the feature `beta` and no other."""

    def prepare(self):
        self.bench.make("init x86-64 system")
        (self.bench.depot / "images").mkdir()
        (self.bench.depot / "images/SHA256SUMS").write_bytes(SUMS)

    def found_bases(self):
        whole = TRANSFER.replace(b"Path=/var/lib/foo\n", b"Path=/var/lib/foo\nMode=0600\nInstancesMax=3\nCurrentSymlink=foo.raw\nMatchPattern=%M_@v.raw bar-@v\n")
        folders = TRANSFER.replace(b"regular-file", b"directory").replace(b"foo_@v.raw", b"tool-@v").replace(b"/var/lib/foo", b"/var/lib/extensions").replace(b"Features=beta\n", b"MinVersion=0\n")
        url = TRANSFER.replace(b"Type=regular-file", b"Type=url-file", 1).replace(b"=/images", b"=file:///images").replace(b"[Transfer]", b"[Transfer]\nVerify=no\nMinVersion=%A")
        return [*(TRANSFER, whole, folders, url, TRANSFER.replace(b"Features=beta", b"RequisiteFeatures=beta")) * 8, *base_texts.transfers()]

    def told(self, text, entries):
        if not text:
            return b"refused 20 no-transfers\n" * 2
        try:
            transfer = transfers.Transfer(text, SPECIFIERS)
        except Faulty as fault:
            return b"refused 21 bad-transfer %d %b 10-foo.transfer\n" % (fault.line, fault.why.encode()) * 2
        if not transfer.is_on((b"beta",)):
            return b"refused 33 none-on\n" * 2
        if transfer.source != (b"images",):
            return b"refused 24 not-in-depot %b\n" % b"/".join((*transfer.source, b"SHA256SUMS")) * 2
        return b"".join(transfers.told(transfer, LISTED, entries))

    def judge(self, texts):
        files = {f"{self.folder(at)}/{name}": text for at, own in enumerate(texts) for name, text in (("10-foo.transfer", own), ("beta.feature", b"[Feature]\nEnabled=on\n"))}
        entries = self.host(files)
        try:
            ended = self.bench.batch((b"import-fs updated /", *self.lines(len(texts), b"list", b"check-new")), max(map(len, texts)))
            expect(ended, b"done\n" + b"".join(self.told(text, entries) for text in texts))
        finally:
            self.bench.restore()


class Features(Updating):
    """Each is a feature file of a component."""

    def prepare(self):
        self.bench.make("init x86-64 system")

    def found_bases(self):
        return [
            *(b"[Feature]\nDescription=Beta versions\nEnabled=no\n", b"[Feature]\nEnabled=1\n", b"# off\n[Other]\nEnabled=x\n[Feature]\nDocumentation=a\\\n  b\n"),
            *(b"[Feature]\nEnabled=true\n[Feature]\nEnabled=off\n", b"[Feature]\r\nEnabled=yes\r\n", b"[Feature]\nEnabled=o\\\n", b"[Feature]\nEnabled=f\nAppStream=x\n"),
        ]

    def told(self, text):
        """An empty file is a mask."""
        try:
            return b"beta %b\n" % (b"on" if transfers.read_feature(text) else b"off") if text else b""
        except Faulty as fault:
            return b"refused 32 bad-feature %d %b beta.feature\n" % (fault.line, fault.why.encode())

    def judge(self, texts):
        self.host({f"{self.folder(at)}/beta.feature": text for at, text in enumerate(texts)})
        try:
            ended = self.bench.batch((b"import-fs updated /", *self.lines(len(texts), b"features")), max(map(len, texts)))
            expect(ended, b"done\n" + b"".join(map(self.told, texts)))
        finally:
            self.bench.restore()


# Where units are attached, what their image and their profile hold, and what their names end in.
ATTACHED, UNITS, PROFILE = "run/systemd/system.attached", "usr/lib/systemd/system", "usr/lib/systemd/portable/profile/default/service.conf"
UNIT = b"[Unit]\nDescription=A service\n\n[Service]\nType=notify\nExecStart=/usr/bin/app --all\nRestart=on-failure\n\n[Install]\nWantedBy=multi-user.target\n"
ENDINGS = b".service", b".socket", b".target", b".timer", b".path"


class Services(Kind):
    """Inputs that are a file of an image of a portable service, each of an image of its own, which is attached while the program runs and
    detached again. All are imported as one tree. A drop-in stands only beside units that end in `.service`."""

    many = 40

    def prepare(self):
        files = {PROFILE: b"[Service]\nPrivateTmp=yes\n"}
        self.bench.resource("host", owned_tree(files), files)
        self.bench.resource("empty", tree_text())
        self.bench.make("init x86-64 system", "import-fs host /", f"import-fs empty /{ATTACHED}")

    def judge(self, texts):
        """Of each image, what its two lines and those between them write."""
        files, lines, wanted = {}, [b"import-fs services /var/lib/portables"], b"done\n"
        for at, text in enumerate(texts):
            image = b"app_%02d" % at
            found = self.files_of(text)
            files |= {f"{image.decode()}/{path}": content for path, content in found.items()}
            lines += [b"portable inspect %b app" % image, b"portable attach %b app --runtime" % image, f"tree /{ATTACHED}".encode(), b"portable detach %b" % image]
            wanted += self.said(image, found)
        self.bench.resource("services", owned_tree(files), files)
        try:
            expect(self.bench.batch(lines, max(map(len, texts))), wanted)
        finally:
            self.bench.restore()

    def said(self, image, files):
        """What the four lines of an image write."""
        (path, unit), release = next((path, content) for path, content in files.items() if path.startswith(UNITS)), files["usr/lib/os-release"]
        name = path.removeprefix(f"{UNITS}/").encode()
        empty, not_attached = tree_text(), b"refused 19 not-attached\n"
        try:
            values = read_release(release)
        except Faulty as fault:
            return b"refused 13 bad-release %d\n" % fault.line * 2 + empty + not_attached
        allowed = values.get(b"PORTABLE_PREFIXES")
        if allowed is not None and b"app" not in transfers.words_of(allowed):
            return b"refused 14 prefix app\n" * 2 + empty + not_attached
        if not is_unit(name):
            return b"refused 15 no-units\n" * 2 + empty + not_attached
        about = b"image /var/lib/portables/%b\nid %b\nversion %b\nunit %b\n" % (image, values.get(b"ID", b"-"), values.get(b"VERSION_ID", b"-"), name)
        if name.endswith(b".service") and not is_name(name + b".d"):
            return about + b"refused 7 limit path\n" + empty + not_attached
        return about + b"attached 1\n%b\n" % name + attached_text(image, name, unit) + b"detached\n"


def is_unit(name):
    return name.startswith((b"app-", b"app.", b"app@")) and name.endswith(ENDINGS)


def attached_text(image, name, unit):
    """What stands where units are attached, while this one is: all of it is root's."""
    entries = {(name,): (b"f", (b"644", b"%d" % len(unit), digits_of(unit)))}
    if name.endswith(b".service"):
        drop_in = b"# hostext portable %b\n[Service]\nRootDirectory=/var/lib/portables/%b\n" % (image, image)
        folder, link = name + b".d", f"/{PROFILE}".encode()
        entries |= {(folder,): (b"d", (b"755",)), (folder, b"10-profile.conf"): (b"l", (b"%d" % len(link), link))}
        entries[folder, b"20-portable.conf"] = b"f", (b"644", b"%d" % len(drop_in), digits_of(drop_in))
    return text_of(entries)


class Service_Releases(Services):
    """Each is the release file of an image."""

    def found_bases(self):
        own = b"ID=debian\nVERSION_ID=12\nPORTABLE_PREFIXES=app\n", b'ID=debian\nPORTABLE_PREFIXES="web app x"\n', b"PORTABLE_PREFIXES='app-x apple\tapp'\n", b"ID=\"a b\"\n"
        return [*own * 4, *base_texts.releases()]

    def files_of(self, text):
        return {f"{UNITS}/app.service": UNIT, "usr/lib/os-release": text}


class Unit_Files(Services):
    """Each is the name of a unit, and after a line feed its bytes; the name is another where the text has none."""

    def found_bases(self):
        names = b"app.service", b"app-x.service", b"app@.service", b"app.timer", b"app-y.socket", b"app.target", b"app.path", b"apple.service", b"app.mount", b"app" + b"-x" * 121 + b".service"
        return [name + b"\n" + content for name in names for content in (UNIT, b"", b"[Timer]\nOnCalendar=daily\n", b"\x00\xff")]

    def files_of(self, text):
        name, _, content = text.partition(b"\n")
        return {f"{UNITS}/{(name if is_name(name) else b'app.service').decode()}": content, "usr/lib/os-release": b"ID=debian\n"}


class Versions(Kind):
    """Two versions, a line each, by `compare` as a line of a batch."""

    many = 200

    def prepare(self):
        pass

    def found_bases(self):
        texts = [*CHAIN, *(text for pair in ORDERS for text in pair[:2] if len(text) < 100 and text)]
        return [first + b"\n" + second for first in texts for second in texts]

    def words(self, text):
        """The two texts; what would part words stands for a dot."""
        first, _, second = text.partition(b"\n")
        return [re.sub(rb"[ \t\n]", b".", part) or b"." for part in (first, second)]

    def judge(self, texts):
        pairs = [self.words(text) for text in texts]
        ended = self.bench.batch((b"compare %b %b" % tuple(pair) for pair in pairs), max(map(len, texts)))
        expect(ended, b"".join((b"less\n", b"equal\n", b"greater\n")[1 + self.order(*pair)] for pair in pairs))

    def order(self, *pair):
        return compared(*(text.decode("latin-1") for text in pair))


# They bring two transfers and a target with three versions, and install a version in place of one.
UPDATING = b"import-fs two-transfers /etc/sysupdate.d", b"import-fs foos /var/lib/foo", b"sysupdate update 2", b"sysupdate vacuum", b"sysupdate update"
# They bring an image and a profile, attach it and take it away.
ATTACHING = (
    *(b"import-fs profile /run/systemd/portable/profile/default", b"import-fs app /var/lib/portables/app_1", b"portable attach app_1 --runtime", b"portable list"),
    *(b"portable reattach --extension=tool-2 app_1 --runtime --copy=copy", b"portable is-attached app_1", b"portable inspect app_1 app", b"portable detach app_1"),
)


class Worded(Kind):
    """Inputs that are words of commands. A store is put back where a command may have changed it."""

    COMMANDS = (
        *(b"init x86-64 system", b"init x86-64 system /usr:/opt /etc", b"import-fs host /srv/new", b"import-fs images/tool-2 /var/lib/extensions/tool-3", b"import-fs x /"),
        *(b"remove /srv/a", b"remove /etc/motd", b"sysext list", b"sysext status", b"sysext merge", b"sysext merge --force", b"sysext unmerge", b"sysext refresh", b"confext list"),
        *(b"confext refresh --force", b"confext unmerge", b"tree", b"tree /srv", b"cat /srv/a/new", b"cat /usr/bin/tool", b"check", b"migrate", b"compare 1.0~rc1 1.0", b"layer"),
        *(b"batch", b"sample 2", b"sysupdate list", b"sysupdate --component=web check-new", b"sysupdate features", b"sysupdate components", b"import-fs few /srv/x", b"tree /usr"),
        *(b"mark", b"mark 3", b"history", b"history --changes 2", b"rollback 2", b"forget 2", b"sysext changes", b"confext changes --force", b"sysext explain /usr/bin/tool"),
        *(b"confext unmerge", *UPDATING, b"sysupdate --component=web update", b"sysupdate --component=web vacuum", b"sysupdate update 2.0~rc1"),
        *(*ATTACHING, b"portable attach /srv/app_2 app --profile=default --copy=mixed", b"portable attach app_1 --extension=/var/lib/extensions/tool-2"),
    )

    def prepare(self):
        """With what the replies to commands may be; `cat` may write the bytes of any file of the depot."""
        super().prepare()
        self.replies = Replies({content for content in files_below(self.bench.depot).values()})

    def after(self, ended, is_changed):
        """The store is whole, and as before where no command was done that changes it."""
        if not is_changed:
            self.bench.expect_kept(leaves_over(ended))
        if not is_changed and not leaves_over(ended):
            return
        try:
            found = self.bench.tried(["check"])
            if found.status or not re.fullmatch(rb"ok [0-9]+ [0-9]+\n", found.written):
                raise Failed(f"`check` ends with {found.status} afterwards, and writes {found.written}")
            self.expect_index()
        finally:
            self.bench.restore()


class Batches(Worded):
    def found_bases(self):
        lines = [command + b"\n" for command in self.COMMANDS]
        pieces = [b"".join(lines[at : at + 6]) for at in range(0, len(lines), 3)]
        updates = b"".join(line + b"\n" for line in (b"confext unmerge", *UPDATING))
        services = b"".join(line + b"\n" for line in (*ATTACHING[:3], *ATTACHING))
        return [*pieces, *[updates, services] * 2, b"# a comment\n\n \t\n" + lines[2] + lines[5], *base_texts.batches()]

    def judge(self, texts):
        for text in texts:
            ended = self.bench.tried(["batch"], text)
            if ended.status:
                raise Failed(f"it ended with {ended.status}")
            self.after(ended, self.replies_read(text, ended.written))

    def replies_read(self, text, written):
        """Whether a line was done that changes the store, where each reply is one of its line."""
        ends = {0: False}
        for line in text.split(b"\n"):
            words = transfers.words_of(line)
            if words and not words[0].startswith(b"#"):
                ends = self.ends_after(ends, words, written)
        if len(written) not in ends:
            raise Failed(f"after the replies it wrote {written[max(ends):][:200]}")
        return ends[len(written)]

    def ends_after(self, ends, words, written):
        """Where the reply to these words may end, by where those before it may, and whether a line was done then that changes the store."""
        found, passed, why, place = {}, {}, None, place_of(words, IN_A_LINE)
        for at, is_changed in sorted(ends.items()):
            goes_on = self.replies.may_go_on(words, place, written, at)
            # Where the lines of a reply go on that began before, its ends were found with those of that one.
            if goes_on and passed.get(at, -1) >= is_changed:
                continue
            try:
                for end, is_done in self.replies.ends_of(words, place, written, at).items():
                    found[end] = found.get(end, False) or is_changed or is_done
                    if goes_on:
                        passed[end] = passed.get(end, False) or is_changed
            except Failed as failed:
                why = failed
        if not found:
            raise why
        return found


class Words(Worded):
    """Words of the command line, of which none can hold a byte 0, nor all of them more bytes than the system takes."""

    MOST = 100_000

    def found_bases(self):
        return [command.replace(b" ", b"\x00") for command in self.COMMANDS]

    def judge(self, texts):
        for text in texts:
            self.judge_one(text[: self.MOST].split(b"\x00"))

    def judge_one(self, words):
        ended = self.bench.tried(words, size=sum(map(len, words)))
        place = place_of(words) if all(map(is_utf8, words)) else 1
        if place:
            expect(ended, b"", 2)
            if int(re.match(rb"hostext: usage ([0-9]+)", ended.told)[1]) != place:
                raise Failed(f"it tells {ended.told}, and the place is {place}")
        elif words[0] in NOT_IN_A_LINE:
            self.judge_other(words[0], ended)
        else:
            end, is_done = self.replies.end_of(words, None, ended.written, 0)
            if end != len(ended.written) or ended.status != (1 if ended.written.startswith(b"refused ") else 0):
                raise Failed(f"it ended with {ended.status}, and after the reply it wrote {ended.written[end:][:200]}")
            self.after(ended, is_done)
            return
        self.bench.expect_kept()

    def judge_other(self, command, ended):
        """A batch without lines, no tree text, and a sample."""
        if command == b"sample":
            if ended.status or not re.fullmatch(rb"entries [0-9]+\nfiles [0-9]+\nbytes [0-9]+\nsha256 [0-9a-f]{64}\n", ended.written):
                raise Failed(f"it ended with {ended.status}, and wrote {ended.written[:200]}")
        else:
            expect(ended, *((b"", 0) if command == b"batch" else (b"refused 23 bad-tree 1 -\n", 1)))


def is_utf8(word):
    try:
        word.decode()
    except UnicodeDecodeError:
        return False
    return True


# Each kind with its share of the whole; those of which one run tries many have a larger one.
SHARES = {
    **{Current: 3, Indexes: 12, Homes: 3, Layers: 8, Batches: 5, Words: 5},
    **{Trees: 12, Images: 6, Manifests: 10, Transfers: 12, Features: 6, Host_Releases: 6, Releases: 8, Versions: 4, Service_Releases: 4, Unit_Files: 4},
}
