"""A second reading of the rules of docs/FORMATS.md on the index of a generation, which tests/mutations holds the program to."""
import re

from scenes.tree_texts import DIGEST, FILE_FIELD, FORMS, SIZE, Faulty, Tree, entry_of, is_name, names_of, text_of, version_for
from scenes.updates import ORDER

MOST_COUNT, MOST_BYTES, MOST_INDEX_BYTES, MOST_HOME = 1_073_741_824, 4_294_967_296, 134_217_728, 262_143
HOMED = {**FORMS, b"f": re.compile(rb"%b %b %b ([1-9][0-9]{0,9}) ([0-9a-f]{5}) (.+)" % (FILE_FIELD, SIZE, DIGEST), re.S)}
ARCHITECTURES = b"x86", b"x86-64", b"arm", b"arm64", b"riscv64", b"s390x", b"ppc64-le", b"loongarch64"
HOST_LINE = rb"host (?:%b) (?:system|initrd)" % b"|".join(ARCHITECTURES)
NUMBER = rb"(0|[1-9][0-9]{0,9})"


def version_key(name):
    return ORDER(name.decode())


class Sections:
    """What an index says of the host, or of a past tree."""

    def __init__(self):
        self.merged = {"sysext": None, "confext": None}
        self.manifests, self.root, self.lower, self.bytes = [], Tree(), Tree(), 0

    def base(self, hierarchies):
        """The base: below the hierarchies of the merged classes what lies under them, and else what is seen."""
        covered = {name for extension, names in self.merged.items() if names is not None for name in hierarchies[extension]}
        return {**{names: entry for names, entry in self.root.entries.items() if names[0] not in covered}, **self.lower.entries}


class Index:
    """An index that is read line by line; `at` is how many lines were read."""

    def __init__(self, text, generation):
        if len(text) > MOST_INDEX_BYTES:
            raise Faulty(1)
        *self.lines, self.rest = text.split(b"\n")
        self.at, self.generation, self.homes, self.tells = 0, generation, {}, False
        # Past trees, and their generations.
        self.past, self.marks = [], []
        self.hierarchies = {"sysext": [b"opt", b"usr"], "confext": [b"etc"]}
        self.read()

    def fault(self):
        raise Faulty(self.at + 1)

    def found(self, pattern):
        """Whether the next line has this form."""
        return re.fullmatch(pattern, self.lines[self.at], re.S) if self.at < len(self.lines) else None

    def take(self, pattern, holds=lambda *fields: True):
        """The fields of the next line, of which something has to hold."""
        found = self.found(pattern)
        if not found or not holds(*found.groups()):
            self.fault()
        self.at += 1
        return found.groups()

    def number(self, word, least=0, most=MOST_COUNT):
        return int(self.take(rb"%b %b" % (word, NUMBER), lambda number: least <= int(number) <= most)[0])

    def read(self):
        self.number_of_text = int(self.take(rb"hostext-store ([123])")[0])
        self.take(HOST_LINE)
        if self.number_of_text > 1:
            self.read_hierarchies()
        self.host = self.read_sections()
        if self.number_of_text > 1:
            self.read_past()
        self.take(rb"end")
        if self.at < len(self.lines) or self.rest:
            self.fault()
        for sections in self.host, *self.past:
            self.check_manifests(sections)

    def read_hierarchies(self):
        self.hierarchies = {"sysext": [], "confext": []}
        for more in reversed(range(self.number(b"hierarchies", 2, 32))):
            extension, name = self.take(rb"h (sysext|confext) (.+)", lambda extension, name: self.may_extend(extension.decode(), name, more))
            self.hierarchies[extension.decode()].append(name)

    def may_extend(self, extension, name, more):
        own, other = (self.hierarchies[one] for one in (("sysext", "confext") if extension == "sysext" else ("confext", "sysext")))
        has_order = not own or own[-1] < name
        has_other = more > 0 or (extension == "confext" and bool(other))
        return is_name(name) and has_order and len(own) < 16 and has_other and not (name in other or (extension == "sysext" and other))

    def read_sections(self):
        found = Sections()
        for extension in found.merged:
            if self.found(rb"%b .*" % extension.encode()):
                found.merged[extension] = self.read_merged(extension.encode())
        names = []
        for _ in range(self.number(b"attached")):
            self.read_attachment(names)
        for _ in range(self.number(b"kept")):
            self.read_manifest(found)
        for _ in range(self.number(b"root")):
            self.read_entry(found, found.root, lambda names: True)
        covered = {name for extension, names in found.merged.items() if names is not None for name in self.hierarchies[extension]}
        for _ in range(self.number(b"lower")):
            self.read_entry(found, found.lower, lambda names: names[0] in covered)
        return found

    def read_merged(self, word):
        names = []
        for _ in range(self.number(word, 1)):
            names += self.take(rb"n (.+)", lambda name: is_name(name) and (not names or version_key(names[-1]) < version_key(name)))
        return names

    def read_attachment(self, names):
        count = int(self.take(rb"a (?:etc|run) %b" % NUMBER, lambda count: int(count) <= MOST_COUNT)[0])
        names += self.take(rb"i (.+)", lambda name: is_name(name) and (not names or names[-1] < name))
        self.take(rb"s (.+)", names_of)
        last = ()
        for _ in range(count):
            last = names_of(self.take(rb"p (.+)", lambda path: names_of(path) and last < names_of(path))[0])

    def read_manifest(self, sections):
        before = sections.manifests[-1][1] if sections.manifests else None
        line = self.at + 1
        count, path = self.take(rb"k %b (.+)" % NUMBER, lambda count, path: int(count) <= MOST_COUNT and self.stands_apart(before, names_of(path)))
        items, last = {}, ()
        for _ in range(int(count)):
            digest, item = self.take(rb"m %b (.+)" % DIGEST, lambda digest, item: names_of(item) and last < names_of(item))
            last = names_of(item)
            items[last] = digest
        sections.manifests.append((line, names_of(path), items))

    def stands_apart(self, before, names):
        return names and (before is None or (before < names and names[: len(before)] != before))

    def read_entry(self, sections, tree, is_inside):
        entry = entry_of(self.lines[self.at], HOMED) if self.at < len(self.lines) else None
        tells = bool(entry) and version_for(*entry[:2]) == 3
        if not entry or (tells and self.number_of_text < 3) or not is_inside(entry[2]) or not self.may_enter(sections, tree, *entry):
            self.fault()
        tree.take(*entry)
        self.tells |= tells
        self.at += 1

    def may_enter(self, sections, tree, kind, fields, names):
        if kind == b"f":
            size, stamp, home = int(fields[1]), fields[1:3], (int(fields[3]), int(fields[4], 16))
            is_kept = home[0] <= self.generation and home[1] <= MOST_HOME and self.homes.get(home, stamp) == stamp
            if not is_kept or sections.bytes + size > MOST_BYTES:
                return False
        has_room = len(sections.root.entries) + len(sections.lower.entries) < 262_144
        if not has_room or not tree.may_take(names):
            return False
        if kind == b"f":
            sections.bytes += size
            self.homes[home] = stamp
        return True

    def read_past(self):
        last = 0
        for _ in range(self.number(b"past")):
            if len(self.past) == 16:
                self.fault()
            last = self.number(b"g", last + 1, self.generation - 1)
            self.marks.append(last)
            self.past.append(self.read_sections())

    def check_manifests(self, sections):
        """The files at and below the path of each manifest are its items."""
        base = sections.base(self.hierarchies)
        for line, path, items in sections.manifests:
            files = {names: fields[2] for names, (kind, fields) in base.items() if kind == b"f" and names[: len(path)] == path}
            if files != items:
                raise Faulty(line)

    def is_written(self):
        """Whether its text has the number with which it is written: 3 where an entry tells an owner or a capability, and else 2."""
        return self.number_of_text == (3 if self.tells else 2)

    def tree_text(self):
        """What `tree` writes."""
        return text_of({names: (kind, fields[:3] if kind == b"f" else fields) for names, (kind, fields) in self.host.root.entries.items()})

    def status_text(self, extension):
        """What `sysext status` or `confext status` writes."""
        names = self.host.merged[extension]
        return b"unmerged\n" if names is None else b"".join((b"merged %d\n" % len(names), *(name + b"\n" for name in names)))

    def files(self):
        """The size, the digest and the home of each listed file."""
        for sections in self.host, *self.past:
            for tree in sections.root, sections.lower:
                yield from ((int(fields[1]), fields[2], int(fields[3]), fields[4]) for kind, fields in tree.entries.values() if kind == b"f")
