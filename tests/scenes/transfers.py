"""A second reading of the rules of docs/FORMATS.md on transfer files, feature files and what a host can update to, which
tests/mutations holds the program to."""
import functools
import re

from scenes.patterns import Fault, filled, is_taken, parts_of, ways
from scenes.tree_texts import Faulty, is_name, names_of
from scenes.unit_files import read, settings_of, since_the_last_empty_one
from scenes.updates import ORDER, compared

NO, YES = (b"no", b"false", b"off", b"0", b"n", b"f"), (b"yes", b"true", b"on", b"1", b"y", b"t")
PREFIXES = {b"url-file": b"file:///", b"regular-file": b"/", b"directory": b"/"}
# So many patterns and matches are kept.
KEPT = 4_096
MOST_PATTERN_BYTES = 1_000
SPECIFIER = re.compile(rb"%(.?)", re.S)


def words_of(value):
    return [word for word in re.split(rb"[ \t]", value) if word]


def is_version(text):
    return is_taken("version", text)


@functools.lru_cache(KEPT)
def pattern_of(word):
    """The parts of a pattern, or nothing; no pattern has so many bytes as the longest words."""
    try:
        return parts_of(word) if len(word) <= MOST_PATTERN_BYTES else None
    except Fault:
        return None


@functools.lru_cache(KEPT)
def match(word, name):
    """What the wildcards of a pattern take of a name, or nothing."""
    found = list(ways(pattern_of(word), name))
    return found[0] if found else None


def first_match(patterns, name):
    return next((found for found in (match(word, name) for word in patterns) if found), None)


def sections_of(data):
    """The sections of a unit file."""
    sections, faults = read(data)
    if faults:
        raise Faulty(min(faults)[0], "syntax")
    return sections


def read_feature(data):
    """Whether a feature is on."""
    settings = settings_of(sections_of(data), b"Feature", b"Enabled")
    if not settings:
        return False
    line, value = settings[-1]
    if value not in (*YES, *NO):
        raise Faulty(line, "enabled")
    return value in YES


def path_of(text):
    """The names of a path, of which any slashes at the end don't count; the empty text is the root."""
    text = text.rstrip(b"/")
    return names_of(text) if text else ()


class Transfer:
    """What a transfer file says, key by key in the order in which faults are told."""

    def __init__(self, data, specifiers):
        self.sections, self.specifiers = sections_of(data), specifiers
        self.read_source()
        self.read_target()
        self.read_keeping()
        self.read_versions()
        self.features, self.requisite = (self.words(self.all(b"Transfer", key)) for key in (b"Features", b"RequisiteFeatures"))

    def last(self, section, key):
        """The last setting of a key, with its line; line 0 where there is none."""
        return (settings_of(self.sections, section, key) or [(0, None)])[-1]

    def all(self, section, key):
        return since_the_last_empty_one(settings_of(self.sections, section, key))

    def words(self, settings):
        return [word for _, value in settings for word in words_of(value)]

    def expanded(self, line, value):
        """The value with its specifiers replaced."""
        if any(letter not in self.specifiers for letter in SPECIFIER.findall(value)):
            raise Faulty(line, "specifier")
        return SPECIFIER.sub(lambda found: self.specifiers[found[1]], value)

    def expanded_all(self, settings):
        return [(line, self.expanded(line, value)) for line, value in settings]

    def check(self, holds, line, why):
        if not holds:
            raise Faulty(line, why)

    def read_source(self):
        (_, kind), (line, verify) = self.last(b"Source", b"Type"), self.last(b"Transfer", b"Verify")
        self.check(verify in NO or (kind != b"url-file" and (verify is None or verify in YES)), line, "verify")
        self.check(kind in PREFIXES, self.last(b"Source", b"Type")[0], "source-type")
        self.is_directory = kind == b"directory"
        line, value = self.last(b"Source", b"Path")
        self.check(value is not None, 0, "source-path")
        text, prefix = self.expanded(line, value), PREFIXES[kind]
        self.source = path_of(text[len(prefix) :]) if text.startswith(prefix) else None
        has_room = self.source is not None and len(self.source) <= 63 and len(b"/".join(self.source)) <= 3_840
        self.check(has_room, line, "source-path")
        self.source_patterns = self.patterns(b"Source", "source-pattern")

    def read_target(self):
        line, kind = self.last(b"Target", b"Type")
        self.check(kind == (b"directory" if self.is_directory else b"regular-file"), line, "target-type")
        line, value = self.last(b"Target", b"Path")
        self.check(value is not None, 0, "target-path")
        text = self.expanded(line, value)
        self.target = path_of(text[1:]) if text.startswith(b"/") else None
        self.check(self.target is not None, line, "target-path")
        own = self.all(b"Target", b"MatchPattern")
        self.target_patterns = self.patterns(b"Target", "target-pattern") if own else self.source_patterns

    def patterns(self, section, why):
        settings, found = self.expanded_all(self.all(section, b"MatchPattern")), []
        self.check(settings, 0, why)
        for line, value in settings:
            found += words_of(value)
            self.check(words_of(value) and all(map(pattern_of, words_of(value))) and len(found) <= 64, line, why)
        return found

    def read_keeping(self):
        line, mode = self.last(b"Target", b"Mode")
        self.check(mode is None or (re.fullmatch(rb"[0-7]{1,5}", mode) and int(mode, 8) <= 0o7777), line, "mode")
        line, most = self.last(b"Target", b"InstancesMax")
        self.check(most is None or (re.fullmatch(rb"[1-9][0-9]{0,6}", most) and 2 <= int(most) <= 1_000_000), line, "instances")
        line, link = self.last(b"Target", b"CurrentSymlink")
        if link is not None and (text := self.expanded(line, link)):
            self.check(self.is_link(text), line, "link")
        for section in b"Source", b"Target":
            line, relative = self.last(section, b"PathRelativeTo")
            self.check(relative in (None, b"root"), line, "relative")

    def is_link(self, text):
        if text.startswith(b"/"):
            return names_of(text[1:])
        return is_name(text) and names_of(b"/".join((*self.target, text)))

    def read_versions(self):
        line, least = self.last(b"Transfer", b"MinVersion")
        self.least = self.expanded(line, least) if least else b""
        self.check(not self.least or is_version(self.least), line, "min-version")
        settings = self.expanded_all(self.all(b"Transfer", b"ProtectVersion"))
        for line, value in settings:
            self.check(all(map(is_version, words_of(value))), line, "protect-version")
        self.protected = self.words(settings)

    def is_on(self, features):
        """Whether it counts where these features are on."""
        return (not self.features or any(name in features for name in self.features)) and all(name in features for name in self.requisite)

    def offers(self, listed):
        """The versions that a manifest has for it, of these names and digests."""
        found = set()
        for name, digits in listed.items():
            resource = name[: -len(b".tree")] if self.is_directory else name
            if is_name(name) and is_name(resource) and (not self.is_directory or name.endswith(b".tree")):
                found |= self.version_of(resource, digits)
        return found

    def version_of(self, name, digits):
        caught = first_match(self.source_patterns, name)
        if not caught or caught.get("digest", digits) != digits:
            return set()
        made = filled(pattern_of(self.target_patterns[0]), caught["version"], digits)
        read_back = first_match(self.target_patterns, made)
        return {caught["version"]} if read_back and read_back["version"] == caught["version"] else set()

    def instances(self, entries):
        """The versions that stand in its target, of the entries of a base."""
        wanted = b"d" if self.is_directory else b"f"
        names = (path[-1] for path, (kind, _) in entries.items() if path[:-1] == self.target and (kind == wanted or (kind, wanted) == (b"o", b"d")))
        return {found["version"] for found in (first_match(self.target_patterns, name) for name in names) if found}

    def exceeds(self, version):
        return bool(self.least) and compared(self.least.decode(), version.decode()) > 0


def told(transfer, listed, entries):
    """What `list` and `check-new` write of a host with one transfer, which is on, and a sound manifest."""
    present = transfer.instances(entries)
    available = {version for version in transfer.offers(listed) if not transfer.exceeds(version)}
    lines = []
    for version in sorted(available | present, key=lambda version: ORDER(version.decode()), reverse=True):
        flags = ((b"available", version in available), (b"installed", version in present), (b"protected", version in transfer.protected), (b"obsolete", transfer.exceeds(version)))
        lines.append(b" ".join((version, *(word for word, holds in flags if holds))) + b"\n")
    newest = max(available, key=lambda version: ORDER(version.decode()), default=None)
    is_newer = newest is not None and all(compared(newest.decode(), version.decode()) > 0 for version in present)
    return b"".join(lines), newest + b"\n" if is_newer else b"refused 26 none-newer\n"
