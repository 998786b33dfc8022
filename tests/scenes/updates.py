"""What can be updated: manifests that sha256sum(1) wrote beside directories that tools/pack packed; and 300 hosts made from kept
seeds, of which versions, features and components are worked out a second time by the rules of docs/FORMATS.md."""
import functools
import hashlib
import itertools
import os
import random
import re
import shutil
import subprocess

from scenes.patterns import filled, parts_of, ways
from scenes.running import SECONDS, Failed, Skipped, expect, named, run
from scenes.stores import DONE, INIT, digest, in_a_place
from scenes.tools import beside, tool
from scenes.uses import tree_of

HOSTS = range(300)
ROOTS = "etc", "run", "usr/local/lib", "usr/lib"
ON, OFF = ("1", "yes", "y", "true", "t", "on"), ("0", "no", "n", "false", "f", "off")
VERSIONS = "1", "1.0", "01", "2", "2~rc1", "3", "10", "1.1", "2-1", "a"
PATTERNS = "foo_@v", "foo_@v.x", "@v.foo", "foo_@v_@h", "f@v"
RANKS = {"~": 0, "": 1, "-": 2, "^": 3, ".": 4}


def value_of(digits):
    """What two numbers are compared by, of any length: how many digits they have, and these."""
    digits = digits.lstrip("0")
    return len(digits), digits


def tokens_of(version):
    """The tokens of a version, each by its rank and what it is compared by, and the end."""
    found = []
    for text in re.findall(r"[0-9]+|[A-Za-z]+|[~.^-]", version):
        found.append((6, value_of(text)) if text.isdigit() else (5, text) if text.isalpha() else (RANKS[text], 0))
    return [*found, (RANKS[""], 0)]


def compared(a, b):
    """How two versions are ordered, by their tokens alone: -1, 0 or 1."""
    for one, other in itertools.zip_longest(tokens_of(a), tokens_of(b)):
        if one != other:
            return -1 if one < other else 1
    return 0


ORDER = functools.cmp_to_key(lambda a, b: compared(a, b) or (a.encode() > b.encode()) - (a.encode() < b.encode()))


def first_match(patterns, name):
    """What the first pattern that matches a name catches."""
    for pattern in patterns:
        found = list(ways(parts_of(pattern.encode()), name.encode()))
        if found:
            return {kind: text.decode() for kind, text in found[0].items()}
    return None


class Host:
    """A host made from a seed: its files, links to masks, manifests, and what is to be told of it."""

    def __init__(self, seed):
        self.chance = random.Random(seed)
        self.files, self.links, self.sums = {"srv/own": b"own"}, {}, {}
        self.versions = self.chance.sample(VERSIONS, 4)
        self.component = self.chance.choice((None, None, "web"))
        self.folder = f"sysupdate.{self.component}.d" if self.component else "sysupdate.d"
        self.transfers, self.features = {}, {}
        for at in range(self.chance.randrange(4)):
            self.put("feature", self.chance.choice("abc"), self.feature_text, self.features)
        for at in range(self.chance.choice((0, 1, 1, 2, 2, 3))):
            self.put("transfer", f"{self.chance.randrange(3)}-t", self.transfer_text, self.transfers)
        for at in range(self.chance.randrange(30)):
            self.place_instance()

    def put(self, kind, name, text, found):
        """A file in one of the folders, which is a mask at times; it counts where none of an earlier folder does."""
        at, path = self.chance.randrange(4), None
        path = f"{ROOTS[at]}/{self.folder}/{name}.{kind}"
        if path in self.files or path in self.links:
            return
        kind_of_mask = self.chance.choice(("", "", "", "", "empty", "link"))
        content, said = text()
        if kind_of_mask == "empty":
            self.files[path], said = b"", None
        elif kind_of_mask == "link":
            self.links[path], said = "/dev/null", None
        else:
            self.files[path] = content
        if name not in found or at < found[name][0]:
            found[name] = at, said

    def feature_text(self):
        on = self.chance.random() < 0.7
        lines = ["[Feature]", "Description=x"]
        if on or self.chance.random() < 0.7:
            lines.append(f"Enabled={self.chance.choice(ON if on else OFF)}")
        return "".join(f"{line}\n" for line in lines).encode(), on

    def transfer_text(self):
        pick = self.chance.choice
        said = {
            "directory": pick((False, False, True)),
            "source": pick(("images", "more/of")),
            "source_patterns": self.chance.sample(PATTERNS, pick((1, 1, 2))),
            "target": pick(("srv", "var/lib/extensions")),
            "features": self.chance.sample("abc", pick((0, 0, 0, 0, 1, 2))),
            "requisite": self.chance.sample("abc", pick((0, 0, 0, 0, 0, 1))),
            "min": pick((None, None, None, "1", "2")),
            "protect": self.chance.sample(self.versions, pick((0, 1, 2))),
        }
        own = self.chance.random() < 0.5
        said["target_patterns"] = self.chance.sample(PATTERNS, pick((1, 2))) if own else said["source_patterns"]
        kind = "directory" if said["directory"] else "regular-file"
        transfer = [f"ProtectVersion={' '.join(said['protect'])}", f"Features={' '.join(said['features'])}", f"RequisiteFeatures={' '.join(said['requisite'])}"]
        if said["min"]:
            transfer.append(f"MinVersion={said['min']}")
        target = [f"MatchPattern={' '.join(said['target_patterns'])}"] if own else []
        lines = [
            *("[Transfer]", *transfer),
            *("[Source]", f"Type={kind}", f"Path=/{said['source']}", f"MatchPattern={' '.join(said['source_patterns'])}"),
            *("[Target]", f"Type={kind}", f"Path=/{said['target']}", *target),
        ]
        return "".join(f"{line}\n" for line in lines).encode(), said

    def name_of(self, patterns, digits):
        return filled(parts_of(self.chance.choice(patterns).encode()), self.chance.choice(self.versions).encode(), digits.encode()).decode()

    def place_instance(self):
        """An entry in a target, and a name in a manifest, of a transfer or of none."""
        digits = digest(b"%d" % self.chance.randrange(3))
        said = [said for _, said in self.transfers.values() if said]
        where = self.chance.choice(said) if said else None
        name = self.name_of(where["target_patterns"] if where else PATTERNS, digits)
        target = where["target"] if where else "srv"
        if self.chance.random() < 0.6:
            is_file = self.chance.random() < 0.7
            path = f"{target}/{name}" if is_file else f"{target}/{name}/in"
            if not any(other == path or other.startswith(f"{path}/") or path.startswith(f"{other}/") for other in self.files):
                self.files[path] = b"x"
        name = self.name_of(where["source_patterns"] if where else PATTERNS, self.chance.choice((digits, digest(b"other"))))
        source = where["source"] if where else "images"
        if where and where["directory"] and self.chance.random() < 0.8:
            name += ".tree"
        self.sums.setdefault(source, {})[name] = digits

    # What is to be told.

    def features_on(self):
        return {name: on for name, (_, on) in self.features.items() if on is not None}

    def active(self):
        on = self.features_on()
        counted = [said for _, (_, said) in sorted(self.transfers.items()) if said]
        if not counted:
            return None, "refused 20 no-transfers"
        found = [
            said
            for said in counted
            if (not said["features"] or any(on.get(name) for name in said["features"])) and all(on.get(name) for name in said["requisite"])
        ]
        return (found, None) if found else (None, "refused 33 none-on")

    def offers(self, said):
        found = {}
        for listed, digits in self.sums[said["source"]].items():
            name = listed
            if said["directory"]:
                if not listed.endswith(".tree") or listed == ".tree":
                    continue
                name = listed[: -len(".tree")]
            caught = first_match(said["source_patterns"], name)
            if caught is None or caught.get("digest", digits) != digits:
                continue
            made = filled(parts_of(said["target_patterns"][0].encode()), caught["version"].encode(), digits.encode()).decode()
            read = first_match(said["target_patterns"], made)
            if read and read["version"] == caught["version"]:
                found[caught["version"]] = min(found.get(caught["version"], name), name, key=str.encode)
        return found

    def instances(self, said):
        found, target = set(), f"{said['target']}/"
        for path in self.files:
            if path.startswith(target):
                name, _, below = path[len(target) :].partition("/")
                caught = first_match(said["target_patterns"], name)
                if caught and bool(below) == said["directory"]:
                    found.add(caught["version"])
        return found

    def told(self):
        """What `list` and `check-new` write."""
        transfers, refusal = self.active()
        if refusal:
            return [f"{refusal}\n"] * 2
        for said in transfers:
            if said["source"] not in self.sums:
                return [f"refused 24 not-in-depot {said['source']}/SHA256SUMS\n"] * 2
        offered = [self.offers(said) for said in transfers]
        present = [self.instances(said) for said in transfers]
        exceeded = lambda version: any(said["min"] and compared(said["min"], version) > 0 for said in transfers)
        available = {version for version in offered[0] if all(version in one for one in offered) and not exceeded(version)}
        installed = set.intersection(*present)
        lines = []
        for version in sorted(available | set.union(*present), key=ORDER, reverse=True):
            some = any(version in one for one in present)
            flags = ["available"] * (version in available) + ["installed" if version in installed else "partial"] * some
            flags += ["protected"] * any(version in said["protect"] for said in transfers) + ["obsolete"] * exceeded(version)
            lines.append(" ".join([version, *flags]) + "\n")
        newest = max(available, key=ORDER, default=None)
        newer = newest is not None and all(compared(newest, version) > 0 for version in installed)
        return ["".join(lines), f"{newest}\n" if newer else "refused 26 none-newer\n"]

    def text(self):
        """The text of its tree."""
        lines = tree_of(self.files).decode().splitlines()[1:-1]
        paths = {line.split(" ")[-1]: line for line in lines}
        for path, target in self.links.items():
            parents = path.split("/")[:-1]
            paths |= {"/".join(parents[:at]): f"d 755 {'/'.join(parents[:at])}" for at in range(1, len(parents) + 1)}
            paths[path] = f"l {len(target)} {target} {path}"
        return "".join(f"{line}\n" for line in ("hostext-tree 1", *(paths[path] for path in sorted(paths, key=lambda path: path.encode().split(b"/"))), "end")).encode()


def each_host_is_told_as_its_rules_say(place):
    around = {word: 0 for word in ("installed", "available", "partial", "protected", "obsolete", "none-newer", "none-on")}
    for seed in HOSTS:
        host = Host(seed)
        shutil.rmtree(place.depot / "host", ignore_errors=True)
        place.resource("host", host.text(), host.files)
        for source, names in host.sums.items():
            (place.depot / source).mkdir(parents=True, exist_ok=True)
            (place.depot / source / "SHA256SUMS").write_text("".join(f"{digits}  {name}\n" for name, digits in names.items()))
        option = f"--component={host.component} " if host.component else ""
        given = "".join(f"{line}\n" for line in ("import-fs host /", f"sysupdate {option}features", "sysupdate components", f"sysupdate {option}list", f"sysupdate {option}check-new"))
        features = "".join(f"{name} {'on' if on else 'off'}\n" for name, on in sorted(host.features_on().items()))
        has_folder = host.component and any(f"/{host.folder}/" in path for path in (*host.files, *host.links))
        components = f"components 1\n{host.component}\n" if has_folder else "components 0\n"
        wanted = "".join(("done\n", features, components, *host.told()))
        words = [os.fsencode(word) for word in (place.store, place.depot, "batch")]
        if not seed:
            expect(place.run(*INIT), (DONE, b"", 0))
        try:
            expect(run(place.program, words, given.encode()), (wanted.encode(), b"", 0))
        except Failed as reason:
            raise Failed(f"seed {seed}: {reason}") from None
        for word in around:
            around[word] += wanted.count(word)
        for source in host.sums:
            (place.depot / source / "SHA256SUMS").unlink()
    rare = {word: count for word, count in around.items() if count < 10}
    if rare:
        raise Failed(f"the hosts hardly show {rare}")


TRANSFER = """[Transfer]
Verify=no
[Source]
Type={kind}
Path={path}
MatchPattern={pattern}
[Target]
Type={target}
Path=/var/lib/extensions
"""


def folders_that_were_packed_and_listed_are_offered(place):
    """By tools/pack, and sha256sum(1) where it is."""
    images = place.depot / "images"
    images.mkdir()
    for version in 1, 2:
        folder = beside(place, f"tool-{version}")
        (folder / "usr").mkdir(parents=True)
        (folder / "usr/tool").write_text(f"tool {version}\n")
        expect(tool(place, "pack", folder, place.depot, f"images/tool-{version}")[1:], (b"", 0))
        (images / f"disk_{version}.raw").write_text(f"disk {version}\n")
    try:
        names = sorted(path.name for path in images.iterdir() if path.is_file())
        listed = subprocess.run(["sha256sum", *names], cwd=images, check=True, capture_output=True, timeout=SECONDS).stdout
    except FileNotFoundError:
        raise Skipped("there is no sha256sum") from None
    (images / "SHA256SUMS").write_bytes(listed)
    files = {
        "etc/sysupdate.d/10-tool.transfer": TRANSFER.format(kind="directory", path="/images", pattern="tool-@v", target="directory").encode(),
        "etc/sysupdate.disk.d/10-disk.transfer": TRANSFER.format(kind="url-file", path="file:///images", pattern="disk_@v.raw", target="regular-file").encode(),
        "var/lib/extensions/disk_2.raw": b"disk 2\n",
    }
    place.resource("host", tree_of(files), files)
    place.expect(
        ("init x86-64 system", DONE),
        ("import-fs host /", DONE),
        ("import-fs images/tool-1 /var/lib/extensions/tool-1", DONE),
        ("sysupdate list", b"2 available\n1 available installed\n"),
        ("sysupdate check-new", b"2\n"),
        ("sysupdate components", b"components 1\ndisk\n"),
        ("sysupdate --component=disk list", b"2 available installed\n1 available\n"),
        ("sysupdate --component=disk check-new", b"refused 26 none-newer\n"),
        ("import-fs images/tool-2 /var/lib/extensions/tool-2", DONE),
        ("sysupdate check-new", b"refused 26 none-newer\n"),
    )


scenes = named(in_a_place(each_host_is_told_as_its_rules_say), in_a_place(folders_that_were_packed_and_listed_are_offered))
