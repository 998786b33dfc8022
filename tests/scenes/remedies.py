"""What helps after a refusal, line by line: the tables of docs/FORMATS.md say it of each, and each is met by a command that is refused so."""
import os
import re
import subprocess

from scenes.helping import rows
from scenes.portable import PROFILES, RELEASE, UNITS
from scenes.running import SECONDS, Failed, named, shortened, tree_text
from scenes.stores import DONE, OLD_INDEX, digest, in_a_place, long_names
from scenes.uses import tree_of

EXPLAIN = {**os.environ, "HOSTEXT_EXPLAIN": "yes"}
NOTHING, FAR = digest(b""), "/".join("x" * 60)
UNIT = f"{UNITS}/web.service"
MANY = 150_000
TRANSFER = """[Transfer]
{transfer}
[Source]
Type=regular-file
Path=/offered
MatchPattern=foo_@v
[Target]
Type=regular-file
Path={path}
InstancesMax=2
"""


class Told:
    """The rows of a table, and those that were met so far."""

    def __init__(self, place, after):
        self.place, self.rows, self.met = place, rows(after), set()

    def run(self, words, source=b"", depot=None):
        found = [os.fsencode(word) for word in (self.place.program, self.place.store, depot or self.place.depot, *words)]
        ended = subprocess.run(found, env=EXPLAIN, input=source, capture_output=True, timeout=SECONDS)
        return ended.stdout.decode(), ended.stderr.decode(), ended.returncode

    def wanted(self, row, said):
        self.met.add(row)
        line = self.rows[row]
        for word, value in said.items():
            line = re.sub(rf"\b{word}\b", lambda _: value, line)
        return line

    def refuses(self, command, row, depot=None, source=b"", **said):
        """A command is refused so, and what helps follows."""
        written, told, status = self.run(command.split(" "), source, depot)
        number, word = re.match(r"([0-9]+) `([^`]+)`", row).groups()
        if not written.startswith(f"refused {number} {word}") or status != 1:
            raise Failed(f"`{command}` ends with {status}: {shortened(written)}")
        wanted = f"hostext: {self.wanted(row, said)}\n"
        if told != wanted:
            raise Failed(f"`{command}` tells {shortened(told)}, and not {shortened(wanted)}")

    def done(self, *commands):
        for command in commands:
            written, told, status = self.run(command.split(" "))
            if status or told:
                raise Failed(f"`{command}` ends with {status}: {shortened(written)} {shortened(told)}")

    def put(self, name, files, where):
        """Files of the host at a path."""
        self.place.resource(name, tree_of(files), files)
        self.done(f"import-fs {name} {where}")

    def are_met(self):
        left = sorted(set(self.rows) - self.met)
        if left:
            raise Failed(f"no command is refused by {', '.join(left)}")


def transfer(name="a", transfer="", path="/srv"):
    return {f"{name}.transfer": TRANSFER.format(transfer=transfer, path=path).encode()}


def of_stores_and_views(told):
    told.refuses("tree", "1 `no-store`")
    told.done("init x86-64 system")
    told.refuses("init x86-64 system", "2 `store-exists`")
    told.refuses("sysext list", "5 `no-host-release`")
    told.put("bad", {"etc/os-release": b"ID=\"\n"}, "/")
    told.refuses("sysext list", "6 `bad-host-release`")
    told.put("host", {"etc/os-release": RELEASE, "a": b"", "run/extensions/x/usr/lib/extension-release.d/extension-release.x": RELEASE, "usr/b": b"", "run/confexts/y/etc/extension-release.d/extension-release.y": RELEASE}, "/")
    told.refuses("tree /c", "8 `no-entry`")
    told.refuses("tree /a", "9 `not-directory`")
    told.refuses("cat /usr", "10 `not-file`")
    told.refuses("rollback 7", "37 `no-mark`")
    for name, hierarchy in ("sysext", "/usr/c"), ("confext", "/etc/c"):
        told.done(f"{name} merge")
        told.refuses(f"{name} merge", "3 `merged`", CLASS=name)
        told.refuses(f"import-fs host {hierarchy}", "4 `read-only`", CLASS=name)
    told.done("sysext unmerge", "confext unmerge")


def of_depots(told):
    told.refuses("import-fs nothing /x", "24 `not-in-depot`", FOLDER=str(told.place.depot), PATH="nothing.tree")
    told.refuses("import-fs images/of/nothing /x", "24 `not-in-depot`, where its folder is missing", FOLDER=str(told.place.depot), PLACE="images/of")
    gone = told.place.depot.with_name("g\none")
    told.refuses("import-fs nothing /x", "24 `not-in-depot`, where DEPOT is missing", depot=gone, FOLDER=str(gone).replace("\n", "\\n"))
    told.place.resource("faulty", b"hostext-tree 1\nx\n")
    told.refuses("import-fs faulty /x", "23 `bad-tree`")
    told.place.resource("other", tree_text(f"f 644 1 {NOTHING} a"), {"a": b"x"})
    told.refuses("import-fs other /x", "25 `mismatch`")


def of_limits(told):
    place = told.place
    place.resource("large", tree_text(*(f"f 644 {1 << 30} {NOTHING} {name}" for name in "abcde")))
    told.refuses("import-fs large /x", "7 `limit bytes`")
    place.resource("deep", tree_text("d 755 a", "d 755 a/b", "d 755 a/b/c", "d 755 a/b/c/d", "d 755 a/b/c/d/e"))
    told.refuses(f"import-fs deep /{FAR}", "7 `limit path`")
    with open(place.depot / "wide.tree", "wb") as text:
        text.truncate((64 << 20) + 1)
    told.refuses("import-fs wide /x", "7 `limit text`")
    place.resource("many", tree_text(*(f"d 755 {at:06}" for at in range(MANY))))
    told.done("import-fs many /m")
    count = told.run(["tree"])[0].count("\n") - 2
    told.refuses("import-fs many /n", "7 `limit entries`", COUNT=str(count))
    place.resource("long", long_names(87_700))
    told.done("remove /m", "import-fs long /m")
    told.refuses("import-fs long /n", "7 `limit index`")
    told.done("remove /m")


def of_services(told):
    head = {"usr/lib/os-release": RELEASE}
    told.put("images", {
        "none/usr/a": b"", "faulty/usr/lib/os-release": b"ID=\"\n", "strict/usr/lib/os-release": b"PORTABLE_PREFIXES=a\n", f"strict/{UNIT}": b"",
        "bare_1/usr/lib/os-release": RELEASE, **{f"{name}/{path}": content for name in ("web", "other") for path, content in {**head, UNIT: b""}.items()},
        "split/usr/lib/os-release": RELEASE, "split/lib/systemd/system/split.service": b"",
    }, "/var/lib/portables")
    told.refuses("portable inspect nothing", "11 `no-image`")
    told.refuses("portable inspect none", "12 `not-portable`")
    told.refuses("portable inspect faulty", "13 `bad-release`")
    told.refuses("portable attach strict web", "14 `prefix`")
    told.refuses("portable attach bare_1", "15 `no-units`, without a prefix", PREFIX="bare")
    for command in "inspect", "attach":
        told.refuses(f"portable {command} web db db", "15 `no-units`, with prefixes", PREFIX="db")
    for image in "split", "/var/lib/portables/split":
        told.refuses(f"portable inspect {image}", "15 `no-units`, where the image has a folder of units in `lib`", PREFIX="split")
    told.refuses("portable attach web", "16 `no-profile`", PROFILE="default")
    told.refuses("portable attach --profile=strict web", "16 `no-profile`", PROFILE="strict")
    told.put("profile", {"service.conf": b"[Service]\n"}, f"/{PROFILES}/default")
    told.refuses("portable attach web --profile=mine", "16 `no-profile`", PROFILE="mine")
    told.refuses("portable detach web", "19 `not-attached`")
    told.refuses("portable attach --extension=none web", "30 `no-extension`")
    told.refuses("portable attach --extension=/var/lib/portables/none web", "31 `extension`")
    told.done("portable attach web")
    told.refuses("portable attach web", "18 `already-attached`")
    told.refuses("portable attach other web", "17 `exists`")


def of_updates(told):
    place = told.place
    told.refuses("sysupdate list", "20 `no-transfers`", FOLDER="sysupdate.d")
    told.refuses("sysupdate --component=web list", "20 `no-transfers`", FOLDER="sysupdate.web.d")
    told.put("faulty", {"a.transfer": b"[Source]\nType=x\n"}, "/etc/sysupdate.d")
    told.refuses("sysupdate list", "21 `bad-transfer`")
    told.put("faulty", {"a.feature": b"[Feature]\nEnabled=maybe\n"}, "/etc/sysupdate.d")
    told.refuses("sysupdate list", "32 `bad-feature`")
    told.put("off", transfer(transfer="Features=x"), "/etc/sysupdate.d")
    told.refuses("sysupdate list", "33 `none-on`")
    told.put("on", transfer(), "/etc/sysupdate.d")
    (place.depot / "offered").mkdir()
    sums = place.depot / "offered/SHA256SUMS"
    sums.write_bytes(b"x\n")
    told.refuses("sysupdate list", "22 `bad-manifest`")
    sums.write_bytes(f"{NOTHING}  foo_3\n".encode())
    with open(place.depot / "offered/foo_3", "wb") as large:
        large.truncate((1 << 30) + 1)
    told.refuses("sysupdate update", "7 `limit file`")
    (place.depot / "offered/foo_3").write_bytes(b"")
    told.refuses("sysupdate update 9", "27 `no-such-version`")
    told.done("sysupdate update")
    told.refuses("sysupdate check-new", "26 `none-newer`")
    told.put("srv", {"foo_1": b"", "foo_2": b""}, "/srv")
    told.put("protected", transfer(transfer="ProtectVersion=1 2"), "/etc/sysupdate.d")
    told.refuses("sysupdate update", "28 `no-room`")
    both = {**transfer("a"), **transfer("b")}
    told.put("both", both, "/etc/sysupdate.d")
    told.refuses("sysupdate update", "29 `clash`")


def of_the_last_generation(told):
    told.place.index(4_294_967_295, OLD_INDEX)
    told.refuses("mark", "7 `limit generations`")


def each_refusal_says_what_helps(place):
    told = Told(place, "\n### What helps\n")
    for part in of_stores_and_views, of_depots, of_limits, of_services, of_updates, of_the_last_generation:
        part(told)
    told.are_met()


def a_line_of_a_batch_is_told_by_its_number(place):
    told = Told(place, "\n### What helps\n")
    source = b"# nothing\n\ntree\ninit x86-64 system\nfrobnicate\nremove /a\ncat /a\n"
    written, errors, status = told.run(["batch"], source)
    entry = told.rows["8 `no-entry`"]
    lines = (3, told.rows["1 `no-store`"]), (6, entry), (7, entry)
    wanted = "".join(f"hostext: line {at}: {line}\n" for at, line in lines)
    if (errors, status) != (wanted, 0) or written.count("refused ") != len(lines):
        raise Failed(f"it ends with {status}: {shortened(written)} {shortened(errors)}, and not {shortened(wanted)}")


def what_is_shown_counts_for_no_refusal(place):
    """A file whose bytes are those of a refusal's line."""
    told = Told(place, "\n### What helps\n")
    told.done("init x86-64 system")
    told.put("host", {"a": b"refused 8 no-entry /b\n"}, "/")
    for words, source in (["cat", "/a"], b""), (["batch"], b"cat /a\n"):
        if told.run(words, source) != ("refused 8 no-entry /b\n", "", 0):
            raise Failed(f"`{' '.join(words)}` tells something")


def layers_are_told(place):
    told = Told(place, "\n### What helps\n")
    told.refuses("layer", "23 `bad-tree`", source=b"x\n")


def nobody_is_told_where_none_asks(place):
    quiet = {name: value for name, value in os.environ.items() if name != "HOSTEXT_EXPLAIN"}
    for around in quiet, {**quiet, "HOSTEXT_EXPLAIN": "no"}:
        ended = subprocess.run([place.program, place.store, place.depot, "tree"], env=around, capture_output=True, timeout=SECONDS)
        if (ended.stdout, ended.stderr, ended.returncode) != (b"refused 1 no-store\n", b"", 1):
            raise Failed(f"it tells {shortened(ended.stderr)}")


CALLS = [each_refusal_says_what_helps, a_line_of_a_batch_is_told_by_its_number, what_is_shown_counts_for_no_refusal, layers_are_told, nobody_is_told_where_none_asks]
scenes = named(*map(in_a_place, CALLS))
