"""What SECURITY.md says: that each row names what shows it, and that this is there; and what no other scene shows. And the
licences, which README and both programs name."""
import fcntl
import hashlib
import os
import re

from scenes.devices import become_nobody
from scenes.documents import Sources, crates_of, is_missed, nothing_is_missing, quoted, rows_of, section
from scenes.locks import ended, locked, start, waits
from scenes.running import LICENCES, Failed, Skipped, expect, imager, named, publisher, run, tree_text
from scenes.stores import DONE, digest, in_a_place

from citing import exported

SECURITY = "SECURITY.md"
# The text of the Apache License 2.0, word for word.
APACHE = "cfc7749b96f63bd31c3c42b5c471bf756814053e847c10f3eb003417bc523d30"
HOLDERS = "Copyright 2026 The hostext authors"
SECRET = b"a secret of nobody else\n"


def scenes_of(sources):
    """The names of scenes as they are told: of functions that a list or a table of their file has, too."""
    found = set()
    for path in sources.files("tests/scenes/*.py"):
        text = sources.text(path)
        found |= {name.replace("_", " ") for name in re.findall(r"^def (\w+)", text, re.M) if len(re.findall(rf"\b{name}\b", text)) > 1}
    return found


def check_security(sources):
    """Each row ends with what shows it, and no section lacks rows but the last."""
    text = sources.text(SECURITY)
    calls = {f"{crate}::{call}" for crate in crates_of(sources) for _, call, _ in exported(sources, crate)}
    there = scenes_of(sources) | calls | set(sources.files("tests/*"))
    for title, part in re.findall(r"^## ([^\n]*)\n(.*?)(?=^## |\Z)", text, re.M | re.S):
        rows = rows_of(part)
        if (not rows) != (title == "What is trusted"):
            raise Failed(f"SECURITY.md has no rows below {title!r}")
        for told, *shown in rows:
            names = quoted(shown[0]) if len(shown) == 1 else []
            if not names or set(names) - there:
                raise Failed(f"SECURITY.md says {told!r}, and of what shows it there isn't {sorted(set(names) - there)}")


def each_row_of_security_names_what_shows_it(_program):
    check_security(Sources())
    text = Sources().text(SECURITY)
    for old, new in ("`modes are what", "`modes were what"), ("`ext_top::run`", "`ext_top::runs`"), ("`tests/mutations`", "`tests/mutation`"), (" | `ext_layer::layer`, `ext_top::run` |", " | |"):
        is_told(check_security, Sources(instead={SECURITY: text.replace(old, new, 1)}), f"SECURITY.md has {new!r} in place of {old!r}")


def what_is_published_is_said_to_be_public_at_once(_program):
    """Within the first lines of each document that tells of it."""
    for path, begins in (SECURITY, "# Security\n"), ("man/hostext_publish.1", ".Sh DESCRIPTION\n"), ("README.md", "## From a build machine to a fleet\n"):
        told = re.sub(r"\n(\.\w+ )?", " ", Sources().text(path).partition(begins)[2][:700])
        if "public" not in told:
            raise Failed(f"{path} doesn't say at once that what is published is public")


def readme_says_at_once_what_changes_and_what_entries_have(_program):
    first = Sources().text("README.md").split("\n\n")[1]
    for words in "changes nothing on the machine that it runs on", "modes, owners, and bytes or targets, a file also its capability, and no times and no other attributes":
        if words not in first:
            raise Failed(f"the first paragraph of README.md doesn't say {words!r}")


def check_licences(sources):
    """The two texts, and the section of README: it leads to both, ends with their names, and names each crate of the kit."""
    if hashlib.sha256(sources.text("LICENSE-APACHE").encode()).hexdigest() != APACHE:
        raise Failed("LICENSE-APACHE has another text")
    told = section(sources.text("README.md"), "Licence").strip()
    crates = {name for line in sources.text("crates.txt").splitlines() if line[:1].isalpha() for name in line.partition(":")[2].split()}
    wanted = {HOLDERS, "(LICENSE-MIT)", "(LICENSE-APACHE)", *(f"`{name}`" for name in crates - set(crates_of(sources)))}
    nothing_is_missing("README.md has nothing of the licence for", {words for words in wanted if words not in told})
    if not told.endswith(f"\n\n{LICENCES.decode().strip()}") or f"\n\n{HOLDERS}\n\n" not in sources.text("LICENSE-MIT"):
        raise Failed("the names of the licences, or their holders, stand elsewhere")


def the_licences_are_those_that_the_programs_name(program):
    for one in program, publisher(), imager():
        if not run(one, [b"--version"])[0].endswith(b"\n" + LICENCES):
            raise Failed(f"{one} names other licences")


def the_licences_are_those_that_readme_names(_program):
    check_licences(Sources())
    for path, begin in ("README.md", "Copyright"), ("README.md", "Its programs"), ("LICENSE-MIT", "Copyright"), ("LICENSE-APACHE", "   END OF"):
        is_missed(check_licences, path, begin)
    without = Sources().text("README.md").replace(f"\n\n{LICENCES.decode()}", "\n", 1)
    is_told(check_licences, Sources(instead={"README.md": without}), "README.md names no licences at the end of their section")


def is_told(check, sources, what):
    try:
        check(sources)
    except Failed:
        return
    raise Failed(f"nothing tells that {what}")


def put(place, content):
    """A host of one file."""
    place.resource("host", tree_text(f"f 600 {len(content)} {digest(content)} secret"), {"secret": content})
    place.expect(("init x86-64 system", DONE), ("import-fs host /", DONE))


def whoever_may_write_into_a_store_forges_its_host(place):
    put(place, SECRET)
    other, index = SECRET[::-1], place.store / "g-2/index"
    (place.store / "g-2/000/00").write_bytes(other)
    place.fault(8, "check")
    index.write_bytes(index.read_bytes().replace(digest(SECRET).encode(), digest(other).encode()))
    place.expect(("check", b"ok 1 %d\n" % len(other)), ("cat /secret", other))


def whoever_may_open_a_store_can_hold_its_lock(place):
    if os.getuid() != 0:
        raise Skipped("it wants root, to become nobody")
    put(place, SECRET)
    place.store.parent.chmod(0o755)
    for mode, opens in (0o755, True), (0o700, False):
        place.store.chmod(mode)
        if opened_by_nobody(place.store) != opens:
            raise Failed(f"another user opens a folder of the mode {mode:o}, or doesn't")
        if not opens and opened_by_nobody(place.store / "g-2"):
            raise Failed("another user opens what stands in the store")
    with locked(place.store, fcntl.LOCK_SH):
        child = start(place, "remove", "/secret")
        waits(child)
    if ended(child)[::2] != (DONE, 0):
        raise Failed("it went on otherwise")


def a_file_may_look_like_a_refusal(place):
    refusal = b"refused 8 no-entry /secret\n\x1b[31m"
    put(place, refusal)
    expect(place.run("cat", "/secret"), (refusal, b"", 0))
    place.expect(("cat /other", b"refused 8 no-entry /other\n"))


def opened_by_nobody(folder):
    child = os.fork()
    if child == 0:
        try:
            become_nobody()
            os.open(folder, os.O_RDONLY)
            os._exit(0)
        except PermissionError:
            os._exit(1)
        finally:
            os._exit(2)
    return os.waitstatus_to_exitcode(os.waitpid(child, 0)[1]) == 0


def a_link_of_a_depot_brings_nothing_but_what_is_listed(place):
    outside = place.depot.with_name("secret")
    outside.write_bytes(SECRET)
    listed = b"x" * len(SECRET)
    place.resource("host", tree_text(f"f 644 {len(listed)} {digest(listed)} secret"))
    (place.depot / "host").mkdir()
    (place.depot / "host/secret").symlink_to(outside)
    place.expect(("init x86-64 system", DONE))
    before = place.stands()
    told = f"refused 25 mismatch host/secret {len(listed)} {digest(listed)} {len(SECRET)} {digest(SECRET)}\n"
    place.expect(("import-fs host /", told.encode()))
    place.holds({**before, "g-2": None, "g-2/000": None, "g-2/000/00": SECRET})
    place.expect(("tree", tree_text()), ("mark", b"marked 1\n"))
    if SECRET in place.stands().values():
        raise Failed("what was left over is there after a change")
    (place.depot / "host.tree").write_bytes(tree_text(f"f 644 {len(SECRET)} {digest(SECRET)} secret"))
    place.expect(("import-fs host /", DONE), ("cat /secret", SECRET))


STORES = [
    *(whoever_may_write_into_a_store_forges_its_host, whoever_may_open_a_store_can_hold_its_lock),
    *(a_link_of_a_depot_brings_nothing_but_what_is_listed, a_file_may_look_like_a_refusal),
]
DOCUMENTS = named(
    *(each_row_of_security_names_what_shows_it, what_is_published_is_said_to_be_public_at_once),
    readme_says_at_once_what_changes_and_what_entries_have,
    *(the_licences_are_those_that_the_programs_name, the_licences_are_those_that_readme_names),
)
OF_STORES = named(*map(in_a_place, STORES))


def scenes(program):
    yield from DOCUMENTS(program)
    yield from OF_STORES(program)
