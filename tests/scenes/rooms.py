"""The rooms of the sources: that no name of a definition stands for two things where both may be met, that each definition and what
a crate passes on to others has a comment, that a crate cites no other lemmas of another, that no clause is wider than a reader's
window, and that no line is a banner."""
import re
from pathlib import Path

from scenes.running import TOP, Failed

CRATES = TOP / "crates"
WIDEST = 140
DEFINITION = re.compile(r"\s*(?:abbrev pub|unfoldable pub|pub record|pub data)\s+([^\s:(){}]+)")
CLAUSE = re.compile(r"\s*(?:requires|ensures|ghost)\b(?! use)")
BANNER = re.compile(r"\s*(?:--|//) ?-{3,}")
PASSED_ON = re.compile(r"(?:pub use|(?:abbrev )?pub) ")
CITED = re.compile(r"(?:pub )?use Rattle\.(ext_\w+)\.proofs\.(\w+)")


def stands_on():
    """The crates of the repository that each of them stands on, near and far."""
    near = {}
    for line in (TOP / "crates.txt").read_text().splitlines():
        name, _, libraries = line.partition("#")[0].partition(":")
        if name.strip():
            near[name.split()[0]] = libraries.split()
    far = {}
    for crate in near:
        far[crate], open_ones = set(), list(near[crate])
        while open_ones:
            library = open_ones.pop()
            if library in near and library not in far[crate]:
                far[crate].add(library)
                open_ones += near[library]
    return far


def files_of(part, ending):
    return sorted(path for path in CRATES.glob(f"*/{part}/**/*{ending}") if path.is_file())


def refuse(found, what):
    if found:
        raise Failed(f"{what}: {'; '.join(found[:9])}")


def a_name_stands_for_one_definition():
    below, homes = stands_on(), {}
    for path in files_of("specs", ".antt"):
        crate = path.relative_to(CRATES).parts[0]
        for line in path.read_text().splitlines():
            named = DEFINITION.match(line)
            if named:
                homes.setdefault(named.group(1), set()).add(crate)
    pairs = ((name, upper, lower) for name, crates in sorted(homes.items()) for upper in sorted(crates) for lower in sorted(crates))
    refuse([f"{name} of {upper} and of {lower}" for name, upper, lower in pairs if lower in below.get(upper, ())], "names that stand twice")


def clauses(path):
    """The lines of a file's clauses, with their numbers."""
    depth = 0
    for number, line in enumerate(path.read_text().splitlines(), 1):
        if depth > 0 or CLAUSE.match(line):
            yield number, line
            depth = max(0, depth + line.count("{") - line.count("}"))


def no_clause_is_too_wide():
    wide = [f"{path.relative_to(TOP)}:{number}" for path in files_of("src", ".rt") for number, line in clauses(path) if len(line) > WIDEST]
    refuse(wide, f"clauses of more than {WIDEST} columns")


def no_line_is_a_banner():
    files = [path for part, ending in (("src", ".rt"), ("specs", ".antt"), ("proofs", ".antt")) for path in files_of(part, ending)]
    banners = [
        f"{path.relative_to(TOP)}:{number}"
        for path in files
        for number, line in enumerate(path.read_text().splitlines(), 1)
        if BANNER.match(line)
    ]
    refuse(banners, "banner lines")


def what_is_passed_on_has_a_comment():
    bare = []
    for path in sorted(CRATES.glob("*/proofs/ForCallers.antt")):
        lines = Path(path).read_text().splitlines()
        bare += [
            f"{path.relative_to(TOP)}:{number + 1}"
            for number, line in enumerate(lines)
            if PASSED_ON.match(line) and not (number and lines[number - 1].startswith("--"))
        ]
    refuse(bare, "lemmas for callers without a comment")


def what_is_not_passed_on_is_not_cited():
    taken = []
    for path in files_of("proofs", ".antt"):
        crate = path.relative_to(CRATES).parts[0]
        cited = [CITED.match(line) for line in path.read_text().splitlines()]
        taken += [f"{found.group(2)} of {found.group(1)} in {path.relative_to(TOP)}" for found in cited if found and found.group(1) != crate and found.group(2) != "ForCallers"]
    refuse(taken, "lemmas of another crate that it doesn't pass on")


def each_definition_has_a_comment():
    bare = []
    for path in files_of("specs", ".antt"):
        lines = path.read_text().splitlines()
        bare += [
            f"{path.relative_to(TOP)}:{number + 1}"
            for number, line in enumerate(lines)
            if DEFINITION.match(line) and not (number and lines[number - 1].lstrip().startswith("--"))
        ]
    refuse(bare, "definitions without a comment")


SCENES = (
    a_name_stands_for_one_definition,
    each_definition_has_a_comment,
    no_clause_is_too_wide,
    no_line_is_a_banner,
    what_is_not_passed_on_is_not_cited,
    what_is_passed_on_has_a_comment,
)


def scenes(_program):
    for call in SCENES:
        yield call.__name__.replace("_", " "), call
