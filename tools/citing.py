"""The sources as texts, by their lines and words: which crates there are, their exported calls, and the definitions that the contracts
of these cite. Nothing of them is proved or built."""
import re
from pathlib import Path

TOP = Path(__file__).resolve().parent.parent
# A line that makes names of definitions known, as `ghost use Rattle.ext_text.specs.Path.{IsPath, path_text as text};`.
GHOST_USE = re.compile(r"ghost use Rattle\.(ext_\w+)\.specs\.([A-Z]\w*)\.\{([^}]*)\};")
# A line by which a file of definitions hands on those of another.
HANDED_ON = re.compile(r"^pub use Rattle\.(ext_\w+)\.specs\.([A-Z]\w*)\.\{([^}]*)\}", re.M)
# Where a block of a type or a trait begins, a function in it or outside of one, and where a block ends.
BEGINNINGS = re.compile(
    r"^(?:pub )?(?P<kind>impl|trait)\b(?P<head>[^{;]*)\{|^(?P<is_public>pub )?fn (?P<outer>\w+)|^    (?P<inner_is_public>pub )?fn (?P<inner>\w+)|^\}",
    re.M,
)
CLAUSE = re.compile(r"\b(?:requires|ensures)\b[^{]*\{")


class Sources:
    """The files below some folder, whose texts are read once. A scene may be given other texts for some of them."""

    def __init__(self, top=TOP, instead=()):
        self.top, self.texts = top, dict(instead)

    def text(self, path):
        if path not in self.texts:
            self.texts[path] = (self.top / path).read_text()
        return self.texts[path]

    def files(self, pattern):
        return sorted(str(path.relative_to(self.top)) for path in self.top.glob(pattern))


def crates_of(sources):
    """The names of the crates, in the order of crates.txt."""
    return [line.split(":")[0] for line in sources.text("crates.txt").splitlines() if line[:1].isalpha()]


def up_to_its_end(text, at):
    """The text from a brace on, up to the one that closes it."""
    depth = 0
    for end in range(at, len(text)):
        depth += {"{": 1, "}": -1}.get(text[end], 0)
        if depth == 0:
            return text[at + 1 : end]
    raise ValueError(f"a brace is not closed: {text[at : at + 80]}")


def without_comments(text):
    return re.sub(r"^\s*//.*$", "", text, flags=re.M)


def names_of(braced):
    return list(filter(None, (name.strip() for name in braced.split(","))))


def listed_by(lib):
    """The names that the lines `pub use` of a lib.rt list, and its public modules."""
    lines = re.findall(r"^pub use \w+::(?:\{([^}]*)\}|(\w+));", lib, re.M)
    names = {name.split(" as ")[0] for several, one in lines for name in names_of(several or one)}
    return names, set(re.findall(r"^pub mod (\w+);", lib, re.M))


def module_of(path):
    """The first module of a source file: crates/CRATE/src/MODULE.rt, or a file below crates/CRATE/src/MODULE."""
    return path.split("/src/")[1].split("/")[0].removesuffix(".rt")


def owner_of(head):
    """The type or trait that a block is of, without its parameters; nothing for the block of a trait for a type, whose calls have
    the contracts of the trait."""
    for _ in range(2):
        head = re.sub(r"<[^<>]*>", "", head)
    return "" if " for " in head else re.search(r"\w+", head)[0]


def public_functions(text):
    """Each function of a file that is public, or a call of a trait: the type or trait that it belongs to, or nothing; its name; and
    its head."""
    owner, is_trait = "", False
    for match in BEGINNINGS.finditer(text):
        if match["kind"]:
            owner, is_trait = owner_of(match["head"]), match["kind"] == "trait"
        elif match["inner"]:
            if owner and (match["inner_is_public"] or is_trait):
                yield owner, match["inner"], head_from(text, match.start())
        elif match["outer"]:
            if match["is_public"]:
                yield "", match["outer"], head_from(text, match.start())
        else:
            owner = ""


def head_from(text, at):
    """The head of a function with its clauses: up to its body, or to the semicolon of a trait's."""
    end = at
    while True:
        found = re.compile(r"[{;]").search(text, end)
        brace = found.start()
        if found[0] == ";":
            return text[at:brace]
        before = text[at:brace]
        if not re.search(r"\b(?:requires|ensures)\b[^{}]*$", before):
            return before
        end = brace + len(up_to_its_end(text, brace)) + 2


def exported(sources, crate):
    """Each exported call of a crate that is a library, with the file where it stands and its head."""
    if not sources.files(f"crates/{crate}/src/lib.rt"):
        return
    names, modules = listed_by(sources.text(f"crates/{crate}/src/lib.rt"))
    for path in sources.files(f"crates/{crate}/src/**/*.rt"):
        text = without_comments(sources.text(path))
        for owner, name, head in public_functions(text):
            if (owner or name) in names or module_of(path) in modules:
                yield path, f"{owner}::{name}" if owner else name, head


def home_of(sources, file, name):
    """The file where a definition stands that a file of definitions has or hands on."""
    for crate, module, names in HANDED_ON.findall(sources.text(f"crates/{file}")):
        if name in names_of(names):
            return home_of(sources, f"{crate}/specs/{module}.antt", name)
    return file


def imported(sources, text):
    """The definitions that a file of sources imports: by the name that it has there, its own name and the file where it stands."""
    found = {}
    for crate, module, names in GHOST_USE.findall(text):
        for name in names_of(names):
            own, _, here = name.partition(" as ")
            found[here or own] = own, home_of(sources, f"{crate}/specs/{module}.antt", own)
    return found


def clauses(head):
    for match in CLAUSE.finditer(head):
        yield up_to_its_end(head, match.end() - 1)


def cited(sources):
    """Each definition that the contract of an exported call cites: its name and file, with a call that cites it."""
    found = {}
    for crate in crates_of(sources):
        for path, call, head in exported(sources, crate):
            known = imported(sources, sources.text(path))
            words = {word for clause in clauses(head) for word in re.findall(r"[A-Za-z_]\w*", clause)}
            for word in words & known.keys():
                found.setdefault(known[word], f"{crate}::{call}")
    return found
