"""The texts that tests/mutations begins with: those of tests/cases, and those of the examples."""
import hashlib
import re

from scenes.owners import with_owners
from scenes.running import TOP

ESCAPES = {b"s": b" ", b"n": b"\n", b"t": b"\t", b"r": b"\r", b"\\": b"\\", b")": b")", b"e": b"", b"\n": b""}
BLOCK = re.compile(rb"^text (\S+)\n(.*?)^end of \1$", re.M | re.S)
# A resource of the depot, entry by entry.
RESOURCE = re.compile(rb"^resource \S+\n((?:(?:[fdol](?::[0-9:]+)?|w) .*\n)+)", re.M)


def unescaped(text):
    """A text of a case without its escapes."""
    return re.sub(rb"\\(?:x([0-9A-Fa-f]{2})|(.))", lambda found: bytes.fromhex(found[1].decode()) if found[1] else ESCAPES.get(found[2], found[0]), text, flags=re.S)


def of_cases():
    """The texts of all cases, but for those that repeat a part."""
    for path in sorted((TOP / "tests/cases").glob("*.cases")):
        yield from (unescaped(found[2]) for found in BLOCK.finditer(path.read_bytes()) if b"\\(" not in found[2])


def entry_line(word, path, *rest):
    """The line of an entry in a tree text, from the words of its statement."""
    kind, colon, told = word.partition(b":")
    if kind == b"f":
        return b"f %b %d %b %b" % (told or b"644", len(rest[0]), hashlib.sha256(rest[0]).hexdigest().encode(), path)
    if kind == b"l":
        return b"l %d%b %b %b" % (len(rest[0]), colon + told, rest[0], path)
    return b"w " + path if kind == b"w" else b"%b %b %b" % (kind, told or b"755", path)


def version_needed(line):
    """The least version of a text that may have the line of an entry."""
    return 3 if re.match(rb"(?:[dof] [0-7]+|l [0-9]+):", line) else 2 if line[:2] in (b"o ", b"w ") else 1


def tree_of(statements):
    """The tree text of a resource, with the directories that its entries need."""
    found = {}
    for statement in statements.splitlines():
        word, path, *rest = map(unescaped, statement.split(b" "))
        names = path.split(b"/")
        for depth in range(1, len(names)):
            found.setdefault(tuple(names[:depth]), entry_line(b"d", b"/".join(names[:depth])))
        found[tuple(names)] = entry_line(word, path, *rest)
    return b"\n".join([b"hostext-tree %d" % max(map(version_needed, found.values())), *(found[names] for names in sorted(found)), b"end", b""])


def of_resources():
    """The tree texts of the resources of all cases, but for those that repeat a part."""
    for path in sorted((TOP / "tests/cases").glob("*.cases")):
        yield from (tree_of(found[1]) for found in RESOURCE.finditer(path.read_bytes()) if b"\\(" not in found[1] and b"$" not in found[1])


def chosen(form, most=4_000, texts=of_cases):
    """Those that have a form, each once, none of them long."""
    return sorted({text for text in texts() if re.search(form, text, re.M | re.S) and len(text) <= most})


def tree_texts():
    """Those of the examples, as often as all others six times, and a part of all with owners."""
    examples = [path.read_bytes() for path in sorted((TOP / "examples").rglob("*.tree"))]
    others = sorted({*chosen(rb"\Ahostext-tree "), *chosen(rb"\Ahostext-tree ", texts=of_resources)})
    owners = [with_owners(text, salt) for text in examples for salt in (b"", b"a", b"b")] + [with_owners(text) for text in others]
    return examples * 3 + others + owners


def index_texts():
    texts = chosen(rb"\Ahostext-store ")
    return texts + [with_owners(text) for text in texts]


def sequences():
    """Several tree texts one after another."""
    texts = tree_texts()
    return [first + second for first, second in zip(texts, texts[1:])] + chosen(rb"\Ahostext-tree .*^end$\n^hostext-tree ")


def transfers():
    return chosen(rb"^\[(Source|Transfer)\]$")


def releases():
    return chosen(rb"\A[A-Z_]+=")


def manifests():
    return chosen(rb"\A[0-9a-fA-F]{64} [ *]")


def batches():
    return chosen(rb"\A(init|import-fs|tree|check|remove) ?")
