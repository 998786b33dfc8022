"""What docs/PROMISES.md says crate by crate: the heads of the sources, by the rooms of docs/ARCHITECTURE.md. What `tools/promises` writes.
That document has besides which crate stands on which, and the last room, whose crates promise nothing."""
import re

from entries import Refused
from house import rooms_of

PROMISES = "docs/PROMISES.md"
HEAD = """## Crate by crate

What each crate says of itself, by its room, the lowest ones first. `tools/promises` writes this from the heads of the sources, without the sentences that tell who stands on a crate: [ARCHITECTURE](ARCHITECTURE.md#the-crates) draws it. The crates of the last room there, which carry out cases, promise nothing beyond that they are safe.
"""
# A name with the target of its link in the source, or with none.
LINK = re.compile(r"\[(`[^`]+`)\](?:\([^)]*\))?")
# A sentence that tells no more than who stands on a crate, where the next one doesn't go on with it.
STANDS_ON = re.compile(r" ?\b(?:The|Whoever|Every) [^.;:]*\bstands? on (?:it|this(?: one| crate)?)\.(?! So )")


def head_of(sources, crate):
    """The comment at the top of a crate's source, a line for each of its paragraphs."""
    path = next((path for path in (f"crates/{crate}/src/lib.rt", f"crates/{crate}/src/main.rt") if sources.files(path)), None)
    if path is None:
        raise Refused(f"{crate} has no source")
    lines = [line.removeprefix("//!").strip() for line in sources.text(path).splitlines() if line.startswith("//!")]
    if not lines:
        raise Refused(f"{path} begins without a comment")
    paragraphs = re.split(r"\n\n+", "\n".join(lines).strip())
    said = [STANDS_ON.sub("", LINK.sub(r"\1", paragraph.replace("\n", " "))).strip() for paragraph in paragraphs]
    return [paragraph for paragraph in said if paragraph]


def by_crates(sources):
    """The section itself."""
    parts = [HEAD]
    for room, crates in list(rooms_of(sources).items())[:-1]:
        parts.append(f"\n### {room}\n")
        for crate in crates:
            parts.append("".join(f"\n{paragraph}\n" for paragraph in (f"#### {crate}", *head_of(sources, crate))))
    return "".join(parts)


def promises(sources):
    """The whole document: what is written by hand, and then the section."""
    by_hand, found, _ = sources.text(PROMISES).partition(HEAD.splitlines()[0] + "\n")
    if not found:
        raise Refused(f"{PROMISES} has no heading {HEAD.splitlines()[0].removeprefix('## ')!r}")
    return by_hand + by_crates(sources)
