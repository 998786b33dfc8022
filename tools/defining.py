"""The text of docs/DEFINITIONS.md: the definitions that the contracts of exported calls cite, by the comments over them and by what
tools/definitions.words has besides. What it writes and refuses `tools/definitions --help` tells."""
import re
from typing import NamedTuple

from citing import cited, crates_of
from entries import Refused

DOCUMENT, WORDS = "docs/DEFINITIONS.md", "tools/definitions.words"
HEAD = """# Definitions

The definitions that the contracts of exported calls cite, in plain words, by their crates from `ext_top::run` down and by their files, in
which they stand in this order. Words that begin with `..` go on with those above them. `tools/definitions` writes this from the comments
over the definitions. Those of the kit's standard library are not among them.
"""
MORE, GOES_ON = "..", "^"


# A line that begins a definition, and one that begins a value of a type.
DEFINED = re.compile(r"\s*(?:(?!use )[a-z]+ )?pub (?!use |mod )(?:record |data )?([\w-]+)")
VALUE = re.compile(r"\s+(\w+) : ")


class Definition(NamedTuple):
    """A definition: its file and name."""

    file: str
    name: str


def comment_above(lines, at):
    """The comment right above a line, in one line; nothing where there is none."""
    first = at
    while first and lines[first - 1].lstrip().startswith("--"):
        first -= 1
    return " ".join(line.strip().removeprefix("--").strip() for line in lines[first:at])


def comments_of(text):
    """The comment over each definition of a file, and over each value of a type, or else that over the type; in their order."""
    found, above, lines = {}, "", text.splitlines()
    for at, line in enumerate(lines):
        if defined := DEFINED.match(line):
            above = comment_above(lines, at)
            found.setdefault(defined[1], above)
        elif value := VALUE.match(line):
            found.setdefault(value[1], comment_above(lines, at) or above)
    return found


def words_given(sources):
    """The words of tools/definitions.words, by definitions."""
    found = {}
    for number, line in enumerate(sources.text(WORDS).splitlines(), 1):
        if line and not line.startswith("#"):
            row = re.fullmatch(r"(\S+) (\S+): (\S.*)", line)
            if not row or Definition(row[1], row[2]) in found:
                raise Refused(f"{WORDS}: line {number} is none of FILE NAME: words, or names what an earlier line names")
            found[Definition(row[1], row[2])] = row[3]
    return found


def gone_on_from(one, comments):
    """The definition with whose words those of another one go on: the one before it that has a comment of its own; or nothing."""
    names = list(comments)
    before = [name for name in names[: names.index(one.name)] if comments[name] not in ("", comments[one.name])]
    return Definition(one.file, before[-1]) if before else None


def words_of(one, comments, given):
    """The words for a definition, of the comments of its file in their order, and of what is given besides."""
    comment, more = comments.get(one.name, ""), given.get(one, "")
    if more == GOES_ON:
        before = gone_on_from(one, comments)
        return f"{words_of(before, comments, given)}; {comment}" if before else ""
    return f"{comment}. {more.removeprefix(MORE).strip()}" if more.startswith(MORE) else more or comment


def rows_of(file, wanted, comments, given):
    """The rows of a file: its definitions in their order. One that goes on with the words right above it doesn't repeat them."""
    rows, last = [f"\n**{file}**\n\n"], None
    for one in sorted((one for one in wanted if one.file == file), key=lambda one: [*comments, one.name].index(one.name)):
        goes_on = given.get(one) == GOES_ON and last == gone_on_from(one, comments)
        rows.append(f"- `{one.name}`: {f'{MORE} {comments[one.name]}' if goes_on else words_of(one, comments, given)}\n")
        last = one
    return "".join(rows)


def document(sources):
    """The text of docs/DEFINITIONS.md."""
    wanted = sorted(Definition(file, name) for name, file in cited(sources))
    given = words_given(sources)
    comments = {file: comments_of(sources.text(f"crates/{file}")) for file in sorted({one.file for one in wanted})}
    wordless = [one for one in wanted if not words_of(one, comments[one.file], given)]
    reasons = [f"{one.name} of {one.file} has no comment, and {WORDS} has no words for it" for one in wordless]
    reasons += [f"{WORDS} has words for {one.name} of {one.file}, which no contract of an exported call cites" for one in given if one not in wanted]
    if reasons:
        raise Refused(*reasons)
    parts = [HEAD]
    for crate in reversed(crates_of(sources)):
        if files := [file for file in comments if file.startswith(f"{crate}/")]:
            parts += [f"\n## {crate}\n", *(rows_of(file, wanted, comments[file], given) for file in files)]
    return "".join(parts)
