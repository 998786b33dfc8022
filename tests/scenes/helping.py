"""What helps after a refusal, as the tables of docs/FORMATS.md say it, and what a run tells beside that."""
import functools
import re
from pathlib import Path

FORMATS = Path(__file__).resolve().parents[2] / "docs/FORMATS.md"
TABLES = "\n### What helps\n", "What helps after a refusal comes as it does", "What helps after the refusal of an EROFS image"
# The words that stand for what is meant.
MEANT = r"\b(?:CLASS|FOLDER|PATH|PROFILE|PREFIX|COUNT)\b"


def rows(after):
    """The rows of the table that follows these words: what is refused, and the line."""
    found = {}
    for line in FORMATS.read_text().partition(after)[2].partition("\n| number | word | line |\n|---|---|---|\n")[2].splitlines():
        if not line.startswith("| "):
            break
        number, word, said = (part.strip() for part in line.strip("| ").split(" | ", 2))
        found[f"{number} {word}"] = said
    return found


@functools.cache
def lines_that_help():
    said = {line for table in TABLES for line in rows(table).values()}
    return re.compile(rb"^hostext: (?:line [1-9][0-9]*: )?(?:%s)\n" % "|".join(".*".join(map(re.escape, re.split(MEANT, line))) for line in sorted(said)).encode(), re.M)


def without_help(told):
    """What was told on standard error, without the lines that say what helps after a refusal."""
    return lines_that_help().sub(b"", told)
