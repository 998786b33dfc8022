"""A second reading of the rules of docs/FORMATS.md on release files and verdicts, which tests/mutations holds the program to."""
import re

from scenes.tree_texts import Faulty
from scenes.unit_files import BLANKS, is_text, lines_of

# What a backslash escapes between double quotes.
ESCAPED = re.compile(rb'\\(["$`\\])')
QUOTED = re.compile(rb'"((?:[^"\\]|\\.)*)"|\'([^\']*)\'', re.S)


def value_of(text):
    """What a text after `=` stands for, or nothing where it is faulty."""
    if text[:1] not in (b'"', b"'"):
        return re.sub(rb"\\(.?)", rb"\1", text, flags=re.S)
    found = QUOTED.fullmatch(text)
    if not found:
        return None
    return found[2] if found[1] is None else ESCAPED.sub(rb"\1", found[1])


def read_release(data):
    """The values by their keys."""
    values = {}
    for number, line in lines_of(data):
        if not is_text(line):
            raise Faulty(number)
        key, equals, text = line.strip(BLANKS).partition(b"=")
        if equals and re.fullmatch(rb"[A-Z_][A-Z0-9_]*", key):
            values[key] = value_of(text.strip(BLANKS))
            if values[key] is None:
                raise Faulty(number)
    return {key: value for key, value in values.items() if value}


def verdict(extension, host, image, scope=b"system", architecture=b"x86-64"):
    """The verdict on an extension with these values, by the rows from the top."""
    level, scopes = (extension + end for end in (b"_LEVEL", b"_SCOPE"))
    rows = (
        ("scope", scope not in image.get(scopes, b"system portable").replace(b"\t", b" ").split(b" ")),
        ("architecture", image.get(b"ARCHITECTURE", b"_any") not in (b"_any", architecture)),
        ("no-id", b"ID" not in image),
        ("fits", image.get(b"ID") == b"_any"),
        ("id", image.get(b"ID") != host.get(b"ID", b"linux")),
        ("fits", level in host and host[level] == image.get(level)),
        ("level", level in host and level in image),
        ("version", b"VERSION_ID" in host and host[b"VERSION_ID"] != image.get(b"VERSION_ID")),
        ("fits", True),
    )
    return next(word for word, applies in rows if applies).encode()
