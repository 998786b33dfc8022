"""Mutations of texts, each drawn from a seed: of their bits and bytes, of their lines, of their numbers and names, of what stands for a
digest, a mode, an owner, a capability or a kind, and splices of two texts."""
import random
import re

NUMBER, DIGEST, WORD = re.compile(rb"[0-9]+"), re.compile(rb"[0-9A-Fa-f]{64}"), re.compile(rb"[^ \t\n]+")
MODE, NAME, KIND = re.compile(rb"(?<=^[dof] )[0-7]+", re.M), re.compile(rb"[^/\s=:]+"), re.compile(rb"^\w", re.M)
PATH, KEY = re.compile(rb"/[^ \t\n]+"), re.compile(rb"^[A-Za-z_]+(?==)", re.M)
# The field of an entry that may tell an owner and a capability, one of their numbers with its colon, and the version of a text.
FIELD, TOLD = re.compile(rb"(?:(?<=^[dof] )[0-7]+|(?<=^l )[0-9]+)(?::[0-9]+)*", re.M), re.compile(rb"(?<=[0-9]):[0-9]+")
VERSION = re.compile(rb"(?:(?<=^hostext-tree )|(?<=^hostext-store ))[0-9]+", re.M)
# What each number may be, and what none may be.
USERS, SETS = (b"0", b"1", b"1000", b"4294967294"), (b"0", b"1", b"8192", b"18446744073709551615")
SOUND = USERS, USERS, (b"0", b"1"), SETS, SETS, USERS, USERS
NEITHER = b"", b"00", b"01", b"-1", b"4294967295", b"18446744073709551616", b"1" + b"0" * 40
# Numbers at the edges of what formats allow, and beyond.
NUMBERS = (
    *(b"0", b"1", b"2", b"00", b"-1", b"-0", b"+1", b"7777", b"10000", b"4096", b"4097", b"255", b"256", b"16777216", b"262143", b"262144"),
    *(b"1073741824", b"1073741825", b"2147483648", b"4294967295", b"4294967296", b"9223372036854775807", b"9223372036854775808"),
    *(b"18446744073709551615", b"18446744073709551616", b"1" + b"0" * 40, b"0x10", b"1e3", b"1.5", b"\xd9\xa3"),
)
NAMES = (
    *(b".", b"..", b"/", b"//", b"a/b", b"../x", b"/x", b"x/", b"a\x00b", b"\x01", b"\x7f", b"\x1b[0m", b" ", b"", b"-x", b"--force", b"%", b"%v"),
    *(b"@v", b"@h", b"*", b"\\", b"'", b'"', b"$x", b"~", b"\xc3\xa4", b"\xe2\x82\xac", b"\xff", b"\xc3", b"\xed\xa0\x80", b"\xf4\x90\x80\x80"),
    *(b"\xc0\x80", b"\xef\xbb\xbf", b"\xe2\x80\xae", b"x" * 255, b"x" * 256, b"end", b"g-1", b"next", b"current", b"os-release"),
)
BYTES = b"\n\n\n  \t\r\x00\x01\x1f\x7f\x80\xbf\xc3\xff/.=-_@%\\\"'#;[]:0179afdolwgh"
# The most bytes of a part that a change makes long.
MOST_BYTES = 100_000


def repeated(part, count):
    """A part so many times, or as often as it has room."""
    return part * min(count, MOST_BYTES // len(part) + 1)


def place(chance, text, most=16):
    """Where a part of a text of at most so many bytes begins and ends."""
    at = chance.randrange(len(text) + 1)
    return at, min(len(text), at + chance.randrange(most + 1))


def bit(chance, text, _other):
    if not text:
        return b"\x01"
    at = chance.randrange(len(text))
    return text[:at] + bytes([text[at] ^ 1 << chance.randrange(8)]) + text[at + 1 :]


def byte(chance, text, _other):
    at, end = place(chance, text, 1)
    return text[:at] + bytes([chance.choice(BYTES)]) + text[end:]


def lost_part(chance, text, _other):
    at, end = place(chance, text, chance.choice((1, 16, 400)))
    return text[:at] + text[end:]


def cut(chance, text, _other):
    at = chance.randrange(len(text) + 1)
    return text[:at] if chance.random() < 0.8 else text[at:]


def doubled_part(chance, text, _other):
    at, end = place(chance, text, chance.choice((1, 16, 400)))
    return text[:end] + text[at:end] + text[end:]


def with_lines(change):
    """A change of the lines of a text, each with its newline."""

    def changed(chance, text, other):
        lines = text.splitlines(keepends=True) or [b"\n"]
        change(chance, lines, chance.randrange(len(lines)), other)
        return b"".join(lines)

    changed.__name__ = change.__name__
    return changed


@with_lines
def lost_line(_chance, lines, at, _other):
    del lines[at]


@with_lines
def doubled_line(chance, lines, at, _other):
    lines.insert(chance.choice((at, chance.randrange(len(lines)))), lines[at])


@with_lines
def swapped_lines(chance, lines, at, _other):
    to = chance.choice((at - 1, chance.randrange(len(lines))))
    lines[at], lines[to] = lines[to], lines[at]


@with_lines
def sorted_lines(chance, lines, _at, _other):
    lines.sort(reverse=chance.random() < 0.5)


@with_lines
def line_of_another(chance, lines, at, other):
    lines.insert(at, chance.choice(other.splitlines(keepends=True) or [b"\n"]))


@with_lines
def line_end(chance, lines, at, _other):
    lines[at] = lines[at].rstrip(b"\r\n") + chance.choice((b"\r\n", b"\r", b"", b" \n", b"\n\n", b"\\\n", b"\x00\n"))


@with_lines
def many_lines(chance, lines, at, _other):
    lines[at] = repeated(lines[at], chance.choice((3, 70, 400)))


def spliced(chance, text, other):
    return text[: chance.randrange(len(text) + 1)] + other[chance.randrange(len(other) + 1) :]


def joined(_chance, text, other):
    return text + other


def of(pattern, change):
    """A change of one match of a pattern."""

    def changed(chance, text, _other):
        found = list(pattern.finditer(text))
        if not found:
            return text
        one = chance.choice(found)
        return text[: one.start()] + change(chance, one[0]) + text[one.end() :]

    changed.__name__ = change.__name__
    return changed


def number(chance, digits):
    near = b"%d" % max(0, int(digits[-30:]) + chance.choice((-1, 1, 10)))
    return chance.choice((near, near, chance.choice(NUMBERS), chance.choice(NUMBERS), b"0" + digits, b"-" + digits, digits + b"0", repeated(digits, 40)))


def digest(chance, digits):
    at = chance.randrange(64)
    other = digits[:at] + bytes([chance.choice(b"0123456789abcdefABCDEFgG \n")]) + digits[at + 1 :]
    return chance.choice((other, other, digits.upper(), digits[1:], digits + b"0", digits[::-1], b"%064x" % chance.getrandbits(256)))


def mode(chance, digits):
    return chance.choice((b"0", b"00", b"7777", b"10000", b"888", b"0" + digits, b"%o" % chance.randrange(0o10000), b""))


def marks(chance, field):
    """A field with other numbers after its first: most often an owner, or with a capability."""
    count = chance.choice((0, 1, 2, 2, 2, 2, 3, 4, 5, 6, 6, 6, 6, 7))
    found = [chance.choice(numbers if chance.random() < 0.95 else NEITHER) for numbers in SOUND[:count]]
    return b":".join([field.partition(b":")[0], *found]) + chance.choice((b":", *(b"",) * 30))


def told(chance, one):
    """A number of an owner or a capability that is lost, doubled, or another."""
    numbers = *USERS, *SETS, *NEITHER, b"2", b"4294967296"
    return chance.choice((b"", b":", one + one, b":0" + one[1:], b":0", *(b":" + chance.choice(numbers) for _ in range(4))))


def version(chance, digits):
    return chance.choice((b"1", b"2", b"3", b"3", b"4", b"0" + digits, b""))


def kind(chance, _letter):
    return bytes([chance.choice(b"dofhlwgknmiaspe#D0")])


def name(chance, old):
    return chance.choice((chance.choice(NAMES), chance.choice(NAMES), old + chance.choice(NAMES), chance.choice(NAMES) + old, old.upper(), old[:-1]))


def long_name(chance, old):
    return repeated(old or b"x", chance.choice((16, 64, 256, 5_000, MOST_BYTES)))


def deep_path(chance, path):
    return path + b"/".join([b""] + [chance.choice((b"a", b"bb", b"c" * 200))] * chance.choice((1, 2, 30, 63, 64, 65, 900)))


def key(chance, old):
    return chance.choice((old.lower(), old.upper(), old + b" ", b" " + old, old[:-1], b"", b"#" + old, old + b"="))


ALL = (
    *(bit, byte, byte, lost_part, cut, doubled_part, lost_line, doubled_line, swapped_lines, sorted_lines, line_of_another, line_end, many_lines, spliced, joined),
    *(of(NUMBER, number), of(NUMBER, number), of(DIGEST, digest), of(DIGEST, digest), of(MODE, mode), of(KIND, kind), of(NAME, name), of(NAME, name), of(WORD, name)),
    *(of(PATH, deep_path), of(KEY, key)),
)
# Those of texts that have entries.
OF_ENTRIES = of(FIELD, marks), of(FIELD, marks), of(TOLD, told), of(TOLD, told), of(VERSION, version)
# One of these makes a text long, so that they are drawn less often.
LENGTHENING = of(NAME, long_name), of(WORD, long_name), of(NUMBER, long_name)
COUNTS = 0, 1, 1, 1, 1, 2, 2, 3, 5, 8


def changes_of(text):
    return ALL + OF_ENTRIES if FIELD.search(text) else ALL


def mutated(chance, bases):
    """One of the texts with some changes, each of which may take something from another of them."""
    text, other = chance.choice(bases), chance.choice(bases)
    for _ in range(chance.choice(COUNTS)):
        text = chance.choice(LENGTHENING if chance.random() < 0.01 else changes_of(text))(chance, text, other)
    return text


def of_seed(kind_name, seed, bases):
    return mutated(random.Random(f"{kind_name} {seed}"), bases)
