"""Patterns against a second reading of their rules: 100,000 pairs of a pattern and a name, made from kept seeds. This reading looks at one
byte after another, and matches by trying every way in which a name may be parted."""
import random
import re
import tempfile
from pathlib import Path

from scenes.running import Failed, program_of, run

SEEDS = range(30)
PAIRS = 1000

VERSION_BYTES = re.compile(rb"[A-Za-z0-9._+~^-]{1,128}")
DIGEST_DIGITS = re.compile(rb"[0-9a-f]{64}")
PLAIN = re.compile(rb"[A-Za-z0-9._@+~^/-]+")
MOST = {"version": 128, "digest": 64}
WILDCARDS = {b"v": "version", b"h": "digest"}

PATTERNS = (
    *(b"foo_@v.raw", b"foo_@v_@h.raw", b"@v", b"@h.@v", b"a@vaa", b"x@vabab", b"@v-@h", b"foo_@h_@v.raw", b"a@v"),
    *(b"foo_@v@h", b"foo", b"foo_@v@x", b"a_@v_@v", b"foo_@@v", b"a/@v", b"@h", b"\xc3\xa4_@v\xc3\xb6", b"@v_@h_", b"1@v1"),
)
PIECES = (b"@v", b"@h", b"@", b"_", b".", b"a", b"aa", b"ab", b"1", b"-", b"/", b"\x00", b"\x7f", b"\xc3", b"\xa4", b"\xc3\xa4", b"@x", b" ", b"\n", b"\\", b"$")
TEXTS = (b"1", b"1.2", b"a", b"aa", b"ab", b"aba", b"abab", b"1_2", b"1-2", b"1~rc1", b"", b"-", b".", b"1,2", b"\xc3\xa4", b"1.raw", b"b" * 128, b"b" * 129)


class Fault(Exception):
    """The fault of a text that is no pattern, as a case writes it."""


def wildcard_at(text, at, parts):
    """The wildcard after the `@` that stands there."""
    letter = text[at + 1 : at + 2]
    if letter not in WILDCARDS:
        raise Fault(f"unknown {letter[0] if letter else 0}")
    if parts and parts[-1] in MOST:
        raise Fault("adjacent")
    if WILDCARDS[letter] in parts:
        raise Fault("repeated")
    return WILDCARDS[letter]


def character_at(text, at):
    """The character that stands there, as bytes."""
    for end in range(at + 1, min(at + 4, len(text)) + 1):
        try:
            character = text[at:end].decode()
        except UnicodeDecodeError:
            continue
        if character < " " or character in "/\x7f":
            break
        return text[at:end]
    raise Fault("bad-byte")


def parts_of(text):
    """The parts of a pattern: literals as bytes and wildcards by their names, no two literals beside each other."""
    parts, at = [], 0
    while at < len(text):
        if text[at : at + 1] == b"@":
            parts.append(wildcard_at(text, at, parts))
            at += 2
            continue
        character = character_at(text, at)
        if parts and isinstance(parts[-1], bytes):
            parts[-1] += character
        else:
            parts.append(character)
        at += len(character)
    if "version" not in parts:
        raise Fault("no-version")
    if sum(MOST[part] if part in MOST else len(part) for part in parts) > 255:
        raise Fault("too-long")
    return parts


def is_taken(wildcard, text):
    if wildcard == "digest":
        return bool(DIGEST_DIGITS.fullmatch(text))
    return bool(VERSION_BYTES.fullmatch(text)) and any(chr(byte).isalnum() for byte in text)


def ways(parts, name):
    """Each way to part a name: what each wildcard takes."""
    if not parts:
        if not name:
            yield {}
        return
    first, *others = parts
    if isinstance(first, bytes):
        if name.startswith(first):
            yield from ways(others, name[len(first) :])
        return
    literal = others[0] if others else b""
    for length in range(len(name) + 1):
        text = name[:length]
        if not name.startswith(literal, length) or (literal and (text + literal).find(literal) < length) or not is_taken(first, text):
            continue
        for way in ways(others, name[length:]):
            yield {first: text, **way}


def match_lines(parts, name):
    found = list(ways(parts, name))
    if len(found) > 1:
        raise Failed(f"{parts} parts {name} in more than one way")
    if not found:
        return [b"none"]
    return [b"%s %s" % (kind.encode(), found[0][kind]) for kind in ("version", "digest") if kind in found[0]]


def filled(parts, version, digits):
    texts = {"version": version, "digest": digits}
    return b"".join(part if isinstance(part, bytes) else texts[part] for part in parts)


def word(text):
    """A text as a word of a case."""
    if not text:
        return b"\\e"
    return b"".join(bytes([byte]) if PLAIN.fullmatch(bytes([byte])) else b"\\x%02X" % byte for byte in text)


def mutated(chance, text, pieces, most):
    for _ in range(chance.randrange(most + 1)):
        at, end = sorted(chance.randrange(len(text) + 1) for _ in range(2))
        end = min(end, at + chance.choice((0, 0, 1, 2)))
        text = text[:at] + chance.choice((b"", chance.choice(pieces), text[at:end] * 2)) + text[end:]
    return text


def digits_of(chance):
    digits = b"%064x" % chance.getrandbits(256)
    return chance.choice((digits, digits, digits, digits.upper(), digits[1:], digits + b"0"))


def name_of(chance, parts):
    name = filled(parts, chance.choice(TEXTS), digits_of(chance))
    return mutated(chance, name, (*TEXTS, *(part for part in parts if isinstance(part, bytes))), 2) if chance.random() < 0.6 else name


def statements(chance):
    """The statements of one pair, each with the lines that it writes."""
    text = mutated(chance, chance.choice(PATTERNS), PIECES, chance.choice((0, 1, 3)))
    try:
        parts = parts_of(text)
    except Fault as fault:
        return [(b"read", [text], [str(fault).encode()])]
    name, digits = name_of(chance, parts), b"%064x" % chance.getrandbits(256)
    version = chance.choice([one for one in TEXTS if is_taken("version", one)])
    return [
        (b"read", [text], [b"sound"]),
        (b"match", [text, name], match_lines(parts, name)),
        (b"fill", [text, version, digits], [filled(parts, version, digits)]),
    ]


def lines_of(asked, words, written):
    yield b" ".join((b"pattern", asked, *map(word, words)))
    yield from (b"> " + word(line) for line in written)


def case_of(seed):
    chance = random.Random(seed)
    lines = [b"case the pairs of the seed %d" % seed]
    for _ in range(PAIRS):
        for statement in statements(chance):
            lines += lines_of(*statement)
    return b"\n".join(lines) + b"\n"


def patterns_are_read_matched_and_filled_as_a_second_reading_says(_program):
    with tempfile.TemporaryDirectory() as place:
        files = [Path(place) / f"{seed}.cases" for seed in SEEDS]
        for seed, path in zip(SEEDS, files):
            path.write_bytes(case_of(seed))
        written, told, status = run(program_of("ext_trial"), [bytes(path) for path in files])
    if status or told or written.splitlines()[-1] != b"%d passed, 0 failed" % len(SEEDS):
        raise Failed(f"ext_trial tells {(written + told)[:600]!r}, status {status}")


def scenes(program):
    yield "patterns are read, matched and filled as a second reading says", lambda: patterns_are_read_matched_and_filled_as_a_second_reading_says(program)
