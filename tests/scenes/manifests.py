"""Manifests: texts that begin as manifests and are changed at random, each read by the program of the cases and by the rules of
docs/FORMATS.md as they are written here in Python."""
import os
import random
import tempfile
from pathlib import Path

from scenes.running import Failed, named, program_of, run

# So many texts are read in so many runs of the program, those of a run drawn from a seed of its own.
TEXTS, RUNS = 30_000, 30
DIGITS = frozenset(b"0123456789abcdefABCDEF")
# Bytes that a change puts in or writes over others.
BYTES = b"\n\n\r\t \\*#/.0aAgG\x00\x1f\x7f\x80\xbf\xc3\xa4\xef\xff"
NAMES = [b"a", b"b", b"a/b", b"./x", b" x", b"*x", b"\xc3\xa4", b"name-12345678", b"name-12345679", b"name-1"]


def entry_of(line):
    """The name and the digest that a line lists, or nothing where it is no entry."""
    digits, blanks, name = line[:64], line[64:66], line[66:]
    if len(digits) < 64 or not set(digits) <= DIGITS or blanks not in (b"  ", b" *") or not name:
        return None
    if any(byte < 0x20 or byte == 0x7F for byte in name):
        return None
    try:
        name.decode()
    except UnicodeDecodeError:
        return None
    return name, digits.lower()


def lines_of(text):
    lines = text.split(b"\n")
    return lines[:-1] if not lines[-1] else lines


def reading(text):
    """The lines that the word `sums read` has to write of a text."""
    listed = {}
    for number, line in enumerate(lines_of(text), 1):
        entry = entry_of(line)
        if entry is None or listed.setdefault(*entry) != entry[1]:
            return [b"fault %d" % number]
    return [listed[name] + b" " + name for name in sorted(listed)]


def manifest(rng):
    """A text of a few lines. Now and then one has another digest than the others of its name."""
    digests = {name: b"%064x" % rng.getrandbits(256) for name in NAMES}
    lines = []
    for name in rng.choices(NAMES, k=rng.randrange(9)):
        digest = digests[name] if rng.randrange(12) else b"%064x" % rng.getrandbits(256)
        lines.append((digest.upper() if rng.randrange(4) == 0 else digest) + rng.choice([b"  ", b" *"]) + name)
    return b"\n".join(lines) + rng.choice([b"", b"\n", b"\n"])


def changed(rng, text):
    at, byte = rng.randrange(len(text) + 1), bytes([rng.choice(BYTES)])
    change = rng.randrange(6)
    if change == 0:
        return text[:at] + byte + text[at:]
    if change == 1:
        return text[:at] + byte + text[at + 1 :]
    if change == 2:
        return text[:at] + text[at + 1 :]
    if change == 3:
        return text[:at]
    lines = lines_of(text)
    if change == 4:
        rng.shuffle(lines)
    elif lines:
        lines.insert(rng.randrange(len(lines) + 1), rng.choice(lines))
    return b"\n".join(lines) + b"\n"


def texts(seed):
    rng = random.Random(seed)
    for _ in range(TEXTS // RUNS):
        text = manifest(rng)
        for _ in range(rng.randrange(3)):
            text = changed(rng, text)
        yield text


def escaped(text):
    return "".join(chr(byte) if chr(byte).isascii() and chr(byte).isalnum() else f"\\x{byte:02x}" for byte in text) or "\\e"


def case(at, text):
    expected = "".join(f"> {escaped(line)}\n" for line in reading(text))
    return f"case {at}\nsums read {escaped(text)}\n{expected}"


def each_changed_text_is_read_by_the_rules(_program):
    trial = program_of("ext_trial")
    with tempfile.TemporaryDirectory() as folder:
        for seed in range(RUNS):
            file = Path(folder) / f"seed-{seed}.cases"
            file.write_text("\n".join(case(at, text) for at, text in enumerate(texts(seed))))
            written, _, status = run(trial, [os.fsencode(file)])
            if status or written != b"%d passed, 0 failed\n" % (TEXTS // RUNS):
                raise Failed(f"of the texts of seed {seed}: {written.decode(errors='replace')[:400]}")


scenes = named(each_changed_text_is_read_by_the_rules)
