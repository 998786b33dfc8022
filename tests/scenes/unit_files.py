"""Unit files: 100,000 texts, each one of a few with some bytes changed, are read by the word `ini` of ext_trial and by another reading of
the rules of docs/FORMATS.md, which names every faulty line and then takes the least."""
import random
import re
import subprocess
import tempfile
from pathlib import Path

from scenes.running import SECONDS, Failed, program_of, shortened

GROUPS, TEXTS = 10, 10_000
SEEDS = (
    b"[Transfer]\nVerify=no\n\n[Source]\nType=url-file\nPath=file:///srv\nMatchPattern=a_@v.raw\n\n[Target]\nType=regular-file\nPath=/opt\n",
    b"# a comment\n[s]\nk=a\\\n  b\\\n; left out\n  c\nl = d e\n[t]\nk=x\n[s]\nk=\nk=y\nk=z\n",
    b"[s]\r\nk=a\r\n[t]\r\n=x\r\nl=\\\r\n\r\nm\\\r\n=n",
    b"\\\n\\\n[a\\\nb]\nk==\n#\\\n \t;\nk=\xc3\xa9\\",
    b"[s]\nk=1\nk=2\nk=\nk=3\n[s]\n[s]\nk=4",
)
PIECES = (
    *(bytes([byte]) for byte in b"\n\n\n\\\\[]=#; \t\rkst\x00\x1f\x7f\xc3\xa9\xff"),
    *(b"\\\n", b"\n[s]\n", b"\nk=", b"k=v\n", b"\n#", b"\\\n#\xff\n", b"[", b"]\n", b"\xef\xbb\xbf", b"\\\\\n", b"\\ \n", b"\xe2\x82\xac"),
)
BLANKS = b" \t"


def mutated(chance):
    """One of the texts, with up to eight of its bytes taken away, pieces put in, or parts moved."""
    text = bytearray(chance.choice(SEEDS))
    for _ in range(chance.randrange(9)):
        at, end = sorted(chance.randrange(len(text) + 1) for _ in range(2))
        way = chance.randrange(6)
        if way == 0:
            del text[at : min(end, at + 3)]
        elif way == 1:
            text[at:at] = text[at : min(end, at + 20)]
        else:
            text[at : at + (way == 2)] = chance.choice(PIECES)
    return bytes(text)


def is_text(line):
    try:
        line.decode()
    except UnicodeDecodeError:
        return False
    return not re.search(rb"[\x00-\x08\x0a-\x1f\x7f]", line)


def lines_of(data):
    """The lines, each with its number."""
    lines = data.split(b"\n")
    if not lines[-1]:
        lines.pop()
    return [(number, line[:-1] if line.endswith(b"\r") else line) for number, line in enumerate(lines, 1)]


def whole_lines(lines):
    """The whole lines without blanks at both ends, each with the number of its first line."""
    number, parts = None, []
    for at, line in lines:
        if line.lstrip(BLANKS)[:1] in (b"#", b";"):
            continue
        number = number or at
        if line.endswith(b"\\"):
            parts.append(line[:-1] + b" ")
        else:
            yield number, b"".join((*parts, line)).strip(BLANKS)
            number, parts = None, []
    if number:
        yield number, b"".join(parts).strip(BLANKS)


def read(data):
    """The sections, and the faults: each with its line, and after the one that comes first at a line the others."""
    lines, sections, faults = lines_of(data), [], []
    faults += [(number, 0, b"not-text") for number, line in lines if not is_text(line)]
    for number, text in whole_lines(lines):
        if text.startswith(b"["):
            if re.fullmatch(rb"\[[^\[\]]+\]", text, re.S):
                sections.append((text[1:-1], []))
            else:
                faults.append((number, 1, b"bad-section"))
        elif text and b"=" not in text:
            faults.append((number, 1, b"no-equals"))
        elif text and not sections:
            faults.append((number, 2, b"no-section"))
        elif text:
            key, value = text.split(b"=", 1)
            sections[-1][1].append((number, key.rstrip(BLANKS), value.lstrip(BLANKS)))
    return sections, faults


def settings_of(sections, name, key):
    return [(number, value) for section, settings in sections for number, at, value in settings if section == name and at == key]


def since_the_last_empty_one(settings):
    return settings[1 + max((at for at, (_, value) in enumerate(settings) if not value), default=-1) :]


def escaped(data):
    return "".join(chr(byte) if re.match(rb"[A-Za-z0-9=.:/_\[\]-]", bytes([byte])) else f"\\x{byte:02x}" for byte in data) or "\\e"


def lines_wanted(lines):
    return [f"> {escaped(line) if line else ''}" for line in lines]


def statements(data):
    """The statements on a text, with what each writes."""
    sections, faults = read(data)
    yield f"ini read {escaped(data)}"
    if faults:
        line, _, why = min(faults)
        yield from lines_wanted([b"fault %d %s" % (line, why)])
        return
    for name, settings in sections:
        yield from lines_wanted([b"[%s]" % name, *(b"%d %s=%s" % setting for setting in settings)])
    for name, key in (b"s", b"k"), (b"Source", b"MatchPattern"):
        settings = settings_of(sections, name, key)
        yield f"ini last {escaped(data)} {name.decode()} {key.decode()}"
        yield from lines_wanted([b"%d=%s" % settings[-1] if settings else b"none"])
        yield f"ini all {escaped(data)} {name.decode()} {key.decode()}"
        yield from lines_wanted(b"%d=%s" % setting for setting in since_the_last_empty_one(settings))


def check_group(trial, seed):
    chance = random.Random(f"unit files {seed}")
    cases = [f"case {number}\n" + "\n".join(statements(mutated(chance))) for number in range(TEXTS)]
    with tempfile.TemporaryDirectory() as folder:
        file = Path(folder) / "texts.cases"
        file.write_text("\n\n".join(cases) + "\n")
        ended = subprocess.run([trial, file], stdin=subprocess.DEVNULL, capture_output=True, timeout=SECONDS)
    told = ended.stdout.decode(errors="replace").splitlines()
    if told[-1:] != [f"{TEXTS} passed, 0 failed"] or ended.returncode:
        raise Failed(f"of the texts of seed {seed}: {shortened(told[:1])} {shortened(told[-1:])} {shortened(ended.stderr)}")


def scenes(_program):
    for seed in range(GROUPS):
        yield f"mutated unit files are read as the rules say, seed {seed}", lambda seed=seed: check_group(program_of("ext_trial"), seed)
