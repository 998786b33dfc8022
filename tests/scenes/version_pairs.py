"""Random pairs of versions, compared by systemd-analyze and by hostext."""
import os
import random
import re
import sys
import tempfile

from scenes.chroots import LIBRARIES
from scenes.running import Failed, run
from scenes.stores import Place
from scenes.updates import compared

BYTES = "abZ019abZ019.-~^_+"
WORDS = {-1: "less", 0: "equal", 1: "greater"}
STATUSES = {0: 0, 11: 1, 12: -1}
# A mark right behind another one, whatever is skipped between them, and a byte that is skipped right behind a mark.
IN_A_ROW = re.compile(r"[~^.-][~^._+-]")
SKIPPED = "_+"
# So many pairs of each piece of work are given to the command.
BY_COMMAND = 5


def text(chance):
    return "".join(chance.choice(BYTES) for _ in range(chance.randrange(1, 11)))


def edited(chance, given):
    given = list(given)
    for _ in range(chance.choice((1, 1, 2))):
        at = chance.randrange(len(given) + 1)
        given[at : at + chance.choice((0, 1))] = chance.choice((*BYTES, ""))
    return "".join(given) or "1"


def drawn(chance):
    one = text(chance)
    return one, edited(chance, one) if chance.random() < 0.5 else text(chance)


def marks_in_a_row(one, other):
    """How systemd orders two versions of which one has marks in a row: turn by turn, in which each of `~`, the end, `-`, `^` and `.` is
    looked at once, and nothing is skipped any more once the turn has begun; then runs of digits or of letters."""
    while True:
        one, other = (version.lstrip(SKIPPED) for version in (one, other))
        for mark in "~", "", "-", "^", ".":
            if not mark:
                if not one or not other:
                    return bool(one) - bool(other)
                continue
            has = one.startswith(mark), other.startswith(mark)
            if has[0] != has[1]:
                return 1 if has[1] else -1
            one, other = one[has[0] :], other[has[1] :]
        kind = r"[0-9]*" if (one[:1] + other[:1]) and any(version[:1].isdigit() for version in (one, other)) else r"[A-Za-z]*"
        runs = [re.match(kind, version)[0] for version in (one, other)]
        keys = [(len(found.lstrip("0")), found.lstrip("0")) for found in runs] if kind == r"[0-9]*" else runs
        if kind == r"[0-9]*" and bool(runs[0]) != bool(runs[1]):
            return 1 if runs[0] else -1
        if keys[0] != keys[1]:
            return 1 if keys[0] > keys[1] else -1
        one, other = one[len(runs[0]) :], other[len(runs[1]) :]


# Calls the function of systemd that its tools order versions by, for pairs on standard input.
CALLS = """
import ctypes, sys
order = ctypes.CDLL(sys.argv[1]).strverscmp_improved
for line in sys.stdin.read().splitlines():
    print(order(*(version.encode() for version in line.split(" "))))
"""


def of_systemd(systemd, pairs):
    """The order of each pair. The first ones are given to the command too."""
    library = systemd.root / LIBRARIES[1] / f"libsystemd-shared-{systemd.version}.so"
    source = "".join(f"{one} {other}\n" for one, other in pairs)
    ended = systemd.loaded(os.path.realpath(sys.executable), "-c", CALLS, library, more=(f"/{LIBRARIES[0]}",), source=source)
    if ended.returncode or len(ended.stdout.split()) != len(pairs):
        raise Failed(f"{library} orders nothing: {ended.stderr.strip()}")
    orders = [(int(word) > 0) - (int(word) < 0) for word in ended.stdout.split()]
    for pair, order in zip(pairs[:BY_COMMAND], orders):
        ended = systemd.run_here("systemd-analyze", "compare-versions", "--", *pair)
        if STATUSES.get(ended.returncode) != order:
            raise Failed(f"systemd-analyze ends with {ended.returncode} for {pair}, which its library orders by {order}: {ended.stderr}")
    return orders


def of_hostext(program, pairs):
    source = "".join(f"compare {one} {other}\n" for one, other in pairs).encode()
    with tempfile.TemporaryDirectory() as folder:
        place = Place(program, folder)
        written, told, status = run(program, [bytes(place.store), bytes(place.depot), b"batch"], source)
    words = written.decode().splitlines()
    if status or len(words) != len(pairs):
        raise Failed(f"hostext ends with {status}: {told}")
    return [next(order for order, word in WORDS.items() if word == found) for found in words]


def compare(systemd, program, seed, count, left_out, used):
    """Compares so many pairs of a seed. Of those with marks in a row systemd goes by its own turns, and hostext by the order of
    tokens; all others have one order."""
    chance = random.Random(f"pairs {seed}")
    pairs = [drawn(chance) for _ in range(count)]
    for pair, there, here in zip(pairs, of_systemd(systemd, pairs), of_hostext(program, pairs)):
        wanted = there, there
        if any(map(IN_A_ROW.search, pair)) and "marks_in_a_row" not in left_out:
            used["marks_in_a_row"] += 1
            wanted = marks_in_a_row(*pair), compared(*pair)
        if (there, here) != wanted:
            raise Failed(f"{pair[0]!r} is to {pair[1]!r} {WORDS[there]} there and {WORDS[here]} here, and not {' and '.join(WORDS[order] for order in wanted)}")
