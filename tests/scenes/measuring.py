"""tools/gate-minutes, in a small repository whose gate burns known processor time under the names of the kit's commands: that what it
tells of the whole is exact, that of each crate and part nearly so, and that the command runs as it would alone."""
import shutil
import sys
from pathlib import Path

from scenes.repositories import Repository, in_each
from scenes.running import TOP, Failed, expect

# Burns so many seconds of the processor, its own beginning among them.
BURN = "import sys, time\nwhile time.process_time() < float(sys.argv[-1]):\n    pass\n"
# Works for two crates, runs a test that starts twenty short commands, and leaves a process behind that ends later.
GATE = """
cd "${0%/*}/.."
kit/rattle check --crate-name ext_low src/lib.rt 1.2
(cd rt-edit-1-a && ../kit/rattle check --crate-name ext_low src/lib.rt 0.9)
kit/rattle build --crate-name ext_top src/main.rt --crate-checked checked 0.3
"$PWD/rt-run-1-a/bin/ext_top" 0.9
sh -c 'kit/burn 1.2 & exit'
tests/program
exit 3
"""
TEST = "for one in 1 2 3 4 5 6 7 8 9 10; do kit/burn 0.06; kit/burn 0.06; done\n"
BURNED = {"ext_low": {"proofs": 1.2, "edits": 0.9}, "ext_top": {"programs": 1.2}, "tests/program": {"tests": 1.2}}
LEFT = 1.2
# What two digits and the work of the shells may hide, in minutes.
NEAR = 0.007


def small_gate(folder):
    made = Repository(folder)
    for path in "tools/gate-minutes", "tools/processes.py":
        shutil.copy(TOP / path, made.place / path)
    (made.bin / "python3").symlink_to(Path(sys.executable).resolve())
    for path in "kit/burn", "kit/rattle", "rt-run-1-a/bin/ext_top":
        made.write(path, f"#!{Path(sys.executable).resolve()} -IS\n{BURN}".encode())
    for path, lines in (".ci/run", GATE), ("tests/program", TEST):
        made.write(path, f"#!/bin/sh\n{lines}".encode())
    (made.place / "rt-edit-1-a").mkdir()
    return made


def rows_of(lines):
    """The minutes of each row and column of the table."""
    heads, *rows = (line.split(maxsplit=5) for line in lines)
    return {name: {head: float(cell) for head, cell in zip(heads, cells) if cell != "-"} for *cells, name in rows}


def lies_between(least, minutes, most):
    """Whether minutes lie between seconds, nearly."""
    return least / 60 - NEAR <= minutes <= most / 60 + NEAR


def the_minutes_of_the_gate_are_told_by_crate_and_part(repository):
    written, told, status = repository.run("tools/gate-minutes", "--to", repository.home / "table")
    expect((b"", told, status), (b"", b"", 3))
    if (repository.home / "table").read_bytes() != written:
        raise Failed("the file has another table")
    begin, *lines, rest, last = written.decode().splitlines()
    rows, whole = rows_of(lines), float(last.split()[-3])
    if (begin, last) != ("processor minutes:", f"the whole gate takes {whole:.2f} processor minutes"):
        raise Failed(f"it writes {begin!r} .. {last!r}")
    others, missed = float(rest.split()[0]), float(rest.split()[-2])
    burned = sum(sum(parts.values()) for parts in BURNED.values())
    for name, parts in {**BURNED, "all of these": {"all": burned}}.items():
        for part, seconds in {**parts, "all": sum(parts.values())}.items():
            if not lies_between(max(seconds / 2, seconds - missed * 60), rows[name].get(part, 0), seconds):
                raise Failed(f"it tells {rows[name]} of {name}, {missed} missed, and not {parts} seconds")
    if [*rows][0] != "ext_low" or sorted(rows) != sorted([*BURNED, "all of these"]):
        raise Failed(f"the rows are {' '.join(rows)}")
    if not lies_between(burned + LEFT, whole, burned + LEFT + 1) or not lies_between(LEFT, whole - rows["all of these"]["all"], LEFT + 60 * missed):
        raise Failed(f"it tells {last!r} and {rest!r}, where {burned + LEFT} seconds were burned")
    if abs(rows["all of these"]["all"] + others + missed - whole) > 0.021:
        raise Failed(f"the parts of {whole} are {rows['all of these']}, {others} and {missed}")


def a_measured_command_runs_as_it_would_alone(repository):
    signals = repository.write("signals", b'#!/bin/sh\nwhile read -r line; do case $line in Sig[BI]*) echo "$line" ;; esac; done </proc/self/status\n')
    alone = repository.run("signals")
    written, told, status = repository.run("tools/gate-minutes", signals)
    if not written.startswith(alone[0] + b"processor minutes:\n") or (told, status) != (b"", 0) or b"\nthe command takes 0.0" not in written:
        raise Failed(f"alone it writes {alone[0]}, and measured {written} and {told}")
    if repository.run("tools/gate-minutes", "sh", "-c", "kill -9 $$")[1:] != (b"", 137):
        raise Failed("it doesn't end with 137 where the command is killed")
    expect(repository.run("tools/gate-minutes", "absent"), (b"", b"gate-minutes: absent: No such file or directory\n", 1))


def scenes(_program):
    yield from in_each(small_gate, [the_minutes_of_the_gate_are_told_by_crate_and_part, a_measured_command_runs_as_it_would_alone])
