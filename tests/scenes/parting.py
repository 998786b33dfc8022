"""What tests/run makes of its parts, each time in a small repository whose parts are scripts: what it counts, that no more work is done
at once than it was told, what a terminal shows, and that it leaves nothing."""
import os
import re
import shlex
import shutil
import signal
import subprocess
import sys
import time
from pathlib import Path

from scenes.pool import WIPED
from scenes.repositories import Repository, in_each
from scenes.running import SECONDS, TOP, Failed, Skipped, expect

sys.path.insert(0, str(TOP / "tools"))

import ending

COUNTS = b"#!/bin/sh\necho told\necho %d passed, %d failed, %d skipped\nexit %d\n"
TRIAL = b"== tests/trial\ntests/cases/a.cases\n2 passed, 0 failed\n"
ALL = TRIAL + b"== tests/program\ntold\n30 passed, 0 failed, 4 skipped\n"
CALLS = b"== tests/system-calls\ntold\n500 passed, 0 failed, 0 skipped\n"
HOSTILE = b"== tests/hostile\n--short --jobs 3\n60 passed, 0 failed, 0 skipped: failures of calls 9 (init 9)\n"
HOSTILE += b"== tests/mutations\n--short --jobs 3\n14 passed, 0 failed, 0 skipped: mutations 6,000 (words 9)\n"
CUTS = b"== tests/power-cuts\n--short\n4 passed, 0 failed, 0 skipped\n== tests/systemd\n--short\n0 passed, 0 failed, 0 skipped\n"
RUN = "tests/run", "--jobs", "3"


def tests_of(folder, _program):
    """A repository whose tests are scripts that count."""
    made = Repository(folder)
    for tool in "dirname", "nproc", "sleep", "touch":
        if not shutil.which(tool):
            raise Skipped(f"there is no {tool}")
        (made.bin / tool).symlink_to(shutil.which(tool))
    for path in "tests/run", "tests/trial", *(f"tests/scenes/{name}.py" for name in ("parts", "turns", "pool", "running")), "tools/ending.py", "tools/processes.py":
        made.write(path, (TOP / path).read_bytes())
    made.write("crates.txt", b"ext_cli:\next_trial:\n")
    made.write("dist/programs", b"hostext: ext_cli\next_trial: ext_trial\n")
    for crate in "ext_cli", "ext_trial":
        made.write(f"crates/{crate}/src/lib.rt", b"")
    made.write("tests/cases/a.cases", b"")
    made.carry("ext_trial", b'#!/bin/sh\necho "$@"\necho 2 passed, 0 failed\n')
    made.carry("hostext", b"#!/bin/sh\n")
    made.write("tests/program", COUNTS % (30, 0, 4, 0))
    made.write("tests/system-calls", COUNTS % (500, 0, 0, 0))
    made.write("tests/hostile", b'#!/bin/sh\necho "$@"\necho "60 passed, 0 failed, 0 skipped: failures of calls 9 (init 9)"\n')
    made.write("tests/mutations", b'#!/bin/sh\necho "$@"\necho "14 passed, 0 failed, 0 skipped: mutations 6,000 (words 9)"\n')
    made.write("tests/power-cuts", b'#!/bin/sh\necho "$@"\necho 4 passed, 0 failed, 0 skipped\n')
    made.write("tests/systemd", b'#!/bin/sh\necho "$@"\necho 0 passed, 0 failed, 0 skipped\n')
    made.tool("python3", f'exec {shlex.quote(sys.executable)} "$@"')
    made.tool("strace", "")
    return made


def parts(repository, *lines):
    """Has tests/run other parts."""
    text = (repository.place / "tests/run").read_text()
    repository.write("tests/run", re.sub(r"^parts='[^']*'", lambda _: "parts='{}'".format("\n".join(lines)), text, flags=re.M).encode())


def the_tests_are_counted_together(repository):
    expect(repository.run(*RUN), (ALL + CALLS + HOSTILE + CUTS + b"610 passed, 0 failed, 4 skipped\n", b"", 0))
    repository.write("tests/system-calls", COUNTS % (499, 1, 0, 1))
    told = CALLS.replace(b"500 passed, 0", b"499 passed, 1")
    expect(repository.run(*RUN), (ALL + told + HOSTILE + CUTS + b"609 passed, 1 failed, 4 skipped\n", b"", 1))
    repository.write("tests/system-calls", b"#!/bin/sh\necho why >&2\nexit 1\n")
    expect(repository.run(*RUN), (ALL + b"== tests/system-calls\n" + HOSTILE + CUTS + b"110 passed, 1 failed, 4 skipped\n", b"why\n", 1))
    (repository.place / "tests/system-calls").unlink()
    told = b"tests/run: tests/system-calls: No such file or directory\n"
    expect(repository.run(*RUN), (ALL + b"== tests/system-calls\n" + HOSTILE + CUTS + b"110 passed, 1 failed, 4 skipped\n", told, 1))


def a_missing_tool_ends_the_tests_unless_it_is_skipped(repository):
    told = b""
    for tool in "strace", "python3":
        (repository.bin / tool).unlink()
        told = b"tests/run: %s is missing: install the package %s, or skip what needs it with --skip-missing\n" % (tool.encode(), tool.encode()) + told
        expect(repository.run("tests/run"), (b"", told, 2))
    skipped = b"".join(b"skipped: %s: there is no python3\n" % name for name in (b"tests/program", b"tests/system-calls", b"tests/hostile", b"tests/mutations", b"tests/power-cuts", b"tests/systemd"))
    expect(repository.run("tests/run", "--skip-missing"), (TRIAL + skipped + b"2 passed, 0 failed, 6 skipped\n", b"", 0))
    repository.carry("ext_trial", b"#!/bin/sh\necho why\nexit 1\n")
    expect(repository.run("tests/run", "--skip-missing"), (b"== tests/trial\nwhy\n" + skipped + b"0 passed, 1 failed, 6 skipped\n", b"", 1))


def other_words_are_no_options(repository):
    for words in ("--other",), ("--jobs",), ("--jobs", "0"), ("--jobs", "two"), ("--jobs", ""):
        expect(repository.run("tests/run", *words), (b"", b"usage: run [--skip-missing] [--jobs N]\n", 2))


WAITING = """#!/bin/sh
echo {own} begins
touch {own}
at=0
until [ -e {other} ] || [ $at -gt 600 ]; do sleep 0.1; at=$((at + 1)); done
[ -e {other} ] && echo {own} ends && echo 1 passed, 0 failed
"""


def parts_run_side_by_side_and_each_is_shown_whole(repository):
    """Each of two parts waits for the other."""
    parts(repository, "tests/a", "tests/b")
    for own, other in ("a", "b"), ("b", "a"):
        repository.write(f"tests/{own}", WAITING.format(own=own, other=other).encode())
    whole = "".join(f"== tests/{own}\n{own} begins\n{own} ends\n1 passed, 0 failed\n" for own in "ab")
    expect(repository.run("tests/run", "--jobs", "2"), (f"{whole}2 passed, 0 failed, 0 skipped\n".encode(), b"", 0))


# Scenes that tell how many of all parts are at work, each for itself; the last is alone.
WORKING = """#!/usr/bin/env python3
import os, sys, time
from pathlib import Path
sys.dont_write_bytecode = True
from scenes.pool import run_all
from scenes.running import status_of

def work(name):
    at = Path("at-work", f"{os.path.basename(sys.argv[0])}-{name}")
    at.touch()
    time.sleep(0.1)
    with open("seen", "a") as seen:
        print(name, len(list(at.parent.iterdir())), file=seen)
    at.unlink()

beside = [(f"scene {at}", lambda at=at: work(f"beside-{at}")) for at in range(4)]
sys.exit(status_of(run_all(beside, [("scene alone", lambda: work("alone"))], int(sys.argv[-1]))))
"""
WHOLE = "#!/bin/sh\ntouch at-work/whole\nsleep 0.3\nrm at-work/whole\necho 1 passed, 0 failed\n"


def no_more_work_at_once_than_they_may(repository):
    """Two parts with as many processes, and one that works as a whole."""
    parts(repository, "tests/whole", "tests/a --jobs", "tests/b --jobs")
    repository.write("tests/whole", WHOLE.encode())
    for name in "ab":
        repository.write(f"tests/{name}", WORKING.encode())
    (repository.place / "at-work").mkdir()
    for jobs in 1, 2, 3:
        (repository.place / "seen").unlink(missing_ok=True)
        written, told, status = repository.run("tests/run", "--jobs", str(jobs))
        seen = [line.split() for line in (repository.place / "seen").read_text().splitlines()]
        most = {kind: max(int(count) for name, count in seen if name.startswith(kind)) for kind in ("beside", "alone")}
        if (told, status, written.splitlines()[-1], most) != (b"", 0, b"11 passed, 0 failed, 0 skipped", {"beside": jobs, "alone": 1}):
            raise Failed(f"with {jobs} processes at work are {most}; it ends with {status}: {written.decode()} {told.decode()}")


# Its first scene is killed in its turn, while the other part waits for one.
KILLED = """#!/usr/bin/env python3
import os, signal, sys, time
sys.dont_write_bytecode = True
from scenes.turns import turn
with turn("dying"):
    time.sleep(0.5)
    os.kill(os.getpid(), signal.SIGKILL)
"""


def a_turn_ends_with_its_process(repository):
    parts(repository, "tests/a --jobs", "tests/b --jobs")
    repository.write("tests/a", KILLED.encode())
    repository.write("tests/b", WORKING.encode())
    (repository.place / "at-work").mkdir()
    written, told, status = repository.run("tests/run", "--jobs", "1")
    if (written.splitlines()[-1], told, status) != (b"5 passed, 1 failed, 0 skipped", b"", 1):
        raise Failed(f"it ends with {status}: {written.decode()} {told.decode()}")


def a_terminal_shows_what_the_parts_are_at(repository):
    parts(repository, "tests/a --jobs")
    repository.write("tests/a", WORKING.replace("sleep(0.1)", "sleep(0.5)").encode())
    (repository.place / "at-work").mkdir()
    ours, theirs = os.openpty()
    try:
        child = repository.start("tests/run", "--jobs", "1", stderr=theirs)
        written, status = child.communicate(timeout=SECONDS)[0], child.returncode
        shown = os.read(ours, 65536).decode()
    finally:
        os.close(ours), os.close(theirs)
    lines = [line for line in shown.split(WIPED) if line]
    wanted = r"0 of 1 parts are shown, [0-5] scenes have ended; at (none|a: scene ([0-3]|alone))"
    if status or b"5 passed" not in written or not shown.endswith(WIPED) or not any("at a: scene " in line for line in lines):
        raise Failed(f"it ends with {status}, and shows {shown!r}")
    if others := [line for line in lines if not re.fullmatch(wanted, line)]:
        raise Failed(f"it shows {others}")


# A part that has made folders, and a process of a group of its own that no signal but a kill ends.
STUBBORN = """#!/usr/bin/env python3
import os, signal, subprocess, sys, tempfile, time
made = [tempfile.mkdtemp(), tempfile.mkdtemp(dir=os.environ["HOSTEXT_ROOM"])]
for number in signal.SIGINT, signal.SIGTERM, signal.SIGHUP:
    signal.signal(number, signal.SIG_IGN)
child = subprocess.Popen([sys.executable, "-c", "import time; time.sleep(1000)"], start_new_session=True)
with open("made", "w") as file:
    print(os.getpid(), child.pid, *made, file=file)
if sys.argv[1:]:
    print("1 passed, 0 failed")
else:
    time.sleep(1000)
"""


def is_running(number):
    try:
        return Path(f"/proc/{number}/stat").read_bytes().rpartition(b")")[2].split()[0] != b"Z"
    except OSError:
        return False


def check_left(repository):
    one, other, *folders = (repository.place / "made").read_text().split()
    left = [*filter(is_running, (one, other)), *filter(os.path.exists, folders), *map(str, repository.home.iterdir())]
    if left:
        raise Failed(f"left over are {left}")


def a_signal_ends_all_and_leaves_nothing(repository):
    parts(repository, "tests/a")
    repository.write("tests/a", STUBBORN.encode())
    for number in signal.SIGINT, signal.SIGTERM, signal.SIGHUP:
        (repository.place / "made").unlink(missing_ok=True)
        child = subprocess.Popen([repository.place / "tests/run"], env={**repository.around(), "TMPDIR": str(repository.home)}, stdout=subprocess.PIPE, stderr=subprocess.PIPE, preexec_fn=ending.heed)
        began = time.monotonic()
        while not (repository.place / "made").exists() and time.monotonic() < began + SECONDS:
            time.sleep(0.05)
        child.send_signal(number)
        written, told = child.communicate(timeout=SECONDS)
        if (written, told, child.returncode) != (b"", b"", 128 + number):
            raise Failed(f"at {number.name} it ends with {child.returncode}: {written.decode()} {told.decode()}")
        check_left(repository)


def at_the_end_nothing_is_left(repository):
    parts(repository, "tests/a --well")
    repository.write("tests/a", STUBBORN.encode())
    expect(repository.run("tests/run"), (b"== tests/a\n1 passed, 0 failed\n1 passed, 0 failed, 0 skipped\n", b"", 0))
    check_left(repository)


CALLED = [
    *(the_tests_are_counted_together, a_missing_tool_ends_the_tests_unless_it_is_skipped, other_words_are_no_options),
    *(parts_run_side_by_side_and_each_is_shown_whole, no_more_work_at_once_than_they_may, a_turn_ends_with_its_process),
    *(a_terminal_shows_what_the_parts_are_at, a_signal_ends_all_and_leaves_nothing, at_the_end_nothing_is_left),
]


def scenes(program):
    return in_each(tests_of, CALLED, program)
