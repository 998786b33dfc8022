"""What tests/systemd stands on: docs/FROM_SYSTEMD.md beside the functions that its rows name; and tests/systemd itself, which skips what
can't be had, finds what it was told to leave in, and leaves nothing behind."""
import os
import re
import signal
import subprocess
import sys
import tempfile
import time

from scenes import odd_hosts, odd_updates, told_merges, told_releases, told_updates, version_pairs
from scenes.chroots import need_mounts, systemds
from scenes.devices import become_nobody
from scenes.documents import Sources, cells_of, is_missed, quoted
from scenes.running import SECONDS, TOP, Failed, Skipped, named

DOCUMENT, HEAD = "docs/FROM_SYSTEMD.md", "shown by"
PARTS = "merges", "releases", "updates", "versions"
FUNCTIONS = {row.__name__ for row in (*told_merges.ROWS, *told_releases.ROWS, *told_updates.ROWS, version_pairs.marks_in_a_row)}
# A table that isn't about systemd.
OTHERS = ("kept",)


def tables_of(text):
    """The rows of each table, with its head."""
    found = re.findall(r"(?:^\|.*\n)+", text, re.M)
    return [[cells_of(line) for line in table.splitlines()] for table in found]


def check_rows(sources):
    """Each row names functions or parts, or has a dash; each function stands on a row."""
    named_there = set()
    for head, rule, *rows in tables_of(sources.text(DOCUMENT)):
        if head[0] in OTHERS:
            continue
        if head[-1] != HEAD or len(rule) != len(head):
            raise Failed(f"a table that begins with {rows[0][0]!r} doesn't tell by what it is shown")
        for row in rows:
            names = quoted(row[-1])
            if len(row) != len(head) or row[-1] != (", ".join(f"`{name}`" for name in names) or "-"):
                raise Failed(f"the row {row[0]!r} is shown by {row[-1]!r}")
            if unknown := [name for name in names if name not in (*FUNCTIONS, *PARTS)]:
                raise Failed(f"the row {row[0]!r} names {unknown}, which tests/systemd hasn't")
            named_there.update(names)
    if missing := FUNCTIONS - named_there:
        raise Failed(f"no row of {DOCUMENT} names {sorted(missing)}")


def check_first(sources):
    """The ten that matter most stand first."""
    text = sources.text(DOCUMENT)
    first = re.search(r"^## .*$", text, re.M)
    if first[0] != "## The ten that matter most" or len(tables_of(text)[0]) != 12:
        raise Failed(f"{DOCUMENT} doesn't begin with ten rows")


def each_row_names_what_shows_it_and_each_function_has_a_row(_program):
    check_rows(Sources())
    check_first(Sources())
    for begin in "| 3 and 9 are", "| a counter of tries", "| a mark (`~", "| `SYSEXT_SCOPE=`":
        is_missed(check_rows, DOCUMENT, begin)
    is_missed(check_first, DOCUMENT, "| nothing is mounted")
    for old, new in ("`masks`", "`mask`"), ("| `merges` |", "| merges |"), ("what to do | shown by |", "what to do | |"):
        text = Sources().text(DOCUMENT).replace(old, new, 1)
        try:
            check_rows(Sources(instead={DOCUMENT: text}))
        except Failed:
            continue
        raise Failed(f"nobody sees that {old} is {new}")


def each_odd_thing_is_taken_off_or_is_the_same_in_both(_program):
    """Each has the name of the function that takes it off, or says that nothing has to."""
    for make in (*odd_hosts.ODD, *odd_updates.ODD):
        if make.__name__ not in FUNCTIONS and "The same in both" not in (make.__doc__ or ""):
            raise Failed(f"nothing takes off what {make.__name__} does")


def beside(*words, python=sys.executable, before=None, **around):
    ended = subprocess.run([python, TOP / "tests/systemd", *words], stdin=subprocess.DEVNULL, capture_output=True, text=True, timeout=SECONDS, preexec_fn=before, env={**os.environ, **around})
    return ended.stdout, ended.stderr, ended.returncode


def need_tools():
    """Gives a systemd that can be had here."""
    need_mounts()
    found = [systemd for systemd in systemds() if not isinstance(systemd, str)]
    if not found:
        raise Skipped("there is no systemd-sysext here")
    return found[0]


def who_may_not_mount_skips_all_of_it(_program):
    try:
        written, told, status = beside(python="/usr/bin/python3", before=become_nobody)
    except (OSError, subprocess.SubprocessError) as reason:
        raise Skipped(f"nobody can run python3 here: {reason}") from None
    lines = written.splitlines()
    if "Permission denied" in told:
        raise Skipped("nobody may read the tests here")
    if status or lines[-1:] != ["0 passed, 0 failed, 4 skipped"] or not lines[0].startswith("skipped: tests/systemd: "):
        raise Failed(f"it ended with {status}: {written}{told}")


def what_cannot_be_had_is_skipped_with_a_line(_program):
    need_mounts()
    with tempfile.TemporaryDirectory() as empty:
        for root, said in ("", "SYSTEMD_ROOT names no folder with the packages of another systemd"), (empty, f"SYSTEMD_ROOT: {os.path.realpath(empty)} has no usr/bin/systemd-sysext with its libraries"):
            written, told, status = beside("--part", "versions", "--count", "1", SYSTEMD_ROOT=root)
            if status or f"skipped: versions: {said}\n" not in written:
                raise Failed(f"it ended with {status}: {written}{told}")


def without_its_function_what_a_row_tells_is_found(_program):
    """The mode of a hierarchy is on nearly each host another one. Whatever else it finds, it says how to try again."""
    systemd = need_tools()
    words = "--part", "merges", "--seed", "1", "--count", "4", "--jobs", "1"
    written, told, status = beside(*words, "--without", "modes_at_hierarchies", "--without", "marks_at_hierarchies")
    if status != 1 or not re.search(rf"^FAILED: merges with systemd {systemd.version}: tests/systemd --part merges --seed [0-9]+ --count 1: once it was merged (usr|opt|etc) is ", written, re.M):
        raise Failed(f"it ended with {status}: {written}{told}")
    if beside(*words)[2] != 0:
        raise Failed("with it something is found")


def a_signal_leaves_nothing(_program):
    need_tools()
    with tempfile.TemporaryDirectory() as room:
        for number in signal.SIGINT, signal.SIGTERM:
            mounts = open("/proc/self/mounts").read()
            words = [sys.executable, TOP / "tests/systemd", "--part", "merges"]
            child = subprocess.Popen(words, stdin=subprocess.DEVNULL, stdout=subprocess.PIPE, stderr=subprocess.STDOUT, text=True, env={**os.environ, "TMPDIR": room}, start_new_session=True)
            until = time.monotonic() + SECONDS / 2
            while not in_its_room(child.pid, room) and time.monotonic() < until:
                time.sleep(0.05)
            child.send_signal(number)
            told = child.communicate(timeout=SECONDS)[0]
            if child.returncode != 128 + number or os.listdir(room) or open("/proc/self/mounts").read() != mounts:
                raise Failed(f"it ended with {child.returncode}, and left {os.listdir(room)}: {told}")
            if left := processes_of(child.pid):
                raise Failed(f"processes {left} go on")


def processes_of(session):
    """The processes of a session that haven't ended."""
    found = []
    for entry in filter(str.isdigit, os.listdir("/proc")):
        try:
            state = open(f"/proc/{entry}/stat").read().rpartition(")")[2].split()
        except OSError:
            continue
        if state[3] == str(session) and state[0] != "Z":
            found.append(int(entry))
    return found


def in_its_room(session, room):
    """Whether a process of a session has mounted something in a folder."""
    for process in processes_of(session):
        try:
            if room in open(f"/proc/{process}/mounts").read():
                return True
        except OSError:
            continue
    return False


scenes = named(
    *(each_row_names_what_shows_it_and_each_function_has_a_row, each_odd_thing_is_taken_off_or_is_the_same_in_both),
    *(who_may_not_mount_skips_all_of_it, what_cannot_be_had_is_skipped_with_a_line, without_its_function_what_a_row_tells_is_found),
    a_signal_leaves_nothing,
)
