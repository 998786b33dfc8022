"""What tests/mutations judges by: programs of a few lines in the place of the real one are told, each for what it does wrong; a failing
text is made smaller, and its seed fails again; and the mutations of each kind are sound and faulty ones."""
import random
import re
import subprocess
import tempfile
from pathlib import Path

from scenes import kinds
from scenes.index_texts import Index
from scenes.judging import Bench
from scenes.kinds import SHARES, read_manifest
from scenes.mutating import ALL, LENGTHENING, OF_ENTRIES
from scenes.releases import read_release
from scenes.running import SECONDS, TOP, Failed, named
from scenes.shrinking import reason_of, shrunk
from scenes.stores import ROOM
from scenes.transfers import Transfer, read_feature
from scenes.tree_texts import Faulty, read_sequence, read_tree

# The time by the clock that a stand-in gets: one that hangs, and any other.
HANGS, LATE = 6, 60
# A stand-in runs the real program, and once the file `armed` is beside it these lines.
STAND_IN = """#!/bin/sh
[ -e {folder}/armed ] || exec {program} "$@"
{lines}
"""
MUCH_MEMORY = "exec python3 -I -S -c 'b\"x\" * (64 << 20)'"
MUCH_TIME = "exec python3 -I -S -c 'for _ in range(10 ** 9): pass'"
REAL = '{program} "$@"; status=$?'
# What a stand-in does, the kind that is tried on it, and what is told.
WRONG = [
    ("kill -SEGV $$", kinds.Versions, "it ended with -11"),
    ("exit 11", kinds.Versions, "it ended with 11"),
    ("exec sleep 60", kinds.Versions, "it had not ended in time"),
    (MUCH_TIME, kinds.Versions, "it had not ended in time|seconds of the processor"),
    (f"{REAL}; {MUCH_MEMORY}", kinds.Versions, "bytes of memory, of an input of"),
    (f"{REAL}; echo more >&2; exit $status", kinds.Versions, "on standard error"),
    ('exec {program} "$@" | tail -n +2', kinds.Versions, "and not"),
    ("cat >/dev/null; echo 'hostext: out of memory' >&2; exit 7", kinds.Versions, "it ended with 7"),
    (f'{REAL}; echo >"$1/other"; exit $status', kinds.Trees, "the store is another than before at other"),
    (f'{REAL}; echo >"$1/g-9"; exit $status', kinds.Manifests, "the store is another than before at g-9"),
    (f'{REAL}; echo >>"$1/$(cat "$1/current")/index"; exit $status', kinds.Indexes, "the store is another than before at g-8/index"),
    ("echo 'hostext: bad store' >&2; exit 8", kinds.Indexes, "it ended with 8|it tells line None"),
    ("echo done", kinds.Current, "and not"),
    ('exec {program} "$1" "$2" batch </dev/null', kinds.Homes, "it ended with 0"),
    ('exec {program} "$@" | sed "s/bad-tree 2/bad-tree 3/"', kinds.Trees, "and not"),
    ('exec {program} "$@" | sed s/^greater/less/', kinds.Versions, "and not"),
    ('exec {program} "$@" | sed s/fits/version/', kinds.Releases, "and not"),
    ('exec {program} "$@" | sed s/available/installed/', kinds.Transfers, "and not"),
    ('exec {program} "$@" | sed "s/beta on/beta off/"', kinds.Features, "and not"),
    ('exec {program} "$@" | sed "s/^d 755\\(.*\\) usr$/d 700\\1 usr/"', kinds.Images, "it wrote"),
    ('exec {program} "$@" | sed "s/^\\([dfl] [0-9]*\\):1000/\\1:1001/"', kinds.Trees, "and not"),
    ('exec {program} "$@" | sed "s/^hostext-tree 3/hostext-tree 2/"', kinds.Trees, "and not"),
    (f'{REAL}; [ $(cat "$1/current") = g-1 ] || sed -i "1s/ 2/ 3/" "$1/$(cat "$1/current")/index"; exit $status', kinds.Trees, "it wrote an index with"),
    ('exec {program} "$@" | sed s/^id/di/', kinds.Service_Releases, "and not"),
    ('exec {program} "$@" | sed "s/^f 644/f 755/"', kinds.Unit_Files, "and not"),
    ("echo 'hostext: usage 9' >&2; exit 2", kinds.Words, "and the place is|it ended with 2"),
    ('exec {program} "$@" | sed s/^done/do/', kinds.Batches, "it replies"),
]


def stand_in(program, folder, lines):
    path = Path(folder, "stand-in")
    path.write_text(STAND_IN.format(folder=folder, program=program, lines=lines.format(program=program)))
    path.chmod(0o755)
    return path


def in_a_folder(call):
    """A scene over a new folder."""

    def scene(program):
        with tempfile.TemporaryDirectory(dir=ROOM) as folder:
            call(program, Path(folder))

    scene.__name__ = call.__name__
    return scene


def first_reason(kind):
    """Why the first mutations fail that do."""
    for first in range(0, 10 * kind.many, kind.many):
        if reason := reason_of(kind, [kind.text(seed) for seed in range(first, first + kind.many)]):
            return reason
    return None


def tried(program, folder, kind, lines, seconds):
    """Why mutations of a kind fail on a stand-in of these lines, and on the real program beforehand."""
    with Bench(stand_in(program, folder, lines), folder, seconds) as bench:
        made = kind(bench)
        before = reason_of(made, [made.text(seed) for seed in range(made.many)])
        Path(folder, "armed").touch()
        return before, first_reason(made)


def each_program_that_does_wrong_is_told(program):
    for lines, kind, told in WRONG:
        with tempfile.TemporaryDirectory(dir=ROOM) as folder:
            before, found = tried(program, folder, kind, lines, HANGS if "in time" in told else LATE)
        if before or not found or not re.search(told, found):
            raise Failed(f"of {lines!r} as {kind.__name__} is told {found}, and of the real program {before}")


def mutations(*words):
    ended = subprocess.run([TOP / "tests/mutations", *map(str, words)], stdin=subprocess.DEVNULL, capture_output=True, text=True, timeout=SECONDS)
    return ended.stdout.splitlines(), ended.returncode


@in_a_folder
def a_failing_text_is_made_smaller_and_its_seed_fails_again(program, folder):
    """The stand-in crashes where its standard input has a link, so the smallest text has nothing but the beginning of one."""
    (folder / "armed").touch()
    wrong = stand_in(program, folder, 'cat >{program}.input; grep -q "^l " {program}.input && kill -SEGV $$; exec {program} "$@" <{program}.input'.replace("{program}.input", str(folder / "input")))
    lines, status = mutations("--kind", "layers", "--count", 600, "--jobs", 1, "--program", wrong)
    found = [re.fullmatch(r"FAILED: tests/mutations (--kind layers --seed [0-9]+): it ended with -11.*; of 2 bytes: b'l '", line) for line in lines[:-1]]
    if status != 1 or not found or not all(found) or not lines[-1].startswith("0 passed, 1 failed, 0 skipped: mutations "):
        raise Failed(f"with {status} is told {lines}")
    again, status = mutations(*found[0][1].split(" "), "--jobs", 1, "--program", wrong)
    if status != 1 or again[0] != lines[0]:
        raise Failed(f"tried again, with {status} is told {again}")


@in_a_folder
def a_batch_of_many_explanations_is_judged_in_time(program, folder):
    """Where one explanation ends and the next begins isn't told, so that the judge has to go on from each line; one that is refused
    between them ends before the next ones."""
    many = b"sysext explain /usr/bin/tool\n" * 400
    (folder / "lines").write_bytes(b"sysext list\n" + many + b"sysext explain /none\n" + many + b"sysext unmerge\n")
    lines, status = mutations("--kind", "batches", "--input", folder / "lines", "--jobs", 1, "--program", program)
    if status or not lines[-1].startswith("1 passed, 0 failed, 0 skipped: mutations "):
        raise Failed(f"with {status} is told {lines}")


def a_text_is_made_no_smaller_than_what_fails(_program):
    for text, needed in ((b"a\nb\nc\nd\n", b"c"), (b"x" * 1_000 + b"yz" + b"x" * 1_000, b"yz"), (b"one", b"one"), (b"", b"")):
        found = shrunk(lambda other: needed in other, text)
        if found != needed:
            raise Failed(f"of {text[:20]} it leaves {found[:20]}")


READERS = {
    kinds.Trees: read_tree, kinds.Layers: read_sequence, kinds.Manifests: read_manifest, kinds.Features: read_feature, kinds.Host_Releases: read_release,
    kinds.Releases: read_release, kinds.Service_Releases: read_release, kinds.Indexes: lambda text: Index(text, 8), kinds.Transfers: lambda text: Transfer(text, kinds.SPECIFIERS),
}


def is_sound(read, text):
    try:
        read(text)
    except Faulty:
        return False
    return True


def mutations_are_the_same_each_time_and_sound_and_faulty(program):
    for kind in SHARES:
        with tempfile.TemporaryDirectory(dir=ROOM) as folder, Bench(program, folder) as bench:
            made = kind(bench)
            texts = [made.text(seed) for seed in range(400)]
            if texts != [made.text(seed) for seed in range(400)] or len(set(texts)) < 100:
                raise Failed(f"the mutations of {made.name} are {len(set(texts))} texts, or others the next time")
        sound = [is_sound(READERS[kind], text) for text in texts] if kind in READERS else [True, False] * 40
        if not 40 <= sound.count(True) <= len(sound) - 40:
            raise Failed(f"of {len(sound)} mutations of {made.name} {sound.count(True)} are sound")


TEXT = b"hostext-tree 3\nd 755 usr/a/b\nf 644:1:2 3 " + b"ab" * 32 + b" 7 usr/long name\nKEY=v@lue\nk 12 x\n"


def each_change_changes_something(_program):
    for change in (*ALL, *OF_ENTRIES, *LENGTHENING):
        found = {change(random.Random(seed), TEXT, b"d 700 other\nend\n") for seed in range(40)}
        if len(found - {TEXT}) < 2 and change.__name__ not in ("sorted_lines", "joined"):
            raise Failed(f"{change.__name__} makes {found}")


scenes = named(
    *(each_program_that_does_wrong_is_told, a_failing_text_is_made_smaller_and_its_seed_fails_again, a_text_is_made_no_smaller_than_what_fails),
    *(a_batch_of_many_explanations_is_judged_in_time, mutations_are_the_same_each_time_and_sound_and_faulty, each_change_changes_something),
)
