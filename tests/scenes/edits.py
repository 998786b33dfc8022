"""The edits of the crates: that each changes a text that stands once in its file, and that the gate tries few. And tools/try-edits,
in a small repository whose `rt` is a script: that crates are tried side by side over libraries that were built before, which edits it
names as refused only at an answer file, and which crates a change touches."""
import re
import shutil
import subprocess
import sys
from pathlib import Path

from scenes.documents import section
from scenes.repositories import Repository, in_each
from scenes.running import TOP, Failed, Skipped, expect

# An edit costs up to a check of its crate, at each run of the gate.
MOST_TRIED = 20
# What the kit says of an edit after its name.
SAID = {
    "a_goal": "refused, as it must be: note: src/lib.rt:3:1: it is not proved that what the function ensures holds when it returns",
    "a_name": "refused, as it must be (only because a proof file names what the edit took away): proofs/f/Answers.antt:1:2: error: no",
    "a_tactic": "refused, as it must be: ./proofs/f/Answers.antt:9:9: error: `returns`: `omega`: the goal does not follow from what it read",
    "a_type": "refused, as it must be: ./proofs/f/Answers.antt:4:9: error: `returns`: as printed, the two types differ",
    "both": "refused, as it must be: ./proofs/f/Answers.antt:4:9: error: `returns`: as printed, the two types differ",
}
CHECKED = {
    "both": "note: src/lib.rt:7:1: it is not proved that the function ends",
    "a_type": "note: ./proofs/g/Answers.antt is not checked until what its function calls has a proof file that antt reads",
}
RT = """
case $1 in
    lib) echo "${PWD##*/}" >>"$ROOM/libraries" ;;
    must-fail)
        : >"$ROOM/begun.$2"
        turns=0
        while [ ! -e "$ROOM/begun.one" ] || [ ! -e "$ROOM/begun.two" ]; do
            turns=$((turns + 1))
            [ "$turns" -lt 1000 ] || { echo alone >>"$ROOM/libraries" && break; }
            sleep 0.01
        done
        cat "$ROOM/said.$2" ;;
    check)
        echo "./proofs/f/Answers.antt:4:9: error: two types differ"
        cat "$ROOM/checked.$(cat src/lib.rt)" ;;
esac
"""


# Says of each edit that a goal refuses it.
RT_THAT_REFUSES = f"""
[ "$1" = must-fail ] || exit
for edit in "crates/$2/must-fail"/*; do
    echo "rt: must-fail $2/${{edit##*/}}: {SAID['a_goal']}"
done
"""
# What a change does to each crate of a small repository, a file and its bytes or None, and whether it touches the crate.
CHANGES = {
    "bodies": ("src/deep/body.rt", b"another body", True),
    "words": ("specs/Words.antt", None, True),
    "answers": ("proofs/body/New.antt", b"a new file", True),
    "tried": ("must-fail/by_the_gate.edit", b"file: src/lib.rt", True),
    "others": ("more-edits/by_hand.edit", None, True),
    "bare": ("src/lib.rt", b"another body", True),
    "still": ("stdin", b"what a program reads", False),
    "told": ("more-edits.md", b"what is beside", False),
}


def repository_of_edits(folder):
    made = Repository(folder)
    shutil.copy(TOP / "tools/try-edits", made.place / "tools/try-edits")
    made.write("crates.txt", b"lowest:\nlow: lowest\none: low # a comment\ntwo: low lowest more\n")
    for crate in "lowest", "low", "one", "two":
        made.write(f"crates/{crate}/src/lib.rt", b"body")
    for crate, edits in ("one", ("a_goal", "a_name", "a_tactic")), ("two", ("a_type", "both")):
        said = "".join(f"rt: must-fail {crate}/{edit}.edit: {SAID[edit]}\n" for edit in edits)
        made.write(f"said.{crate}", said.encode())
        for edit in edits:
            made.write(f"crates/{crate}/more-edits/{edit}.edit", f"file: src/lib.rt\nold: body\nnew: {edit}\n".encode())
    for edit, said in CHECKED.items():
        made.write(f"checked.{edit}", f"{said}\n".encode())
    (made.bin / "python3").symlink_to(Path(sys.executable).resolve())
    made.tool("cp", 'exec cp "$@"')
    made.tool("rt", f"ROOM={made.place}\n{RT}")
    return made


def edits_that_only_an_answer_refuses_are_named(repository):
    written, told, status = repository.run("tools/try-edits", "--jobs", "2", "one", "two")
    end = b"refused only at an answer file: one/a_name.edit\nrefused only at an answer file: two/a_type.edit\n"
    end += b"5 refused, 2 of them only at an answer file; 0 not refused or not tried\n"
    if not written.endswith(end):
        raise Failed(f"it writes {written}, whose end isn't {end}")
    expect((b"", told, status), (b"", b"", 0))
    if (repository.place / "libraries").read_text() != "low\n":
        raise Failed("other libraries were built, or one crate waited for the other")
    repository.write("said.one", b"rt: must-fail one/a_goal.edit: NOT REFUSED: the crate is still proved with this edit\n")
    written, _, status = repository.run("tools/try-edits", "--jobs", "2", "one", "two")
    if status != 1 or not written.endswith(b"\n2 refused, 1 of them only at an answer file; 1 not refused or not tried\n"):
        raise Failed(f"it ends with {status} and writes {written}")


def repository_with_a_change(folder):
    """A repository in which each crate but one has an edit in each folder, a commit, and a change after it that isn't committed."""
    if not shutil.which("git"):
        raise Skipped("there is no git")
    made = Repository(folder)
    shutil.copy(TOP / "tools/try-edits", made.place / "tools/try-edits")
    made.write("crates.txt", "".join(f"{crate}: thiserror\n" for crate in (*CHANGES, "lined", "gone")).encode())
    for crate in (*CHANGES, "lined"):
        for path in "src/lib.rt", "src/deep/body.rt", "specs/Words.antt":
            made.write(f"crates/{crate}/{path}", b"body")
        for edit in ("must-fail/by_the_gate", "more-edits/by_hand", "more-edits/kept") if crate != "bare" else ():
            made.write(f"crates/{crate}/{edit}.edit", b"file: src/lib.rt\nold: body\nnew: other\n")
    (made.bin / "python3").symlink_to(Path(sys.executable).resolve())
    made.tool("git", 'exec git "$@"')
    made.tool("cp", 'exec cp "$@"')
    made.tool("rt", RT_THAT_REFUSES)
    commit = "git init -q && git add crates crates.txt && git -c user.name=a -c user.email=a@b commit -qm before && git tag before"
    subprocess.run(["sh", "-c", commit], cwd=made.place, env=made.around(), check=True, stdin=subprocess.DEVNULL)
    for crate, (path, content, _) in CHANGES.items():
        if content is None:
            (made.place / "crates" / crate / path).unlink()
        else:
            made.write(f"crates/{crate}/{path}", content)
    text = made.place / "crates.txt"
    text.write_text(text.read_text().replace("lined: thiserror", "lined: thiserror hex # as a comment").replace("gone: thiserror\n", ""))
    return made


def refusals_of(crate, *edits):
    return "".join(f"rt: must-fail {crate}/{edit}.edit: {SAID['a_goal']}\n" for edit in edits)


def the_edits_of_the_crates_that_a_change_touches_are_tried(repository):
    every = ("by_hand", "by_the_gate", "kept")
    touched = {crate: every for crate, (_, _, is_touched) in CHANGES.items() if is_touched and crate != "bare"}
    touched = {**touched, "others": every[1:], "lined": every}
    begin = "bare has no edits\nedits that are tried: " + ", ".join(f"{len(edits)} of {crate}" for crate, edits in touched.items())
    end = f"\n{sum(map(len, touched.values()))} refused, 0 of them only at an answer file; 0 not refused or not tried\n"
    said = "".join(refusals_of(crate, *edits) for crate, edits in touched.items())
    ended = repository.run("tools/try-edits", "--jobs", "1", "--changed", "before")
    expect(ended, (f"{begin}\n{said}{end[1:]}".encode(), b"", 0))
    written, told, status = repository.run("tools/try-edits", "--changed", "after")
    if written or status != 1 or not told.startswith(b"try-edits: git show: "):
        raise Failed(f"of a revision that there isn't it writes {written} and {told}, and ends with {status}")


def crates_are_named_whether_or_not_they_have_edits(repository):
    none = b"edits that are tried: none\n0 refused, 0 of them only at an answer file; 0 not refused or not tried\n"
    expect(repository.run("tools/try-edits", "bare"), (b"bare has no edits\n" + none, b"", 0))
    shutil.rmtree(repository.place / "crates/tried/more-edits")
    written, _, status = repository.run("tools/try-edits", "tried")
    said = f"edits that are tried: 1 of tried\n{refusals_of('tried', 'by_the_gate')}1 refused, "
    if status or not written.startswith(said.encode()):
        raise Failed(f"of a crate without more-edits it writes {written}, and ends with {status}")
    for words in ("absent",), ("--changed", "before", "tried"):
        written, told, status = repository.run("tools/try-edits", *words)
        if (written, status) != (b"", 2):
            raise Failed(f"at {words} it writes {written} and {told}, and ends with {status}")


def misses_of(edit):
    """How often the texts stand in their files that an edit takes away, each after those before it, where that isn't once."""
    texts, file, old = {}, None, None
    for line in edit.read_text().splitlines():
        word, _, rest = line.partition(": ")
        if word == "file":
            file = edit.parents[1] / rest
            texts.setdefault(file, file.read_text())
        elif word == "old":
            old = rest
            if texts[file].count(old) != 1:
                yield f"{edit.relative_to(TOP)}: {texts[file].count(old)} times"
        elif word == "new":
            texts[file] = texts[file].replace(old, rest)


def edits_in(folder):
    return sorted(TOP.glob(f"crates/*/{folder}/*.edit"))


def name_of(edit):
    return f"{edit.parents[1].name}/{edit.stem}"


def each_edit_changes_what_stands_once():
    edits = edits_in("must-fail") + edits_in("more-edits")
    found = [miss for edit in edits for miss in misses_of(edit)]
    if found or not edits:
        raise Failed(f"edits whose texts don't stand once in their files: {'; '.join(found)}")


def the_gate_tries_few_edits_and_those_are_listed():
    tried, others = (set(map(name_of, edits_in(folder))) for folder in ("must-fail", "more-edits"))
    listed = re.findall(r"`(ext_\w+/\w+)`", section((TOP / "docs/PROMISES.md").read_text(), "What the gate tries"))
    if sorted(listed) != sorted(tried):
        raise Failed(f"the gate tries other edits than docs/PROMISES.md lists: {' '.join(sorted(tried ^ set(listed)))}")
    if len(tried) > MOST_TRIED or tried & others:
        raise Failed(f"the gate tries {len(tried)} edits, of which these stand in more-edits too: {' '.join(tried & others)}")


def scenes(_program):
    for call in each_edit_changes_what_stands_once, the_gate_tries_few_edits_and_those_are_listed:
        yield call.__name__.replace("_", " "), call
    yield from in_each(repository_of_edits, [edits_that_only_an_answer_refuses_are_named])
    changing = [the_edits_of_the_crates_that_a_change_touches_are_tried, crates_are_named_whether_or_not_they_have_edits]
    yield from in_each(repository_with_a_change, changing)
