"""What tools/carry writes and compares, and the order of the gate: each in a small repository, whose `rt` is a script and whose programs
are copies of the one that is tested."""
import os
import shlex
import shutil
import sys
from pathlib import Path

from scenes.repositories import CARRIED, Repository, digest, in_each
from scenes.running import TOP, VERSION, Failed, Skipped, expect

KIT = "rattle-kit-1 logic 2"
CRATES = b"low:\next_cli: low\next_trial: low more\nmore:\nother: low\n"
PROGRAMS = {"hostext": "ext_cli", "ext_trial": "ext_trial"}
DIFFERS = b"carry: the carried programs don't stand for what is here: after .ci/run, tools/carry makes them anew\n"
SAME = b"carry: the carried programs are those of these sources, as they were built here\n"
UNKNOWN = b"carry: %s isn't known to be made of these sources: .ci/run builds it anew\n"
MEANWHILE = b"carry: %s isn't known to be made of these sources: they changed while it was built, or it isn't there\n"
COMPARE = "tools/carry", "--compare"


def kit(repository, version):
    repository.tool("rt", f'[ "$1" != version ] || echo {version}')


def built(folder, program):
    """A repository whose programs were built, and in which nothing is carried."""
    made = Repository(folder)
    for tool in "strip", "chmod", "cmp", "cut", "dirname", "grep", "mv", "sed", "tr":
        if not shutil.which(tool):
            raise Skipped(f"there is no {tool}")
        (made.bin / tool).symlink_to(shutil.which(tool))
    made.write("crates.txt", CRATES)
    made.write("dist/programs", "".join(f"{name}: {crate}\n" for name, crate in PROGRAMS.items()).encode())
    for crate in "low", "more", "other", "ext_cli", "ext_trial":
        made.write(f"crates/{crate}/src/lib.rt", crate.encode())
        made.write(f"crates/{crate}/proofs/a b/Answers.antt", crate.encode())
    for crate in PROGRAMS.values():
        made.build(crate, Path(program).read_bytes() + crate.encode())
    kit(made, KIT)
    made.tool("python3", f'exec {shlex.quote(sys.executable)} "$@"')
    return made


def record(repository):
    """What made-from has to be."""
    lines = [f"kit: {KIT}", f"sources: {repository.sum_of_sources(*PROGRAMS.values())}"]
    for name, crate in PROGRAMS.items():
        sums = (repository.place / path for path in (f"crates/{crate}/out/{crate}", f"{CARRIED}/{name}"))
        before, after = (digest(path.read_bytes()) for path in sums)
        lines.append(f"{name}: sources {repository.sum_of_sources(crate)} built {before} carried {after}")
    return "".join(f"{line}\n" for line in lines)


def what_is_carried_runs_and_has_its_sums(repository):
    expect(repository.run("tools/carry"), (b"", b"", 0))
    if (repository.place / CARRIED / "made-from").read_text() != record(repository):
        raise Failed(f"made-from isn't {record(repository)}")
    expect(repository.run("tools/carry", "--compare"), (b"", SAME, 0))
    shutil.rmtree(repository.place / "crates/ext_cli/out")
    (repository.bin / "rt").unlink()
    expect(repository.run("hostext", "--version"), (VERSION, b"", 0))
    expect(repository.run("tools/program", "hostext"), (b"%s/%s/hostext\n" % (os.fsencode(repository.place.resolve()), CARRIED.encode()), b"", 0))


def only_known_files_stand_in_dist(repository):
    left = sorted(os.listdir(repository.place / "dist"))
    if left != ["programs", "x86_64-linux"]:
        raise Failed(f"in dist there stand {left}")


def a_program_of_other_sources_or_none_is_not_carried(repository):
    expect(repository.run("tools/carry"), (b"", b"", 0))
    before = (repository.place / CARRIED / "made-from").read_text()
    os.utime(repository.write("crates/more/src/lib.rt", b"edited"), (0, 0))
    expect(repository.run("tools/carry"), (b"", UNKNOWN % b"crates/ext_trial/out/ext_trial", 1))
    repository.write("crates/more/src/lib.rt", b"more")
    repository.write("crates/ext_trial/out/ext_trial", b"built by hand")
    expect(repository.run("tools/carry"), (b"", UNKNOWN % b"crates/ext_trial/out/ext_trial", 1))
    (repository.place / "crates/ext_cli/out/ext_cli").unlink()
    expect(repository.run("tools/carry"), (b"", b"carry: there is no crates/ext_cli/out/ext_cli: .ci/run leaves it there\n", 1))
    if (repository.place / CARRIED / "made-from").read_text() != before:
        raise Failed("something changed")
    only_known_files_stand_in_dist(repository)


def other_sources_and_other_bytes_differ(repository):
    none = b"carry: there is no dist/x86_64-linux/made-from: tools/carry makes it\n"
    expect(repository.run(*COMPARE), (b"", none, 1))
    expect(repository.run("tools/carry"), (b"", b"", 0))
    repository.write("crates/other/src/lib.rt", b"edited")
    expect(repository.run(*COMPARE), (b"", SAME, 0))
    repository.write("crates/more/src/lib.rt", b"edited")
    told = b"carry: the sources aren't those that the programs were carried for\n"
    told += b"carry: the sources of ext_trial aren't those that it was carried for\n"
    told += b"carry: crates/ext_trial/out/ext_trial isn't known to be made of these sources\n"
    expect(repository.run(*COMPARE), (b"", told + DIFFERS, 1))
    repository.write("crates/more/src/lib.rt", b"more")
    carried = repository.place / CARRIED / "ext_trial"
    before = carried.read_bytes()
    carried.write_bytes(before + b"\n")
    told = b"carry: dist/x86_64-linux/ext_trial has other bytes than dist/x86_64-linux/made-from says\n"
    told += b"carry: dist/x86_64-linux/ext_trial isn't what strip makes of crates/ext_trial/out/ext_trial\n"
    expect(repository.run(*COMPARE), (b"", told + DIFFERS, 1))
    carried.write_bytes(before)
    built = repository.place / "crates/ext_cli/out/ext_cli"
    repository.build("ext_cli", built.read_bytes() + b"\n")
    told = b"carry: crates/ext_cli/out/ext_cli isn't the program that was carried\n"
    expect(repository.run(*COMPARE), (b"", told + DIFFERS, 1))
    repository.build("ext_cli", built.read_bytes()[:-1])
    expect(repository.run(*COMPARE), (b"", SAME, 0))
    only_known_files_stand_in_dist(repository)


def replace(repository, *pairs):
    """Other texts in made-from of the carried programs, each at its first place."""
    record = repository.place / CARRIED / "made-from"
    text = record.read_text()
    for old, new in pairs:
        if old not in text:
            raise Failed(f"made-from has no {old}")
        text = text.replace(old, new, 1)
    record.write_text(text)


def a_carried_program_that_is_another_with_its_sum_differs(repository):
    expect(repository.run("tools/carry"), (b"", b"", 0))
    carried = repository.place / CARRIED / "hostext"
    before, other = carried.read_bytes(), b"#!/bin/sh\necho other\n"
    carried.write_bytes(other)
    replace(repository, (digest(before), digest(other)))
    told = b"carry: dist/x86_64-linux/hostext isn't what strip makes of crates/ext_cli/out/ext_cli\n"
    expect(repository.run(*COMPARE), (b"", told + DIFFERS, 1))
    carried.write_bytes(before)
    replace(repository, (digest(other), digest(before)))
    expect(repository.run(*COMPARE), (b"", SAME, 0))


def a_source_that_is_another_with_its_sums_differs(repository):
    """The program of the old source stands in out/, with the old one's time or not."""
    expect(repository.run("tools/carry"), (b"", b"", 0))

    def sums():
        return [repository.sum_of_sources(*crates) for crates in (PROGRAMS.values(), ["ext_cli"], ["ext_trial"])]

    before, source = sums(), repository.place / "crates/low/src/lib.rt"
    times = source.stat().st_atime_ns, source.stat().st_mtime_ns
    source.write_bytes(b"edited")
    os.utime(source, ns=times)
    replace(repository, *zip(before, sums()))
    told = b"".join(b"carry: crates/%s/out/%s isn't known to be made of these sources\n" % (crate, crate) for crate in (b"ext_cli", b"ext_trial"))
    expect(repository.run(*COMPARE), (b"", told + DIFFERS, 1))


def each_moment_has_the_carried_programs(repository):
    """Each tool that takes away or moves looks whether they are there first, and so does strip."""
    expect(repository.run("tools/carry"), (b"", b"", 0))
    carried, lost = repository.place / CARRIED, repository.place / "lost"
    looks = f"[ -x {shlex.quote(str(carried / 'hostext'))} ] && [ -r {shlex.quote(str(carried / 'made-from'))} ] || echo lost >>{shlex.quote(str(lost))}"
    for tool in "rm", "mv", "strip":
        repository.tool(tool, f'{looks}\n{tool} "$@" || exit\n{looks}')
    before = carried.stat().st_ino
    repository.build("ext_cli", (repository.place / "crates/ext_cli/out/ext_cli").read_bytes() + b"\n")
    expect(repository.run("tools/carry"), (b"", b"", 0))
    if lost.exists() or carried.stat().st_ino == before or (carried / "made-from").read_text() != record(repository):
        raise Failed("a moment had no carried program, or the old ones stand there")
    only_known_files_stand_in_dist(repository)


def where_two_folders_cannot_be_exchanged_a_line_says_so(repository):
    told = b"carry: two folders can't be exchanged in one step here: for a moment there is no dist/x86_64-linux\n"
    for python in "exit 3", None:
        if python:
            repository.tool("python3", python)
        else:
            (repository.bin / "python3").unlink()
        expect(repository.run("tools/carry")[2:], (0,))
        repository.build("ext_cli", (repository.place / "crates/ext_cli/out/ext_cli").read_bytes() + b"\n")
        expect(repository.run("tools/carry"), (b"", told, 0))
        if (repository.place / CARRIED / "made-from").read_text() != record(repository):
            raise Failed("the old programs stand there")
        only_known_files_stand_in_dist(repository)
    repository.tool("python3", "exit 1")
    before = (repository.place / CARRIED / "made-from").read_text()
    repository.build("ext_cli", b"other")
    repository.tool("strip", 'cp "$3" "$2"')
    expect(repository.run("tools/carry"), (b"", b"carry: the new folder couldn't be put in place\n", 1))
    if (repository.place / CARRIED / "made-from").read_text() != before:
        raise Failed("something changed")
    only_known_files_stand_in_dist(repository)


def with_another_kit_what_was_built_is_not_compared(repository):
    expect(repository.run("tools/carry"), (b"", b"", 0))
    kit(repository, "rattle-kit-3 logic 4")
    repository.build("ext_cli", b"other")
    told = b"carry: couldn't compare the built programs: they were carried with rattle-kit-1 logic 2, and here is rattle-kit-3 logic 4\n"
    expect(repository.run("tools/carry", "--compare"), (b"", told + b"carry: the carried programs are those of these sources\n", 0))


def gate_of(repository, builds=":"):
    """A gate over tests that fail, and a kit that proves where no file says that it fails."""
    shutil.copytree(TOP / ".ci", repository.place / ".ci", dirs_exist_ok=True)
    repository.write("tests/run", b'#!/bin/sh\necho "$@"\nexit 7\n')
    repository.tool("rt", f"case $1 in version) echo {KIT} ;; ci) echo proved && [ ! -e fails ] || exit 5\n{builds} ;; esac")


def the_gate_ends_with_the_first_status_that_is_not_0(repository):
    gate_of(repository)
    expect(repository.run("tools/carry"), (b"", b"", 0))
    expect(repository.run(".ci/run"), (b"proved\n--skip-missing\n", SAME, 7))
    repository.write("crates/low/src/lib.rt", b"edited")
    told = b"carry: the sources aren't those that the programs were carried for\n"
    told += b"".join(b"carry: the sources of %s aren't those that it was carried for\n" % name.encode() for name in PROGRAMS)
    expect(repository.run(".ci/run"), (b"proved\n", told + DIFFERS, 1))
    repository.write("fails", b"")
    expect(repository.run(".ci/run"), (b"proved\n", b"", 5))


def the_gate_keeps_what_it_built_the_programs_of(repository):
    """The kit takes away what stood in out/ before. A source that is edited and put back while it builds is noticed."""
    for crate in PROGRAMS.values():
        (repository.place / f"crates/{crate}/out").rename(repository.place / f"{crate}.built")
    brings = "; ".join(f"rm -rf crates/{crate}/out; mkdir crates/{crate}/out; cp {crate}.built/{crate} crates/{crate}/out" for crate in PROGRAMS.values())
    gate_of(repository, brings)
    none = b"carry: there is no dist/x86_64-linux/made-from: tools/carry makes it\n"
    expect(repository.run(".ci/run"), (b"proved\n", none, 1))
    expect(repository.run("tools/carry"), (b"", b"", 0))
    expect(repository.run(".ci/run"), (b"proved\n--skip-missing\n", SAME, 7))
    source = "crates/more/src/lib.rt"
    for meanwhile in f"cp -p {source} kept; echo edited >{source}; {brings}; cp -p kept {source}", f"{brings}; echo edited >{source}", f"{brings}; rm crates/ext_trial/out/ext_trial":
        gate_of(repository, meanwhile)
        expect(repository.run(".ci/run"), (b"proved\n", MEANWHILE % b"crates/ext_trial/out/ext_trial", 1))
        expect(repository.run("tools/carry")[::2], (b"", 1))
        repository.write(source, b"more")
    expect(repository.run("tools/carry", "--after"), (b"", b"carry: nothing is told of the sources before the build\n", 1))


WITH_PROGRAMS = [
    *(what_is_carried_runs_and_has_its_sums, a_program_of_other_sources_or_none_is_not_carried),
    *(other_sources_and_other_bytes_differ, with_another_kit_what_was_built_is_not_compared),
    *(a_carried_program_that_is_another_with_its_sum_differs, a_source_that_is_another_with_its_sums_differs),
    *(each_moment_has_the_carried_programs, where_two_folders_cannot_be_exchanged_a_line_says_so),
    *(the_gate_ends_with_the_first_status_that_is_not_0, the_gate_keeps_what_it_built_the_programs_of),
]


def scenes(program):
    yield from in_each(built, WITH_PROGRAMS, program)
