"""The launcher: which program it runs, what it tells while one is built, that it builds once and after an edit, what it does where
nothing can be run, that it runs nothing it hasn't compared, and what it costs. The kit is a script."""
import os
import shutil
import subprocess
import tempfile

from scenes.devices import become_nobody
from scenes.repositories import CARRIED, clone, end, in_each, small
from scenes.running import SECONDS, TOP, VERSION, Failed, expect, shortened
from scenes.sessions import the_first_session

PROVES = r"""
echo "crate low: modules loaded=1"
echo "logic=proved functions=2"
echo "crate ext_cli: modules loaded=3"
"""
BUILDS = PROVES + r"""
echo "logic=proved functions=4"
printf '#!/bin/sh\necho "$@"\nexit 23\n' > out/ext_cli && chmod 755 out/ext_cli"""
FAILS = PROVES + r"""
echo "this goal is open"
echo "logic=not-proved" >&2
exit 1"""

BEGINS = b"hostext: proving and building the program; the first time this takes long\n"
TELLS = BEGINS + b"hostext: 1 of 2 crates proved: low (TIME)\n"
BUILT_IT = TELLS + b"hostext: 2 of 2 crates proved: ext_cli (TIME)\nhostext: built (TIME)\n"
ECHO = b'#!/bin/sh\necho "carried $@"\n'
OTHER_SOURCES = b"the carried program was made of other sources"
OTHER_BYTES = b"the carried program has other bytes than dist/x86_64-linux/made-from says"


def needs_the_kit(why):
    """The two lines where nothing fits and there is no kit."""
    begin = b"hostext: %s, so it has to be proved and built; that takes the Rattle kit, whose command rt isn't on the PATH\n"
    kit = b"hostext: the Rattle kit is the prover, the compiler and the libraries of Rattle, the language of hostext; README.md names its version\n"
    return b"", begin % why + kit, 125


def the_launcher_tells_each_crate_and_builds_once(repository):
    repository.tool("rt", BUILDS)
    expect(repository.run("hostext", "a", "b c"), (b"a b c\n", BUILT_IT, 23))
    repository.tool("rt", "exit 1")
    expect(repository.run("hostext", "a"), (b"a\n", b"", 23))
    repository.write("crates/beside/src/lib.rt", b"edited")
    shutil.rmtree(repository.home / ".cache")
    expect(repository.run("hostext", "a"), (b"a\n", b"", 23))
    repository.write("crates/low/src/lib.rt", b"edited")
    repository.tool("rt", BUILDS)
    expect(repository.run("hostext"), (b"\n", BUILT_IT, 23))


def a_build_that_fails_is_told_with_the_end_of_what_the_kit_says(repository):
    repository.tool("rt", FAILS)
    written, told, status = repository.run("hostext", "a")
    expect((written, told[: len(TELLS)], status), (b"", TELLS, 125))
    last = b"\nthis goal is open\nlogic=not-proved\nthe kit ended with 1\nhostext: the build failed\n"
    if not told.endswith(last):
        raise Failed(f"it tells {shortened(told)}, whose end isn't {shortened(last)}")


def after_an_edit_while_it_builds_it_builds_again(repository):
    """Also where the edit is taken back, and the source has the time that it had."""
    source = "../low/src/lib.rt"
    put_back = f"cp -p {source} ../kept\necho edited >{source}\n{BUILDS}\ncp -p ../kept {source}"
    for builds in f"echo edited >{source}\n{BUILDS}", put_back:
        repository.tool("rt", builds)
        repository.write("crates/low/src/lib.rt", builds.encode())
        expect(repository.run("hostext"), (b"\n", BUILT_IT, 23))
        repository.tool("rt", BUILDS)
        expect(repository.run("hostext"), (b"\n", BUILT_IT, 23))
        expect(repository.run("hostext"), (b"\n", b"", 23))


def a_source_that_is_put_back_with_an_older_time_is_seen(repository):
    source = repository.place / "crates/low/src/lib.rt"
    repository.tool("rt", BUILDS)
    expect(repository.run("hostext"), (b"\n", BUILT_IT, 23))
    before = source.read_bytes()
    for replaced in True, False:
        if replaced:
            source.unlink()
        source.write_bytes(b"an older one, %d" % replaced)
        os.utime(source, (0, 0))
        expect(repository.run("hostext"), (b"\n", BUILT_IT, 23))
        expect(repository.run("hostext"), (b"\n", b"", 23))
    repository.build("ext_cli", ECHO)
    source.write_bytes(before)
    source.write_bytes(b"an older one, 0")
    expect(repository.run("hostext", "a"), (b"carried a\n", b"", 0))


def a_program_of_other_bytes_than_were_built_is_not_run(repository):
    """As one that somebody built of other sources, which are those of before again."""
    repository.tool("rt", BUILDS)
    repository.build("ext_cli", ECHO)
    repository.write("crates/ext_cli/out/ext_cli", ECHO.replace(b"carried", b"other"))
    expect(repository.run("hostext"), (b"\n", BUILT_IT, 23))
    repository.build("ext_cli", ECHO)
    (repository.place / "crates/ext_cli/out/made-from").unlink()
    expect(repository.run("hostext"), (b"\n", BUILT_IT, 23))


def two_launches_at_once_build_once(repository):
    repository.tool("rt", "echo once >>../../times\nsleep 1\n" + BUILDS)
    launches = [repository.start("hostext", "a") for _ in range(2)]
    waits = b"hostext: waiting for another launch, which builds\n"
    found = sorted((end(launch) for launch in launches), key=lambda ended: ended[1] != waits)
    expect(found[0], (b"a\n", waits, 23))
    expect(found[1], (b"a\n", BUILT_IT, 23))
    if (repository.place / "times").read_text() != "once\n":
        raise Failed("it was built twice")


def the_built_program_goes_before_the_carried_one_where_it_is_of_these_sources(repository):
    repository.carry("hostext", ECHO)
    carried = b"carried a\n", b"", 0
    expect(repository.run("hostext", "a"), carried)
    script = b"#!/bin/sh\necho built\n"
    repository.write("crates/ext_cli/out/ext_cli", script)
    expect(repository.run("hostext", "a"), carried)
    os.utime(repository.build("ext_cli", script), (0, 0))
    expect(repository.run("hostext", "a"), (b"built\n", b"", 0))


def the_program_has_the_input_and_the_folder_of_the_launch(repository):
    repository.carry("hostext", b"#!/bin/sh\nwhile read -r line; do echo \"$line\"; done\npwd\n")
    for _ in range(2):
        with tempfile.TemporaryFile() as source:
            source.write(b"one\ntwo\n")
            source.seek(0)
            wanted = b"one\ntwo\n" + os.fsencode(repository.home.resolve()) + b"\n"
            expect(repository.run("hostext", stdin=source, cwd=repository.home), (wanted, b"", 0))


def without_a_tool_that_tells_times_it_looks_each_time(repository):
    for tool, fails in ("find", "-print0"), ("stat", "-c"):
        repository.tool(tool, f'case " $* " in *" {fails} "*) exit 1 ;; esac\nexec {tool} "$@"')
        repository.carry("hostext", ECHO)
        for _ in range(2):
            expect(repository.run("hostext", "a"), (b"carried a\n", b"", 0))
        repository.write("crates/low/src/lib.rt", tool.encode())
        expect(repository.run("hostext", "a"), needs_the_kit(OTHER_SOURCES))
        repository.tool(tool, f'exec {tool} "$@"')


def without_the_kit_two_lines_say_what_is_needed(repository):
    expect(repository.run("hostext"), needs_the_kit(b"no program is carried here"))


def on_another_machine_it_builds(repository):
    repository.carry("hostext", ECHO)
    repository.tool("uname", "echo Linux aarch64")
    expect(repository.run("hostext"), needs_the_kit(b"the carried program is for Linux on x86-64"))
    repository.tool("uname", "echo Linux x86_64")
    repository.carry("hostext", b"#!/no/such/loader\n")
    expect(repository.run("hostext"), needs_the_kit(b"the carried program doesn't run here"))
    repository.tool("rt", BUILDS)
    expect(repository.run("hostext"), (b"\n", b"hostext: the carried program doesn't run here\n" + BUILT_IT, 23))


def the_other_programs_are_launched_by_the_same_rules(repository):
    """The kit runs each once it is built, and asks for its help."""
    for name, crate in ("hostext_publish", b"ext_pubcli"), ("hostext_erofs", b"ext_eroscli"):
        is_launched(repository, name, crate)


def is_launched(repository, name, crate):
    folder = f"crates/{crate.decode()}"
    repository.write(f"{folder}/src/main.rt", crate)
    repository.write("crates.txt", b"low:\next_cli: low\n%s: low\n" % crate)
    (repository.place / folder / "out").mkdir()
    repository.tool("rt", f'echo "$@" >../../words\n{BUILDS.replace("ext_cli", crate.decode())}')
    expect(repository.run(name, "a", "b c"), (b"a b c\n", BUILT_IT.replace(b"ext_cli", crate), 23))
    if (repository.place / "words").read_text() != "run -- --help\n":
        raise Failed("the kit ran it by other words")
    shutil.rmtree(repository.place / folder / "out")
    (repository.bin / "rt").unlink()
    expect(repository.run(name), needs_the_kit(b"no program is carried here"))
    for one in "hostext", name:
        repository.carry(one, ECHO)
    expect(repository.run(name, "a"), (b"carried a\n", b"", 0))
    repository.write(f"{folder}/src/main.rt", b"edited")
    expect(repository.run(name, "a"), needs_the_kit(OTHER_SOURCES))


def carry_both(repository):
    for name in "hostext", "hostext_publish":
        repository.carry(name, ECHO)


def nothing_is_run_whose_sum_was_not_compared(repository):
    """Neither to see whether carried programs run here."""
    repository.write("crates/ext_pubcli/src/main.rt", b"publishes")
    repository.write("crates.txt", b"low:\next_cli: low\next_pubcli: low\n")
    carry_both(repository)
    other = b"#!/bin/sh\necho ran >>%s/ran\n" % os.fsencode(repository.place)
    repository.write(f"{CARRIED}/hostext", other)
    expect(repository.run("hostext", "a"), needs_the_kit(OTHER_BYTES))
    shows = b"dist/x86_64-linux/hostext, which shows whether the carried programs run here, has other bytes than dist/x86_64-linux/made-from says"
    expect(repository.run("hostext_publish", "a"), needs_the_kit(shows))
    carry_both(repository)
    repository.write(f"{CARRIED}/hostext_publish", other)
    expect(repository.run("hostext_publish", "a"), needs_the_kit(OTHER_BYTES))
    if (repository.place / "ran").exists():
        raise Failed("a program ran whose sum wasn't compared")


def a_script_that_a_shell_reads_from_elsewhere_is_refused(repository):
    """The folder in which it is called has what would be read by its name, and a file with the name of the shell."""
    carry_both(repository)
    elsewhere = repository.home / "elsewhere/tools"
    elsewhere.mkdir(parents=True)
    for folder in elsewhere, elsewhere.parent / "tools/tools":
        folder.mkdir(exist_ok=True)
        (folder / "programs.sh").write_text("echo ran\n")
    for path in "hostext", "hostext_publish", "hostext_erofs", "tools/program", "tools/carry":
        for folder in elsewhere.parent, elsewhere:
            (folder / "sh").touch()
            with open(repository.place / path, "rb") as script:
                child = subprocess.run(["sh"], stdin=script, cwd=folder, env=repository.around(), capture_output=True, timeout=SECONDS)
            name = path.partition("_")[0].removeprefix("tools/").encode()
            told = b"%s: it can't tell where it stands: call it by its path\n" % name
            expect((child.stdout, child.stderr, child.returncode), (b"", told, 125))
    link = repository.home / "link"
    link.symlink_to(repository.place / "hostext")
    child = subprocess.run([link, "a"], cwd=repository.home, env=repository.around(), capture_output=True, timeout=SECONDS)
    expect((child.stdout, child.stderr, child.returncode), (b"carried a\n", b"", 0))


NAMES_ITSELF = VERSION, b"", 0


def a_clone_runs_the_carried_program_without_the_kit(repository):
    for _ in range(2):
        expect(repository.run("hostext", "--version"), NAMES_ITSELF)
    kept = repository.home / f".cache/hostext{repository.place.resolve()}/hostext.program"
    if not kept.is_file():
        raise Failed(f"nothing is kept at {kept}")


def a_fresh_clone_runs_the_first_session(repository):
    shutil.copytree(TOP / "examples", repository.place / "examples")
    repository.tool("dirname", 'exec dirname "$@"')
    the_first_session(repository.place / "examples/first-session", repository.around())


def a_clone_that_cannot_be_written_runs_it(repository):
    """Neither can the home, at first."""
    for path in (*repository.place.rglob("*"), repository.place, repository.home):
        path.chmod(0o555)
    for path in repository.place.parent, repository.bin:
        path.chmod(0o755)
    for mode in 0o555, 0o777, 0o777:
        repository.home.chmod(mode)
        expect(repository.run("hostext", "--version", before=become_nobody), NAMES_ITSELF)
    for path in (repository.place, *(path for path in repository.place.rglob("*") if path.is_dir())):
        path.chmod(0o755)


def a_clone_with_a_changed_source_builds(repository):
    expect(repository.run("hostext", "--version"), NAMES_ITSELF)
    beside = repository.place / "crates/ext_folder_probe/src/main.rt"
    beside.write_text(beside.read_text() + "\n")
    expect(repository.run("hostext", "--version"), NAMES_ITSELF)
    source = repository.place / "crates/ext_text/src/lib.rt"
    before = source.read_text()
    source.write_text(before + "\n")
    expect(repository.run("hostext", "--version"), needs_the_kit(OTHER_SOURCES))
    source.write_text(before)
    expect(repository.run("hostext", "--version"), NAMES_ITSELF)
    source.with_name("more.rt").touch()
    expect(repository.run("hostext", "--version"), needs_the_kit(OTHER_SOURCES))
    repository.tool("rt", 'mkdir -p out; printf "#!/bin/sh\\necho built\\n" >out/ext_cli; chmod 755 out/ext_cli')
    told = b"hostext: %s\n%shostext: built (TIME)\n" % (OTHER_SOURCES, BEGINS)
    expect(repository.run("hostext", "--version"), (b"built\n", told, 0))


def a_clone_with_a_carried_program_of_other_bytes_builds(repository):
    expect(repository.run("hostext", "--version"), NAMES_ITSELF)
    with open(repository.place / CARRIED / "hostext", "ab") as program:
        program.write(b"\n")
    expect(repository.run("hostext", "--version"), needs_the_kit(OTHER_BYTES))


def cost(repository, program):
    """The least processor time in milliseconds that a run of the program takes, of several: what else runs doesn't count."""
    found = []
    for _ in range(15):
        quiet = [(os.POSIX_SPAWN_OPEN, 1, os.devnull, os.O_WRONLY, 0)]
        child = os.posix_spawn(program, [program, "--version"], repository.around(), file_actions=quiet)
        _, status, usage = os.wait4(child, 0)
        if status:
            raise Failed(f"{program} ended with {os.waitstatus_to_exitcode(status)}")
        found.append(1000 * (usage.ru_utime + usage.ru_stime))
    return min(found)


def slowness(repository):
    """How many times as long as where 3 ms do it eight starts of a program by a shell take on this machine, now; at least 1."""
    starts = repository.write("starts", b"#!/bin/sh\nfor _ in 1 2 3 4 5 6 7 8; do uname; done\n")
    return max(1, cost(repository, starts) / 3)


def a_launch_costs_little_beside_the_program(repository):
    slow = slowness(repository)
    alone = cost(repository, repository.place / CARRIED / "hostext")
    known = cost(repository, repository.place / "hostext") - alone
    shutil.rmtree(repository.home)
    repository.home.touch()
    looking = cost(repository, repository.place / "hostext") - alone
    if known > 30 * slow or looking > 200 * slow:
        raise Failed(f"it takes {known:.0f} ms of a processor, and {looking:.0f} ms where nothing can be kept, on a machine {slow:.1f} times as slow")


IN_A_SMALL_ONE = [
    *(the_launcher_tells_each_crate_and_builds_once, a_build_that_fails_is_told_with_the_end_of_what_the_kit_says),
    *(after_an_edit_while_it_builds_it_builds_again, two_launches_at_once_build_once),
    *(a_source_that_is_put_back_with_an_older_time_is_seen, a_program_of_other_bytes_than_were_built_is_not_run),
    *(the_built_program_goes_before_the_carried_one_where_it_is_of_these_sources, without_the_kit_two_lines_say_what_is_needed),
    *(nothing_is_run_whose_sum_was_not_compared, a_script_that_a_shell_reads_from_elsewhere_is_refused),
    *(the_program_has_the_input_and_the_folder_of_the_launch, on_another_machine_it_builds),
    *(without_a_tool_that_tells_times_it_looks_each_time, the_other_programs_are_launched_by_the_same_rules),
]
IN_A_CLONE = [
    *(a_clone_runs_the_carried_program_without_the_kit, a_clone_that_cannot_be_written_runs_it),
    *(a_clone_with_a_changed_source_builds, a_clone_with_a_carried_program_of_other_bytes_builds),
    *(a_fresh_clone_runs_the_first_session, a_launch_costs_little_beside_the_program),
]


def scenes(program):
    yield from in_each(small, IN_A_SMALL_ONE)
    yield from in_each(clone, IN_A_CLONE, program)
