"""What tools/install puts below a folder, that it runs from there, and that --remove leaves the folder as it was."""
import os
import re
import shutil
import stat
import subprocess
import tempfile
from pathlib import Path

from scenes.devices import become_nobody
from scenes.running import SECONDS, TOP, Failed, Skipped, expect, imager, named, publisher, shortened
from scenes.stores import digest
from scenes.tools import limited_to

TOOLS = "activate", "fetch", "image-from-packages", "pack", "tend", "tree-text", "unpack", "update"
RECORD = "share/hostext/installed"


def install(program, *words, before=None, umask=0o022, tools=TOP, publishes=None, writes=None):
    """What the installation writes on both outputs, and its status."""
    around = {**os.environ, "HOSTEXT": str(program), "HOSTEXT_PUBLISH": str(publishes or publisher()), "HOSTEXT_EROFS": str(writes or imager())}
    calls = lambda: (os.umask(umask), before and before())
    ended = subprocess.run([tools / "tools/install", *words], env=around, capture_output=True, timeout=SECONDS, preexec_fn=calls)
    return ended.stdout, ended.stderr, ended.returncode


DONE = b"", b"", 0


def run(*words, **options):
    """What something that was installed writes. Nothing of its environment names the program, and it starts elsewhere."""
    around = {name: value for name, value in os.environ.items() if name not in ("HOSTEXT", "HOSTEXT_PUBLISH", "HOSTEXT_EROFS")}
    ended = subprocess.run(words, **{"env": around, "cwd": "/", "capture_output": True, "timeout": SECONDS, **options})
    return ended.stdout, ended.stderr, ended.returncode


def stands(folder):
    """Each path below a folder: with the mode, and the bytes of a file or the target of a link."""
    found = {}
    for path in sorted([folder, *folder.rglob("*")]):
        status = path.lstat()
        content = os.readlink(path) if path.is_symlink() else digest(path.read_bytes()) if path.is_file() else None
        found[str(path.relative_to(folder))] = None if path.is_symlink() else oct(stat.S_IMODE(status.st_mode)), content
    return found


def in_a_folder(call):
    def scene(program):
        with tempfile.TemporaryDirectory() as folder:
            call(program, Path(folder))

    scene.__name__ = call.__name__
    return scene


def modules_of(tools):
    """The modules that tools stand on, by what they and these import."""
    found, left = set(), list(tools)
    while left:
        names = re.findall(r"^(?:from|import) (\w+)", (TOP / "tools" / left.pop()).read_text(), re.M)
        more = {f"{name}.py" for name in names if (TOP / "tools" / f"{name}.py").exists()} - found
        found |= more
        left += more
    return found


def files_wanted():
    """What has to be installed of what stands in the repository, by its path below PREFIX."""
    tools = [name for name in TOOLS if (TOP / "tools" / name).exists()]
    pages = [path for path in (TOP / "man").iterdir()]
    documents = [path for path in (TOP / "README.md", TOP / "CHANGELOG.md", TOP / "SECURITY.md", TOP / "LICENSE", TOP / "LICENSE-MIT", TOP / "LICENSE-APACHE", *(TOP / "docs").glob("*.md"), *(TOP / "docs/figures").glob("*.svg")) if path.exists()]
    bash = "share/bash-completion/completions/hostext"
    completions = [*(("hostext.bash", f"{bash}{name}") for name in ("", "_publish", "_erofs", *(f"-{tool}" for tool in TOOLS))), ("_hostext", "share/zsh/site-functions/_hostext")]
    return {
        *("bin/hostext", "bin/hostext_publish", "bin/hostext_erofs", RECORD),
        *(f"bin/hostext-{name}" for name in tools),
        *(f"lib/hostext/{name}" for name in tools),
        *(f"lib/hostext/{name}" for name in modules_of(tools)),
        *(f"share/man/man{path.suffix[1:]}/{path.name}" for path in pages),
        *(place for name, place in completions if (TOP / "completion" / name).exists()),
        *(f"lib/systemd/system/{path.name}" for path in (TOP / "systemd").glob("*")),
        *(f"share/doc/hostext/{path.relative_to(TOP)}" for path in documents),
    }


def what_stands_in_the_repository_is_installed(program, folder):
    expect(install(program, folder / "to"), DONE)
    found = {path for path, (_, content) in stands(folder / "to").items() if content is not None}
    if found != files_wanted():
        raise Failed(f"besides there are {sorted(found - files_wanted())}, and there lack {sorted(files_wanted() - found)}")
    for name, wanted in ("hostext", program), ("hostext_publish", publisher()), ("hostext_erofs", imager()):
        if (folder / "to/bin" / name).read_bytes() != wanted.read_bytes():
            raise Failed(f"{name} has other bytes")


def programs_and_tools_run_from_where_they_are_installed(program, folder):
    """The folder is moved first, so that nothing may lead to where it was."""
    expect(install(program, folder / "to"), DONE)
    (folder / "to").rename(folder / "moved")
    place, own = folder / "moved/bin", folder / "own"
    (own / "usr").mkdir(parents=True)
    (own / "usr/a").write_text("abc")
    for name in "store", "depot":
        (folder / name).mkdir()
    store, depot = folder / "store", folder / "depot"
    expect(run(place / "hostext", "--version"), run(program, "--version"))
    expect(run(place / "hostext-pack", own, depot, "own"), DONE)
    for words in ("init", "x86-64", "system"), ("import-fs", "own", "/"):
        expect(run(place / "hostext", store, depot, *words), (b"done\n", b"", 0))
    expect(run(place / "hostext-unpack", store, "/", folder / "out"), DONE)
    expect(run(place / "hostext_publish", store, depot, "/usr", "sites", "own"), (b"published 1 3\n", b"", 0))
    expect(run(place / "hostext_erofs", store), run(imager(), store))
    text = run(place / "hostext-tree-text", own)
    expect(run(place / "hostext-tree-text", folder / "out"), text)
    if text[2] or b" usr/a\n" not in text[0]:
        raise Failed(f"the text of the folder is {shortened(text)}")
    for name in (path.name for path in place.iterdir()):
        if run(place / name, "--help")[2]:
            raise Failed(f"{name} --help fails")


def a_link_to_an_installed_tool_finds_the_program(program, folder):
    expect(install(program, folder / "to"), DONE)
    (folder / "links").mkdir()
    (folder / "links/get").symlink_to("../to/bin/hostext-unpack")
    (folder / "store").mkdir()
    expect(run(folder / "to/bin/hostext", folder / "store", ".", "init", "x86-64", "system"), (b"done\n", b"", 0))
    expect(run(folder / "links/get", folder / "store", "/", folder / "out"), DONE)


def modes_are_the_same_whatever_the_umask(program, folder):
    for umask in 0o000, 0o022, 0o077, 0o777:
        expect(install(program, folder / f"{umask}", umask=umask), DONE)
        for path in [folder / f"{umask}", *(folder / f"{umask}").rglob("*")]:
            runs = path.is_dir() or path.parent.name == "bin" or path.parent.name == "hostext" and path.parent.parent.name == "lib" and path.suffix != ".py"
            mode = stat.S_IMODE(path.stat().st_mode)
            if mode != (0o755 if runs else 0o644):
                raise Failed(f"with the umask {umask:o} {path.name} has the mode {mode:o}")


def removing_leaves_a_folder_as_it_was(program, folder):
    """With folders that are empty, or have files of others, and after a second installation over the first."""
    prefix = folder / "to/prefix"
    for name in "bin", "share/man/man1", "lib":
        (prefix / name).mkdir(parents=True)
    (prefix / "lib/other").write_text("other")
    (prefix / "lib").chmod(0o711)
    before = stands(folder)
    for count in 1, 2:
        for _ in range(count):
            expect(install(program, prefix), DONE)
        expect(install(program, "--remove", prefix), DONE)
        if stands(folder) != before:
            raise Failed(f"after {count} installations {sorted(set(stands(folder)) ^ set(before))} differ")
    expect(install(program, "--remove", prefix), (b"", os.fsencode(f"install: {prefix}/{RECORD}: no installation is there\n"), 1))
    fresh = folder / "far/away"
    expect(install(program, fresh), DONE)
    expect(install(program, "--remove", fresh), DONE)
    if stands(folder) != before:
        raise Failed("the folders above PREFIX stay")


def what_others_put_there_or_changed_stays(program, folder):
    prefix = folder / "to"
    expect(install(program, prefix), DONE)
    (prefix / "share/doc/hostext/own").write_text("own")
    page = prefix / "share/man/man1/hostext.1"
    page.write_text("changed")
    told = os.fsencode(f"install: it was changed, and stays: {page}\n")
    expect(install(program, "--remove", prefix), (b"", told, 0))
    found = sorted(path for path, (_, content) in stands(prefix).items() if content is not None)
    if found != ["share/doc/hostext/own", "share/man/man1/hostext.1"]:
        raise Failed(f"there stand {found}")


def nothing_changes_where_it_is_refused(program, folder):
    """Each reason has its line, and all of them are told at once."""
    prefix = folder / "to"
    (prefix / "bin").mkdir(parents=True)
    (prefix / "bin/hostext").write_text("of somebody else")
    (prefix / "lib").write_text("a file")
    (prefix / "share/man/man1/hostext.1").mkdir(parents=True)
    before = stands(folder)
    written, told, status = install(program, prefix)
    lines = told.decode().splitlines()
    for wanted in (
        f"install: {prefix}/bin/hostext: it is there already, and no installation put it there",
        f"install: {prefix}/lib/hostext/pack: {prefix}/lib is no folder",
        f"install: {prefix}/share/man/man1/hostext.1: a folder stands there",
    ):
        if wanted not in lines:
            raise Failed(f"it tells {shortened(lines)}, and not {wanted!r}")
    if (written, status) != (b"", 1) or stands(folder) != before:
        raise Failed("something changed, or it was done")
    expect(install(program, "relative"), (b"", b"install: relative: PREFIX begins with a slash\n", 1))
    for prefix in f"{folder}/a'b", f"{folder}/a\\b", f'{folder}/"':
        told = os.fsencode(f"install: {prefix}: no unit starts a program whose path has a quote or a backslash\n")
        expect(install(program, prefix), (b"", told, 1))
    usage = b"", b"usage: install [--remove] [DESTDIR=DIR] PREFIX\n", 2
    for words in (), ("/a", "/b"), ("--froce", "/a"), ("DESTDIR=/a",), ("--remove",):
        expect(install(program, *words), usage)


def a_place_that_cannot_be_written_is_told(program, folder):
    if os.getuid() != 0:
        raise Skipped("it wants root, to become nobody")
    prefix, copy = folder / "to", folder / "copy"
    copy_of_the_repository(copy)
    shutil.copy(program, copy / "program")
    shutil.copy(publisher(), copy / "publishes")
    shutil.copy(imager(), copy / "writes")
    (prefix / "share").mkdir(parents=True)
    for path, mode in (folder, 0o755), (prefix, 0o755), (prefix / "share", 0o777):
        path.chmod(mode)
    before = stands(prefix)
    try:
        _, told, status = install(copy / "program", prefix, before=become_nobody, tools=copy, publishes=copy / "publishes", writes=copy / "writes")
    except PermissionError:
        raise Skipped("nobody can run python3 here") from None
    if b"python" in told and b"install:" not in told:
        raise Skipped("nobody can run python3 here")
    line = f"install: {prefix}/bin/hostext: {prefix} can't be written"
    if status != 1 or line not in told.decode().splitlines() or stands(prefix) != before:
        raise Failed(f"it ends with {status} and tells {shortened(told)}")


def copy_of_the_repository(place):
    """The parts of it that are installed, which may be changed."""
    ignored = shutil.ignore_patterns("__pycache__")
    for name in "tools", "man", "completion", "systemd", "docs":
        if (TOP / name).is_dir():
            shutil.copytree(TOP / name, place / name, ignore=ignored)
    for path in TOP.glob("*.md"):
        shutil.copy(path, place)


def a_second_installation_replaces_each_file_by_a_rename(program, folder):
    """Who has a file open keeps what it had. What the second one no longer has goes."""
    copy, prefix = folder / "copy", folder / "to"
    copy_of_the_repository(copy)
    (copy / "docs/MORE.md").write_text("more")
    expect(install(program, prefix, tools=copy), DONE)
    other = folder / "other"
    other.write_bytes(b"#!/bin/sh\necho other\n")
    (copy / "docs/MORE.md").unlink()
    (copy / "tools/entries.py").write_text((copy / "tools/entries.py").read_text() + "# changed\n")
    with open(prefix / "bin/hostext", "rb") as old:
        expect(install(other, prefix, tools=copy), DONE)
        if old.read() != program.read_bytes():
            raise Failed("the program was written in its place")
    expect(run(prefix / "bin/hostext"), (b"other\n", b"", 0))
    if (prefix / "share/doc/hostext/docs/MORE.md").exists() or not (prefix / "lib/hostext/entries.py").read_text().endswith("# changed\n"):
        raise Failed("the second installation leaves files of the first one")
    expect(install(other, "--remove", prefix, tools=copy), DONE)
    if prefix.exists():
        raise Failed(f"there stand {sorted(stands(prefix))}")


def an_installation_that_fails_can_be_removed(program, folder):
    """The limit lets all files be written but one, which is a document: of a first installation, and of one over it."""
    prefix, copy, size = folder / "to", folder / "copy", program.stat().st_size
    copy_of_the_repository(copy)
    (copy / "README.md").write_text("x" * (size + 1))
    for first in False, True:
        if first:
            expect(install(program, prefix), DONE)
            (copy / "tools/entries.py").write_text((copy / "tools/entries.py").read_text() + "# changed\n")
        told = os.fsencode(f"install: {prefix}/share/doc/hostext/README.md: File too large\n")
        expect(install(program, prefix, before=limited_to(size), tools=copy), (b"", told, 1))
        if (prefix / "lib/hostext/entries.py").read_bytes() != (copy / "tools/entries.py").read_bytes():
            raise Failed("it failed before")
        expect(install(program, "--remove", prefix), DONE)
        if prefix.exists():
            raise Failed(f"there stand {sorted(stands(prefix))}")


def a_package_is_written_below_its_folder(program, folder):
    expect(install(program, f"DESTDIR={folder}/package", "/usr/local"), DONE)
    place = folder / "package/usr/local"
    expect(run(place / "bin/hostext", "--version"), run(program, "--version"))
    if sorted(os.listdir(folder)) != ["package"] or sorted(os.listdir(folder / "package")) != ["usr"]:
        raise Failed(f"there stand {sorted(stands(folder))}")
    for unit in (place / "lib/systemd/system").glob("*.service"):
        starts = [line for line in unit.read_text().splitlines() if line.startswith("ExecStart=")]
        others = [line for line in unit.read_text().splitlines() if re.match("Exec.*/usr/bin/", line)]
        program_of_it = {"check": "hostext", "activate": "hostext-activate"}.get(re.match(r"hostext-(\w+)@", unit.name)[1], "hostext-tend")
        if others or len(starts) != 1 or f":/usr/local/bin/{program_of_it} " not in starts[0]:
            raise Failed(f"{unit.name} starts {starts} and {others}")
    expect(install(program, "--remove", f"DESTDIR={folder}/package", "/usr/local"), DONE)
    if os.listdir(folder):
        raise Failed(f"there stand {sorted(stands(folder))}")


def licences_and_what_is_said_of_security_are_installed(program, folder):
    """And the page of a tool that is new, where they stand in the repository."""
    copy, prefix = folder / "copy", folder / "to"
    copy_of_the_repository(copy)
    documents = "LICENSE-MIT", "LICENSE-APACHE", "SECURITY.md"
    for path in (*documents, "man/hostext-pack.1", "tools/more.py"):
        (copy / path).write_text(f"{path}\n")
    expect(install(program, prefix, tools=copy), DONE)
    for path in (*(f"share/doc/hostext/{name}" for name in documents), "share/man/man1/hostext-pack.1", "lib/hostext/more.py"):
        if stat.S_IMODE((prefix / path).stat().st_mode) != 0o644:
            raise Failed(f"{path} has another mode")


NO_RECORDS = [
    *(b"", b"[]", b"{}", b'{"files": {}}', b'{"files": [], "folders": []}', b'{"files": {}, "folders": {}}', b"[" * 100_000, b"\xff"),
    *(b'{"files": {"bin/a": "x"}, "folders": []}', b'{"files": {"bin/a": [1]}, "folders": []}', b'{"files": {}, "folders": [1]}', b'{"files": {}, "folders": "bin"}'),
    *(b'{"files": {"%b": []}, "folders": []}' % path for path in (b"/etc/a", b"../a", b"bin/../../a", b"./a", b"", b"bin//a", b"a\\u0000", b"a\\ud800", b"a\\udcff")),
    *(b'{"files": {}, "folders": ["%b"]}' % path for path in (b"/etc", b"../a", b"bin/..", b"../../etc", b"", b"a\\ud800")),
]


def a_record_that_leads_out_of_the_folder_is_refused(program, folder):
    """Nothing that it names is taken away then, neither by an installation nor by --remove. A pipe in its place is not waited for."""
    prefix, outside, empty = folder / "to", folder / "outside", folder / "empty"
    expect(install(program, prefix), DONE)
    record = prefix / RECORD
    outside.write_bytes(b"abc")
    empty.mkdir()
    of_it = [b'{"files": {"%b": ["%b"]}, "folders": ["%b"]}' % (path, digest(b"abc").encode(), folders) for path, folders in ((b"../outside", b"bin"), (os.fsencode(outside), b"bin"), (b"bin/a", b"../empty"))]
    for text in (*NO_RECORDS, *of_it, None):
        record.unlink()
        os.mkfifo(record) if text is None else record.write_bytes(text)
        before = stands(prefix / "bin"), stands(outside), stands(empty)
        for words in (), ("--remove",):
            expect(install(program, *words, prefix), (b"", os.fsencode(f"install: {record}: it tells of no installation\n"), 1))
        if (stands(prefix / "bin"), stands(outside), stands(empty)) != before:
            raise Failed(f"with {shortened(text)} something changed")


def a_link_out_of_the_folder_is_not_followed(program, folder):
    """Neither by an installation nor by --remove. One that stays in the folder is."""
    prefix, elsewhere = folder / "to", folder / "elsewhere"
    (prefix / "real").mkdir(parents=True)
    elsewhere.mkdir()
    (prefix / "bin").symlink_to(elsewhere)
    written, told, status = install(program, prefix)
    line = f"install: {prefix}/bin/hostext: a link on the way to it leads out of PREFIX"
    if (written, status) != (b"", 1) or line not in told.decode().splitlines() or os.listdir(elsewhere) or sorted(os.listdir(prefix)) != ["bin", "real"]:
        raise Failed(f"it ends with {status} and tells {shortened(told)}")
    (prefix / "bin").unlink()
    (prefix / "bin").symlink_to("real")
    expect(install(program, prefix), DONE)
    (prefix / "real").rename(elsewhere / "real")
    (prefix / "bin").unlink()
    (prefix / "bin").symlink_to(elsewhere / "real")
    before = stands(elsewhere)
    written, told, status = install(program, "--remove", prefix)
    if (written, status) != (b"", 0) or f"install: a link leads there, out of PREFIX, and stays: {prefix}/bin/hostext" not in told.decode().splitlines() or stands(elsewhere) != before:
        raise Failed(f"it ends with {status} and tells {shortened(told)}")


CALLS = [
    *(licences_and_what_is_said_of_security_are_installed, a_record_that_leads_out_of_the_folder_is_refused, a_link_out_of_the_folder_is_not_followed),
    *(what_stands_in_the_repository_is_installed, programs_and_tools_run_from_where_they_are_installed),
    *(a_link_to_an_installed_tool_finds_the_program, modes_are_the_same_whatever_the_umask, removing_leaves_a_folder_as_it_was),
    *(what_others_put_there_or_changed_stays, nothing_changes_where_it_is_refused, a_place_that_cannot_be_written_is_told),
    *(a_second_installation_replaces_each_file_by_a_rename, an_installation_that_fails_can_be_removed, a_package_is_written_below_its_folder),
]
scenes = named(*map(in_a_folder, CALLS))
