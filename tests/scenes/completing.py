"""Completion in shells: what stands after each word of a line, names that have to be quoted, what is offered of a store and of a
depot, and stores that are none. bash is asked for the replies to a line, and both bash and zsh work on a terminal, where a word is
completed and the line is then run."""
import fcntl
import os
import pty
import re
import select
import shlex
import shutil
import struct
import subprocess
import tempfile
import termios
import time
from pathlib import Path

from scenes.documents import Sources
from scenes.manuals import commands_of_the_grammar
from scenes.running import SECONDS, TOP, Failed, Skipped, named, shortened
from scenes.stores import DONE, Place, digest
from scenes.uses import tree_of

BASH, ZSH = "completion/hostext.bash", "completion/_hostext"
# Names that a shell has to be told in quotes, or breaks words at. No two begin alike.
NAMES = ["a b", "b'c", 'c"d', "d$e", "e:f", "f\\g", "g`h", "#i", "j&k;l", "k(l)", "*m", "[n]", "~o", "ü p", "!q", "r=s", "t  u ", "v<w>", "{x,y}"]
DISKS = b"[Source]\nType=regular-file\nPath=/images\nMatchPattern=disk_@v\n[Target]\nType=regular-file\nPath=/etc/disks\n"
ASK = """
COMP_WORDBREAKS=$' \\t\\n"\\'@><=;|&(:'
while IFS= read -r COMP_LINE; do
    COMP_POINT=${#COMP_LINE}
    case $COMP_LINE in
        hostext_publish*) _hostext_publish ;;
        hostext_erofs*) _hostext_erofs ;;
        hostext-*) _hostext_tool ;;
        *) _hostext ;;
    esac
    printf '%s\\n' "${COMPREPLY[@]}"
    echo end
done
"""


def need(tool):
    if not shutil.which(tool):
        raise Skipped(f"there is no {tool}")


def in_a_shop(call):
    """A scene over a store and a depot, `s` and `d` in a folder, with the program as `hostext` in its folder `bin`."""

    def scene(program):
        with tempfile.TemporaryDirectory() as folder:
            place = Place(program, folder)
            (Path(folder) / "bin").mkdir()
            (Path(folder) / "bin/hostext").symlink_to(program)
            for name, leads in ("s", "store"), ("d", "depot"):
                (Path(folder) / name).symlink_to(leads)
            fill(place)
            call(place, Path(folder))

    scene.__name__ = call.__name__
    return scene


def fill(place):
    """A host with a file of each name, links, directories and components, and a depot with resources of such names."""
    files = {f"usr/{name}": content_of(name) for name in NAMES}
    files |= {"usr/sub/dir/file": b"file\n", "usr/sub/dirt": b"dirt\n", "etc/sysupdate.web.d/x": b"x", "etc/sysupdate.w $e.d/x": b"x"}
    files |= {"etc/sysupdate.w $e.d/disk.transfer": DISKS, "etc/disks/disk_1": b"1"}
    text = tree_of(files).decode().replace("d 755 usr/sub\n", "l 9:1000:50 to/ no/is usr/sublink\nd 755:1000:50 usr/sub\n")
    lines = re.sub(r"(?m)^f 644 (.* usr/sub/dirt)$", r"f 644:1000:50:1:8192:0:0 \1", text).splitlines()
    lines[0] = "hostext-tree 3"
    place.resource("host", "".join(f"{line}\n" for line in [lines[0], *sorted(lines[1:-1], key=path_of), lines[-1]]).encode(), files)
    for name in "images/tool 1", "images/tool$2", "other:x":
        place.resource(name, b"hostext-tree 1\nend\n")
    (place.depot / "images/SHA256SUMS").write_text("".join(f"{digest(version.encode())}  disk_{version}\n" for version in ("1", "2.0~rc1", "3")))
    (place.depot / "images/disk_3").write_text("3")
    (place.depot / "host").mkdir(exist_ok=True)
    place.expect(("init x86-64 system", DONE), ("import-fs host /", DONE))


def path_of(line):
    """The names of the path of a line of a tree text, of which only a link has blanks before it."""
    parts = {"d": 2, "f": 4, "l": 4}[line[0]]
    return [name.encode() for name in line.split(" ", parts)[-1].split("/")]


def content_of(name):
    return f"content {NAMES.index(name)}\n".encode()


def replies(folder, *lines):
    """What bash is given for each of the lines, whose end is where the cursor stands."""
    need("bash")
    around = {**os.environ, "PATH": f"{folder / 'bin'}:{os.environ['PATH']}", "HOME": str(folder), "LC_ALL": "C.UTF-8"}
    words = ["bash", "--norc", "--noprofile", "-c", f". {shlex.quote(str(TOP / BASH))}\n{ASK}"]
    ended = subprocess.run(words, input="".join(f"{line}\n" for line in lines).encode(), cwd=folder, env=around, capture_output=True, timeout=SECONDS)
    if ended.stderr:
        raise Failed(f"bash tells {shortened(ended.stderr)}")
    return [sorted(filter(None, block.split("\n"))) for block in ended.stdout.decode().split("end\n")[:-1]]


def offered(folder, *rows):
    """Compares the replies to lines with what is wanted."""
    for (line, wanted), found in zip(rows, replies(folder, *(line for line, _ in rows)), strict=True):
        if found != sorted(wanted):
            raise Failed(f"after `{line}` {found} are offered, and not {sorted(wanted)}")


def each_word_of_a_command_is_offered(place, folder):
    """As the grammar of docs/FORMATS.md has them."""
    grammar = [words.split() for words in commands_of_the_grammar(Sources())]
    views = [words[1] for words in grammar if words[0] == "sysext"]
    rows = [("hostext s d ", sorted({words[0] for words in grammar})), ("hostext -", ["--help", "--version"])]
    for view in "sysext", "confext":
        rows += [(f"hostext s d {view} ", views), (f"hostext s d {view} re", ["refresh"]), (f"hostext s d {view} status ", [])]
        rows += [(f"hostext s d {view} {verb} ", ["--force"]) for verb in ("merge", "refresh", "changes")]
        rows += [(f"hostext s d {view} explain --fo", ["--force"]), (f"hostext s d {view} explain /us", ["/usr"]), (f"hostext s d {view} explain --force /us", ["/usr"])]
    of_component = [words[2] for words in grammar if words[0] == "sysupdate" and "[--component=NAME]" in words]
    rows += [("hostext s d sysupdate ", [*of_component, "components", "--component="]), ("hostext s d sysupdate --component=x ", of_component)]
    rows += [("hostext s d portable ", [words[1] for words in grammar if words[0] == "portable"]), ("hostext s d portable reatt", ["reattach"])]
    architectures = re.search(r"\| architecture \| (.*?) \|", Sources().text("docs/FORMATS.md"))[1]
    rows += [("hostext s d init ", re.findall(r"`(.*?)`", architectures)), ("hostext s d init arm sy", ["system"]), ("hostext s d init x86 ", ["system", "initrd"])]
    rows += [(f"hostext s d {command} ", []) for command in ("check", "migrate", "layer", "batch", "compare", "sample", "frob", "check x")]
    rows += [("echo x; hostext s d che", ["check"]), ("HOSTEXT_LOCK=no hostext s", [])]
    offered(folder, *rows[:-1])


def paths_of_the_store_are_offered_by_their_kinds(place, folder):
    offered(
        folder,
        *((f"hostext s d {command} /", wanted) for command, wanted in (("cat", ["/etc", "/usr"]), ("tree", ["/etc", "/usr"]), ("remove", ["/etc", "/usr"]))),
        ("hostext s d cat ", ["/etc", "/usr"]),
        ("hostext s d cat /usr/s", ["/usr/sub"]),
        ("hostext s d tree /usr/s", ["/usr/sub"]),
        ("hostext s d remove /usr/s", ["/usr/sub", "/usr/sublink"]),
        ("hostext s d cat /usr/sub/", ["/usr/sub/dir", "/usr/sub/dirt"]),
        ("hostext s d remove /usr/sub/d", ["/usr/sub/dir", "/usr/sub/dirt"]),
        ("hostext s d import-fs host /usr/", ["/usr/sub"]),
        *((f"hostext s d {words}", []) for words in ("cat /gone/", "cat /usr/sub/dirt/", "cat usr", "cat //", "cat /usr /")),
    )


def names_are_quoted_as_the_word_was_begun(place, folder):
    offered(
        folder,
        ("hostext s d cat /usr/a", ["/usr/a\\ b"]),
        ("hostext s d cat /usr/a\\ ", ["/usr/a\\ b"]),
        ("hostext s d cat /usr/d", ["/usr/d\\$e"]),
        ("hostext s d cat \"/usr/a", ["/usr/a b"]),
        ("hostext s d cat '/usr/b", ["/usr/b'\\''c"]),
        ("hostext s d cat \"/usr/d", ["/usr/d\\$e"]),
        ("hostext s d cat /usr/e", ["/usr/e:f"]),
        ("hostext s d cat /usr/e:", ["f"]),
        ("hostext s d cat \"/usr/e:", ["/usr/e:f"]),
        ("hostext s d cat /usr/e\\:", ["/usr/e:f"]),
        ("hostext s d cat /usr/r=", ["s"]),
        ("hostext s d cat '/usr/'a", ["/usr/a\\ b"]),
        ("hostext s d cat /us'r/'a", ["/usr/a\\ b"]),
        ("hostext s d cat /usr/ü", ["/usr/ü\\ p"]),
        ("hostext s d cat /usr/t", ["/usr/t\\ \\ u\\ "]),
    )


def resources_of_the_depot_and_components_are_offered(place, folder):
    offered(
        folder,
        ("hostext s d import-fs ", ["host", "images/", "other:x"]),
        ("hostext s d import-fs im", ["images/"]),
        ("hostext s d import-fs images/", ["images/tool\\ 1", "images/tool\\$2"]),
        ("hostext s d import-fs \"images/tool 1", ["images/tool 1"]),
        ("hostext s d import-fs other:", ["x"]),
        ("hostext s gone import-fs ", []),
        ("hostext s d sysupdate --component=", ["w\\ \\$e", "web"]),
        ("hostext s d sysupdate --component=we", ["web"]),
        ("hostext s d sysupdate '--component=w ", ["--component=w $e"]),
    )


def versions_that_an_update_may_install_are_offered(place, folder):
    """Those that are available and not installed; none where the transfers or the manifests can't be read."""
    offered(
        folder,
        ("hostext s d sysupdate '--component=w $e' update ", ["2.0\\~rc1", "3"]),
        ("hostext s d sysupdate --component=w\\ \\$e update 2", ["2.0\\~rc1"]),
        ("hostext s d sysupdate '--component=w $e' update 3 ", []),
        ("hostext s d sysupdate '--component=w $e' vacuum ", []),
        ("hostext s d sysupdate --component=web update ", []),
        ("hostext s d sysupdate update ", []),
        ("hostext s d sysupdate list ", []),
        ("hostext s gone sysupdate '--component=w $e' update ", []),
    )


def images_of_portable_services_are_offered_by_their_states(place, folder):
    """And options that are not given yet, at any place."""
    release, unit = b"ID=debian\n", b"[Service]\n"
    library = {"os-release": release, **{f"systemd/portable/profile/{name}/service.conf": unit for name in ("default", "st rict")}}
    services = {f"{name}/usr/lib/{path}": content for name in ("a b", "c_1", "-d") for path, content in (("os-release", release), (f"systemd/system/{name[0]}.timer", unit))}
    extensions = {f"{name}/usr/lib/extension-release.d/extension-release.{name}": release for name in ("tools", "to p")}
    for name, files, where in ("lib", library, "/usr/lib"), ("services", services, "/var/lib/portables"), ("extensions", extensions, "/var/lib/extensions"):
        place.resource(name, tree_of(files), files)
        place.expect((f"import-fs {name} {where}", DONE))
    place.expect(("portable attach c_1", b"attached 1\nc.timer\n"))
    offered(
        folder,
        *((f"hostext s d portable {verb} ", ["a\\ b", "c_1"]) for verb in ("inspect", "is-attached")),
        ("hostext s d portable detach ", ["c_1"]),
        ("hostext s d portable inspect 'a", ["a b"]),
        ("hostext s d portable inspect /va", ["/var"]),
        *((f"hostext s d portable {words} ", []) for words in ("list", "inspect c_1", "detach c_1", "is-attached c_1")),
        ("hostext s d portable detach /va", []),
        ("hostext s d portable attach ", ["a\\ b", "--runtime", "--profile=", "--copy=", "--extension="]),
        ("hostext s d portable reattach a", ["a\\ b"]),
        ("hostext s d portable reattach --runtime c", ["c_1"]),
        ("hostext s d portable attach --runtime a\\ b a ", ["--profile=", "--copy=", "--extension="]),
        ("hostext s d portable attach --copy=mixed --extension=e --", ["--runtime", "--profile=", "--extension="]),
        ("hostext s d portable attach a\\ b --r", ["--runtime"]),
        ("hostext s d portable attach a\\ b --copy=", ["auto", "copy", "mixed", "symlink"]),
        ("hostext s d portable attach '--copy=m", ["--copy=mixed"]),
        ("hostext s d portable reattach --profile=", ["default", "st\\ rict"]),
        ("hostext s d portable reattach c_1 --extension=t", ["to\\ p", "tools"]),
        ("hostext s gone portable attach --ru", ["--runtime"]),
    )


def paths_and_folders_for_publishing_are_offered(place, folder):
    """Paths of the store by the program hostext, and folders of OUT that are no files of a resource."""
    (place.depot / "images/a b").mkdir()
    offered(
        folder,
        ("hostext_publish -", ["--help"]),
        ("hostext_publish s d /us", ["/usr"]),
        ("hostext_publish s d /usr/s", ["/usr/sub"]),
        ("hostext_publish s d '/usr/a", ["/usr/a b"]),
        ("hostext_publish s d /usr/sub/", ["/usr/sub/dir", "/usr/sub/dirt"]),
        ("hostext_publish s d /usr ", ["images"]),
        ("hostext_publish s d /usr images/", ["images/a\\ b"]),
        *((f"hostext_publish {words}", []) for words in ("s d /usr images ", "s d /usr gone/", "s gone /usr ", "gone d /", "s d usr")),
    )


def options_and_marks_of_erofs_images_are_offered(place, folder):
    """Marks of the store by the program hostext. Each option once, in their order."""
    options = ["--mark=", "--time="]
    offered(folder, ("hostext_erofs -", ["--help", "--version"]), ("hostext_erofs s --mark=", []), ("hostext_erofs s ", options))
    place.expect(("mark", b"marked 2\n"), ("mark", b"marked 3\n"))
    offered(
        folder,
        ("hostext_erofs s --m", ["--mark="]),
        ("hostext_erofs s --mark=", ["2", "3"]),
        ("hostext_erofs s --mark=3", ["3"]),
        *((f"hostext-activate s {words} --mark=", ["2", "3"]) for words in ("make", "mount", "switch --confext")),
        ("hostext_erofs s --mark=3 ", ["--time="]),
        *((f"hostext_erofs {words}", []) for words in ("s --time=1 ", "s --time=", "s --mark=2 --mark=", "s --mark=2 --time=1 ", "gone --mark=")),
    )


def make_hostile(place):
    """A depot, made by hand, whose names would end a line and begin another. No store has such names."""
    for name in "x\nplanted", "y\rplanted", "z\x1b[2J", "\nplanted":
        (place.depot / f"{name}.tree").write_bytes(b"hostext-tree 1\nend\n")
        (place.depot / "images" / name).mkdir()


def names_with_control_bytes_are_not_offered(place, folder):
    make_hostile(place)
    offered(
        folder,
        ("hostext s d import-fs ", ["host", "images/", "other:x"]),
        ("hostext s d import-fs images/", ["images/tool\\ 1", "images/tool\\$2"]),
        *((f"hostext s d import-fs {begun}", []) for begun in ("x", "'x", '"y', "z")),
        ("hostext_publish s d /usr images/", []),
    )


def nothing_of_a_name_is_run(place, folder):
    """A word is completed, and the line is run as it then stands."""
    make_hostile(place)
    (folder / "bin/planted").write_text("#!/bin/sh\ntouch ran\n")
    (folder / "bin/planted").chmod(0o755)
    with in_bash(folder) as shell:
        for begun in "x", "y":
            shell.run(f"false && hostext s d import-fs {begun}\t")
    if (folder / "ran").exists():
        raise Failed("a part of a name was run")


def the_store_may_stand_in_quotes_a_variable_or_the_home(place, folder):
    (folder / "my $t").symlink_to("store")
    for store in "'my $t'", '"my \\$t"', "my\\ \\$t", "~/s", "$HOME/s", "${HOME}/s", '"$HOME/s"', f"{folder}/s":
        offered(folder, (f"hostext {store} d cat /usr/s", ["/usr/sub"]))
    for store in "$(touch ran; echo s)", "`touch ran; echo s`":
        offered(folder, (f"hostext {store} d cat /usr/s", []))
    if (folder / "ran").exists():
        raise Failed("a command of the line was run")


def a_store_that_is_none_or_is_locked_is_not_waited_for(place, folder):
    for name in "empty", "piped":
        (folder / name).mkdir()
    os.mkfifo(folder / "pipe")
    os.mkfifo(folder / "piped/current")
    (folder / "file").touch()
    began = time.monotonic()
    offered(folder, *((f"hostext {store} d {words}", []) for store in ("gone", "file", "pipe", "empty", "piped", "''") for words in ("cat /", "sysupdate --component=")))
    if time.monotonic() - began > 10:
        raise Failed("it waited")
    handle = os.open(place.store, os.O_RDONLY)
    try:
        fcntl.flock(handle, fcntl.LOCK_EX)
        offered(folder, ("hostext s d cat /usr/s", ["/usr/sub"]))
    finally:
        os.close(handle)


def a_program_that_does_not_end_is_not_waited_for(place, folder):
    need("timeout")
    (folder / "bin/hostext").unlink()
    (folder / "bin/hostext").write_text("#!/bin/sh\nexec sleep 100\n")
    (folder / "bin/hostext").chmod(0o755)
    began = time.monotonic()
    offered(folder, ("hostext s d cat /", []))
    if time.monotonic() - began > 30:
        raise Failed("it waited")


def options_of(name):
    """The options that the help of a tool names in its list, and of one without a list in its text."""
    shown = subprocess.run([TOP / "tools" / name, "--help"], stdout=subprocess.PIPE, check=True, timeout=SECONDS).stdout.decode()
    return sorted(set(re.findall(r"^  (?:-h, )?(--[a-z-]+)", shown, re.M)) or {"--help"})


def formats_of_pack():
    """The formats that the help of hostext-pack lists."""
    shown = subprocess.run([TOP / "tools/pack", "--help"], stdout=subprocess.PIPE, check=True, timeout=SECONDS).stdout.decode()
    return re.search(r"^  --format \{([a-z,]+)\}", shown, re.M)[1].split(",")


def commands_of_tend():
    """The commands that the help of hostext-tend lists."""
    shown = subprocess.run([TOP / "tools/tend", "--help"], stdout=subprocess.PIPE, check=True, timeout=SECONDS).stdout.decode()
    return re.search(r"^  \{([a-z,]+)\}", shown, re.M)[1].split(",")


# The options of each command of hostext-activate, in order.
COMMANDS_OF_ACTIVATE = {
    "make": ["--mark=", "--no-check"],
    "mount": ["--mark=", "--no-check", "--no-suid", "--path="],
    "umount": [],
    "switch": ["--confext", "--even-without", "--mark=", "--no-check", "--no-suid", "--root="],
    "back": ["--even-without"],
    "off": [],
    "status": ["--json"],
    "boot": ["--even-without"],
}


def options_and_places_of_tools_are_offered(place, folder):
    offered(
        folder,
        *((f"hostext-{name} -", options_of(name)) for name in ("fetch", "image-from-packages", "pack", "tend", "tree-text", "unpack", "update")),
        *((f"hostext-unpack {words} /us", ["/usr"]) for words in ("s", "--tar s", "--erofs x s", "--mtime 5 --quiet s", "--keep-setid --squashfs 'a b' s")),
        ("hostext-unpack s /usr/s", ["/usr/sub"]),
        *((f"hostext-unpack {words}", []) for words in ("--erofs ", "--mtime ", "s /usr /us", "gone /us", "/us")),
        ("hostext-image-from-packages --release x d im", ["images"]),
        *((f"hostext-image-from-packages {words}", []) for words in ("im", "d images/x im", "--release im")),
        *((f"hostext-pack {words} im", ["images"]) for words in ("x d", "--layers - d", "--format tar --image a --most-bytes 5 --without b x d")),
        *((f"hostext-pack {words}", []) for words in ("im", "x im", "x d images/x im", "--image ", "--most-bytes ", "--without im")),
        ("hostext-pack --format ", formats_of_pack()),
        *((f"hostext-tend {words}", commands_of_tend()) for words in ("s ", "--root /r s ")),
        ("hostext-tend s sw", ["switch"]),
        *(("hostext-activate -", ["--help"]), ("hostext-activate s ", sorted(COMMANDS_OF_ACTIVATE)), ("hostext-activate s swi", ["switch"])),
        *((f"hostext-activate s {command} -", options) for command, options in COMMANDS_OF_ACTIVATE.items()),
        *((f"hostext-activate s {words}", []) for words in ("make ", "status ", "umount /x ")),
        ("hostext-pack --strict --format s", ["squashfs"]),
    )


def lists_of(path, adds):
    """The lists of words that stand in a file as they are."""
    found = re.findall(rf"\b{adds} (?:-S '' )?(?:-- )?((?:--)?[a-z][a-z0-9 -]*)", (TOP / path).read_text())
    return {words.strip().removesuffix(" --component") for words in found} - {"--component"}


def both_shells_have_the_same_words(_program):
    ours, others = lists_of(BASH, "_hostext_reply"), lists_of(ZSH, "compadd")
    if len(ours) < 7 or ours != others:
        raise Failed(f"bash has {sorted(ours - others)} besides, and zsh {sorted(others - ours)}")


class Terminal:
    """A shell on a terminal of its own, in a folder."""

    def __init__(self, folder, *words):
        around = {**os.environ, "PATH": f"{folder / 'bin'}:{os.environ['PATH']}", "TERM": "xterm", "LC_ALL": "C.UTF-8", "HOME": str(folder), "PS1": "> "}
        self.child, self.handle = pty.fork()
        if not self.child:
            os.chdir(folder)
            fcntl.ioctl(0, termios.TIOCSWINSZ, struct.pack("HHHH", 50, 1000, 0, 0))
            os.execvpe(words[0], words, around)
        self.until(b"> ")

    def __enter__(self):
        return self

    def __exit__(self, *_):
        os.close(self.handle)
        os.kill(self.child, 9)
        os.waitpid(self.child, 0)

    def until(self, pattern):
        """What is shown up to where this is shown."""
        shown, late = b"", time.monotonic() + SECONDS
        while not re.search(pattern, shown):
            ready, _, _ = select.select([self.handle], [], [], max(0, late - time.monotonic()))
            if not ready:
                raise Failed(f"it shows {shortened(shown[-300:])}")
            shown += os.read(self.handle, 65536)
        return shown.decode(errors="replace")

    def run(self, typed):
        """What is shown once the line is run. Its status is shown last, by which its end is known, and then a prompt."""
        os.write(self.handle, f"{typed}; echo end$?.\r".encode())
        return self.until(rb"(?s)end\d+\.\r\n.*> ")


def in_bash(folder):
    need("bash")
    shell = Terminal(folder, "bash", "--norc", "--noprofile", "-i")
    shell.run(f". {shlex.quote(str(TOP / BASH))}; bind 'set bell-style none'; bind 'set enable-bracketed-paste off'")
    return shell


def in_zsh(folder):
    need("zsh")
    shell = Terminal(folder, "zsh", "-f", "-i")
    shell.run(f"unsetopt beep zle_bracketed_paste 2>/dev/null; fpath=({shlex.quote(str(TOP / 'completion'))} $fpath); autoload -Uz compinit; compinit -u -D")
    return shell


def shows(shell, typed, wanted):
    shown = shell.run(typed)
    if f"\n{wanted}" not in shown or "end0." not in shown:
        raise Failed(f"{typed!r} shows {shortened(shown)}, and not {wanted!r}")


def quoted_starts(name, opened):
    """How a word is begun, up to the first byte of a name. A byte that begins no name is typed with a backslash where no quote is open."""
    plain = name[0].isalpha() or opened == "'" or (opened == '"' and name[0] not in '!"$`\\')
    return f"{opened}/usr/{name[0] if plain else chr(92) + name[0]}"


def each_name_is_completed(shell):
    """All of them on one line, in each kind of quotes. A `!` in double quotes is that of the history."""
    for opened in "", '"', "'":
        names = [name for name in NAMES if not (name.startswith("!") and opened == '"')]
        typed = "; ".join(f"hostext s d cat {quoted_starts(name, opened)}\t" for name in names)
        shows(shell, typed, "\r\n".join(content_of(name).decode().rstrip() for name in names))


def the_words_around_are_completed(shell):
    """Folders, commands, directories on the way, resources and components: each line is done once the words are completed."""
    shows(shell, "hostext sto\t dep\t che\t", "ok ")
    shows(shell, "hostext s d ca\t /us\t/su\t/dir/\t", "file")
    shows(shell, "hostext s d tr\t /usr/su\t", "hostext-tree 3")
    shows(shell, "hostext s d import-fs im\ttool\\ \t /sr", "done")
    shows(shell, "hostext s d sysext st\t", "unmerged")
    shows(shell, "hostext s d sysupdate --comp\tw\\ \t features", "")
    shows(shell, "hostext s d sysupdate --comp\tw\\ \tup\t3\t", "updated 3")


def bash_completes_on_a_terminal(place, folder):
    with in_bash(folder) as shell:
        each_name_is_completed(shell)
        the_words_around_are_completed(shell)


def zsh_completes_on_a_terminal(place, folder):
    with in_zsh(folder) as shell:
        each_name_is_completed(shell)
        the_words_around_are_completed(shell)


def zsh_waits_for_no_store(place, folder):
    """Nothing is completed at a store that is none, and no line is run for it. No lock is waited for either."""
    os.mkfifo(folder / "pipe")
    (folder / "empty").mkdir()
    (folder / "my $t").symlink_to("store")
    with in_zsh(folder) as shell:
        for store in "gone", "pipe", "empty", "$(touch ran; echo s)":
            shows(shell, f"false && hostext {store} d cat /us\t; echo next", "next")
        if (folder / "ran").exists():
            raise Failed("a command of the line was run")
        for store in "'my $t'", "~/s", "$HOME/s":
            shows(shell, f"hostext {store} d cat /usr/a\t", "content 0")
        handle = os.open(place.store, os.O_RDONLY)
        try:
            fcntl.flock(handle, fcntl.LOCK_EX)
            shows(shell, "HOSTEXT_LOCK=no hostext s d cat /usr/a\t", "content 0")
        finally:
            os.close(handle)


CALLS = [
    *(each_word_of_a_command_is_offered, paths_of_the_store_are_offered_by_their_kinds, names_are_quoted_as_the_word_was_begun),
    *(resources_of_the_depot_and_components_are_offered, versions_that_an_update_may_install_are_offered, images_of_portable_services_are_offered_by_their_states, paths_and_folders_for_publishing_are_offered, options_and_marks_of_erofs_images_are_offered, options_and_places_of_tools_are_offered),
    *(names_with_control_bytes_are_not_offered, nothing_of_a_name_is_run, the_store_may_stand_in_quotes_a_variable_or_the_home),
    *(a_store_that_is_none_or_is_locked_is_not_waited_for, a_program_that_does_not_end_is_not_waited_for),
    *(bash_completes_on_a_terminal, zsh_completes_on_a_terminal, zsh_waits_for_no_store),
]
scenes = named(both_shells_have_the_same_words, *map(in_a_shop, CALLS))
