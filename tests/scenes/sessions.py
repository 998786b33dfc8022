"""The sessions of the documents, read out of these.

A block between lines of three backquotes has commands where it has lines that begin with `$ `, and what stands below such a line
is all that the command writes, on both outputs. A block without such lines isn't run: so the command that runs these tests
stands in one. The blocks below one heading are one session: each goes on where the one before it ended, in one shell and one
folder, which has the repository's examples and tools, and the programs under the names hostext, hostext_publish and hostext_erofs. A
session is skipped where a tool that it starts is missing.
"""
import os
import re
import shlex
import subprocess
import tempfile
from pathlib import Path

from scenes.running import SECONDS, TOP, Failed, Skipped, imager, publisher, shortened
from scenes.serving import around as without_proxies


DOCUMENTS = "README.md", "examples/README.md", "docs/HOWTO.md"


def headed(text):
    """The blocks of a document, by the heading above each."""
    heading, found = "", {}
    for title, block in re.findall(r"^#+ ([^\n]*)$|^```[^\n]*\n(.*?)^```$", text, re.M | re.S):
        if title:
            heading = title
        else:
            found.setdefault(heading, []).append(block)
    return found


def commands_of(block):
    """Its commands, with what they write. What stands before the first of them is the output of none, and is refused."""
    commands = re.findall(r"^\$ ([^\n]*)\n((?:(?!\$ )[^\n]*\n)*)", block, re.M)
    if commands and not block.startswith("$ "):
        raise Failed(f"a session begins with {shortened(block.splitlines()[0])}")
    return commands


def sessions(text):
    """Each session of a document: its heading, and its commands with what they write."""
    for heading, blocks in headed(text).items():
        session = [command for block in blocks for command in commands_of(block)]
        if session:
            yield heading, session


def shell(commands, folder, more={}):
    """What each of the commands writes, on both outputs, in one shell. The environment may have more variables."""
    script = "".join(f"{command}\nprintf '\\0'\n" for command in commands)
    streams = {"stdin": subprocess.DEVNULL, "stdout": subprocess.PIPE, "stderr": subprocess.STDOUT}
    programs = {name.upper(): str(Path(folder, name)) for name in ("hostext", "hostext_publish", "hostext_erofs")}
    around = {**without_proxies(), "LC_ALL": "C", "TMPDIR": str(folder), **programs, **more}
    return subprocess.run(["sh", "-c", script], cwd=folder, env=around, timeout=SECONDS, **streams).stdout.decode().split("\0")


def need_tools(command, folder, more):
    """Skips the scene where a tool that the command starts is missing."""
    words = ["|", *shlex.shlex(command, posix=True, punctuation_chars=True)]
    for before, tool in zip(words, words[1:]):
        starts = before in ("|", ";", "&&", "||", "(") and re.fullmatch(r"[\w./-]+", tool)
        if starts and not shell([f"command -v {tool}"], folder, more)[0]:
            raise Skipped(f"there is no {tool}")


def follow(session, folder, more={}):
    for command, _ in session:
        need_tools(command, folder, more)
    found = shell([command for command, _ in session], folder, more)
    for at, (command, wanted) in enumerate(session):
        written = found[at] if at < len(found) else "nothing"
        if written != wanted:
            raise Failed(f"`{command}` writes {shortened(written)}, and not {shortened(wanted)}")


def in_a_folder(session, program):
    leads = {"examples": TOP / "examples", "tools": TOP / "tools", "hostext": program}
    for name, found in ("hostext_publish", publisher), ("hostext_erofs", imager):
        if any(word in command for command, _ in session for word in (name, "tools/install")):
            leads[name] = found()
    with tempfile.TemporaryDirectory() as folder:
        for name, to in leads.items():
            os.symlink(to, Path(folder, name))
        follow(session, folder)


FIRST = """batch: init x86-64 system|import-fs host /|import-fs images/tool-2 /var/lib/extensions/tool-2|import-fs images/vendor /var/lib/extensions/vendor|END|done|done|done|done
sysext: tool-2 image /var/lib/extensions/tool-2 fits|vendor image /var/lib/extensions/vendor fits
sysext: merged 2|tool-2|vendor
cat: #!/bin/sh|echo tool 2
remove: done
sysext: merged 1|vendor
cat: #!/bin/sh|echo tool 1
sysext: unmerged
"""


def the_first_session(script, around):
    """Each command of examples/first-session up to the unmerged view, by its first word, and the lines that it writes."""
    ended = subprocess.run([script], env=around, timeout=SECONDS, stdout=subprocess.PIPE, stderr=subprocess.STDOUT)
    blocks = re.findall(r"^\$ hostext STORE DEPOT (\S+)[^\n]*\n((?:(?!\$ )[^\n]*\n)*)", ended.stdout.decode(), re.M)
    found = "".join(f"{word}: {'|'.join(written.splitlines())}\n" for word, written in blocks)
    if ended.returncode or not found.startswith(FIRST) or not found.endswith("check: ok 8 311\n"):
        raise Failed(f"examples/first-session ends with {ended.returncode} and writes {shortened(found)}")


def scenes(program):
    around = {**os.environ, "HOSTEXT": str(program)}
    yield "examples/first-session", lambda: the_first_session(TOP / "examples/first-session", around)
    for path in DOCUMENTS:
        for heading, session in sessions((TOP / path).read_text()):
            yield f"{path}: {heading}", lambda session=session: in_a_folder(session, program)
