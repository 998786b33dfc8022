"""What would brick a host, looked for before anything of a generation is shown there.

What a host needs is looked for in a process with mounts of its own, in which the generation is shown already: what /bin/sh and the
dynamic loader lead to, Python 3, and this tool, which has to run there and to be no older one.
"""
import os
import re
import shutil
import stat
import struct
import subprocess
import sys

import calls
import mounts
from entries import Refused, shown

SHELL, PYTHON = "/bin/sh", "python3"
PATH = "/usr/local/sbin:/usr/local/bin:/usr/sbin:/usr/bin:/sbin:/bin"
TOOL = os.path.realpath(sys.argv[0])
# What this tool writes in `active` is read by each one of this number or a greater one.
FORM = 1
SAID_FORM = re.compile(rb"^FORM = ([0-9]{1,9})$", re.M)
MOST_LINKS, MOST_SOURCE_BYTES, MOST_HEADS = 40, 1_048_576, 256
INTERPRETER = 3
SECONDS = 60
REMEDY = "a store needs a whole host before it is shown: import one first, or take --even-without"


def way_to(path):
    """Each place that a path leads by, where all links on the way are followed."""
    names, at, links = [name for name in os.path.abspath(path).split("/") if name], "/", 0
    while names:
        name = names.pop(0)
        if name == "..":
            at = os.path.dirname(at)
            continue
        place = os.path.join(at, name)
        yield place
        if not os.path.islink(place):
            at = place
            continue
        links += 1
        if links > MOST_LINKS:
            raise Refused(f"{shown(path)}: too many links")
        target = os.readlink(place)
        at = "/" if target.startswith("/") else at
        names = [step for step in target.split("/") if step not in ("", ".")] + names


def is_below(path, folder):
    return path == folder or path.startswith(folder.rstrip("/") + "/")


def check_way(path, root, names):
    """Refuses where the store, or the way to it, is at or below a hierarchy that is to be shown."""
    places = [os.path.join(root, name) for name in names]
    for step in way_to(path):
        if found := next((place for place in places if is_below(step, place)), None):
            reason = f"it stands below {shown(found)}, or the way to it leads there, and wouldn't be found once that is shown"
            raise Refused(f"{shown(path)}: {reason}: move the store")


def check_host(wanted, names):
    """Refuses what lacks in this process's own root once these hierarchies of it are shown."""

    def work():
        calls.leave_mounts()
        root = os.open("/", os.O_PATH | os.O_DIRECTORY)
        for name, tree in zip(names, mounts.trees(wanted)[0]):
            if tree is not None:
                calls.attach(tree, calls.open_below(root, os.fsencode(name)))
        return lacking(), []

    if reason := mounts.in_a_child(work)[0]:
        raise Refused(reason, REMEDY)


def lacking():
    """What this process's root lacks to be that of a host, or nothing."""
    for program in SHELL, shutil.which(PYTHON, path=PATH) or f"/usr/bin/{PYTHON}":
        if not is_program(program):
            return f"{program}: what is to be shown has no such program"
        loader = loader_of(program)
        if loader and not is_program(loader):
            return f"{loader}: what is to be shown lacks the dynamic loader of {program}"
    return lacking_of_tool()


def lacking_of_tool():
    folder = os.path.dirname(TOOL)
    files = {TOOL, *(path for path in map(file_of, list(sys.modules.values())) if os.path.dirname(path) == folder)}
    for path in sorted(files):
        if not os.path.isfile(path):
            return f"{shown(path)}: what is to be shown lacks this file of the tool"
    if form_at(os.path.join(folder, os.path.basename(__file__))) < FORM:
        return f"{shown(folder)}: what is to be shown has an older version of this tool"
    return unable()


def file_of(module):
    return getattr(module, "__file__", None) or ""


def form_at(path):
    with open(path, "rb") as file:
        found = SAID_FORM.search(file.read(MOST_SOURCE_BYTES))
    return int(found[1]) if found else 0


def unable():
    """Why this tool doesn't run there, started by the shell, or nothing."""
    try:
        words = [SHELL, "-c", 'exec "$0" --help', TOOL]
        ended = subprocess.run(words, stdin=subprocess.DEVNULL, capture_output=True, timeout=SECONDS, cwd="/")
    except (OSError, subprocess.TimeoutExpired) as error:
        return f"{shown(TOOL)}: it doesn't run in what is to be shown: {error}"
    if ended.returncode:
        last = ended.stderr.decode(errors="replace").strip().rpartition("\n")[2]
        return f"{shown(TOOL)}: it doesn't run in what is to be shown: {last or f'its status is {ended.returncode}'}"
    return None


def is_program(path):
    try:
        status = os.stat(path)
    except OSError:
        return False
    return stat.S_ISREG(status.st_mode) and bool(status.st_mode & stat.S_IXUSR)


def loader_of(path):
    """The dynamic loader that a program names, as ELF has it; nothing where it names none."""
    with open(path, "rb") as file:
        head = file.read(64)
        if len(head) < 64 or head[:4] != b"\x7fELF" or head[4] not in (1, 2) or head[5] not in (1, 2):
            return None
        order, is_wide = "<>"[head[5] - 1], head[4] == 2
        place, = struct.unpack_from(order + ("Q" if is_wide else "I"), head, 32 if is_wide else 28)
        size, count = struct.unpack_from(order + "HH", head, 54 if is_wide else 42)
        for at in range(min(count, MOST_HEADS)):
            file.seek(place + at * size)
            part = file.read(size)
            if len(part) < (56 if is_wide else 32):
                return None
            if struct.unpack_from(order + "I", part) == (INTERPRETER,):
                begin, = struct.unpack_from(order + ("Q" if is_wide else "I"), part, 8 if is_wide else 4)
                length, = struct.unpack_from(order + ("Q" if is_wide else "I"), part, 32 if is_wide else 16)
                file.seek(begin)
                return os.fsdecode(file.read(min(length, 4096)).rstrip(b"\0"))
    return None
