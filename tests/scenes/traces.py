"""The lines of strace, and which of the calls of a command are made on a store, a depot or a standard stream."""
import os
import re
import shutil
import signal
import subprocess
from dataclasses import dataclass

from scenes.running import Failed, Skipped

LINE = re.compile(r"\d+ +(\w+)\((.*?)\) += (?:-?\d+|\?)")
FIRST = re.compile(r'(?:AT_FDCWD<[^>]*>, )?(?:(\d+)<([^>]*)>|"([^"]*)")')
STREAMS = {0: "standard input", 1: "standard output", 2: "standard error"}
# The calls that a command makes for itself, once its own began.
OWN = {"brk", "mmap", "munmap", "mremap", "madvise", "exit_group"}


@dataclass(frozen=True)
class Call:
    """A call of the system: its name and what stands in its brackets, the place that it is made on and the device that has it,
    its number among those of its name, and among all."""

    name: str
    inner: str
    place: str
    on: str
    number: int
    at: int

    @property
    def text(self):
        return f"{self.name}({self.inner})"


def straced(command, told, *options, source=b"", seconds=10, around=None):
    """Runs a command under strace, and gives what it writes on each stream, its status, and the lines."""
    if not shutil.which("strace"):
        raise Skipped("there is no strace")
    words = ["strace", "-f", "-y", "-o", told, *options, *command]
    streams = {"stdin": subprocess.PIPE, "stdout": subprocess.PIPE, "stderr": subprocess.PIPE}
    child = subprocess.Popen(words, env=around, start_new_session=True, **streams)
    try:
        written, said = child.communicate(source, timeout=seconds)
    except subprocess.TimeoutExpired:
        os.killpg(child.pid, signal.SIGKILL)
        child.communicate()
        raise Failed(f"it had not ended after {seconds} seconds") from None
    if b"ptrace" in said.lower():
        raise Skipped("strace may not trace here")
    return written, said, child.returncode, told.read_text(errors="replace").splitlines()


def calls_of(lines, devices):
    """The calls of a trace. `devices` are the folders that are looked for, each with its name."""
    numbers = {}
    for at, line in enumerate(lines):
        found = LINE.match(line)
        if found:
            name, inner = found.groups()
            numbers[name] = numbers.get(name, 0) + 1
            yield Call(name, inner, *placed(name, inner, devices), numbers[name], at)


def placed(name, inner, devices):
    """The place that a call is made on, and the name of the device that it belongs to; none for the loader's."""
    found = FIRST.match(inner)
    if name == "execve" or not found:
        return "", ""
    if found[1] and int(found[1]) in STREAMS:
        return "", STREAMS[int(found[1])]
    place = found[2] or found[3] or ""
    for folder, on in devices.items():
        if place == folder or place.startswith(f"{folder}/"):
            return place, on
    return place, ""


def devices_of(place):
    return {os.fspath(place.store): "store", os.fspath(place.depot): "depot"}


def concerning(calls):
    """The calls that are made on a device. That a command calls something else once it began is told."""
    calls = list(calls)
    first = next((at for at, call in enumerate(calls) if call.on), len(calls))
    odd = [call.text for call in calls[first:] if not call.on and call.name not in OWN]
    if odd:
        raise Failed(f"it makes a call on no device: {odd[0]}")
    return [call for call in calls if call.on]
