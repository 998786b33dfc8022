"""The processes below this one, as the system tells them."""
import ctypes
import os
from pathlib import Path

PR_SET_CHILD_SUBREAPER = 36


def adopt():
    """Makes this process the parent of what those below it leave behind, so that it can wait for them."""
    ctypes.CDLL(None).prctl(PR_SET_CHILD_SUBREAPER, 1, 0, 0, 0)


def numbers():
    return {int(name) for name in os.listdir("/proc") if name.isdigit()}


def fields_of(number):
    """The fields of a process after its name, the first of which is its state and the second its parent; None where it is gone."""
    try:
        return Path(f"/proc/{number}/stat").read_bytes().rpartition(b")")[2].split()
    except OSError:
        return None


def running():
    """The numbers of those below this one that haven't ended, at any depth."""
    above = {number: int(fields[1]) for number in numbers() if (fields := fields_of(number)) and fields[0] != b"Z"}
    found, fresh = set(), {os.getpid()}
    while fresh:
        fresh = {number for number, parent in above.items() if parent in fresh} - found
        found |= fresh
    return found
