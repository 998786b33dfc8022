"""The time of a command and the peak of its memory. Each starts from a small process, since the peak of a process's memory begins
with that of the one that started it."""
import os
import subprocess
import sys

STARTER = """
import os, sys, time
began = time.monotonic()
quiet = [(os.POSIX_SPAWN_OPEN, 1, os.devnull, os.O_WRONLY, 0)]
child = os.posix_spawnp(sys.argv[1], sys.argv[1:], os.environ, file_actions=quiet)
_, status, usage = os.wait4(child, 0)
print(status, time.monotonic() - began, usage.ru_utime + usage.ru_stime, usage.ru_maxrss)
"""


def timed(words, by_processor=False, **options):
    """The seconds that a command takes whose output goes nowhere, of the clock or of the processor, and the peak of its memory in MiB."""
    starter = [sys.executable, "-I", "-S", "-c", STARTER, *(os.fspath(word) for word in words)]
    status, by_clock, busy, peak = subprocess.run(starter, stdout=subprocess.PIPE, check=True, **options).stdout.split()
    if int(status):
        sys.exit(f"{words} ended with {os.waitstatus_to_exitcode(int(status))}")
    return float(busy if by_processor else by_clock), int(peak) / 1024
