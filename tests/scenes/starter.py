"""Starts programs for another process, and tells what they used. It is a process of its own, and small, since the peak of a process's
memory begins with that of the one that started it: starter.py SECONDS INPUT OUTPUT ERROR.

Each line on standard input is a command, its words joined by a byte 0, in hexadecimal digits. The three files are its streams. A line
on standard output answers: the status, the seconds of the processor and the peak of memory in KiB; or `late`, of what was killed since
it took more than SECONDS by the clock."""
import os
import signal
import sys

READ, WRITE = os.O_RDONLY, os.O_WRONLY | os.O_CREAT | os.O_TRUNC


class TooLate(Exception):
    """A process has not ended in time."""


def late(_signal, _frame):
    raise TooLate


def used_by(child, seconds):
    """What a process used that has ended."""
    signal.setitimer(signal.ITIMER_REAL, seconds)
    try:
        _, status, used = os.wait4(child, 0)
    except TooLate:
        os.kill(child, signal.SIGKILL)
        os.wait4(child, 0)
        return "late"
    finally:
        signal.setitimer(signal.ITIMER_REAL, 0)
    return f"{os.waitstatus_to_exitcode(status)} {used.ru_utime + used.ru_stime} {used.ru_maxrss}"


def main():
    seconds, *streams = sys.argv[1:]
    actions = [(os.POSIX_SPAWN_OPEN, at, path, WRITE if at else READ, 0o600) for at, path in enumerate(streams)]
    signal.signal(signal.SIGALRM, late)
    for line in sys.stdin:
        command = bytes.fromhex(line).split(b"\x00")
        child = os.posix_spawn(command[0], command, {"HOSTEXT_EXPLAIN": "yes"}, file_actions=actions)
        print(used_by(child, float(seconds)), flush=True)


if __name__ == "__main__":
    main()
