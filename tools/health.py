"""Health checks: the programs of a folder, run one after another in byte order of their names. Each is run by the handle by which it
was looked at, with a time that it may take; what it leaves running ends with it.
"""
import os
import signal
import subprocess
from contextlib import suppress

import ending
from entries import reasons_of


def first_failure(own, seconds, around):
    """The first check that fails, with the reason; nothing where all succeed. The programs have more variables."""
    with own.opened_checks() as (names, above):
        for name in names:
            if reason := failure(own, name, above, seconds, around):
                return f"{name}: {reason}"
    return None


def failure(own, name, above, seconds, around):
    handle = own.check(name, above)
    try:
        return outcome(name, handle, seconds, {**os.environ, **around})
    except OSError as error:
        return f"it can't be started: {reasons_of(error)[0]}"
    finally:
        os.close(handle)


def outcome(name, handle, seconds, around):
    options = {"stdin": subprocess.DEVNULL, "start_new_session": True, "cwd": "/", "env": around}
    with ending.started([name], executable=f"/proc/self/fd/{handle}", pass_fds=(handle,), **options) as child:
        try:
            status = child.wait(seconds)
        except subprocess.TimeoutExpired:
            return f"it had not ended after {seconds:,} seconds"
        finally:
            with suppress(ProcessLookupError):
                os.killpg(child.pid, signal.SIGKILL)
    if status < 0:
        return f"it was ended by the signal {-status}"
    return f"its status is {status}" if status else None
