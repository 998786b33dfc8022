"""How a tool ends: by its status, and without what it made where a signal ends it.

A signal raises `Stopped` where the tool is, and whoever made something takes it away on the way out. Nothing interrupts that: further
signals are ignored. A signal that was ignored when the tool was started stays so, as nohup(1) wants it.
"""
import signal
import subprocess
from contextlib import contextmanager

SIGNALS = signal.SIGHUP, signal.SIGINT, signal.SIGTERM


class Stopped(BaseException):
    """A signal that ends the tool, by its number."""


def end_at_once():
    """Lets an interruption end a tool that hasn't made anything yet, without a traceback."""
    if signal.getsignal(signal.SIGINT) is signal.default_int_handler:
        signal.signal(signal.SIGINT, signal.SIG_DFL)


def ignore():
    """From here on no signal but a kill ends the tool: what it was asked for stands, or goes already."""
    for number in SIGNALS:
        signal.signal(number, signal.SIG_IGN)


def stop(number, _frame):
    ignore()
    raise Stopped(number)


def catch():
    for number in SIGNALS:
        if signal.getsignal(number) is not signal.SIG_IGN:
            signal.signal(number, stop)


def heed():
    """Lets a process that is started be ended by signals, whatever started this one had ignored."""
    for number in SIGNALS:
        signal.signal(number, signal.SIG_DFL)


def hold():
    """Lets signals wait while something is made that nobody takes away yet. No process is started meanwhile, since it would inherit
    that."""
    signal.pthread_sigmask(signal.SIG_BLOCK, SIGNALS)


def let_go():
    signal.pthread_sigmask(signal.SIG_UNBLOCK, SIGNALS)


@contextmanager
def started(words, **options):
    """A program that ends with what it was started for: no signal comes between its start and who ends it, and it holds none itself."""
    hold()
    try:
        child = subprocess.Popen(words, preexec_fn=let_go, **options)
        try:
            try:
                let_go()
                yield child
            finally:
                hold()
        finally:
            child.kill()
            child.wait()
    finally:
        let_go()
