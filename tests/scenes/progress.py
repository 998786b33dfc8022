"""The line that tells on a terminal how much a command has read and written so far: when it comes, that it gives way to replies and to
what is told at the end, and when it doesn't come. A command is made slow where it replies: nobody reads the reply for a while."""
import os
import pty
import re
import signal
import subprocess
import tempfile
import termios
import threading
import time
import tty

from scenes.helping import TABLES, rows
from scenes.locks import until_taken
from scenes.running import ABC, SECONDS, Failed, expect, named, shortened, tree_text
from scenes.stores import DONE, digest, in_a_place

# How long a command works before it tells how far it is. A wait that is longer by far, and longer than two lines are apart.
BEFORE = 0.5
LONG = 1.0
LINE = re.compile(rb"\rhostext: read (\d+) files, (\d+\.\d) MB; wrote (\d+) files, (\d+\.\d) MB")
LESS = b"less\n"
QUIET = {name: value for name, value in os.environ.items() if not name.startswith("HOSTEXT_")}


class Terminal:
    """A pseudo-terminal, and the bytes that were written on it."""

    def __init__(self):
        self.ours, self.theirs = pty.openpty()
        tty.setraw(self.theirs)
        self.written = b""
        self.reader = threading.Thread(target=self.read, daemon=True)
        self.reader.start()

    def read(self):
        try:
            while piece := os.read(self.ours, 65_536):
                self.written += piece
        except OSError:
            pass

    def end(self):
        """Everything that was written, once nobody writes any more."""
        os.close(self.theirs)
        self.reader.join(SECONDS)
        os.close(self.ours)
        return self.written


class Plain:
    """A file in the place of a terminal."""

    def __init__(self):
        self.theirs = tempfile.TemporaryFile()

    def end(self):
        self.theirs.seek(0)
        return self.theirs.read()


class Gone:
    """A terminal that goes while a slow command waits for who reads its reply."""

    def __init__(self):
        ours, self.theirs = pty.openpty()
        self.going = threading.Timer(LONG / 2, os.close, [ours])
        self.going.start()

    def end(self):
        self.going.join()
        os.close(self.theirs)
        return b""


def screen(written):
    """What then stands on a terminal on which these bytes were written, line by line."""
    rows, column = [""], 0
    for character in written.decode():
        if character == "\n":
            rows, column = [*rows, ""], 0
        elif character == "\r":
            column = 0
        else:
            rows[-1] = rows[-1][:column].ljust(column) + character + rows[-1][column + 1 :]
            column += 1
    return [row.rstrip() for row in rows]


def start(place, *words, **streams):
    """Starts a command, which is killed where it doesn't end."""
    found = [os.fsencode(word) for word in (place.program, place.store, place.depot, *words)]
    child = subprocess.Popen(found, **{"stdin": subprocess.DEVNULL, "env": QUIET, **streams})
    killing = threading.Timer(SECONDS, child.kill)
    killing.daemon = True
    killing.start()
    return child


def feed(child, lines):
    """Gives a batch its lines."""
    child.stdin.write(lines)
    child.stdin.close()


def slow_batch(place, lines, told, around=QUIET):
    """A batch whose first reply nobody reads for a while. Gives its replies, what it told, and its status."""
    reading, writing = os.pipe()
    fill(writing)
    child = start(place, "batch", stdin=subprocess.PIPE, stdout=writing, stderr=told.theirs, env=around)
    os.close(writing)
    feed(child, lines)
    until_taken(place.store)
    time.sleep(LONG)
    with open(reading, "rb") as replies:
        return replies.read().lstrip(b"x"), told.end(), child.wait()


def fill(pipe):
    """Writes to a pipe until it takes nothing more."""
    os.set_blocking(pipe, False)
    try:
        while True:
            os.write(pipe, b"x" * 4096)
    except BlockingIOError:
        os.set_blocking(pipe, True)


def stands(written, *rows):
    """That these lines stand on a terminal on which this was written, and nothing else."""
    if screen(written) != [*rows, ""]:
        raise Failed(f"on the terminal stands {shortened(screen(written))}, and not {shortened(rows)}")


def tells(written):
    """The numbers of each line that tells of progress. There is one, and none of its numbers falls."""
    found = [tuple(map(float, line)) for line in LINE.findall(written)]
    if not found:
        raise Failed(f"it tells nothing: {shortened(written)}")
    for earlier, later in zip(found, found[1:]):
        if any(one > other for one, other in zip(earlier, later)):
            raise Failed(f"the numbers fall: {found}")
    return found


def a_slow_import_tells_how_far_it_is(place):
    """It is stopped for a while once it has begun to write."""
    count, content = 2_000, b"x" * 10_000
    files = {f"{at:06}": b"%06d" % at + content for at in range(count)}
    place.resource("many", tree_text(*(f"f 644 {len(content)} {digest(content)} {name}" for name, content in files.items())), files)
    place.expect(("init x86-64 system", DONE))
    terminal = Terminal()
    child = start(place, "import-fs", "many", "/", stdout=subprocess.PIPE, stderr=terminal.theirs)
    while child.poll() is None and not (place.store / "g-2/000/0a").exists():
        time.sleep(0.0001)
    child.send_signal(signal.SIGSTOP)
    time.sleep(LONG)
    child.send_signal(signal.SIGCONT)
    since = time.monotonic()
    replies, written = child.stdout.read(), terminal.end()
    expect((replies, b"", child.wait()), (DONE, b"", 0))
    stands(written)
    found = tells(written)
    if len(found) > 1 + (time.monotonic() - since) / 0.2:
        raise Failed(f"it tells too often: {shortened(written)}")
    for files_read, read, files_written, wrote in found:
        if not (10 <= files_written < files_read <= count + 10 and 0.1 <= wrote < read < 30):
            raise Failed(f"it tells {shortened(written)}")


def the_line_gives_way_to_what_is_told_at_the_end(place):
    place.resource("bad", tree_text("f"))
    place.resource("pipe", tree_text(f"f 644 3 {ABC} a"), {"b": b""})
    os.mkfifo(place.depot / "pipe/a")
    place.expect(("init x86-64 system", DONE))
    reason = f"hostext: look at {place.depot}/pipe/a: neither a file nor a folder stands there"
    for lines, replies, status, wanted in (
        (b"compare 1 2\nimport-fs bad /\n", LESS + b"refused 23 bad-tree 2 bad.tree\n", 0, [f"hostext: line 2: {rows(TABLES[0])['23 `bad-tree`']}"]),
        (b"compare 1 2\nimport-fs pipe /\n", LESS, 6, ["hostext: depot fault", reason]),
    ):
        found = slow_batch(place, lines, Terminal())
        expect(found, (replies, found[1], status))
        tells(found[1])
        stands(found[1], *wanted)


def nobody_is_told_without_a_terminal_or_where_it_is_turned_off(place):
    place.resource("host", tree_text(f"f 644 3 {ABC} a"), {"a": b"abc"})
    place.expect(("init x86-64 system", DONE))
    for told, around in (Plain(), QUIET), (Terminal(), {**QUIET, "HOSTEXT_PROGRESS": "no"}):
        expect(slow_batch(place, b"compare 1 2\nimport-fs host /\n", told, around), (LESS + DONE, b"", 0))


def a_quick_command_tells_nothing(place):
    place.resource("host", tree_text(f"f 644 3 {ABC} a"), {"a": b"abc"})
    for words, reply in (("init", "x86-64", "system"), DONE), (("import-fs", "host", "/"), DONE), (("check",), b"ok 1 3\n"):
        terminal, since = Terminal(), time.monotonic()
        child = start(place, *words, stdout=subprocess.PIPE, stderr=terminal.theirs)
        replies, written, status = child.stdout.read(), terminal.end(), child.wait()
        was_quick = time.monotonic() - since < BEFORE
        expect((replies, written if was_quick else b"", status), (reply, b"", 0))


def on_one_terminal(place, lines):
    """A batch whose replies and whose standard error go to one terminal, which takes nothing for a while."""
    terminal = Terminal()
    termios.tcflow(terminal.theirs, termios.TCOOFF)
    child = start(place, "batch", stdin=subprocess.PIPE, stdout=terminal.theirs, stderr=terminal.theirs)
    feed(child, lines)
    until_taken(place.store)
    time.sleep(LONG)
    termios.tcflow(terminal.theirs, termios.TCOON)
    return terminal.end(), b"", child.wait()


def replies_on_the_same_terminal_stand_alone(place):
    place.resource("host", tree_text(f"f 644 3 {ABC} a"), {"a": b"abc"})
    place.expect(("init x86-64 system", DONE))
    written, told, status = on_one_terminal(place, b"compare 1 2\nimport-fs host /\ntree\n")
    tells(written)
    stands(written, "less", "done", *tree_text(f"f 644 3 {ABC} a").decode().splitlines())
    expect((written, told, status), (written, b"", 0))


def a_file_that_is_shown_on_the_same_terminal_is_not_broken(place):
    """No line of it ends before its last piece."""
    content = b"x" * 300_000
    place.resource("large", tree_text(f"f 644 {len(content)} {digest(content)} a"), {"a": content})
    place.expect(("init x86-64 system", DONE), ("import-fs large /", DONE))
    written, told, status = on_one_terminal(place, b"cat /a\n")
    expect((written[-len(content) :], told, status), (content, b"", 0))


def a_terminal_that_is_gone_is_no_fault(place):
    place.resource("host", tree_text(f"f 644 3 {ABC} a"), {"a": b"abc"})
    place.expect(("init x86-64 system", DONE))
    expect(slow_batch(place, b"compare 1 2\nimport-fs host /\ncheck\n", Gone()), (LESS + DONE + b"ok 1 3\n", b"", 0))


CALLS = [
    *(a_slow_import_tells_how_far_it_is, the_line_gives_way_to_what_is_told_at_the_end),
    *(nobody_is_told_without_a_terminal_or_where_it_is_turned_off, a_quick_command_tells_nothing),
    *(replies_on_the_same_terminal_stand_alone, a_file_that_is_shown_on_the_same_terminal_is_not_broken, a_terminal_that_is_gone_is_no_fault),
]
scenes = named(*map(in_a_place, CALLS))
