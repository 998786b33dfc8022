"""What a tool tells on standard error while it works: lines that are asked for, and on a terminal how far it is.

Once a tool works for more than half a second a line tells its progress there, as that of `hostext` does: it is written over the one
before, five times a second at the most, and wiped before anything else is written. HOSTEXT_PROGRESS=no turns it off.
"""
import os
import sys
import time

from entries import shown

BEFORE = 0.5
BETWEEN = 0.2
MOST_SHOWN = 3


class Found:
    """How many entries there are of a kind, and the first of them."""

    def __init__(self):
        self.count, self.first = 0, []

    def add(self, path):
        self.count += 1
        if len(self.first) < MOST_SHOWN:
            self.first.append(path)

    def __str__(self):
        more = ", .." if self.count > len(self.first) else ""
        return f"{self.count:,} ({', '.join(map(shown, self.first))}{more})"


class Teller:
    """The lines of a tool, of which a quiet one has none."""

    def __init__(self, name, is_quiet):
        self.name, self.is_quiet = name, is_quiet
        self.tells_progress = not is_quiet and os.environ.get("HOSTEXT_PROGRESS") != "no" and is_terminal(sys.stderr)
        self.due, self.width = time.monotonic() + BEFORE, 0
        self.entries = self.files = self.size = 0

    def __enter__(self):
        return self

    def __exit__(self, *_):
        self.wipe()

    def tell(self, *lines):
        if self.is_quiet:
            return
        self.wipe()
        self.write("".join(f"{self.name}: {line}\n" for line in lines))

    def looked(self):
        """Counts an entry that was looked at."""
        self.entries += 1
        if self.tells_progress:
            self.progress("looked at {0.entries} entries")

    def read(self, size):
        """Counts a file that was read."""
        self.count(size, "read {0.files} files, {0.megabytes} MB")

    def wrote(self, size):
        """Counts a file that was written."""
        self.count(size, "wrote {0.files} files, {0.megabytes} MB")

    def count(self, size, form):
        self.files += 1
        self.size += size
        if self.tells_progress:
            self.progress(form)

    @property
    def megabytes(self):
        return f"{self.size // 1_000_000}.{self.size // 100_000 % 10}"

    def progress(self, form):
        if time.monotonic() < self.due:
            return
        line = f"{self.name}: {form.format(self)}"
        self.write("\r" + line.ljust(self.width))
        self.due, self.width = time.monotonic() + BETWEEN, len(line)

    def wipe(self):
        if self.width:
            self.write("\r" + " " * self.width + "\r")
            self.width = 0

    def write(self, text):
        """A terminal that is gone ends nothing."""
        try:
            if sys.stderr:
                sys.stderr.write(text)
                sys.stderr.flush()
        except OSError:
            self.tells_progress = False


def is_terminal(stream):
    return bool(stream) and stream.isatty()
