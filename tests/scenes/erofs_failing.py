"""Runs of `hostext_erofs` tried as hard as commands are, for tests/hostile: each call of the system that fails, and each request for memory
that is refused. A table by run, so that a later one is a row."""
import os
import re
from dataclasses import dataclass, field

from scenes.erofs_trees import HOME, STAMP, put_store
from scenes.erofs_writing import image_of
from scenes.failing import LINES, TOLD, TRIED_AGAIN, may_be_ignored, ways
from scenes.helping import without_help
from scenes.refusing import OUT_OF_MEMORY, Refused
from scenes.running import Failed, shortened
from scenes.sites import expected, standing
from scenes.traces import calls_of, concerning, straced

STATUSES = {"store": 5, "standard output": 4}
GENERATION, MARK = 7, 3
SMALL = {(b"d",): (b"d", (b"755:1:2",)), (b"d", b"f"): (b"f", (b"4755:0:0:1:8192:0:0", *STAMP)), (b"l",): (b"l", (b"70", b"t" * 70))}
# Of which the image goes out in several pieces.
LARGE = {(b"%04d" % at,): (b"f", (b"644", *STAMP)) for at in range(1_500)}
LONG = {(b"l",): (b"l", (b"4096", b"t" * 4096))}


@dataclass(frozen=True)
class ImageRun:
    """A run as it is tried: its words, what it writes, and what the store shows and has marked; nothing where there is no store."""

    words: str
    reply: bytes = field(hash=False, repr=False)
    entries: dict = field(hash=False, compare=False, repr=False)
    marked: dict = field(default=None, hash=False, compare=False, repr=False)

    name, long, waits, has_stops = "hostext_erofs", False, False, False

    @property
    def title(self):
        return f"`hostext_erofs {self.words}` over {'nothing' if self.entries is None else f'{len(self.entries)} entries'}"

    @property
    def done(self):
        return int(self.reply.startswith(b"refused "))


IMAGES = [
    ImageRun("", image_of(SMALL), SMALL),
    ImageRun("", image_of(LARGE), LARGE),
    ImageRun("--mark=3 --time=9", image_of(SMALL, 9), LARGE, SMALL),
    ImageRun("--mark=4", b"refused 37 no-mark 4\n", SMALL, SMALL),
    ImageRun("", b"refused 38 link /l\n", LONG),
    ImageRun("", b"refused 1 no-store\n", None),
]


class Press:
    """A store over which images are written."""

    def __init__(self, program, place, folder):
        self.program, self.place, self.folder = program, place, folder

    def words(self, run):
        return [self.program, self.place.store, *filter(None, run.words.split(" "))]

    def lay(self, run):
        """The store as the run finds it."""
        if run.entries is not None:
            put_store(self.place, GENERATION, run.entries, {HOME: b"abc"}, run.marked and {MARK: run.marked})


class Tried:
    """A run over a store that stays as it is, however it ends."""

    def __init__(self, press, run):
        self.press, self.use = press, run
        press.lay(run)
        self.store = standing(press.place.store)

    def ends(self, written, told, status, lines, with_reason=()):
        """The image or the refusal's line where it is done or refused, and else the line of its status, and where a folder failed a
        second one. A beginning of the image may stand before a line."""
        if status not in lines:
            expected((written, told, status), (self.use.reply, [], self.use.done))
        wanted = [re.escape(lines[status]), *(with_reason if status == 5 else ())] if status in lines else []
        if len(told) != len(wanted) or not all(map(re.fullmatch, wanted, told)):
            raise Failed(f"it ends with {status} and tells {shortened(told)}")
        if not self.use.reply.startswith(written) or (written and status == 5):
            raise Failed(f"with {status} it writes {shortened(written)}")
        if standing(self.press.place.store) != self.store:
            raise Failed("the store is other than before")


class FailingImage(Tried):
    """A run whose calls fail."""

    def __init__(self, press, run):
        super().__init__(press, run)
        written, _, status, lines = self.traced()
        expected((written, status), (run.reply, run.done))
        self.calls = concerning(calls_of(lines, {os.fspath(press.place.store): "store"}))

    def traced(self, *options, around=None):
        return straced(self.press.words(self.use), self.press.folder / "calls", *options, around=around)

    def tries(self, short):
        for number, call in enumerate(self.calls):
            found = ways(call)
            yield from ((call, way) for way in ((found[number % len(found)],) if short else found))

    def allowed(self, call, way):
        """The statuses with which a run may end where the call fails so."""
        if call.on == "standard error" or may_be_ignored(call) or (way == "EINTR" and call.name in TRIED_AGAIN):
            return (self.use.done,)
        return (STATUSES[call.on], self.use.done) if way == "EINTR" else (STATUSES[call.on],)

    def fail(self, call, way):
        inject = ["-e", f"trace={call.name}", "-e", f"inject={call.name}:error={way}:when={call.number}"]
        written, told, status, lines = self.traced(*inject, around={**os.environ, "HOSTEXT_EXPLAIN": "yes"})
        if not (failed := [line for line in lines if "(INJECTED)" in line]):
            raise Failed("the call isn't made")
        if call.place not in failed[0]:
            raise Failed(f"another call is made: {failed[0]}")
        if status not in (allowed := self.allowed(call, way)):
            raise Failed(f"it ends with {status} {shortened(told)}, and not {' or '.join(map(str, allowed))}")
        is_a_look = call.name in ("statx", "newfstatat", "fstat")
        reason = "hostext: .*" if is_a_look else rf"hostext: ({TOLD.get(call.name, '.*')}) .*: .*"
        self.ends(written, without_help(told).decode().splitlines(), status, LINES, [reason])


class RefusingImage(Tried):
    """A run whose requests for memory are refused."""

    def __init__(self, press, run):
        super().__init__(press, run)
        self.memory = Refused(press.folder)
        self.count, ended = self.memory.count(press.words(run))
        expected(ended, (run.reply, b"", run.done))

    def refuse(self, number):
        written, told, status = self.memory.refuse(number, self.press.words(self.use))
        self.ends(written, told.decode().splitlines(), status, {**LINES, 7: OUT_OF_MEMORY})
        return status
