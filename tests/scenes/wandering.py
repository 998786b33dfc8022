"""Random lists of commands of both programs, and what they come to in memory: the reply to each, and after each what a look shows of
the store, and what stands in the folder in which is published."""
import os
import subprocess
from dataclasses import dataclass

from scenes.running import SECONDS, Failed, shortened
from scenes.sites import standing
from scenes.stores import Place
from scenes.uses import fill

# What a look asks of a store, by one batch.
LOOK = b"tree\ncheck\nhistory\nsysext list\nsysext status\nconfext list\nconfext status\nportable list\nsysupdate list\n"
FIRST = "init x86-64 system", "import-fs host /"
# What is drawn from: G stands for a mark, and N for a name that isn't listed yet.
SETTING = (
    *("import-fs x /var/lib/extensions/x", "import-fs y /var/lib/extensions/y", "import-fs c /var/lib/confexts/c", "import-fs d /var/lib/confexts/d"),
    *("import-fs profile /usr/lib/systemd/portable/profile/default", "import-fs app /var/lib/portables/app_1", "import-fs app /home/app_2"),
    *("import-fs two-transfers /etc/sysupdate.d", "import-fs foos /var/lib/foo"),
)
CHANGING = (
    *("import-fs few /srv", "import-fs many /srv", "import-fs large /srv", "import-fs other /next", "import-fs many /home/many", "import-fs few /home/few"),
    *("remove /srv", "remove /own", "remove /home", "remove /next", "remove /srv/f07", "remove /var/lib/extensions/x", "remove /var/lib/confexts/c"),
    *("sysext merge", "sysext merge --force", "sysext refresh", "sysext refresh --force", "sysext unmerge", "confext merge", "confext refresh", "confext unmerge"),
    *("sysupdate update", "sysupdate update 2", "sysupdate vacuum", "mark", "mark", "mark 1", "rollback G", "rollback G", "forget G", "migrate"),
    *("portable attach app_1", "portable attach /home/app_2 --runtime", "portable reattach /home/app_2", "portable detach app_1", "portable detach app_2"),
)
PUBLISHING = "/srv r N", "/srv r/s N", "/usr r N", "/etc/os-release s N", "/home r N", "/usr r published-2"
PUBLISHED = "publish "
# Of ten commands so many set something up, and so many publish; and such a share stays of those that change nothing.
SETS, PUBLISHES, NOTHING = 2, 2, 0.3


@dataclass(frozen=True)
class State:
    """What a command is to leave: what `current` has, what a look shows, and what stands where is published."""

    current: bytes
    look: bytes
    out: dict

    def is_in(self, other):
        """Whether another state is this one, but for what no manifest lists there."""
        sums = {path: content for path, content in other.out.items() if path.endswith("SHA256SUMS")}
        mine = {path: content for path, content in self.out.items() if path.endswith("SHA256SUMS")}
        same = (self.current, self.look, mine) == (other.current, other.look, sums)
        return same and all(other.out.get(path, b"-") == content for path, content in self.out.items())


class Host:
    """A store, and a folder in which is published, and the programs that work on them."""

    def __init__(self, programs, depot, folder, around=None):
        self.programs, self.depot, self.store, self.out = programs, depot, folder / "store", folder / "out"
        self.around = {**os.environ, **(around or {})}

    def words(self, command):
        """What runs a command; one that begins with `publish` is of the other program."""
        hostext, publisher = self.programs
        if command.startswith(PUBLISHED):
            return [publisher, self.store, self.out, *command.removeprefix(PUBLISHED).split(" ")]
        return [hostext, self.store, self.depot, *command.split(" ")]

    def run(self, command, source=b""):
        """What a command writes, with its line on standard error, and its status."""
        try:
            ended = subprocess.run(self.words(command), input=source, capture_output=True, env=self.around, timeout=SECONDS)
        except subprocess.TimeoutExpired:
            raise Failed(f"`{command}` had not ended after {SECONDS} seconds") from None
        return ended.stdout + ended.stderr, ended.returncode

    def state(self):
        current = self.store / "current"
        return State(current.read_bytes() if current.exists() else None, self.run("batch", LOOK)[0], standing(self.out))


class Story:
    """A random list of commands, with its replies and its states: one before it, and one after each command. `set_up` are the first ones,
    where these are to set up a host before anything is recorded."""

    def __init__(self, programs, folder, rng, count, is_set_up):
        self.programs = programs
        place = Place(programs[0], folder)
        fill(place)
        (folder / "out").mkdir()
        self.depot, self.host, self.rng = place.depot, Host(programs, place.depot, folder), rng
        self.commands, self.replies, self.states = [], [], [self.host.state()]
        self.set_up = (*FIRST, *rng.sample(SETTING, len(SETTING))) if is_set_up else ()
        for command in self.set_up or FIRST:
            self.add(command)
        while len(self.commands) < len(self.set_up) + count:
            self.add(self.drawn())

    def drawn(self):
        which = self.rng.randrange(10)
        if which < PUBLISHES:
            return PUBLISHED + self.rng.choice(PUBLISHING).replace("N", f"published-{len(self.commands)}")
        command = self.rng.choice(SETTING if which < PUBLISHES + SETS else CHANGING)
        return command.replace("G", self.rng.choice(self.marks() or ["1"]))

    def marks(self):
        return [line.split(" ")[0] for line in self.host.run("history")[0].decode().splitlines() if line[0].isdigit()]

    def add(self, command):
        """Adds a command, but for most of those that change nothing."""
        reply, status = self.host.run(command)
        if status > 1:
            raise Failed(f"in memory `{command}` ends with {status}: {shortened(reply)}")
        state = self.host.state()
        if state == self.states[-1] and self.rng.random() > NOTHING:
            return
        self.commands.append(command)
        self.replies.append((reply, status))
        self.states.append(state)

    def told(self, number):
        """A state for who reads it: the command after which it comes."""
        return f"state {number}, {'the first' if not number else f'after `{self.commands[number - 1]}`'}"
