"""Updates with health checks: tools/tend over a real store, with a tool in place of activate that writes down how it was called, and notes
what it would show; each step that fails, runs that are killed between any two steps, and two at once."""
import fcntl
import os
import re
import shutil
import signal
import subprocess
import sys
import time
from importlib.machinery import SourceFileLoader
from importlib.util import module_from_spec, spec_from_loader

from scenes.breaking import wait_for
from scenes.installing import TOOL as TRANSFER
from scenes.installing import begin, offer
from scenes.locks import locked, waits
from scenes.running import SECONDS, Failed, expect, named
from scenes.stores import in_a_place
from scenes.tools import TOOLS, beside, script
from scenes.uses import tree_of

sys.path.insert(0, str(TOOLS))

# The three steps, as the units run them.
COMMANDS = "update", "switch", "health"
# Plays activate: one line for each call, and `fail` names the commands that fail.
ACTIVATE = """
there=$(dirname "$0")
shift_store=$1; command=$2
echo "$@" | cut -d' ' -f2- >>"$there/told"
now="$1/active/now"
current=$(sed s/g-// "$1/current")
case $command in
    status)
        number=null; [ ! -e "$now" ] || number=$(cat "$now")
        [ $number = null ] && places= || places="{\\"path\\": \\"/usr\\", \\"generation\\": $number}"
        echo "{\\"now\\": $number, \\"shown\\": [$places], \\"merged\\": {\\"sysext\\": [\\"tool-1\\"]}}"
        ;;
    make) echo "made $current" ;;
    switch)
        if grep -qx "$current fresh" "$1/active/trial" 2>/dev/null; then echo "$current tried" >"$1/active/trial"; fi
        ;;
esac
case " $*" in
    *\ --mark=*) command=mark; current=${3#--mark=} ;;
esac
! grep -qsx $command "$there/fail" || { echo "activate: it fails" >&2; exit 1; }
case $command in
    switch | mark) echo $current >"$now" ;;
esac
"""
# Runs a program, and kills who called it before or after one of the calls.
KILLER = """
echo x >>{calls}
at=$(wc -l <{calls})
if [ "$at" = "$(cat {kill})" ]; then
    [ "$(cat {when})" = after ] && "{program}" "$@" >/dev/null 2>&1
    kill -9 $PPID
    exit 1
fi
exec "{program}" "$@"
"""


class Host:
    """A store at version 1, which is merged and shown, with a root that has a configuration and a health check."""

    def __init__(self, place, has_checks=True):
        self.place, self.store = place, place.store
        self.root, self.own = beside(place, "root"), beside(place, "root") / "etc/hostext"
        self.program, self.activate = place.program, beside(place, "activate")
        self.own.mkdir(parents=True)
        self.name = escaped(place.store)
        begin(place, tool=TRANSFER)
        offer(place, 1)
        place.expect(("sysupdate update", b"updated 1\n"), ("sysext merge", b"merged 1\ntool-1\n"))
        self.say(f"[Store]\nDepot={place.depot}\n")
        script(self.activate, ACTIVATE)
        if has_checks:
            self.check("10-first", f"grep -q . {place.store}/current; ! test -e {beside(place, 'sick')}")
            (place.store / "active").mkdir(mode=0o700)
            self.notes("now", "4\n")

    def say(self, text):
        (self.own / f"{self.name}.conf").write_text(text)

    def check(self, name, text):
        folder = self.own / f"{self.name}.health.d"
        folder.mkdir(exist_ok=True)
        script(folder / name, text)
        return folder / name

    def notes(self, name, text):
        (self.store / "active" / name).write_text(text)

    def note(self, name):
        path = self.store / "active" / name
        return path.read_text() if path.exists() else None

    def sicken(self):
        beside(self.place, "sick").touch()

    def fail(self, *commands):
        beside(self.place, "fail").write_text("".join(f"{command}\n" for command in commands))

    def around(self):
        return {**os.environ, "HOSTEXT": str(self.program), "HOSTEXT_ACTIVATE": str(self.activate)}

    def words(self, *words):
        return [TOOLS / "tend", "--root", self.root, self.store, *words]

    def run(self, *words):
        ended = subprocess.run(self.words(*words), env=self.around(), stdin=subprocess.DEVNULL, capture_output=True, timeout=SECONDS)
        return ended.stdout.decode(), ended.stderr.decode(), ended.returncode

    def start(self, *words):
        streams = {"stdin": subprocess.DEVNULL, "stdout": subprocess.PIPE, "stderr": subprocess.PIPE}
        return subprocess.Popen(self.words(*words), env=self.around(), **streams)

    def ends(self, command, *wanted):
        """Compares what a command writes, what it tells and its status."""
        found = self.run(*command.split(" "))
        if found != wanted:
            raise Failed(f"`{command}` ends with {found}, and not {wanted}")

    def told(self):
        """How activate was called since the last time."""
        told = beside(self.place, "told")
        found = told.read_text().splitlines() if told.exists() else []
        told.unlink(missing_ok=True)
        return found

    def all(self):
        return [self.run(command)[2] for command in COMMANDS]

    def is_settled(self, *, shows, refused=None, marks=b""):
        """That no update is under way, with what the store shows, what is refused, and the marks."""
        self.place.expect(("cat /usr/tool", b"tool %d\n" % shows), ("history", marks))
        found = self.note("update"), self.note("trial"), self.note("refused")
        if found != (None, None, refused):
            raise Failed(f"the folder `active` has {found}")


def escaped(path):
    """As systemd-escape(1) writes it with --path, but for what stands in no path of these scenes."""
    return re.sub(r"[^\w:.]", lambda found: f"\\x{ord(found[0]):02x}", str(path).strip("/"), flags=re.A).replace("\\x2f", "-")


def on_a_host(call):
    """A scene over such a host, for which version 2 is offered."""

    def scene(place):
        host = Host(place)
        offer(place, 1, 2)
        call(host)

    scene.__name__ = call.__name__
    return in_a_place(scene)


UPDATED = "marked 4\nupdated 2\nmerged 2\ntool-1\ntool-2\n"
TAKEN = "tend: version 2 is taken back, and skipped from now on: "


def an_update_is_shown_checked_and_stays(host):
    host.ends("update", UPDATED, "", 0)
    if host.note("update") != "installed 4 7 - 2\n" or host.note("trial") != "7 fresh\n" or host.told():
        raise Failed(f"after an update there is {host.note('update')!r} and {host.note('trial')!r}")
    waits = "tend: version 2 waits: `tend STORE switch` and then `tend STORE health` go on with it\n"
    host.ends("update", "", waits, 0)
    host.ends("health", "", "tend: version 2 waits to be shown: `tend STORE switch` shows it\n", 0)
    host.told()
    host.ends("switch", "made 7\n", "", 0)
    expect((host.told(),), (["status --json", "make", f"switch --root={host.root}"],))
    expect((host.note("trial"),), ("7 tried\n",))
    host.ends("health", "", "tend: version 2 stays, in generation 7\n", 0)
    host.is_settled(shows=2)
    for command in "update", "health":
        host.ends(command, "", "", 0)
    host.is_settled(shows=2)


def a_check_that_fails_takes_the_version_back_and_it_is_skipped(host):
    before = host.place.run("tree")
    host.sicken()
    host.ends("update", UPDATED, "", 0)
    host.ends("switch", "made 7\n", "", 0)
    host.told()
    host.ends("health", "made 9\n", f"{TAKEN}10-first: its status is 1\ntend: health: a version was taken back\n", 1)
    if [line for line in host.told() if not line.startswith("status")] != ["make", f"switch --root={host.root}"]:
        raise Failed("what the mark had isn't shown")
    host.is_settled(shows=1, refused="2\n")
    expect(host.place.run("tree"), before)
    host.ends("update", "", f"tend: version 2 is skipped: it is in {host.store}/active/refused\n", 0)
    host.ends("switch", "", "", 0)
    host.ends("health", "", "", 0)
    beside(host.place, "sick").unlink()
    offer(host.place, 1, 2, 3)
    expect((host.all(),), ([0, 0, 0],))
    host.is_settled(shows=3, refused="2\n")


def checks_run_in_byte_order_up_to_the_first_that_fails(host):
    out = beside(host.place, "out")
    for name, status in ("9", 0), ("B", 0), ("a", 7), ("b", 0), (".hidden", 9):
        host.check(name, f'echo "{name} $HOSTEXT_VERSION $HOSTEXT_GENERATION $HOSTEXT_STORE" >>{out}; pwd >>{out}; exit {status}')
    host.run("update")
    host.run("switch")
    expect(host.run("health")[1:], (f"{TAKEN}a: its status is 7\ntend: health: a version was taken back\n", 1))
    expect((out.read_text(),), ("".join(f"{name} 2 7 {host.store}\n/\n" for name in ("9", "B", "a")),))


def a_check_that_does_not_end_is_ended_with_what_it_started(host):
    left = beside(host.place, "left")
    host.say(f"[Store]\nDepot={host.place.depot}\nCheckSec=1\n")
    host.check("slow", f"(sleep 3; touch {left}) & sleep 100")
    host.run("update")
    host.run("switch")
    began = time.monotonic()
    expect(host.run("health")[1:], (f"{TAKEN}slow: it had not ended after 1 seconds\ntend: health: a version was taken back\n", 1))
    if time.monotonic() - began > 20:
        raise Failed("it took too long")
    time.sleep(max(0, began + 4.5 - time.monotonic()))
    if left.exists():
        raise Failed("what a check started outlives it")
    host.is_settled(shows=1, refused="2\n")


def a_check_that_can_not_be_started_fails(host):
    host.check("odd", "").write_bytes(b"no program\n")
    host.run("update")
    host.run("switch")
    _, told, status = host.run("health")
    if status != 1 or f"{TAKEN}odd: it can't be started: " not in told:
        raise Failed(f"it ends with {status} and tells {told!r}")
    host.is_settled(shows=1, refused="2\n")


def without_checks_nothing_is_marked(place):
    """It is what tools/update does, and no folder is made."""
    host = Host(place, has_checks=False)
    offer(place, 1, 2)
    host.ends("update", "updated 2\nmerged 2\ntool-1\ntool-2\n", "", 0)
    host.ends("update", "unchanged\n", "", 0)
    for command in "switch", "health":
        host.ends(command, "", "", 0)
    if (place.store / "active").exists() or host.told():
        raise Failed("a store that is never shown has a folder `active`")


def a_store_without_room_for_a_mark_is_not_updated(host):
    """No mark goes for one of an update, and the next run after one was dropped does all."""
    for _ in range(16):
        host.place.run("mark")
    before = host.place.stands()
    told = "tend: the store has 16 marks, and one more would take the oldest away: drop one by `forget`\n"
    host.ends("update", "", told, 1)
    found = host.place.stands()
    if {path: found.get(path) for path in before} != before or host.note("update"):
        raise Failed("the store has changed")
    host.place.expect(("forget 4", b"done\n"))
    expect((host.all(),), ([0, 0, 0],))


def a_mark_that_is_refused_changes_nothing(host):
    """A program in place of hostext refuses it."""
    real = host.program
    host.program = script(beside(host.place, "program"), f'[ "$3" != mark ] || {{ echo "refused 7 limit index"; exit 1; }}\nexec "{real}" "$@"')
    before = host.place.run("tree")
    host.ends("update", "", "tend: mark: refused 7 limit index\n", 1)
    expect(host.place.run("tree"), before)
    host.program = real
    expect((host.all(),), ([0, 0, 0],))
    host.is_settled(shows=2)


def an_update_that_is_refused_drops_its_mark(host):
    (host.place.depot / "images/tool-2/usr/tool").unlink()
    host.ends("update", "marked 4\n", "tend: sysupdate update 2: refused 24 not-in-depot images/tool-2/usr/tool\n", 1)
    host.is_settled(shows=1)
    offer(host.place, 1, 2)
    expect((host.all(),), ([0, 0, 0],))
    host.is_settled(shows=2)


def a_version_that_can_not_be_merged_is_taken_back_unseen(host):
    real = host.program
    host.program = script(beside(host.place, "program"), f'[ "$4" != refresh ] || {{ echo "refused 7 limit entries"; exit 1; }}\nexec "{real}" "$@"')
    told = f"{TAKEN}sysext refresh: refused 7 limit entries\ntend: update: a version was taken back\n"
    host.ends("update", "marked 4\nupdated 2\n", told, 1)
    if host.told():
        raise Failed("it shows something")
    host.program = real
    host.is_settled(shows=1, refused="2\n")


def a_generation_that_can_not_be_shown_is_taken_back(host):
    """Where it can't be made, or the host can't be shown as it was either, it isn't to blame, and the next run goes on."""
    root = f"--root={host.root}"
    host.run("update")
    host.fail("make")
    host.ends("switch", "made 7\n", "activate: it fails\ntend: activate make: its status is 1\n", 1)
    host.fail("switch", "mark")
    host.ends("switch", "made 7\n", f"activate: it fails\nactivate: it fails\ntend: activate switch {root}: its status is 1\n", 1)
    if host.note("refused") or host.note("now") != "4\n":
        raise Failed("the version is blamed")
    host.fail("switch")
    told = f"activate: it fails\n{TAKEN}activate switch {root}: its status is 1\ntend: switch: a version was taken back\n"
    host.told()
    host.ends("switch", "made 7\n", told, 1)
    expect((host.told()[-2:],), ([f"switch --mark=4 {root}", "status --json"],))
    host.is_settled(shows=1, refused="2\n")
    expect((host.note("now"),), ("4\n",))


def where_the_mark_is_gone_nothing_goes_back(host):
    host.run("update")
    host.run("switch")
    host.place.expect(("forget 4", b"done\n"))
    host.sicken()
    told = f"mark 4 is gone, so that the store can't go back: see to it by hand, and then take {host.store}/active/update away\n"
    host.ends("health", "", f"{TAKEN}10-first: its status is 1\ntend: {told}", 1)
    host.ends("switch", "", f"tend: {told}", 1)
    host.place.expect(("cat /usr/tool", b"tool 2\n"))


def a_version_that_no_boot_found_healthy_is_taken_back(host):
    """The machine stopped after it was shown, and the next boot shows what was shown before."""
    for command in "health", "switch":
        offer(host.place, 1, 2)
        shutil.rmtree(host.store / "active")
        (host.store / "active").mkdir(mode=0o700)
        number = host.place.run("history")[0].split()
        host.notes("now", f"{generation_of(host)}\n")
        shown = host.note("now")
        expect(([host.run(step)[2] for step in ("update", "switch")],), ([0, 0],))
        attempt = host.note("update").split()
        host.notes("update", " ".join([*attempt[:3], "0" * 8 + "-0000" * 3 + "-" + "0" * 12, *attempt[4:]]) + "\n")
        host.notes("now", shown)
        why = "it was shown once, and not found healthy before the machine started anew"
        host.ends(command, "", f"{TAKEN}{why}\ntend: {command}: a version was taken back\n", 1)
        host.is_settled(shows=1, refused="2\n")
        if number:
            raise Failed("a mark is left")


def generation_of(host):
    return int((host.store / "current").read_text().removeprefix("g-"))


def a_switch_that_was_stopped_is_no_boot_that_hung(host):
    """In the same boot the generation is shown once more, and gets its checks."""
    host.run("update")
    host.run("switch")
    host.notes("now", "4\n")
    host.ends("health", "", "tend: version 2 waits to be shown: `tend STORE switch` shows it\n", 0)
    expect(([host.run(command)[2] for command in ("switch", "health")],), ([0, 0],))
    host.is_settled(shows=2)


def what_somebody_changes_meanwhile_is_marked_before_the_store_goes_back(host):
    other = {"srv/own": b"own"}
    host.run("update")
    host.place.resource("other", tree_of(other), other)
    host.place.expect(("import-fs other /srv/other", b"done\n"))
    host.run("switch")
    host.place.expect(("import-fs other /srv/later", b"done\n"))
    changed = host.place.run("tree")[0]
    host.sicken()
    _, told, status = host.run("health")
    kept = int(re.search("what it has is kept as mark ([0-9]+)", told)[1])
    marks = host.place.run("history")[0].split(b" ")
    expect((status, int(marks[0])), (1, kept))
    host.is_settled(shows=1, refused="2\n", marks=b" ".join(marks))
    host.place.expect((f"rollback {kept}", b"done\n"), ("tree", changed))


def without_room_for_what_somebody_changed_nothing_goes_back(host):
    for command in "update", "switch":
        host.run(command)
    for _ in range(15):
        host.place.run("mark")
    host.place.expect(("remove /etc/sysupdate.d", b"done\n"))
    tree = host.place.run("tree")
    host.sicken()
    _, told, status = host.run("health")
    if status != 1 or "the store has 16 marks" not in told or host.place.run("tree") != tree:
        raise Failed(f"it ends with {status} and tells {told!r}")
    host.place.expect((f"forget {host.place.run('history')[0].split()[0].decode()}", b"done\n"))
    expect((host.run("health")[2],), (0,))
    host.place.expect(("cat /usr/tool", b"tool 1\n"))


def an_update_file_that_is_none_is_refused(host):
    for text in "", "installed 3 6 - 2", "installed 3 6 2\n", "shown 3 6 - 2\n", "bad 3 6 - \n", "bad x 6 - 2\n":
        host.notes("update", text)
        for command in COMMANDS:
            host.ends(command, "", "tend: update: it tells of no update: take it away where none is under way\n", 1)
    (host.store / "active/update").unlink()
    (host.store / "active/update").symlink_to("now")
    if host.run("update")[2] != 1:
        raise Failed("a link is followed")


def a_folder_of_somebody_else_is_refused(host):
    (host.store / "active").chmod(0o755)
    for command in COMMANDS:
        host.ends(command, "", f"tend: {host.store}/active: it has to be the caller's own, with the mode 700\n", 1)


def is_tended(host):
    """Whether a run has the lock."""
    path = host.store / "active/tend"
    if not path.exists():
        return False
    with open(path, "rb") as file:
        try:
            fcntl.flock(file, fcntl.LOCK_EX | fcntl.LOCK_NB)
        except BlockingIOError:
            return True
    return False


def two_at_once_come_one_after_the_other(host):
    """The second waits, and says so."""
    with locked(host.store):
        first = host.start("update")
        wait_for(lambda: is_tended(host))
        second = host.start("update")
        waits(second)
    found = [child.communicate(timeout=SECONDS) for child in (first, second)]
    expect((found[0][0],), (UPDATED.encode(),))
    told = b"tend: waiting for another run on this store\ntend: version 2 waits: `tend STORE switch` and then `tend STORE health` go on with it\n"
    expect(found[1], (b"", told))
    expect(([host.run(command)[2] for command in ("switch", "health")],), ([0, 0],))
    host.is_settled(shows=2)


# Runs that are killed.


def with_a_killer(host):
    """Has each call of hostext and of activate go through one that may kill who called."""
    told = {name: beside(host.place, name) for name in ("calls", "kill", "when")}
    for name, program in ("program", host.program), ("activate", host.activate):
        killer = script(beside(host.place, f"killing-{name}"), KILLER.format(program=program, **told))
        setattr(host, name, killer)


def killed_at(host, number, when):
    """Has the run that makes the call of this number be killed, before it or after it."""
    for name, text in ("kill", str(number)), ("when", when), ("calls", ""):
        beside(host.place, name).write_text(text)


def forked(host, tend, command, before=lambda: None):
    """The status of a command that runs in a child of this process, which saves it the time in which Python starts."""
    child = os.fork()
    if not child:
        status = 1
        try:
            for stream in 0, 1, 2:
                os.dup2(os.open(os.devnull, os.O_RDWR), stream)
            os.environ.update(host.around())
            sys.argv = list(map(str, host.words(command)))
            before()
            tend.main()
            status = 0
        except SystemExit as end:
            status = end.code if isinstance(end.code, int) else 1
        finally:
            os._exit(status)
    return os.waitstatus_to_exitcode(os.waitpid(child, 0)[1])


def loaded():
    """The tool as a module."""
    loader = SourceFileLoader("tend", str(TOOLS / "tend"))
    module = module_from_spec(spec_from_loader("tend", loader))
    loader.exec_module(module)
    return module


def goes_on(host, tend, shows, refused):
    """The next runs come to the same as where no run was killed."""
    for _ in range(3):
        for command in COMMANDS:
            forked(host, tend, command)
        if host.note("update") is None and (refused is None or host.note("refused")):
            break
    host.is_settled(shows=shows, refused=refused)


def with_kills(host, kill):
    """Kills each step of an update that stays, and the last one of an update that is taken back, and goes on. What `kill` gives is called
    in the run for the number of a call; it ends once that run has no such call any more."""
    tend, kept = loaded(), []
    for at, command in enumerate(COMMANDS):
        kept.append(beside(host.place, f"kept-{at}"))
        shutil.copytree(host.store, kept[at])
        forked(host, tend, command)
    for at, shows, refused in (0, 2, None), (1, 2, None), (2, 2, None), (2, 1, "2\n"):
        if refused:
            host.sicken()
        for how in kill:
            number, was_killed = 1, True
            while was_killed:
                shutil.rmtree(host.store)
                shutil.copytree(kept[at], host.store)
                was_killed = forked(host, tend, COMMANDS[at], lambda: how(number)) == -signal.SIGKILL
                killed_at(host, 0, "before")
                try:
                    goes_on(host, tend, shows, refused)
                except Failed as reason:
                    raise Failed(f"{COMMANDS[at]}, call {number}: {reason}") from None
                number += 1
            if number < 3:
                raise Failed(f"no run of {COMMANDS[at]} was killed")


def a_kill_at_any_call_leaves_what_the_next_runs_go_on_with(host):
    """Before and after each call of another program."""
    with_a_killer(host)
    killed_at(host, 0, "before")
    with_kills(host, [lambda number, when=when: killed_at(host, number, when) for when in ("before", "after")])


def killing(name, number):
    """Kills this process at the call of this number by which a file comes or goes."""
    call, left = getattr(os, name), [number]

    def counted(*words, **options):
        left[0] -= 1
        if not left[0]:
            os.kill(os.getpid(), signal.SIGKILL)
        return call(*words, **options)

    setattr(os, name, counted)


def a_kill_at_any_rename_leaves_what_the_next_runs_go_on_with(host):
    """Before each call by which a file in `active` comes or goes."""
    with_kills(host, [lambda number, name=name: killing(name, number) for name in ("rename", "unlink")])


CALLS = [
    *(an_update_is_shown_checked_and_stays, a_check_that_fails_takes_the_version_back_and_it_is_skipped),
    *(checks_run_in_byte_order_up_to_the_first_that_fails, a_check_that_does_not_end_is_ended_with_what_it_started),
    *(a_check_that_can_not_be_started_fails, a_store_without_room_for_a_mark_is_not_updated, a_mark_that_is_refused_changes_nothing),
    *(an_update_that_is_refused_drops_its_mark, a_version_that_can_not_be_merged_is_taken_back_unseen),
    *(a_generation_that_can_not_be_shown_is_taken_back, a_version_that_no_boot_found_healthy_is_taken_back),
    *(a_switch_that_was_stopped_is_no_boot_that_hung, what_somebody_changes_meanwhile_is_marked_before_the_store_goes_back),
    *(without_room_for_what_somebody_changed_nothing_goes_back, an_update_file_that_is_none_is_refused, a_folder_of_somebody_else_is_refused),
    where_the_mark_is_gone_nothing_goes_back,
    *(two_at_once_come_one_after_the_other, a_kill_at_any_call_leaves_what_the_next_runs_go_on_with),
    a_kill_at_any_rename_leaves_what_the_next_runs_go_on_with,
]
scenes = named(in_a_place(without_checks_nothing_is_marked), *map(on_a_host, CALLS))
