"""The units that check, update and show a store: what systemd-analyze(1) says of them as they are installed, and that their commands need
nothing that they keep from them. No manager starts them here."""
import os
import re
import shutil
import signal
import subprocess
from pathlib import Path

from scenes.breaking import hears_interrupts, wait_for
from scenes.installing import begin, offer
from scenes.installing import TOOL as TRANSFER
from scenes.people import DONE, in_a_folder, install
from scenes.running import SECONDS, TOP, Failed, Skipped, expect, named, shortened
from scenes.serving import serving
from scenes.stores import DONE as WROTE_DONE
from scenes.stores import HOST, in_a_place
from scenes.tending import Host, escaped
from scenes.uses import tree_of

CHECK, UPDATE = "hostext-check@", "hostext-update@"
FETCH, SWITCH, HEALTH, ACTIVATE = "hostext-fetch@", "hostext-switch@", "hostext-health@", "hostext-activate@"
# The program that each starts, and those that have a timer.
STARTED = {CHECK: "hostext", UPDATE: "hostext-tend", FETCH: "hostext-tend", SWITCH: "hostext-tend", HEALTH: "hostext-tend", ACTIVATE: "hostext-activate"}
TIMED = CHECK, UPDATE
UNITS = "lib/systemd/system"
# How far the units are exposed at most that are kept from most. One that mounts where all see it can't be kept from that.
MOST_EXPOSURE = {CHECK: 2.0, UPDATE: 2.0, FETCH: 2.0, SWITCH: 5.0}
# What makes a namespace of mounts, in which nobody else would see what is mounted.
MOUNTS = re.compile(r"(Private(Devices|IPC|Mounts|Tmp|Users)|Protect\w+|ProcSubset|(ReadWrite|ReadOnly|Inaccessible|Exec|NoExec)Paths|Bind\w*Paths|Temporary\w+|Root\w+|Mount\w+|DynamicUser|\w+Credential\w*|LogNamespace|Extension\w+)")


def analyze(*words):
    if not shutil.which("systemd-analyze"):
        raise Skipped("there is no systemd-analyze")
    return subprocess.run(["systemd-analyze", *words], stdout=subprocess.PIPE, stderr=subprocess.STDOUT, timeout=SECONDS)


def verified(root, *units):
    """What is said of units below a root, in which nothing else stands. Which manual pages this machine has doesn't count."""
    ended = analyze("verify", "--recursive-errors=no", "--man=no", f"--root={root}", *units)
    return ended.stdout.decode(), ended.returncode


def instances(name, escaped):
    return [f"{name}{escaped}.{kind}" for kind in ("service", "timer")[: 1 + (name in TIMED)]]


def standing():
    """The units whose program this repository has."""
    return [name for name, program in STARTED.items() if (TOP / "tools" / program.removeprefix("hostext-")).exists() or program == "hostext"]


def systemd_has_nothing_to_say_of_the_units(program, folder):
    """Of several stores, and with the program at several places."""
    for at, prefix in enumerate(("/usr", "/usr/local", "/opt/a b", "/opt/5%s")):
        root = folder / f"{at}"
        expect(install(program, f"DESTDIR={root}", prefix), DONE)
        units = root / "usr" / UNITS
        if prefix != "/usr":
            shutil.copytree(f"{root}{prefix}/{UNITS}", units)
        for escaped in "srv-host", "srv-a\\x20b", "-":
            for name in standing():
                if (found := verified(root, *instances(name, escaped))) != ("", 0):
                    raise Failed(f"with {prefix} it says {shortened(found)}")
        for program_of_it in set(map(STARTED.get, standing())):
            Path(f"{root}{prefix}/bin/{program_of_it}").rename(root / "gone")
            for name in (name for name in standing() if STARTED[name] == program_of_it):
                if "not executable" not in verified(root, instances(name, "srv-host")[0])[0]:
                    raise Failed(f"with {prefix} the program of {name} isn't looked for")


def what_they_may_reach_is_little(program, folder):
    for name, most in MOST_EXPOSURE.items():
        unit = folder / f"{name}.service"
        shutil.copy(TOP / "systemd" / unit.name, unit)
        said = analyze("security", "--offline=yes", "--no-pager", unit).stdout.decode()
        found = re.search(r"Overall exposure level for \S+: ([\d.]+)", said)
        if not found:
            raise Skipped("this systemd-analyze has no look at files")
        if float(found[1]) > most:
            raise Failed(f"the exposure of {unit.name} is {found[1]}")


# With it systemd refuses each openat2(2), by which a tool opens what it mounts at.
BARS_OPENAT2 = "RestrictSUIDSGID"


def settings(text):
    """The settings of a unit file: each key with all its values."""
    found = {}
    for key, value in re.findall(r"^(\w+)=(.*)$", text, re.M):
        found.setdefault(key, []).append(value)
    return found


def unit_of(name, kind="service"):
    return settings((TOP / f"systemd/{name}.{kind}").read_text())


def the_units_say_what_is_promised(_program):
    both = {
        **{"Environment": ["HOSTEXT_EXPLAIN=yes"], "Type": ["oneshot"], "NoNewPrivileges": ["yes"]},
        **{"PrivateNetwork": ["yes"], "ProtectSystem": ["strict"]},
    }
    check = {**both, "ExecStart": [":/usr/bin/hostext /%I . check"], "ReadWritePaths": None}
    update = {
        **{**both, "ExecStart": [":/usr/bin/hostext-tend /%I update %t/hostext-update/%i"], "ReadWritePaths": ["/%I"]},
        **{"ExecStartPre": ["+:/usr/bin/hostext-tend /%I settings %t/hostext-update/%i"], "RuntimeDirectory": ["hostext-update/%i"]},
        **{"Wants": ["hostext-fetch@%i.service"], "After": ["hostext-fetch@%i.service"], "OnSuccess": ["hostext-switch@%i.service"]},
    }
    fetch = {
        **{"ExecStart": [":/usr/bin/hostext-tend /%I fetch %t/hostext-fetch/%i"], "RuntimeDirectory": ["hostext-fetch/%i"], "RuntimeDirectoryMode": ["0700"]},
        **{"ExecStartPre": ["+:/usr/bin/hostext-tend /%I settings %t/hostext-fetch/%i"], "StateDirectory": ["hostext/%i"], "DynamicUser": ["yes"]},
        **{"InaccessiblePaths": ["-/%I"], "CapabilityBoundingSet": [""], "PrivateNetwork": None, "ReadWritePaths": None},
    }
    switch = {"ExecStart": [":/usr/bin/hostext-tend /%I switch"], "OnSuccess": ["hostext-health@%i.service"], "ConditionPathExists": ["/%I/active/now"]}
    health = {"ExecStart": [":/usr/bin/hostext-tend /%I health"], "WantedBy": ["multi-user.target"]}
    for name, wanted in (CHECK, check), (UPDATE, update), (FETCH, fetch), (SWITCH, switch), (HEALTH, health):
        service = unit_of(name)
        for key, values in wanted.items():
            if service.get(key) != values:
                raise Failed(f"{key} of {name} is {service.get(key)}, and not {values}")
    for name in TIMED:
        timer = unit_of(name, "timer")
        if timer["OnCalendar"] != ["daily"] or not timer.get("RandomizedDelaySec"):
            raise Failed(f"the timer of {name} has {timer}")


def what_is_shown_at_boot_stands_before_units_look_at_it(_program):
    """It is ordered as systemd-sysext.service is, in systemd's own repository."""
    unit = unit_of(ACTIVATE)
    wanted = {
        **{"DefaultDependencies": ["no"], "After": ["local-fs.target"], "RequiresMountsFor": ["/%I"], "WantedBy": ["sysinit.target"]},
        **{"Before": ["sysinit.target systemd-tmpfiles-setup.service", "shutdown.target initrd-switch-root.target"]},
        **{"Conflicts": ["shutdown.target initrd-switch-root.target"], "RemainAfterExit": ["yes"], "ExecStop": None},
        **{"ExecStart": [":/usr/bin/hostext-activate /%I boot"], "ExecReload": [":/usr/bin/hostext-tend /%I switch"]},
    }
    if found := {key: unit.get(key) for key, values in wanted.items() if unit.get(key) != values}:
        raise Failed(f"it has {found}")


def what_mounts_has_no_mounts_of_its_own(_program):
    for name in SWITCH, HEALTH, ACTIVATE:
        if found := [key for key in unit_of(name) if MOUNTS.fullmatch(key) or key == BARS_OPENAT2]:
            raise Failed(f"{name} has {found}")
    if not any(MOUNTS.fullmatch(key) for key in unit_of(UPDATE)):
        raise Failed("no such key is known")


def calls_of(name, sets):
    """The calls of the system in a set of systemd's, with those of the sets in it."""
    found = set()
    for member in sets[name]:
        found |= calls_of(member, sets) if member.startswith("@") else {member}
    return found


def allowed_calls(name):
    text = analyze("syscall-filter").stdout.decode()
    sets = {name: re.findall(r"^    ([@\w-]+)$", members, re.M) for name, members in re.findall(r"^(@[\w-]+)\n((?:    .*\n)+)", text, re.M)}
    found = set()
    for line in unit_of(name)["SystemCallFilter"]:
        for member in line.removeprefix("~").split():
            found = found - calls_of(member, sets) if line.startswith("~") else found | calls_of(member, sets)
    return found


def words_of(place, start):
    """A command of a unit over a store, with the program or the tool that it names."""
    named = {":/usr/bin/hostext": place.program, ":/usr/bin/hostext-tend": TOP / "tools/tend"}
    first, *others = start.split()
    copy = place.store.with_name("copy")
    given = {"/%I": place.store, "%t/hostext-update/%i": copy, "%t/hostext-fetch/%i": copy}
    if not copy.exists():
        put_settings(place, f"Depot={place.depot}")
    return [named[first], *(str(given.get(word, word)) for word in others)]


def put_settings(place, *lines):
    """What a host says of the store, for a command of a unit to read: these lines, and its health checks if it has some."""
    root, copy = place.store.with_name("root"), place.store.with_name("copy")
    own = root / "etc/hostext"
    own.mkdir(parents=True, exist_ok=True)
    (own / f"{escaped(place.store)}.conf").write_text("".join(f"{line}\n" for line in ("[Store]", *lines)))
    copy.mkdir()
    words = [TOP / "tools/tend", "--root", root, place.store, "settings", copy]
    expect((subprocess.run(words, stdin=subprocess.DEVNULL, timeout=SECONDS).returncode,), (0,))


def started(place, name, *options):
    """The lines of strace of the commands that a unit starts one after another, over a store and a depot, with what they write. A tool may
    get options before its other words."""
    if not shutil.which("strace"):
        raise Skipped("there is no strace")
    told, lines, written = place.store.with_name("calls"), [], b""
    for start in unit_of(name)["ExecStart"]:
        around = {**os.environ, "HOSTEXT": str(place.program), "HOSTEXT_EXPLAIN": "yes"}
        first, *others = words_of(place, start)
        ended = subprocess.run(["strace", "-f", "-qq", "-y", "-o", told, first, *options, *others], env=around, cwd=place.depot, capture_output=True, timeout=SECONDS)
        if b"ptrace" in ended.stderr.lower():
            raise Skipped("strace may not trace here")
        expect((b"", ended.stderr, ended.returncode), (b"", b"", 0))
        written += ended.stdout
        lines += told.read_text().splitlines()
    calls = {match[1] for match in map(re.compile(r"\d+ +(\w+)\(").match, lines) if match}
    if "flock" not in calls or not calls <= allowed_calls(name):
        raise Failed(f"its calls are {sorted(calls)}, of which {sorted(calls - allowed_calls(name))} are refused")
    return lines, written


def a_check_makes_no_call_that_its_unit_refuses(place):
    """It opens nothing for writing either, with its lock."""
    place.resource("host", HOST, {"usr/a": b""})
    place.expect(("init x86-64 system", WROTE_DONE), ("import-fs host /", WROTE_DONE))
    lines, written = started(place, CHECK)
    expect((written,), (b"ok 1 0\n",))
    writes = [line for line in lines if re.search(r"O_WRONLY|O_RDWR|O_CREAT", line)]
    if writes:
        raise Failed(f"it opens to write: {shortened(writes)}")


def an_update_makes_no_call_that_its_unit_refuses(place):
    """The depot is its working folder, and all that it opens to write, makes, renames or removes stands in the store."""
    begin(place, tool=TRANSFER)
    for version, merged in (1, b""), (2, b"merged 2\ntool-1\ntool-2\n"), (3, b"merged 2\ntool-2\ntool-3\n"):
        offer(place, version)
        lines, written = started(place, UPDATE)
        expect((written,), (b"updated %d\n" % version + merged,))
        if version == 1:
            place.expect(("sysext merge", b"merged 1\ntool-1\n"))
        writes = [line for line in lines if re.search(r"O_WRONLY|O_RDWR|O_CREAT|(?:mkdir|rename|unlink|rmdir)\w*\(", line)]
        check_writes(place, writes)


def check_writes(place, writes):
    known = f'"{place.store}/', f"<{place.store}/", f"<{place.store}>", '"/dev/null"'
    outside = [line for line in writes if not any(path in line for path in known)]
    if outside or not writes:
        raise Failed(f"it writes outside of the store: {shortened(outside)}")


def an_update_with_health_checks_makes_no_call_that_its_unit_refuses(place):
    Host(place)
    offer(place, 1, 2)
    lines, written = started(place, UPDATE)
    expect((written,), (b"marked 4\nupdated 2\nmerged 2\ntool-1\ntool-2\n",))
    check_writes(place, [line for line in lines if re.search(r"O_WRONLY|O_RDWR|O_CREAT|(?:mkdir|rename|unlink|rmdir)\w*\(", line)])


def a_fetch_makes_no_call_that_its_unit_refuses(place):
    """It opens nothing of the store. What it brings goes into the depot, which stands elsewhere here."""
    offer(place, 1, 2)
    with serving(place.depot) as served:
        put_settings(place, f"URL={served.url}/images", "Unsigned=yes")
        there = place.store.with_name("there")
        lines, written = started(place, FETCH, "--root", there)
    expect((written,), (b"",))
    if found := [line for line in lines if f'"{place.store}' in line and "execve(" not in line]:
        raise Failed(f"it opens of the store: {shortened(found)}")
    if not (there / "var/lib/hostext" / escaped(place.store) / "SHA256SUMS").exists():
        raise Failed("nothing has come")


def in_turn(place):
    """What the commands of the unit that updates write, one after another up to the first that fails, and the status of the last."""
    written = b""
    for start in unit_of(UPDATE)["ExecStart"]:
        ended = subprocess.run(words_of(place, start), env={**os.environ, "HOSTEXT": str(place.program)}, cwd=place.depot, capture_output=True, timeout=SECONDS)
        written += ended.stdout
        if ended.returncode:
            break
    return written, ended.stderr, ended.returncode


def three_runs_without_a_new_version_make_no_generation(place):
    """Whether nothing is merged, or both classes are."""
    begin(place, tool=TRANSFER)
    offer(place, 1)
    expect(in_turn(place), (b"updated 1\n", b"", 0))
    conf = {"etc/extension-release.d/extension-release.conf": b"ID=debian\n", "etc/own": b"own"}
    place.resource("conf", tree_of(conf), conf)
    place.expect(("import-fs conf /var/lib/confexts/conf", WROTE_DONE))
    for merge in (), (("sysext merge", b"merged 1\ntool-1\n"), ("confext merge", b"merged 1\nconf\n")):
        place.expect(*merge)
        before = place.stands()
        for _ in range(3):
            expect(in_turn(place), (b"unchanged\n", b"", 0))
        place.holds(before)
    # the next version is shown, of both classes
    offer(place, 2)
    expect(in_turn(place), (b"updated 2\nmerged 2\ntool-1\ntool-2\nmerged 1\nconf\n", b"", 0))


def what_was_unmerged_is_not_merged_by_an_update(place):
    begin(place, tool=TRANSFER)
    offer(place, 1)
    expect(in_turn(place), (b"updated 1\n", b"", 0))
    place.expect(("sysext merge", b"merged 1\ntool-1\n"), ("sysext unmerge", b"unmerged\n"))
    offer(place, 2)
    expect(in_turn(place), (b"updated 2\n", b"", 0))
    place.expect(("sysext status", b"unmerged\n"), ("cat /usr/tool", b"refused 8 no-entry /usr/tool\n"))


def after_an_update_that_was_refused_the_next_one_does_all(place):
    begin(place, tool=TRANSFER)
    offer(place, 1)
    expect(in_turn(place), (b"updated 1\n", b"", 0))
    place.expect(("sysext merge", b"merged 1\ntool-1\n"))
    offer(place, 2)
    (place.depot / "images/tool-2/usr/tool").unlink()
    before = place.run("tree")
    expect(in_turn(place), (b"refused 24 not-in-depot images/tool-2/usr/tool\n", b"", 1))
    expect(place.run("tree"), before)
    offer(place, 2)
    expect(in_turn(place), (b"updated 2\nmerged 2\ntool-1\ntool-2\n", b"", 0))
    place.expect(("cat /usr/tool", b"tool 2\n"))


def the_tool_that_updates_ends_with_the_first_status_that_is_not_0(place):
    """A program that isn't hostext answers here: for each command a line and a status."""
    answers = place.store.with_name("answers")
    told = place.store.with_name("told")
    for wanted, said, status in (
        ({}, b"updated 2\nmerged 1\nmerged 1\n", 0),
        ({"update": 5}, b"updated 2\n", 5),
        ({"status": 7}, b"updated 2\n", 7),
        ({"refresh": 1}, b"updated 2\nmerged 1\nmerged 1\n", 1),
    ):
        cases = "".join(f"*{word}) echo {line}; exit {wanted.get(word, 0)} ;;\n" for word, line in (("update", "updated 2"), ("status", "merged 1" if "status" not in wanted else "''"), ("refresh", "merged 1")))
        answers.write_text(f'#!/bin/sh\necho "$@" >>{told}\ncase "$*" in\n{cases}esac\n')
        answers.chmod(0o755)
        expect(update_of(answers, "s t", "d"), (said, b"", status))
    if "s t d sysext refresh\n" not in told.read_text() or "s t d confext refresh\n" not in told.read_text():
        raise Failed(f"it asks {told.read_text()}")
    for words in (), ("s",), ("s", "d", "1"), ("--force", "s", "d"):
        expect(update_of(answers, *words), (b"", b"usage: update STORE DEPOT\n", 2))
    expect(update_of(answers, "--help")[2:], (0,))


def the_tool_that_updates_is_ended_between_two_commands(place):
    """The command that runs goes on to its end, and none follows."""
    answers, told = place.store.with_name("answers"), place.store.with_name("told")
    answers.write_text(f"#!/bin/sh\necho \"$@\" >>{told}\nsleep 1\necho updated 2\necho ended >>{told}\n")
    answers.chmod(0o755)
    for number, status in (signal.SIGTERM, 143), (signal.SIGINT, 130):
        told.unlink(missing_ok=True)
        child = subprocess.Popen([TOP / "tools/update", "s", "d"], env={**os.environ, "HOSTEXT": str(answers)}, stdout=subprocess.DEVNULL, preexec_fn=hears_interrupts)
        wait_for(lambda: told.exists() and told.read_text())
        child.send_signal(number)
        expect((child.wait(SECONDS), told.read_text()), (status, "s d sysupdate update\nended\n"))


def update_of(program, *words):
    ended = subprocess.run([TOP / "tools/update", *words], env={**os.environ, "HOSTEXT": str(program)}, capture_output=True, timeout=SECONDS)
    return ended.stdout, ended.stderr, ended.returncode


scenes = named(
    *map(in_a_folder, (systemd_has_nothing_to_say_of_the_units, what_they_may_reach_is_little)),
    *(the_units_say_what_is_promised, what_is_shown_at_boot_stands_before_units_look_at_it, what_mounts_has_no_mounts_of_its_own),
    *map(in_a_place, (a_check_makes_no_call_that_its_unit_refuses, an_update_makes_no_call_that_its_unit_refuses)),
    *map(in_a_place, (an_update_with_health_checks_makes_no_call_that_its_unit_refuses, a_fetch_makes_no_call_that_its_unit_refuses)),
    *map(in_a_place, (three_runs_without_a_new_version_make_no_generation, what_was_unmerged_is_not_merged_by_an_update)),
    *map(in_a_place, (after_an_update_that_was_refused_the_next_one_does_all, the_tool_that_updates_ends_with_the_first_status_that_is_not_0)),
    *map(in_a_place, (the_tool_that_updates_is_ended_between_two_commands,)),
)
