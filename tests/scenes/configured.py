"""What a host says of a store's updates: its configuration, keyring and health checks, faulty ones and those of somebody else; that they are
read in the host's own tree, also where a generation is shown over /etc; and what is fetched by them."""
import os
import re
import shutil
import subprocess

from scenes.devices import NOBODY
from scenes.installing import offer
from scenes.keeping import need_root
from scenes.mounted import need_images
from scenes.running import SECONDS, TOP, Failed, Skipped, expect, named
from scenes.serving import serving
from scenes.stores import in_a_place
from scenes.tending import Host
from scenes.tools import TOOLS, beside, left

SIGNED = "[Store]\nURL=https://example.org/images\n"
# Texts that are refused, each with the line and the reason.
FAULTY = (
    ("Depot=/d\n", 1, "it stands before [Store]"),
    ("\n[Other]\n", 2, "there is no section [Other], but [Store]"),
    ("[store]\n", 1, "there is no section [store], but [Store]"),
    ("[Store\n", 1, "there is no section [Store, but [Store]"),
    ("[Store]\nDepots=/d\n", 2, "there is no key Depots="),
    ("[Store]\ndepot=/d\n", 2, "there is no key depot="),
    ("[Store]\n# one\n; two\n\n=/d\n", 5, "there is no key ="),
    ("[Store]\nDepot\n", 2, "it is no KEY=VALUE"),
    ("[Store]\nDepot=\n", 2, "Depot= has no value that ends in its line"),
    ("[Store]\nDepot=/d\\\n", 2, "Depot= has no value that ends in its line"),
    ("[Store]\nDepot=d\n", 2, "it is no path that begins with a slash"),
    ("[Store]\nDepot=/d\nSuid=no\nDepot=/e\n", 4, "Depot= stands there twice"),
    ("[Store]\nDepot=/d\x01\n", 2, "it has a control byte"),
    ("[Store]\r\nDepot=/d\n", 1, "it has a control byte"),
    ("\ufeff[Store]\nDepot=/d\n", 1, "it is no KEY=VALUE"),
    (b"[Store]\nDepot=/\xff\n", 2, "it is no UTF-8"),
    (b"[Store]\n\xff=x\n", 2, "it is no UTF-8"),
    ("[Store]\nConfext=maybe\n", 2, "it is neither yes nor no"),
    ("[Store]\nSuid=\u00a0no\n", 2, "it is neither yes nor no"),
    *((f"[Store]\nCheckSec={text}\n", 2, "it is no number of seconds from 1 to 3,600") for text in ("0", "3601", "-1", "1.5", "1s", "\u0661", "9" * 100)),
    *((f"[Store]\nURL={text}\nUnsigned=yes\n", 2, "it begins with neither http:// nor https://, or has a blank") for text in ("--keyring", "ftp://x/", "http://", "https://a b")),
    (SIGNED, 2, "URL= wants Keyring=, or Unsigned=yes where whoever serves it may say what is installed"),
    (f"{SIGNED}Unsigned=no\n", 2, "URL= wants Keyring=, or Unsigned=yes where whoever serves it may say what is installed"),
    (f"{SIGNED}Unsigned=yes\nKeyring=k\n", 3, "Unsigned=yes and Keyring= stand there both"),
    (f"{SIGNED}Unsigned=yes\nDepot=/d\n", 4, "with URL= the depot is /var/lib/hostext/NAME, and Depot= names none"),
    *((f"[Store]\n{text}\n", 2, f"{text.partition('=')[0]}= is for what URL= names, which isn't there") for text in ("Keyring=k", "Unsigned=yes", "Folder=images")),
    *((f"{SIGNED}Keyring={text}\n", 3, "it stands below /etc, or is the name of a file in /etc/hostext") for text in ("/usr/share/keyrings/k", "/k")),
    *((f"{SIGNED}Keyring={text}\n", 3, "it is no path of a folder in the depot") for text in ("../k", "/etc/../k", "/etc/", "a//b", "./k")),
    *((f"{SIGNED}Unsigned=yes\nFolder={text}\n", 4, "it is no path of a folder in the depot") for text in ("/images", "../x", "a/../b", "a//b", "a/", ".")),
)


def put(host, text):
    (host.own / f"{host.name}.conf").write_bytes(text if isinstance(text, bytes) else text.encode())


def at(host):
    return f"/etc/hostext/{host.name}"


def a_configuration_that_is_faulty_is_refused_with_its_line(place):
    host = Host(place)
    before = place.stands()
    for text, number, reason in FAULTY:
        put(host, text)
        copy = copied_to(place)
        for command in "update", "switch", "health", f"settings {copy}":
            host.ends(command, "", f"tend: {at(host)}.conf: line {number}: {reason}\n", 1)
        if left(copy):
            raise Failed(f"a copy is made of {text!r}")
    put(host, b"#" * 65_537)
    host.ends("update", "", f"tend: {at(host)}.conf: it has more than 65,536 bytes\n", 1)
    place.holds(before)


def copied_to(place):
    copy = beside(place, "copy")
    shutil.rmtree(copy, ignore_errors=True)
    copy.mkdir()
    return copy


def what_others_may_write_or_a_link_leads_to_is_refused(place):
    """The configuration, the health checks, and the folders that they stand in; and what is no file."""
    host = Host(place)
    conf, checks = host.own / f"{host.name}.conf", host.own / f"{host.name}.health.d"
    check = checks / "10-first"
    names = {conf: f"{at(host)}.conf", checks: f"{at(host)}.health.d", check: f"{at(host)}.health.d/10-first", host.own: "/etc/hostext"}
    for path, told in names.items():
        mode = path.stat().st_mode & 0o777
        for other in 0o020, 0o002:
            path.chmod(mode | other)
            host.ends("update", "", f"tend: {told}: it has to be root's, and writable by nobody else\n", 1)
        path.chmod(mode)
        if os.geteuid() == 0:
            os.chown(path, NOBODY, NOBODY)
            host.ends("update", "", f"tend: {told}: it has to be root's, and writable by nobody else\n", 1)
            os.chown(path, 0, 0)
        path.rename(path.with_name("moved"))
        path.symlink_to("moved")
        _, said, status = host.run("update")
        if status != 1 or not said.startswith(f"tend: {told}: ") or said.count("\n") != 1:
            raise Failed(f"where {told} is a link it ends with {status} and tells {said!r}")
        path.unlink()
        path.with_name("moved").rename(path)
    check.chmod(0o644)
    host.ends("update", "", f"tend: {at(host)}.health.d/10-first: it isn't executable, and so no health check\n", 1)
    check.chmod(0o755)
    for make in os.mkdir, os.mkfifo:
        make(checks / "20-odd")
        host.ends("update", "", f"tend: {at(host)}.health.d/20-odd: it is no file\n", 1)
        (checks / "20-odd").rmdir() if make == os.mkdir else (checks / "20-odd").unlink()
    if host.note("update") is not None:
        raise Failed("an update has begun")


def a_host_without_a_configuration_has_the_usual_one(place):
    """The depot stands beside the store."""
    host = Host(place)
    (host.own / f"{host.name}.conf").unlink()
    place.depot.rename(f"{place.store}.depot")
    place.depot = place.store.with_name(f"{place.store.name}.depot")
    offer(place, 1, 2)
    expect((host.all(),), ([0, 0, 0],))
    host.is_settled(shows=2)
    shutil.rmtree(host.own)
    host.ends("update", "unchanged\n", "", 0)


def the_name_is_that_of_the_units_instance(program):
    """As systemd-escape(1) writes it, for paths with all kinds of bytes."""
    if not shutil.which("systemd-escape"):
        raise Skipped("there is no systemd-escape")
    words = "import sys; sys.path.insert(0, sys.argv[1]); sys.dont_write_bytecode = True; import configuration; print(*map(configuration.instance_of, sys.argv[2:]), sep='\\n')"
    paths = "/", "/srv/host", "/srv//a b/", "/srv/a-b", "/.x/\u00fc/\\", "/a:b_c.d/~!", "/srv/\x7f'\""
    wanted = subprocess.run(["systemd-escape", "--path", *paths], capture_output=True, check=True, timeout=SECONDS).stdout.split()
    found = subprocess.run(["python3", "-c", words, TOOLS, *paths], capture_output=True, check=True, timeout=SECONDS).stdout.split()
    expect((found,), (wanted,))


def each_key_is_in_the_manual_and_no_other(_program):
    """With the bounds that the tool has."""
    words = "import sys; sys.path.insert(0, sys.argv[1]); sys.dont_write_bytecode = True; import configuration; print(*configuration.Settings._fields)"
    keys = subprocess.run(["python3", "-c", words, TOOLS], capture_output=True, check=True, timeout=SECONDS).stdout.decode().split()
    page = (TOP / "man/hostext.conf.5").read_text()
    expect((sorted(re.findall(r"^\.It Ic (\w+)=$", page, re.M)),), (sorted(keys),))
    for words in "from 1 to 3,600; by default 90", "at most 256 of them", "at most 65,536 bytes":
        if words not in page.replace("\n", " "):
            raise Failed(f"the page lacks {words!r}")


def settings_are_handed_over_to_the_owner_of_the_folder(place):
    """To be read by nobody else, and written by nobody. Nothing that stands there is replaced."""
    host = Host(place)
    put(host, f"{SIGNED}Keyring=keys/ring.gpg\n")
    (host.own / "keys").mkdir()
    host.ends(f"settings {copied_to(place)}", "", f"tend: {at(host).rpartition('/')[0]}/keys/ring.gpg: no such keyring, or an empty one\n", 1)
    (host.own / "keys/ring.gpg").write_bytes(b"keys")
    copy = copied_to(place)
    if os.geteuid() == 0:
        os.chown(copy, NOBODY, NOBODY)
    host.ends(f"settings {copy}", "", "", 0)
    found = {path.name: (path.read_bytes(), path.stat().st_mode & 0o777, path.stat().st_uid) for path in copy.iterdir()}
    owner = copy.stat().st_uid
    wanted = {"conf": (f"{SIGNED}Keyring=keys/ring.gpg\n".encode(), 0o400, owner), "checks": (b"10-first\n", 0o400, owner), "keyring": (b"keys", 0o400, owner)}
    expect((found,), (wanted,))
    if host.run("settings", copy)[2] != 1:
        raise Failed("what stands there is replaced")
    (copy.with_name("link")).symlink_to(copy)
    if host.run("settings", copy.with_name("link"))[2] != 1:
        raise Failed("a link is followed")


def what_the_configuration_names_is_fetched_and_installed(place):
    """By the copy that is handed over. Without URL= nothing is fetched."""
    host = Host(place)
    copy = copied_to(place)
    host.ends(f"settings {copy}", "", "", 0)
    host.ends(f"fetch {copy}", "", "", 0)
    offer(place, 1, 2)
    with serving(place.depot) as served:
        put(host, f"[Store]\nURL={served.url}/images\nFolder=images\nUnsigned=yes\n")
        copy = copied_to(place)
        host.ends(f"settings {copy}", "", "", 0)
        host.ends(f"fetch {copy}", "", "", 0)
    depot = host.root / "var/lib/hostext" / host.name
    if left(depot / "images") != left(place.depot / "images"):
        raise Failed(f"there came {left(depot / 'images')}")
    place.depot.rename(beside(place, "gone"))
    place.depot.mkdir()
    for words in ("update", str(copy)), ("switch",), ("health",):
        expect((host.run(*words)[2],), (0,))
    host.is_settled(shows=2)
    put(host, f"[Store]\nURL={served.url}/images\nKeyring=ring\n")
    (host.own / "ring").write_bytes(b"no keyring")
    copy = copied_to(place)
    host.ends(f"settings {copy}", "", "", 0)
    if host.run("fetch", copy)[2] != 3:
        raise Failed("a server that is gone is another status")


# What is shown over /etc.

OVER = """set -e
show() { mount -t overlay "$1" -o "lowerdir=$root/one:$root/$2" "$root/etc"; }
root=$1
mkdir -p "$1/one" "$1/two" "$1/three/hostext"
echo '[Other]' >"$1/three/hostext/$2.conf"
show hostext-g-7-1f-a three
show hostext-g-8-1f-a two
shift 2
exec "$@"
"""


def in_a_space(host, script, command):
    """What a command writes in a space of mounts of its own, once a script has mounted there."""
    need_root()
    if not shutil.which("unshare"):
        raise Skipped("there is no unshare")
    words = ["unshare", "--mount", "sh", "-c", script, "sh", host.root, host.name, *host.words(command)]
    ended = subprocess.run(words, env=host.around(), stdin=subprocess.DEVNULL, capture_output=True, timeout=SECONDS)
    if b"unshare failed" in ended.stderr or b"permission denied" in ended.stderr:
        raise Skipped("no space of mounts is to be had here")
    return ended.stdout.decode(), ended.stderr.decode(), ended.returncode


def the_hosts_own_is_read_below_a_generation_that_is_shown_over_etc(place):
    """Also where the host's own /etc is a mount, and two generations lie over it. What is shown stays."""
    need_root()
    need_images()
    host = Host(place)
    offer(place, 1, 2)
    own = 'mount --bind "$1/etc" "$1/etc"\n'
    for script in OVER, OVER.replace("show host", f"{own}show host", 1):
        expect((in_a_space(host, script, "update")[2],), (0,))
        expect((in_a_space(host, script, "switch")[2],), (0,))
        still = script.replace('exec "$@"', '"$@"; test ! -e "$root/etc/hostext"')
        found = in_a_space(host, still, "health")
        expect(found, ("", found[1], 0))
    host.is_settled(shows=2)
    mounted = OVER.replace("hostext-g-7", "another").replace("show hostext-g-8-1f-a two\n", "")
    told = f"tend: {at(host)}.conf: line 1: there is no section [Other], but [Store]\n"
    expect(in_a_space(host, mounted, "update"), ("", told, 1))


# The tool that shows generations.

SHOWN = """set -e
root=$1; activate=$HOSTEXT_ACTIVATE; store=$3
tend() { "$tool" --root "$root" "$store" "$@"; }
"$activate" "$store" switch --root="$root" >&2
tool=$4
for sick in "" yes; do
    [ -z "$sick" ] || { rm "$store/active/refused" 2>/dev/null || :; "$HOSTEXT" "$store" . rollback "$5" >&2; tend switch >&2; }
    tend update >&2
    tend switch >&2
    cat "$root/usr/tool"
    if [ -z "$sick" ]; then tend health >&2; else touch "$6"; ! tend health >&2; fi
    cat "$root/usr/tool"
    "$activate" "$store" status >&2
done
"""


def an_update_is_shown_and_taken_back_by_activate(place):
    """Over a root of its own: once the host stays healthy, and once it doesn't."""
    if not (TOOLS / "activate").exists():
        raise Skipped("there is no activate")
    need_root()
    need_images()
    host = Host(place)
    offer(place, 1, 2)
    shutil.rmtree(place.store / "active")
    for name in "usr", "opt":
        (host.root / name).mkdir()
    place.store.chmod(0o700)
    place.expect(("mark", b"marked 4\n"))
    words = ["unshare", "--mount", "sh", "-c", SHOWN, "sh", host.root, "-", place.store, TOOLS / "tend", "4", beside(place, "sick")]
    around = {**host.around(), "HOSTEXT_ACTIVATE": str(TOOLS / "activate")}
    ended = subprocess.run(words, env=around, stdin=subprocess.DEVNULL, capture_output=True, timeout=SECONDS)
    if (ended.stdout, ended.returncode) != (b"tool 2\ntool 2\ntool 2\ntool 1\n", 0):
        raise Failed(f"it ends with {ended.returncode}, writes {ended.stdout} and tells {ended.stderr.decode()}")
    expect((host.note("refused"), host.note("trial"), host.note("update")), ("2\n", None, None))
    place.expect(("cat /usr/tool", b"tool 1\n"))
    if place.run("history")[0].split()[::3] != [b"4"]:
        raise Failed("a mark is left, or one is gone")


scenes = named(
    *map(in_a_place, (a_configuration_that_is_faulty_is_refused_with_its_line, what_others_may_write_or_a_link_leads_to_is_refused)),
    *map(in_a_place, (a_host_without_a_configuration_has_the_usual_one, settings_are_handed_over_to_the_owner_of_the_folder)),
    *map(in_a_place, (what_the_configuration_names_is_fetched_and_installed, the_hosts_own_is_read_below_a_generation_that_is_shown_over_etc)),
    *map(in_a_place, (an_update_is_shown_and_taken_back_by_activate,)),
    *(the_name_is_that_of_the_units_instance, each_key_is_in_the_manual_and_no_other),
)
