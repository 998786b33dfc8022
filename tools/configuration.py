"""How a host has its store updated: the file `/etc/hostext/NAME.conf`, the keyring that it names, and the programs of
`/etc/hostext/NAME.health.d`. NAME is the store's path as systemd-escape(1) writes it with `--path`, which is the instance of the units.

All is read from the host's own tree, and has to be root's. What runs with less than root's rights reads a copy of it: the folder into
which `put` writes.
"""
import os
import re
import stat
from typing import NamedTuple

from entries import CONTROL, FOLDER_ONLY, Refused, shown, write_all
from own_tree import ETC, file, folder, own_etc

FOLDER, CONF, CHECKS, KEYRING = "hostext", ".conf", ".health.d", "keyring"
# Where the unit that fetches keeps what came.
FETCHED = "var/lib/hostext"
# The files of a copy.
COPIED_CONF, COPIED_CHECKS = "conf", "checks"
SECTION = "Store"
TRUE, FALSE = ("1", "yes", "true", "on"), ("0", "no", "false", "off")
MOST_BYTES, MOST_KEYRING_BYTES = 65_536, 16_777_216
MOST_CHECKS, MOST_SECONDS, USUAL_SECONDS = 256, 3_600, 90
# The keys that say how a URL is fetched.
OF_URL = "Folder", "Keyring", "Unsigned"
AS_IT_IS = re.compile(rb"[A-Za-z0-9:_.]")


def as_written(char):
    return char.decode() if AS_IT_IS.fullmatch(char) else "-" if char == b"/" else f"\\x{char[0]:02x}"


def instance_of(path):
    """A path as systemd-escape(1) writes it with `--path`."""
    path = os.fsencode(os.path.abspath(path)).strip(b"/")
    written = [as_written(path[at : at + 1]) for at in range(len(path))]
    if written[:1] == ["."]:
        written[0] = "\\x2e"
    return "".join(written) or "-"


class Settings(NamedTuple):
    """What the keys of the file say."""

    Depot: str = None
    URL: str = None
    Folder: str = "."
    Keyring: str = None
    Unsigned: bool = False
    CheckSec: int = USUAL_SECONDS
    Confext: bool = False
    Suid: bool = True

    def depot(self, store, root):
        """The depot from which a store is updated: the named one, what is fetched, or the folder beside the store."""
        if self.URL:
            return os.path.join(root, FETCHED, instance_of(store))
        return self.Depot or f"{os.path.abspath(store)}.depot"


def boolean(text):
    if text.lower() not in TRUE + FALSE:
        raise Refused("it is neither yes nor no")
    return text.lower() in TRUE


def seconds(text):
    if not text.isascii() or not text.isdecimal() or not 1 <= int(text) <= MOST_SECONDS:
        raise Refused(f"it is no number of seconds from 1 to {MOST_SECONDS:,}")
    return int(text)


def absolute(text):
    if not text.startswith("/"):
        raise Refused("it is no path that begins with a slash")
    return text


def url(text):
    if not re.fullmatch(r"https?://\S+", text):
        raise Refused("it begins with neither http:// nor https://, or has a blank")
    return text


def relative(text):
    if not re.fullmatch(r"[^/]+(/[^/]+)*", text) or not {".", ".."}.isdisjoint(text.split("/")):
        raise Refused("it is no path of a folder in the depot")
    return text


def ring(text):
    """The path of a keyring below /etc, where no generation that is shown changes it."""
    path = text.removeprefix(f"/{ETC}/") if text.startswith("/") else f"{FOLDER}/{text}"
    if text.startswith("/") and path == text:
        raise Refused(f"it stands below /{ETC}, or is the name of a file in /{ETC}/{FOLDER}")
    return relative(path)


READERS = {
    **{"Depot": absolute, "URL": url, "Folder": relative, "Keyring": ring, "Unsigned": boolean},
    **{"CheckSec": seconds, "Confext": boolean, "Suid": boolean},
}


def settings_of(text, path):
    """The settings of a file. What isn't known is refused with its line."""
    lines, number = {}, 0
    try:
        values = {}
        for number, key, value in assignments(text):
            if key in values:
                raise Refused(f"{key}= stands there twice")
            values[key], lines[key] = READERS[key](value), number
    except Refused as reason:
        raise at_line(path, reason, number) from None
    found = Settings(**values)
    check_together(found, lines, path)
    return found


def at_line(path, reason, number):
    """A refusal with its line; one of the whole text names none."""
    said, line = reason.args[0], reason.args[1] if len(reason.args) > 1 else number
    return Refused(f"{shown(path)}: line {line}: {said}")


def assignments(text):
    """The line, the key and the value of each assignment."""
    section = None
    for number, line in enumerate(lines_of(text), 1):
        if not line or line[0] in "#;":
            continue
        try:
            if line == f"[{SECTION}]":
                section = SECTION
            else:
                yield number, *assignment(line, section)
        except Refused as reason:
            raise Refused(reason.args[0], number) from None


def lines_of(text):
    for number, line in enumerate(text.split(b"\n"), 1):
        line = line.strip(b" \t")
        if CONTROL.search(line):
            raise Refused("it has a control byte", number)
        try:
            yield line.decode()
        except UnicodeDecodeError:
            raise Refused("it is no UTF-8", number) from None


def assignment(line, section):
    if line.startswith("["):
        raise Refused(f"there is no section {shown(line)}, but [{SECTION}]")
    key, equals, value = (part.strip(" \t") for part in line.partition("="))
    if not equals:
        raise Refused("it is no KEY=VALUE")
    if not section:
        raise Refused(f"it stands before [{SECTION}]")
    if key not in READERS:
        raise Refused(f"there is no key {shown(key)}=")
    if not value or value.endswith("\\"):
        raise Refused(f"{key}= has no value that ends in its line")
    return key, value


def check_together(found, lines, path):
    """What one key says has to go with what others say."""
    unsigned = "URL= wants Keyring=, or Unsigned=yes where whoever serves it may say what is installed"
    reasons = [
        (found.URL and found.Depot, "Depot", f"with URL= the depot is /{FETCHED}/NAME, and Depot= names none"),
        (found.URL and not found.Keyring and not found.Unsigned, "URL", unsigned),
        (found.Keyring and found.Unsigned, "Unsigned", "Unsigned=yes and Keyring= stand there both"),
        *((not found.URL and key in lines, key, f"{key}= is for what URL= names, which isn't there") for key in OF_URL),
    ]
    for is_so, key, reason in reasons:
        if is_so:
            raise at_line(path, Refused(reason), lines[key])


class Configuration(NamedTuple):
    """What a host says of a store: its settings, and the names of the health checks in byte order."""

    settings: Settings
    checks: tuple


class Own:
    """What the host's own tree has for a store."""

    def __init__(self, etc, store):
        self.etc, self.name, self.path = etc, instance_of(store), f"/{ETC}/{FOLDER}"

    def conf(self):
        """The bytes of the configuration; none where there is no file."""
        with folder(FOLDER, self.etc, self.path) as above:
            path = f"{self.path}/{self.name}{CONF}"
            return b"" if above is None else read(self.name + CONF, above, path, MOST_BYTES)

    def settings(self, conf):
        return settings_of(conf, f"{self.path}/{self.name}{CONF}")

    def keyring(self, settings):
        """The bytes of the keyring that is named."""
        if settings.Keyring is None:
            return None
        above, _, name = settings.Keyring.rpartition("/")
        return self.ring_in(self.etc, above.split("/") if above else [], name, f"/{ETC}/{settings.Keyring}")

    def ring_in(self, above, names, name, path):
        """It is opened folder by folder, so that no link is followed."""
        if not names:
            content = read(name, above, path, MOST_KEYRING_BYTES)
            if not content:
                raise Refused(f"{shown(path)}: no such keyring, or an empty one")
            return content
        with folder(names[0], above, path) as below:
            if below is None:
                raise Refused(f"{shown(path)}: no such keyring")
            return self.ring_in(below, names[1:], name, path)

    def checks(self):
        """The names of the health checks in byte order. Each is a program that root alone may write."""
        with self.opened_checks() as (names, above):
            for name in names:
                os.close(self.check(name, above))
            return names

    def opened_checks(self):
        return Checks(self)

    def check(self, name, above):
        """The handle of a health check."""
        path = f"{self.path}/{self.name}{CHECKS}/{name}"
        handle = file(name, above, path)
        if not os.fstat(handle).st_mode & stat.S_IXUSR:
            os.close(handle)
            raise Refused(f"{shown(path)}: it isn't executable, and so no health check")
        return handle


class Checks:
    """The folder of the health checks, as long as it is looked at: the names, and its handle."""

    def __init__(self, own):
        self.own, self.opened = own, []

    def __enter__(self):
        own = self.own
        above = self.entered(FOLDER, own.etc, own.path)
        below = None if above is None else self.entered(own.name + CHECKS, above, f"{own.path}/{own.name}{CHECKS}")
        names = [] if below is None else sorted(os.listdir(below), key=os.fsencode)
        if len(names) > MOST_CHECKS:
            raise Refused(f"{own.path}/{own.name}{CHECKS}: more than {MOST_CHECKS} health checks")
        return tuple(name for name in names if not name.startswith(".")), below

    def entered(self, name, above, path):
        self.opened.append(folder(name, above, path))
        return self.opened[-1].__enter__()

    def __exit__(self, *_):
        for opened in reversed(self.opened):
            opened.__exit__(None, None, None)


def read(name, above, path, most):
    """The bytes of a file that is root's; none where there is no file."""
    try:
        handle = file(name, above, path)
    except FileNotFoundError:
        return b""
    with open(handle, "rb") as opened:
        content = opened.read(most + 1)
    if len(content) > most:
        raise Refused(f"{shown(path)}: it has more than {most:,} bytes")
    return content


def own(store, root):
    """What the host's own tree says of a store."""
    with own_etc(root) as etc:
        found = Own(etc, store)
        return Configuration(found.settings(found.conf()), found.checks())


def put(store, root, path):
    """Writes a copy of it into a folder, which stands there and is empty, for its owner to read."""
    with own_etc(root) as etc:
        found = Own(etc, store)
        conf = found.conf()
        checks = b"".join(b"%b\n" % os.fsencode(name) for name in found.checks())
        files = {COPIED_CONF: conf, COPIED_CHECKS: checks, KEYRING: found.keyring(found.settings(conf))}
    target = os.open(path, FOLDER_ONLY)
    try:
        for name, content in files.items():
            if content is not None:
                put_file(target, name, content)
    finally:
        os.close(target)


def put_file(target, name, content):
    owner = os.fstat(target)
    handle = os.open(name, os.O_WRONLY | os.O_CREAT | os.O_EXCL | os.O_NOFOLLOW, 0o400, dir_fd=target)
    try:
        if (owner.st_uid, owner.st_gid) != (os.geteuid(), os.getegid()):
            os.fchown(handle, owner.st_uid, owner.st_gid)
        write_all(handle, content)
    finally:
        os.close(handle)


def copied(path):
    """What such a copy says."""
    target = os.open(path, FOLDER_ONLY)
    try:
        conf, checks = (read(name, target, os.path.join(path, name), MOST_BYTES) for name in (COPIED_CONF, COPIED_CHECKS))
    finally:
        os.close(target)
    return Configuration(settings_of(conf, os.path.join(path, COPIED_CONF)), tuple(map(os.fsdecode, checks.split(b"\n")[:-1])))
