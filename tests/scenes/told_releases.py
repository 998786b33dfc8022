"""The rows of docs/FROM_SYSTEMD.md on the texts of release files, as functions on stacks. Where a text has what a row tells, hostext gets
one that says plainly what systemd reads in it: a line KEY=VALUE for each key."""
import hashlib
import re

from scenes.real_trees import file
from scenes.releases import value_of
from scenes.unit_files import lines_of

IS_254 = 254
BLANKS, ENDS = b" \t\n\r", b"\n\r"
# What a backslash escapes between double quotes.
ESCAPED = b'"\\`$'
KEYS = re.compile(rb"ID|ID_LIKE|VERSION_ID|ARCHITECTURE|(SYS|CONF)EXT_(LEVEL|SCOPE)")


class Unread(Exception):
    """A text of which nothing is read: it has a byte 0, or a key or a value that is no UTF-8."""


class Reading:
    """A text as systemd reads it, from its first byte on: a value may go on over several lines, and have pieces one after another."""

    def __init__(self, text, version):
        self.text, self.at, self.version = text, 0, version

    def next(self):
        """The next byte, or nothing at the end."""
        byte = self.text[self.at : self.at + 1]
        self.at += 1
        return byte

    def pairs(self):
        while byte := self.next():
            if byte in b"#;":
                self.skip_comment()
            elif byte not in BLANKS:
                key = self.key(byte)
                if key is not None:
                    yield key, self.value()

    def skip_comment(self):
        """A backslash joins the next line to a comment before 254."""
        while (byte := self.next()) and byte not in ENDS:
            if byte == b"\\" and (self.next() not in (b"\n", b"\r") or self.version < IS_254):
                continue
            elif byte == b"\\":
                return

    def key(self, first):
        """What stands before the first `=` after its first byte; nothing where the line ends before."""
        key = first
        while byte := self.next():
            if byte == b"=":
                return key.rstrip(BLANKS)
            if byte in ENDS:
                return None
            key += byte
        return None

    def value(self):
        """Quoted pieces, one right after another or with blanks between them, and then one that goes on to the end of the line."""
        value = b""
        while byte := self.next():
            if byte in ENDS:
                return value
            if byte in b"'\"":
                value += self.quoted(byte)
            elif byte not in BLANKS:
                return value + self.plain(byte)
        return value

    def quoted(self, quote):
        """Up to the quote that closes it, or to the end of the text."""
        value = b""
        while (byte := self.next()) and byte != quote:
            if quote == b'"' and byte == b"\\":
                escaped = self.next()
                value += escaped if escaped in ESCAPED else b"" if escaped == b"\n" else byte + escaped
            else:
                value += byte
        return value

    def plain(self, byte):
        """Up to the end of the line, but for blanks at its end that no backslash escapes."""
        value, kept = b"", 0
        while byte and byte not in ENDS:
            if byte == b"\\":
                byte = self.next()
                value += b"" if byte in ENDS else byte
                kept = len(value)
            else:
                value += byte
                kept = kept if byte in BLANKS else len(value)
            byte = self.next()
        return value[:kept]


def read(text, version):
    """The values of a text by their keys, of which the last counts."""
    found = {}
    if b"\0" in text:
        raise Unread
    for key, value in Reading(text, version).pairs():
        try:
            (key + b"=" + value).decode()
        except UnicodeDecodeError:
            raise Unread from None
        found[key] = value
    return found


def plainly(text, version):
    """The same values on a line each. For a byte that no line has stands another one; between words of a scope that is a blank."""
    try:
        values = read(text, version)
    except Unread:
        return b""
    lines = []
    for key, value in values.items():
        if KEYS.fullmatch(key):
            parts = rb"[\t\n\r]" if key.endswith(b"_SCOPE") else rb"(?!)"
            value = re.sub(rb"[\x00-\x1f\x7f]", b"?", re.sub(parts, b" ", value))
            lines.append(b'%b="%b"\n' % (key, re.sub(rb'(["\\`$])', rb"\\\1", value)))
    return b"".join(lines)


def stands_for(stack, old, text):
    """Another text of a release file, whose bytes stand for the old ones. A comment tells from which they came."""
    text += b"# %b\n" % hashlib.sha256(old).hexdigest().encode()
    stack.contents[text] = stack.contents.get(old, old)
    return text


def take_off(stack, has):
    """Of each text that has what a row tells, the plain lines stand for it. A host's text of which nothing is read merges nothing."""
    for image in stack.images:
        path = image.release(stack.kind)
        entry = image.tree.get(path, ("",))
        if entry[0] == "f" and has(entry[2]):
            image.tree[path] = file(stands_for(stack, entry[2], plainly(entry[2], stack.version)), entry[1])
    for path in "etc/os-release", "usr/lib/os-release":
        entry = stack.host.get(path, ("",))
        if entry[0] == "f" and has(entry[2]):
            if not is_read(entry[2], stack.version):
                stack.images.clear()
            stack.host[path] = file(stands_for(stack, entry[2], plainly(entry[2], stack.version)), entry[1])


def is_read(text, version):
    try:
        read(text, version)
    except Unread:
        return False
    return True


def is_utf8(text):
    try:
        text.decode()
    except UnicodeDecodeError:
        return False
    return True


def lines(text):
    return [line for _, line in lines_of(text)]


def values_of(text):
    """What stands after the first `=` of each line that sets a key."""
    found = (line.strip(b" \t").partition(b"=") for line in lines(text))
    return [value.strip(b" \t") for key, equals, value in found if equals and re.fullmatch(rb"[A-Z_][A-Z0-9_]*", key)]


def quotes_that_end_elsewhere(stack):
    """A quoted value may go on over lines, or to the end of the file, and other pieces may follow it."""
    take_off(stack, lambda text: any(value_of(value) is None for value in values_of(text)))


def control_bytes(stack):
    """Control bytes are bytes of a value or a comment; a carriage return ends a line. A file with a byte 0 isn't read at all."""
    take_off(stack, lambda text: re.search(rb"[\x00-\x08\x0b-\x1f\x7f]", text.replace(b"\r\n", b"\n")))


def bytes_that_are_no_text(stack):
    """In a comment, or in a line without `=`, bytes that are no UTF-8 count for nothing; elsewhere they make the file one without values."""
    take_off(stack, lambda text: not is_utf8(text))


def lines_that_go_on(stack):
    """A backslash at the end of a line joins the next one to its value."""
    take_off(stack, lambda text: any(line.endswith(b"\\") and not line.lstrip(b" \t").startswith((b"#", b";")) for line in lines(text)))


def comments_that_go_on(stack):
    """In 252 a backslash at the end of a comment joins the next line to it."""
    if stack.version < IS_254:
        take_off(stack, lambda text: any(line.lstrip(b" \t").startswith((b"#", b";")) and line.endswith(b"\\") for line in lines(text)))


def escaped_blanks(stack):
    """A blank at the end of a value stays where a backslash escapes it."""
    take_off(stack, lambda text: re.search(rb"\\[ \t]+\r?$", text, re.M))


def blanks_before_equals_signs(stack):
    """Blanks before the `=` are no part of the key."""
    take_off(stack, lambda text: re.search(rb"^[ \t]*[A-Z_][A-Z0-9_]*[ \t]+=", text, re.M))


# In the order in which they are taken off.
ROWS = [
    *(quotes_that_end_elsewhere, control_bytes, bytes_that_are_no_text, lines_that_go_on, comments_that_go_on, escaped_blanks),
    blanks_before_equals_signs,
]
