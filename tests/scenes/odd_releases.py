"""Release files with what somebody may write into them, so that rows of told_releases.py have something to tell."""
from scenes.real_trees import directory, file
from scenes.stacks import RELEASES, Image, Stack

PLAIN = b"ID=_any", b"ID=debian", b"VERSION_ID=12", b'VERSION_ID="12"', b"ID='debian'", b"NAME=x", b"# a comment", b"", b"SYSEXT_LEVEL=2", b"VERSION_ID=11", b"ID=fedora"
ODD_LINES = {
    "quotes_that_end_elsewhere": (b'ID="_any', b"ID='debian", b'ID="_a"ny', b"ID='deb'\"ian\"", b'VERSION_ID="1""2"', b'NAME="two\nlines"', b'ID="deb\\\nian"', b'NAME="', b'ID="_any" # why', b"ID='_any' "),
    "control_bytes": (b"ID=_any\x01", b"NAME=\x1b", b"#\x07", b"ID=debian\rVERSION_ID=12", b"NAME=a\x00b", b"ID=\x7f", b"\x0bID=_any", b"ID=_any\x0b"),
    "bytes_that_are_no_text": (b"# \xff", b"NAME=\xff", b"ID=\xc3", b"\xff", b"\xff=x", b"NAME=\xed\xa0\x80"),
    "lines_that_go_on": (b"ID=deb\\\nian", b"NAME=x\\", b"ID=_any\\", b"VERSION_ID=1\\\n2", b"NAME=a \\\n b"),
    "comments_that_go_on": (b"# a\\", b"; a\\", b"#\\\\", b"# a\\\\\\"),
    "escaped_blanks": (b"ID=debian\\ ", b"VERSION_ID=12\\\t", b"NAME=a\\  "),
    "blanks_before_equals_signs": (b"ID = debian", b"ID =_any", b"VERSION_ID\t=12", b"\tID \t= debian"),
    # The same in both.
    "": (b"=ID=fedora", b"=", b"ID", b"export ID=fedora", b"id=fedora", b"ID=_a\\ny", b"ID= debian ", b"ID=d\\ebian", b"ID=\\_any", b'ID="_\\any"', b'ID=de"bian"', b"ID=\xc3\xa4", b"ID=", b'VERSION_ID=""', b"ID=debian\r", b"ID=a=b"),
}
PIECES = b'"', b"'", b"\\", b"\n", b"=", b" ", b"#", b"\t", b"\r", b"\r\n", b";", b"$", b"\\\n", b"\\ ", b'\\"', b"\xc3\xa9", b"\xff"


def text(chance, kinds):
    """Lines of which some are odd."""
    found = [chance.choice(PLAIN) for _ in range(chance.choice((1, 2, 3, 4)))]
    for _ in range(chance.choice((0, 1, 1, 2))):
        found.insert(chance.randrange(len(found) + 1), chance.choice(ODD_LINES[chance.choice(kinds)]))
    return b"\n".join(found) + chance.choice((b"\n", b"\n", b""))


def mutated(chance, given):
    """A text with some of its bytes taken away, and pieces put in."""
    given = bytearray(given)
    for _ in range(chance.choice((0, 0, 1, 2, 3))):
        at = chance.randrange(len(given) + 1)
        if chance.random() < 0.3:
            del given[at : at + chance.choice((1, 1, 3))]
        else:
            given[at:at] = chance.choice(PIECES)
    return bytes(given)


def drawn(chance, version, count):
    """A stack of many images, which differ by their release files alone."""
    kinds = list(ODD_LINES)
    host = b"ID=debian\nVERSION_ID=12\n" if chance.random() < 0.6 else mutated(chance, text(chance, kinds))
    images = []
    for at in range(count):
        name = f"t-{at}"
        tree = {"usr": directory(), "usr/lib": directory(), "usr/lib/extension-release.d": directory()}
        tree[RELEASES["sysext"] + name] = file(mutated(chance, text(chance, kinds)))
        images.append(Image(name, f"var/lib/extensions/{name}", tree))
    return Stack(version, "sysext", False, {"usr": directory(), "usr/lib": directory(), "opt": directory(), "usr/lib/os-release": file(host)}, images)


def odd(kind):
    """Puts odd lines of a kind into the release file of an image, or of the host."""

    def make(chance, stack):
        image = chance.choice(stack.images)
        path = image.release(stack.kind)
        if image.tree.get(path, ("",))[0] == "f":
            image.tree[path] = (*image.tree[path][:2], text(chance, [kind]), *image.tree[path][3:])

    make.__name__ = kind
    return make


ODD = [odd(kind) for kind in ODD_LINES if kind]
