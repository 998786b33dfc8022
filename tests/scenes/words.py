"""What the words are, and the bytes of standard input: tables of what is run and of what must come of it."""
from scenes.running import ABC, COMPARE, EMPTY, FULL, HOST, LAYER, MOST_ENTRIES, VERSION, Failed, directories, expect, named, removing, run, tree_text

MOST_SOURCE = 16_777_216

FULL_BUT_FIRST = FULL.decode().splitlines()[2:-1]
TWO_FILES = tree_text("d 755 usr", f"f 644 0 {EMPTY} usr/a", f"f 644 0 {EMPTY} usr/b")
FILE_IN_LIB = tree_text("d 700 usr", "d 755 usr/lib", f"f 644 3 {ABC} usr/lib/x")

# Two texts, and the word of the first one's order against the second.
ORDERS = [
    (b"1.10", b"1.9", b"greater"),
    (b"2.0~rc1", b"2.0", b"less"),
    (b"1_", b"1", b"equal"),
    (b"00123", b"123", b"equal"),
    (b"", b"~", b"greater"),
    (b"a", b"0", b"less"),
    (b"1.0", b"1", b"greater"),
    (b"9" * 100_000, b"1" + b"0" * 100_000, b"less"),
    (b"--version", b"--help", b"greater"),
]

# The chain of the Version Format Specification of the UAPI group: each is less than all that follow it.
CHAIN = b"122.1 123~rc1-1 123 123-a 123-a.1 123-1 123-1.1 123^post1 123.a-1 123.1-1 123a-1 124-1".split()

# What is shown, the source of `layer`, and the text of the layered tree.
LAYERS = [
    ("a host alone gives its own text", HOST, HOST),
    ("an image without entries changes nothing", HOST + tree_text(), HOST),
    ("a host without entries", tree_text() + HOST, HOST),
    (
        "a file of an image lies over a directory of the host",
        tree_text("d 755 usr", "d 755 usr/lib", "d 755 usr/lib/x", f"f 644 0 {EMPTY} usr/lib/x/c") + FILE_IN_LIB,
        FILE_IN_LIB,
    ),
    (
        "a directory over a file over a directory",
        tree_text("d 755 x", f"f 644 0 {EMPTY} x/c") + tree_text(f"f 644 3 {ABC} x") + tree_text("d 711 x", f"f 600 0 {EMPTY} x/t"),
        tree_text("d 711 x", f"f 600 0 {EMPTY} x/t"),
    ),
    ("a link hides what is below it", tree_text("d 755 a", "d 755 a/b") + tree_text("l 4 /b c a"), tree_text("l 4 /b c a")),
    ("a whiteout hides a file", TWO_FILES + removing("d 755 usr", "w usr/a"), tree_text("d 755 usr", f"f 644 0 {EMPTY} usr/b")),
    (
        "an opaque directory replaces one",
        TWO_FILES + removing("o 700 usr", f"f 644 3 {ABC} usr/c"),
        tree_text("d 700 usr", f"f 644 3 {ABC} usr/c"),
    ),
    (
        "a directory over a whiteout over a directory",
        TWO_FILES + removing("w usr") + tree_text("d 711 usr", f"f 600 0 {EMPTY} usr/t"),
        tree_text("d 711 usr", f"f 600 0 {EMPTY} usr/t"),
    ),
    (
        "a directory over an opaque one lets through what that one has",
        TWO_FILES + removing("o 700 usr", f"f 644 3 {ABC} usr/c") + tree_text("d 711 usr", f"f 600 0 {EMPTY} usr/t"),
        tree_text("d 711 usr", f"f 644 3 {ABC} usr/c", f"f 600 0 {EMPTY} usr/t"),
    ),
    ("a host's own whiteouts and opaque directories", removing("o 755 usr", "w usr/a"), tree_text("d 755 usr")),
    ("a whiteout of nothing", HOST + removing("w usr.d"), HOST),
    ("as many entries as a tree may have", FULL, FULL),
    ("a whiteout makes room", FULL + removing("w 000000") + tree_text("d 755 a"), tree_text(*FULL_BUT_FIRST, "d 755 a")),
]

# What is shown, the source of `layer`, and the line of the refusal after `refused`.
REFUSALS = [
    ("no byte", b"", b"23 bad-tree 1 -"),
    ("a text that stops early", b"hostext-tree 1\nd 755 usr\n", b"23 bad-tree 3 -"),
    ("a last line without its newline", b"hostext-tree 1\nd 755 usr\nend", b"23 bad-tree 3 -"),
    ("paths out of order", tree_text(f"f 644 0 {EMPTY} b", f"f 644 0 {EMPTY} a"), b"23 bad-tree 3 -"),
    ("an entry below a file", tree_text(f"f 644 0 {EMPTY} a", "d 755 a/b"), b"23 bad-tree 3 -"),
    ("a digest in capitals", tree_text(f"f 644 0 {EMPTY.upper()} a"), b"23 bad-tree 2 -"),
    ("a path that is no UTF-8", b"hostext-tree 1\nd 755 \xff\nend\n", b"23 bad-tree 2 -"),
    ("lines with carriage returns", b"hostext-tree 1\r\nend\r\n", b"23 bad-tree 1 -"),
    ("version 2 without a line o or w", b"hostext-tree 2\nd 755 usr\nend\n", b"23 bad-tree 3 -"),
    ("a line w in version 1", tree_text("w a"), b"23 bad-tree 2 -"),
    ("a line o in version 1", tree_text("o 755 a"), b"23 bad-tree 2 -"),
    ("an entry below a whiteout", removing("w a", "d 755 a/b"), b"23 bad-tree 3 -"),
    ("version 3 without an owner", b"hostext-tree 3\nw a\nend\n", b"23 bad-tree 3 -"),
    ("an owner in version 2", removing("d 755:1:1 a", "w b"), b"23 bad-tree 2 -"),
    ("an owner of a whiteout", b"hostext-tree 3\nw:1:1 a\nend\n", b"23 bad-tree 2 -"),
    ("a header of version 4", b"hostext-tree 4\nend\n", b"23 bad-tree 1 -"),
    ("lines are counted through the texts", HOST + b"hostext-tree\n", b"23 bad-tree 5 -"),
    ("a text of one entry too many", directories(MOST_ENTRIES + 1), b"23 bad-tree 262146 -"),
    ("a layered tree of one entry too many", FULL + tree_text("d 755 a"), b"7 limit entries"),
    ("a faulty text comes before a limit", FULL + tree_text("d 755 a") + b"\n", b"23 bad-tree 262150 -"),
    ("a source of the greatest length", b"\n" * MOST_SOURCE, b"23 bad-tree 1 -"),
]

# What is shown, the words, and the place that is told.
USAGES = [
    ("no word", [], 1),
    ("one word", [b"."], 1),
    ("an option that there isn't", [b"--halp"], 1),
    ("an option beside another", [b"--help", b"--version"], 1),
    ("an option where a command stands", [b".", b".", b"--help"], 1),
    ("no command", [b".", b"."], 1),
    ("a word that is no command", [b".", b".", b"merge"], 1),
    ("a command in capitals", [b".", b".", b"LAYER"], 1),
    ("an empty command", [b".", b".", b""], 1),
    ("layer and a word more", [*LAYER, b"x"], 2),
    ("compare without a text", COMPARE, 2),
    ("compare with one text", [*COMPARE, b"1"], 3),
    ("compare with three texts", [*COMPARE, b"1", b"2", b"3"], 4),
    ("batch and a word more", [b".", b".", b"batch", b"x"], 2),
    ("sample without a number", [b".", b".", b"sample"], 2),
    ("sample of no image", [b".", b".", b"sample", b"0"], 2),
    ("sample of more images than there may be", [b".", b".", b"sample", b"501"], 2),
    ("a number that begins with 0", [b".", b".", b"sample", b"01"], 2),
    ("sample of two numbers", [b".", b".", b"sample", b"1", b"1"], 3),
    ("sysupdate without a verb", [b".", b".", b"sysupdate"], 2),
    ("sysupdate of a component without a verb", [b".", b".", b"sysupdate", b"--component=x"], 3),
    ("components of a component", [b".", b".", b"sysupdate", b"--component=x", b"components"], 3),
    ("a component whose name begins with a dash", [b".", b".", b"sysupdate", b"--component=-x", b"list"], 2),
    ("portable without a verb", [b".", b".", b"portable"], 2),
    ("portable and a verb of images", [b".", b".", b"portable", b"merge"], 2),
    ("attach without an image", [b".", b".", b"portable", b"attach", b"--runtime"], 4),
    ("a second --runtime", [b".", b".", b"portable", b"attach", b"app", b"--runtime", b"--runtime"], 5),
    ("a copy mode that there isn't", [b".", b".", b"portable", b"reattach", b"app", b"--copy=links"], 4),
    ("a prefix that begins with a dash", [b".", b".", b"portable", b"inspect", b"app", b"-x"], 4),
    ("detach of two", [b".", b".", b"portable", b"detach", b"app", b"other"], 4),
    ("a lone argument that is no UTF-8", [b"\xff"], 1),
    ("a store that is no UTF-8", [b"\xff", b".", b"layer"], 1),
    ("a text that is no UTF-8", [*COMPARE, b"1", b"\xff"], 1),
]


def of_tables(program):
    def case(words, source, *wanted):
        return lambda: expect(run(program, words, source), wanted)

    for a, b, word in ORDERS:
        name = " and ".join(shown if len(shown) <= 20 else f"{len(shown)} digits" for shown in (a.decode(), b.decode()))
        yield f"compare: {name}", case([*COMPARE, a, b], b"", word + b"\n", b"", 0)
    for name, source, layered in LAYERS:
        yield f"layer: {name}", case(LAYER, source, layered, b"", 0)
    for name, source, line in REFUSALS:
        yield f"refused: {name}", case(LAYER, source, b"refused " + line + b"\n", b"", 1)
    for name, words, place in USAGES:
        yield f"usage: {name}", case(words, HOST, b"", b"hostext: usage %d\n" % place, 2)
    yield "folders that aren't there", case([b"/no/store", b"", b"layer"], HOST, HOST, b"", 0)
    yield "too long: one byte more", case(LAYER, b"\n" * (MOST_SOURCE + 1), b"", b"hostext: input too long\n", 10)
    yield "--version", case([b"--version"], b"", VERSION, b"", 0)


def help_shows_each_command(program):
    written, told, status = run(program, [b"--help"])
    expect((b"", told, status), (b"", b"", 0))
    commands = "init import-fs remove sysext confext sysupdate portable tree cat check migrate compare layer batch sample".split()
    for said in (b"usage: hostext STORE DEPOT COMMAND ..\n", *(f"\n  {word}".encode() for word in commands)):
        if said not in written:
            raise Failed(f"{said!r} isn't in {written!r}")


def each_version_of_the_chain_is_less_than_all_that_follow(program):
    for at, lower in enumerate(CHAIN):
        for upper in CHAIN[at + 1 :]:
            expect(run(program, [*COMPARE, lower, upper]), (b"less\n", b"", 0))


def scenes(program):
    yield from of_tables(program)
    yield from named(help_shows_each_command, each_version_of_the_chain_is_less_than_all_that_follow)(program)
