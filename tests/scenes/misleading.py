"""tools/fetch with servers that mislead it: other bytes than listed, endless ones, names that lead out of the depot, redirects to
elsewhere, faulty manifests and tree texts. Each is told, and replaces nothing."""
import itertools
import random
import shutil

from scenes.running import ABC, EMPTY, Failed, expect, named, tree_text
from scenes.serving import expect_like, fetch, fetch_words, manifest_of, publish, serving, stands, told
from scenes.stores import digest, in_a_place
from scenes.tools import beside

FINE = b"", b"", 0
OLD = {"foo_1": b"one"}, [("x", tree_text(f"f 644 3 {ABC} a"), {"a": b"abc"})]
# What the copy of the tool takes for the most bytes of a file, and of a manifest or a tree text.
MOST_FILE, MOST_TEXT = 60_000, 10_000


def answer(content, *lines):
    """An answer with this body and these lines, after which the connection is closed."""

    def call(request):
        request.head("200 OK", "Connection: close", *lines)
        request.send(content)
        request.hang_up()

    return call


def of_length(content):
    return answer(content, f"Content-Length: {len(content)}")


def chunks(content):
    """A body in chunks of a byte and of more."""
    sizes = itertools.cycle((1, 7, 5_000))
    found, at = b"", 0
    while at < len(content):
        piece = content[at : at + next(sizes)]
        found, at = found + b"%x;name=x\r\n%b\r\n" % (len(piece), piece), at + len(piece)
    return answer(found + b"0\r\nTrailer: x\r\n\r\n", "Transfer-Encoding: chunked")


def endless(*lines, piece=b"x" * 4_096):
    """An answer that goes on until the client hangs up."""

    def call(request):
        request.head("200 OK", *lines)
        try:
            while True:
                request.send(piece)
        finally:
            request.hang_up()

    return call


def redirect(where):
    return lambda request: request.head("302 Found", f"Location: {where}", "Content-Length: 0")


def other(path, content):
    return f"BASE/{path}: it isn't what is listed: it has {len(content):,} bytes with the digest {digest(content)}"


def longer(path, most):
    return f"BASE/{path}: it is longer than the {most:,} bytes that it may have"


# What is shown, the path that is answered in another way, the answer, what is told and the status. `x/a` is listed with three bytes.
BODIES = [
    ("other bytes", "x/a", of_length(b"abd"), other("x/a", b"abd"), 1),
    ("other bytes of a file whose size isn't listed", "foo_2", of_length(b"two "), other("foo_2", b"two "), 1),
    ("a shorter body", "x/a", of_length(b"ab"), other("x/a", b"ab"), 1),
    ("no byte", "x/a", of_length(b""), other("x/a", b""), 1),
    ("a longer body", "x/a", of_length(b"abcd"), longer("x/a", 3), 1),
    ("a longer body without a length", "x/a", answer(b"abcd"), longer("x/a", 3), 1),
    ("a longer body in chunks", "x/a", chunks(b"abcd"), longer("x/a", 3), 1),
    ("an endless body", "x/a", endless(), longer("x/a", 3), 1),
    ("an endless body of a file whose size isn't listed", "foo_2", endless(), longer("foo_2", MOST_FILE), 1),
    ("an endless tree text", "x.tree", endless(), longer("x.tree", MOST_TEXT), 1),
    ("an endless manifest", "SHA256SUMS", endless(), longer("SHA256SUMS", MOST_TEXT), 1),
    ("an endless chunk", "x/a", endless("Transfer-Encoding: chunked", piece=b"ffffffff\r\n" + b"x" * 4_096), longer("x/a", 3), 1),
    ("a length beyond all bounds", "foo_2", answer(b"two", f"Content-Length: {10**30}"), longer("foo_2", MOST_FILE), 1),
    ("an encoded body", "x/a", answer(b"abc", "Content-Encoding: gzip", "Content-Length: 3"), "BASE/x/a: the answer is encoded, as nobody asked for: gzip", 1),
    ("a redirect to a file", "x/a", redirect("file:///etc/passwd"), "BASE/x/a: a redirect to another scheme: file:///etc/passwd", 1),
    ("a redirect to another scheme", "x/a", redirect("https://127.0.0.1/x"), "BASE/x/a: a redirect to another scheme: https://127.0.0.1/x", 1),
    ("a redirect to no host", "x/a", redirect("http://:1/"), "BASE/x/a: a redirect to no URL", 3),
    ("a redirect to nothing", "x/a", lambda request: request.head("302 Found", "Content-Length: 0"), "BASE/x/a: a redirect to no URL", 3),
    ("a manifest without an end", "SHA256SUMS", answer(b""), "SHA256SUMS: the server doesn't say where it ends, so it may be cut off", 1),
    ("an answer without a body", "x/a", lambda request: request.head("204 No Content"), "BASE/x/a: the server answers 204 No Content", 3),
    ("a part that nobody asked for", "x/a", lambda request: request.head("206 Partial Content", "Content-Range: bytes 0-2/3", "Content-Length: 3"), "BASE/x/a: the server answers 206 Partial Content", 3),
]

LINE = f"{ABC}  foo\n"
# What is shown, the manifest, and what is told.
MANIFESTS = [
    ("no manifest", b"<html>\n", "SHA256SUMS: line 1: it is no digest and name"),
    ("a line that is cut off", f"{LINE}{ABC} ".encode(), "SHA256SUMS: line 2: it is no digest and name"),
    ("a control byte", f"{LINE}{ABC}  a\x1b[2J\n".encode(), "SHA256SUMS: line 2: a control byte in the name"),
    ("a null byte", f"{ABC}  a\0b\n".encode(), "SHA256SUMS: line 1: a control byte in the name"),
    ("a name that is no UTF-8", f"{ABC}  ".encode() + b"\xff\n", "SHA256SUMS: line 1: the name is no UTF-8"),
    ("two digests of a name", f"{LINE}{EMPTY}  foo\n".encode(), "SHA256SUMS: line 2: its name was listed with another digest"),
    ("a file and a directory of a name", f"{LINE}{EMPTY}  foo.tree\n".encode(), "SHA256SUMS: it lists foo as a file and as a directory"),
]

# What is shown, the lines of the tree text, and what is told.
TREES = [
    ("a path out of the depot", [f"f 644 3 {ABC} ../a"], "x.tree: line 2: a name that no path has"),
    ("a path through a directory out of it", ["d 755 a", f"f 644 3 {ABC} a/../../b"], "x.tree: line 3: a name that no path has"),
    ("an absolute path", [f"f 644 3 {ABC} /a"], "x.tree: line 2: a name that no path has"),
    ("a path with a control byte", [f"f 644 3 {ABC} a\x1bb"], "x.tree: line 2: a control byte in its name"),
    ("a file below a link", ["l 2 .. a", f"f 644 3 {ABC} a/b"], "x.tree: line 3: no directory stands above it"),
    ("no tree text", ["end", ""], "x.tree: line 3: something follows the end"),
    ("more bytes than a host has", [f"f 644 1073741824 {digest(b'%d' % at)} {at}" for at in range(5)], "x.tree: its files have more than 4,294,967,296 bytes"),
    ("two sizes of one digest", [f"f 644 3 {ABC} a", f"f 644 4 {ABC} b"], "x/b: it is listed with another size than x/a, and with the same digest"),
]


def with_small_limits(place):
    """The copy of the tool with limits that a scene can pass."""
    fetch_words(place)
    for name, known, small in ("entries.py", "MOST_FILE_BYTES = 1_073_741_824\n", MOST_FILE), ("texts.py", "MOST_TEXT_BYTES = 67_108_864\n", MOST_TEXT):
        path = beside(place, "impatient") / name
        text = path.read_text()
        if known not in text:
            raise Failed(f"tools/{name} has no line {known}")
        path.write_text(text.replace(known, f"{known.split()[0]} = {small}\n"))


def is_refused(place, served, line, status):
    """That something is told, and that nothing in the depot or beside it is another than before."""
    before, around = stands(place.depot), sorted(path.name for path in place.depot.parent.iterdir())
    expect(fetch(place, served.url, place.depot), (b"", told(line.replace("BASE", served.url)), status))
    after = {path: content for path, content in stands(place.depot).items() if not path.startswith(".fetch")}
    if after != before or sorted(path.name for path in place.depot.parent.iterdir()) != around:
        raise Failed(f"the depot has {sorted(after)}, and beside it stand {sorted(path.name for path in place.depot.parent.iterdir())}")
    shutil.rmtree(place.depot / ".fetch", ignore_errors=True)


def in_a_published_place(place, rows, check):
    """Each row with a depot that has what was published before, and a server that has more."""
    published = publish(beside(place, "out"), *OLD)
    with serving(published) as served:
        fetch_words(place)
        expect(fetch(place, served.url, place.depot), FINE)
        new = [("x", tree_text(f"f 644 3 {ABC} a", f"f 644 3 {digest(b'new')} b"), {"a": b"abc", "b": b"new"})]
        for row in rows:
            publish(published, {"foo_1": b"one", "foo_2": b"two"}, new)
            try:
                check(served, *row[1:])
            except Failed as reason:
                raise Failed(f"{row[0]}: {reason}") from None


def each_body_that_is_not_what_is_listed_replaces_nothing(place):
    with_small_limits(place)

    def check(served, path, call, line, status):
        served.odd = {path: call}
        if path == "x/a":
            (place.depot / "x/a").write_bytes(b"old")
        served.forget()
        is_refused(place, served, line, status)
        served.odd = {}
        if served.sent.get(path, 0) > 20_000_000:
            raise Failed(f"the server sent {served.sent[path]:,} bytes")

    in_a_published_place(place, BODIES, check)


def each_faulty_manifest_replaces_nothing(place):
    def check(served, text, line):
        (served.folder / "SHA256SUMS").write_bytes(text)
        is_refused(place, served, line, 1)

    in_a_published_place(place, MANIFESTS, check)


def each_faulty_tree_text_replaces_nothing(place):
    def check(served, lines, line):
        text = tree_text(*lines)
        (served.folder / "x.tree").write_bytes(text)
        (served.folder / "SHA256SUMS").write_bytes(manifest_of({"x.tree": text, "foo_1": b"one"}))
        is_refused(place, served, line, 1)

    in_a_published_place(place, TREES, check)


def a_body_in_chunks_or_without_a_length_is_taken(place):
    content = random.Random(11).randbytes(30_000)
    published = publish(beside(place, "out"), {"foo": content, "bar": content[::-1]}, [("x", tree_text(f"f 644 3 {ABC} a"), {"a": b"abc"})])
    with serving(published) as served:
        served.odd = {"foo": chunks(content), "bar": answer(content[::-1]), "x/a": chunks(b"abc"), "SHA256SUMS": chunks((published / "SHA256SUMS").read_bytes())}
        expect(fetch(place, served.url, place.depot), FINE)
    expect_like(place.depot, published)


CALLS = [
    *(each_body_that_is_not_what_is_listed_replaces_nothing, each_faulty_manifest_replaces_nothing),
    *(each_faulty_tree_text_replaces_nothing, a_body_in_chunks_or_without_a_length_is_taken),
]
scenes = named(*map(in_a_place, CALLS))
