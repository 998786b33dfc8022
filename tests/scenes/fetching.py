"""tools/fetch with a server that does what it should: what comes into the depot, what is asked for, and what is told."""
import os
import pty
import shutil
import ssl
import subprocess
import time

from scenes.running import ABC, EMPTY, SECONDS, Failed, Skipped, expect, named, tree_text
from scenes.serving import around, expect_depot, expect_like, fetch, fetch_words, manifest_of, publish, serving, stands, told
from scenes.stores import DONE, digest, in_a_place
from scenes.tools import beside, text_of, tool

FINE = b"", b"", 0
ODD_NAMES = "a b", "100%25", "q?x=1", "h#f", "ü", "semi;colon", "+", "~"


def make_folder(folder):
    """A folder with files whose names have to be quoted in a URL, an empty one and two of the same bytes."""
    (folder / "usr/bin").mkdir(parents=True)
    (folder / "opt").mkdir()
    for at, name in enumerate(ODD_NAMES):
        (folder / "usr" / name).write_bytes(b"odd %d\n" % at)
    (folder / "usr/empty").touch()
    for path in "usr/bin/one", "usr/bin/same":
        (folder / path).write_bytes(b"x" * 100_000)
    (folder / "usr/link").symlink_to("../../outside")
    return folder


def a_published_folder_is_fetched_and_imported(place):
    folder, out = make_folder(beside(place, "folder")), beside(place, "out")
    expect(tool(place, "pack", folder, out, "host"), FINE)
    (out / "foo_1.raw").write_bytes(b"raw")
    (out / "SHA256SUMS").write_bytes(manifest_of({name: (out / name).read_bytes() for name in ("host.tree", "foo_1.raw")}))
    with serving(out) as served:
        expect(fetch(place, f"{served.url}/", place.depot), FINE)
        same = "host/usr/bin/one", "host/usr/bin/same"
        if [served.asked.count(path) for path in same] != [1, 0]:
            raise Failed(f"it asked for {served.asked}")
    expect_like(place.depot, out)
    place.expect(("init x86-64 system", DONE), ("import-fs host /", DONE), ("tree", text_of(place, folder)))


def what_is_there_is_not_fetched_again(place):
    trees = [("x", tree_text("d 755 a", f"f 644 3 {ABC} a/b", f"f 644 0 {EMPTY} c"), {"a/b": b"abc", "c": b""})]
    published = publish(beside(place, "out"), {"foo": b"foo"}, trees)
    with serving(published) as served:
        expect(fetch(place, served.url, place.depot), FINE)
        # an empty file need not be asked for
        served.expect_asked("SHA256SUMS", "foo", "x.tree", "x/a/b")
        expect(fetch(place, served.url, place.depot), FINE)
        served.expect_asked("SHA256SUMS")
        for path, asked in ("foo", ["foo"]), ("x/a/b", ["x/a/b"]), ("x.tree", ["x.tree"]):
            (place.depot / path).write_bytes(b"abd")
            expect(fetch(place, served.url, place.depot), FINE)
            served.expect_asked("SHA256SUMS", *asked)
            expect_like(place.depot, published)


def what_an_earlier_run_left_over_goes_with_a_whole_one(place):
    published, left_over = publish(beside(place, "out"), {"foo": b"foo"}), digest(b"left over")
    (place.depot / ".fetch").mkdir()
    (place.depot / ".fetch" / left_over).write_bytes(b"left")
    with serving(published) as served:
        expect(fetch(place, served.url, place.depot, "foo"), FINE)
        if left_over not in os.listdir(place.depot / ".fetch"):
            raise Failed("what came of another resource went with one that was named")
        expect(fetch(place, served.url, place.depot), FINE)
    expect_like(place.depot, published)


def of_a_new_version_only_what_is_new_is_fetched(place):
    old = [("t_1", tree_text(f"f 644 3 {ABC} a", f"f 644 1 {digest(b'1')} b"), {"a": b"abc", "b": b"1"})]
    new = [("t_2", tree_text(f"f 644 3 {ABC} a", f"f 644 1 {digest(b'2')} b", f"f 644 3 {ABC} c"), {"a": b"abc", "b": b"2", "c": b"abc"})]
    published = publish(beside(place, "out"), {}, old)
    with serving(published) as served:
        expect(fetch(place, served.url, place.depot), FINE)
        served.forget()
        publish(published, {}, [*old, *new])
        expect(fetch(place, served.url, place.depot), FINE)
        served.expect_asked("SHA256SUMS", "t_2.tree", "t_2/b")
    expect_like(place.depot, published)


def named_resources_come_alone_and_the_manifest_with_the_last(place):
    published = publish(beside(place, "out"), {"foo": b"foo"}, [("x", tree_text(f"f 644 3 {ABC} a"), {"a": b"abc"}), ("y", tree_text("d 755 b"), {})])
    away = "the manifest stays away: of what it lists the depot lacks "
    with serving(published) as served:
        expect(fetch(place, served.url, place.depot, "x"), (b"", told(away + "2 resources"), 0))
        expect_depot(place.depot, {"x.tree": tree_text(f"f 644 3 {ABC} a"), "x/a": b"abc"})
        served.expect_asked("SHA256SUMS", "x.tree", "x/a")
        expect(fetch(place, served.url, place.depot, "no", "x", "a/b"), (b"", told("no: the manifest doesn't list it", "a/b: the manifest doesn't list it"), 1))
        expect(fetch(place, served.url, place.depot, "y"), (b"", told(away + "1 resource"), 0))
        (place.depot / "x/a").write_bytes(b"abd")
        expect(fetch(place, served.url, place.depot, "foo"), (b"", told(away + "1 resource"), 0))
        (place.depot / "x/a").write_bytes(b"abc")
        expect(fetch(place, served.url, place.depot, "foo"), FINE)
    expect_like(place.depot, published)


def names_that_stand_for_nothing_are_passed_over(place):
    published = publish(beside(place, "out"), {"foo": b"foo", ".tree": b"a file", "...tree": b"another"})
    listed = b"".join(f"{ABC}  {name}\n".encode() for name in ("a/b", "./foo", "/foo", "../foo", "..", "x" * 256, ".fetch", ".fetch.tree", "SHA256SUMS", "SHA256SUMS.gpg", "SHA256SUMS.tree"))
    (published / "SHA256SUMS").write_bytes((published / "SHA256SUMS").read_bytes() + listed)
    lines = "passed over: 6 names that no file can have, as ..", "passed over: 5 names that fetch keeps for itself, as .fetch"
    with serving(published) as served:
        expect(fetch(place, served.url, place.depot), (b"", told(*lines), 0))
        served.expect_asked("SHA256SUMS", "foo", ".tree", "...tree")
    expect_like(place.depot, published)
    if stands(place.depot.parent).keys() & {"foo", "b"}:
        raise Failed("something came to stand beside the depot")


TRANSFER = """[Transfer]
Verify=no
[Source]
Type=url-file
Path=file:///images
MatchPattern=foo_@v.raw
[Target]
Type=regular-file
Path=/srv
"""


def what_was_fetched_is_offered(place):
    transfer = TRANSFER.encode()
    place.resource("host", tree_text("d 755 etc", "d 755 etc/sysupdate.d", f"f 644 {len(transfer)} {digest(transfer)} etc/sysupdate.d/foo.transfer"), {"etc/sysupdate.d/foo.transfer": transfer})
    place.expect(("init x86-64 system", DONE), ("import-fs host /", DONE), ("sysupdate check-new", b"refused 24 not-in-depot images/SHA256SUMS\n"))
    with serving(publish(beside(place, "out"), {"foo_1.raw": b"one", "foo_2.raw": b"two"})) as served:
        expect(fetch(place, served.url, place.depot / "images"), FINE)
    place.expect(("sysupdate check-new", b"2\n"), ("sysupdate list", b"2 available\n1 available\n"))


def two_at_once_take_turns(place):
    """The server holds the first back until the second waits, and a while longer, in which the second asks for nothing."""
    published = publish(beside(place, "out"), {"foo": b"foo"})
    with serving(published) as served:
        waits = beside(place, "waits")

        def held_back(request):
            end = time.monotonic() + SECONDS
            while b"waiting" not in waits.read_bytes() and time.monotonic() < end:
                time.sleep(0.01)
            time.sleep(0.5)
            if served.asked.count("SHA256SUMS") == 1:
                request.serve()

        waits.touch()
        served.odd["foo"] = held_back
        words = fetch_words(place, served.url, place.depot)
        first = subprocess.Popen(words, stderr=subprocess.PIPE, env=around())
        while "foo" not in served.asked:
            time.sleep(0.01)
        with open(waits, "wb") as lines:
            second = subprocess.Popen(words, stderr=lines, env=around())
            found = first.communicate(timeout=SECONDS)[1], first.returncode, second.wait(SECONDS), waits.read_bytes()
        if found != (b"", 0, 0, told("waiting for another fetch into this depot")):
            raise Failed(f"they end with {found}")
        served.expect_asked("SHA256SUMS", "SHA256SUMS", "foo")
    expect_like(place.depot, published)


def words_that_are_none_are_usage(place):
    for words in ([], ["http://h"], ["h", "d"], ["file:///etc", "d"], ["ftp://h/", "d"], ["http://", "d"], ["http://u@h/", "d"], ["http://h/?q", "d"], ["http://h:x/", "d"], ["--jobs", "0", "http://h", "d"], ["--jobs", "65", "http://h", "d"]):
        written, said, status = fetch(place, *words)
        expect((written, b"", status), (b"", b"", 2))
        if not said.startswith(b"usage: fetch [--keyring FILE] [--allow-older] [--public] [--quiet] [--jobs N] URL DEPOT [RESOURCE ..]\n"):
            raise Failed(f"of {words} it says {said}")
    expect((fetch(place, "--help")[2], (place.depot / "d").exists()), (0, False))


def read_all(handle):
    found = b""
    while True:
        try:
            piece = os.read(handle, 4_096)
        except OSError:
            # the other side has no terminal any more
            return found
        if not piece:
            return found
        found += piece


def shown_on_a_terminal(place, url, *words, **more):
    """What a run shows on a terminal, into a fresh depot."""
    ours, theirs = pty.openpty()
    depot = beside(place, f"depot{len(words)}{len(more)}")
    child = subprocess.Popen(fetch_words(place, *words, url, depot), stderr=theirs, env=around(**more))
    os.close(theirs)
    shown = read_all(ours)
    os.close(ours)
    expect((b"", b"", child.wait(SECONDS)), FINE)
    return shown


def on_a_terminal_a_line_tells_how_far_it_is_and_goes(place):
    """Once half a second has gone; and not at all where it is turned off, or the run is quick."""
    published = publish(beside(place, "out"), {"foo": b"x" * 3_000_000})

    def slow(request):
        content = request.content()
        request.head("200 OK", f"Content-Length: {len(content)}")
        request.send(content[:1_000_000])
        time.sleep(1)
        request.send(content[1_000_000:])

    with serving(published) as served:
        served.odd["foo"] = slow
        shown = shown_on_a_terminal(place, served.url)
        lines = shown.split(b"\r\x1b[K")
        if lines[0] or lines[-1] or len(lines) < 3 or not lines[1].startswith((b"fetch: 0 of 1 files, 0.", b"fetch: 0 of 1 files, 1.")) or b"\n" in shown:
            raise Failed(f"it shows {shown}")
        for words, more in (("--quiet",), {}), ((), {"HOSTEXT_PROGRESS": "no"}):
            if shown := shown_on_a_terminal(place, served.url, *words, **more):
                raise Failed(f"with {words} and {more} it shows {shown}")


def quiet_runs_tell_why_they_fail_and_nothing_else(place):
    published = publish(beside(place, "out"), {"foo": b"foo", "bar": b"bar"})
    (published / "SHA256SUMS").write_bytes((published / "SHA256SUMS").read_bytes() + f"{ABC}  ..\n".encode())
    with serving(published) as served:
        lines = "passed over: 1 names that no file can have, as ..", "the manifest stays away: of what it lists the depot lacks 1 resource"
        expect(fetch(place, served.url, place.depot, "foo"), (b"", told(*lines), 0))
        expect(fetch(place, "--quiet", served.url, place.depot, "foo"), FINE)
        expect(fetch(place, "--quiet", served.url, place.depot, "no"), (b"", told("no: the manifest doesn't list it"), 1))


def redirects_of_the_same_scheme_are_followed(place):
    published = publish(beside(place, "out"), {"foo": b"foo"})
    shutil.copytree(published, published / "new")
    with serving(published) as served:
        served.odd["foo"] = lambda request: request.head("302 Found", "Location: /new/b%61r/../foo?x", "Content-Length: 0")
        served.odd["new/bar/../foo?x"] = served.odd["new/foo?x"] = lambda request: request.head("307 Moved", f"Location: {served.url}/new/foo", "Content-Length: 0")
        expect(fetch(place, served.url, place.depot), FINE)
        if served.asked[-1] != "new/foo":
            raise Failed(f"it asked for {served.asked}")
        served.odd["foo"] = lambda request: request.head("301 Moved", "Location: foo", "Content-Length: 0")
        (place.depot / "foo").unlink()
        expect(fetch(place, served.url, place.depot), (b"", told(f"{served.url}/foo: more than 5 redirects"), 3))


def a_proxy_is_asked_where_the_variables_name_one(place):
    """The name of the host has no address, so only the proxy can answer."""
    published = publish(beside(place, "out"), {"foo": b"foo"})
    with serving(published) as served:
        proxy = served.url.replace("//", "//us%65r:word@")
        expect(fetch(place, "http://host.invalid/", place.depot, env=around(http_proxy=proxy)), FINE)
        paths = [(path, head.get("Proxy-Authorization"), head.get("Host")) for path, head in served.heads]
        wanted = [(f"http://host.invalid/{name}", "Basic dXNlcjp3b3Jk", "host.invalid") for name in ("SHA256SUMS", "foo")]
        if paths != wanted:
            raise Failed(f"the proxy was asked for {paths}")
        served.forget()
        expect(fetch(place, served.url, place.depot, env=around(http_proxy="http://127.0.0.1:9", no_proxy="127.0.0.1")), FINE)
        served.expect_asked("SHA256SUMS")
        expect(fetch(place, served.url, place.depot, env=around(http_proxy="socks5://h")), (b"", told("the proxy socks5://h is none by http"), 1))
    expect_like(place.depot, published)


def no_proxy_is_told_with_its_password(place):
    for named, shown in (
        ("socks5://user:secret@h", "socks5://h"),
        ("http://user:secret@h:x", "http://h:x"),
        ("http://user:secret@[::1", "http://[::1"),
        ("http://user:sec://ret@h:0", "http://h:0"),
        ("user:secret@h:99999999", "h:99999999"),
        ("user:sec://ret@", ""),
        ("http://", "http://"),
        ("[", "["),
    ):
        expect(fetch(place, "http://host.invalid/", place.depot, env=around(http_proxy=named)), (b"", told(f"the proxy {shown} is none by http"), 1))
    # a password that is no UTF-8 is passed on as it stands
    with serving(publish(beside(place, "out"), {"foo": b"foo"})) as served:
        proxy = os.fsencode(served.url).replace(b"//", b"//user:\xff@")
        expect(fetch(place, "http://host.invalid/", place.depot, env=around(http_proxy=os.fsdecode(proxy))), FINE)


def make_certificate(folder):
    key, made = folder / "key", folder / "certificate"
    words = ["openssl", "req", "-x509", "-newkey", "rsa:2048", "-nodes", "-keyout", key, "-out", made, "-days", "2", "-subj", "/CN=x", "-addext", "subjectAltName=IP:127.0.0.1"]
    subprocess.run(words, check=True, capture_output=True)
    return key, made


def by_https_the_certificate_is_looked_at(place):
    if not shutil.which("openssl"):
        raise Skipped("there is no openssl")
    key, certificate = make_certificate(place.store.parent)
    published, context = publish(beside(place, "out"), {"foo": b"foo"}), ssl.SSLContext(ssl.PROTOCOL_TLS_SERVER)
    context.load_cert_chain(certificate, key)
    with serving(published, context) as served:
        expect(fetch(place, served.url, place.depot), (b"", told(f"{served.url}/SHA256SUMS: self-signed certificate"), 3))
        expect_depot(place.depot, {})
        expect(fetch(place, served.url, place.depot, env=around(SSL_CERT_FILE=os.fspath(certificate))), FINE)
    expect_like(place.depot, published)


CALLS = [
    what_an_earlier_run_left_over_goes_with_a_whole_one,
    *(a_published_folder_is_fetched_and_imported, what_is_there_is_not_fetched_again, of_a_new_version_only_what_is_new_is_fetched),
    *(named_resources_come_alone_and_the_manifest_with_the_last, names_that_stand_for_nothing_are_passed_over, what_was_fetched_is_offered),
    *(two_at_once_take_turns, words_that_are_none_are_usage, on_a_terminal_a_line_tells_how_far_it_is_and_goes, redirects_of_the_same_scheme_are_followed),
    *(quiet_runs_tell_why_they_fail_and_nothing_else, a_proxy_is_asked_where_the_variables_name_one, no_proxy_is_told_with_its_password),
    by_https_the_certificate_is_looked_at,
]
scenes = named(*map(in_a_place, CALLS))
