"""A web server on the loopback address for scenes: it serves a folder, notes what was asked for and how many bytes it sent of it, and
answers at some paths as a scene says."""
import os
import re
import shutil
import subprocess
import threading
from contextlib import contextmanager
from http.server import BaseHTTPRequestHandler, ThreadingHTTPServer
from urllib.parse import unquote_to_bytes

from scenes.running import SECONDS, Failed
from scenes.stores import digest
from scenes.tools import TOOLS, beside

PIECE = 4_096


class Answers(BaseHTTPRequestHandler):
    """One connection. Requests with the whole URL, as a proxy gets them, are answered like those with its path."""

    protocol_version = "HTTP/1.1"
    timeout = SECONDS

    def do_GET(self):
        self.place = os.fsdecode(unquote_to_bytes(re.sub("^http://[^/]*", "", self.path)).lstrip(b"/"))
        self.server.served.note(self)
        self.server.served.odd.get(self.place, type(self).serve)(self)

    def log_message(self, *_):
        pass

    def start(self):
        """The byte from which on the file is asked for."""
        found = re.fullmatch("bytes=([0-9]+)-", self.headers.get("Range", ""))
        return int(found[1]) if found else 0

    def content(self):
        """The bytes of the file that is asked for, or nothing."""
        path = self.server.served.folder / self.place
        return path.read_bytes() if path.is_file() else None

    def head(self, status, *lines):
        """Sends a status line and these lines of the head."""
        text = "".join(f"{line}\r\n" for line in (f"HTTP/1.1 {status}", *lines, ""))
        self.wfile.write(text.encode())

    def send(self, content):
        for at in range(0, len(content), PIECE):
            self.wfile.write(content[at : at + PIECE])
            self.server.served.count(self.place, len(content[at : at + PIECE]))

    def hang_up(self):
        self.close_connection = True

    def serve(self):
        self.serve_up_to(None)

    def serve_up_to(self, most):
        """Sends the file, or the rest that is asked for, or of this so many bytes and hangs up."""
        content, start = self.content(), self.start()
        if content is None:
            self.head("404 Not Found", "Content-Length: 0")
        elif start and start >= len(content):
            self.head("416 Range Not Satisfiable", "Content-Length: 0")
        else:
            lines = [f"Content-Range: bytes {start}-{len(content) - 1}/{len(content)}"] if start else []
            self.head("206 Partial Content" if start else "200 OK", *lines, f"Content-Length: {len(content) - start}")
            self.send(content[start:][:most])
            if most is not None and most < len(content) - start:
                self.hang_up()


class Served:
    """A folder that is served, what was asked for, and how many bytes went out of each file."""

    def __init__(self, folder):
        self.folder, self.asked, self.sent, self.odd, self.lock = folder, [], {}, {}, threading.Lock()
        self.heads = []

    def note(self, request):
        with self.lock:
            self.asked.append(request.place)
            self.heads.append((request.path, dict(request.headers)))

    def count(self, place, size):
        with self.lock:
            self.sent[place] = self.sent.get(place, 0) + size

    def forget(self):
        with self.lock:
            self.asked.clear()
            self.sent.clear()
            self.heads.clear()

    def expect_asked(self, *places):
        """That these were asked for since the last time, in whatever order, and nothing else."""
        if sorted(self.asked) != sorted(places):
            raise Failed(f"it asked for {sorted(self.asked)}, and not {sorted(places)}")
        self.forget()


class Loopback(ThreadingHTTPServer):
    daemon_threads = True
    request_queue_size = 64

    def handle_error(self, *_):
        """What goes wrong with a connection is for the client to tell."""


@contextmanager
def serving(folder, context=None):
    """The folder while it is served, with its URL. A context makes it HTTPS."""
    with Loopback(("127.0.0.1", 0), Answers) as server:
        server.served = Served(folder)
        if context:
            server.socket = context.wrap_socket(server.socket, server_side=True)
        server.served.url = f"http{'s' * bool(context)}://127.0.0.1:{server.server_address[1]}"
        threading.Thread(target=server.serve_forever, kwargs={"poll_interval": 0.01}, daemon=True).start()
        try:
            yield server.served
        finally:
            server.shutdown()


def publish(folder, files, trees=()):
    """Writes files into a folder, and a manifest of those directly in it. Of each tree, a name, the text and the bytes of files by
    their paths are given."""
    folder.mkdir(exist_ok=True)
    for name, text, inner in trees:
        files = {**files, f"{name}.tree": text, **{f"{name}/{path}": content for path, content in inner.items()}}
    for path, content in files.items():
        (folder / path).parent.mkdir(parents=True, exist_ok=True)
        (folder / path).write_bytes(content)
    (folder / "SHA256SUMS").write_bytes(manifest_of({path: content for path, content in files.items() if "/" not in path}))
    return folder


def manifest_of(files):
    return b"".join(f"{digest(content)}  {name}\n".encode() for name, content in sorted(files.items()))


def around(**more):
    """The environment without proxies, with these variables more."""
    kept = {name: value for name, value in os.environ.items() if not name.lower().endswith("_proxy")}
    return {**kept, **more}


def fetch_words(place, *words):
    """A copy of the tool that doesn't wait before it asks again."""
    tools = beside(place, "impatient")
    if not tools.exists():
        shutil.copytree(TOOLS, tools)
        text = (tools / "web.py").read_text()
        if "WAITS = 0, 1, 2, 4\n" not in text:
            raise Failed("tools/web.py has other waits than the scenes know of")
        (tools / "web.py").write_text(text.replace("WAITS = 0, 1, 2, 4\n", "WAITS = 0, 0, 0, 0\n"))
    return [os.fspath(tools / "fetch"), *map(os.fspath, words)]


def fetch(place, *words, **options):
    """What the tool writes on both outputs, and its status."""
    ended = subprocess.run(fetch_words(place, *words), **{"env": around(), "capture_output": True, "timeout": SECONDS, **options})
    return ended.stdout, ended.stderr, ended.returncode


def told(*lines):
    """What the tool writes on standard error."""
    return "".join(f"fetch: {line}\n" for line in lines).encode()


def stands(folder):
    """Each path below a folder, with the bytes of its file, where it leads where it is a link, or nothing for a folder."""
    return {os.fspath(path.relative_to(folder)): os.readlink(path) if path.is_symlink() else path.read_bytes() if path.is_file() else None for path in sorted(folder.rglob("*"))}


def expect_depot(folder, wanted):
    """That just these files stand in a depot, with nothing left over."""
    found = {path: content for path, content in stands(folder).items() if content is not None or path == ".fetch"}
    if found != wanted:
        lost, more = sorted(wanted.keys() - found.keys()), sorted(found.keys() - wanted.keys())
        raise Failed(f"the depot lacks {lost}, has {more} more, and others of {sorted(path for path in found.keys() & wanted.keys() if found[path] != wanted[path])}")


def expect_like(depot, published):
    expect_depot(depot, {path: content for path, content in stands(published).items() if content is not None})
