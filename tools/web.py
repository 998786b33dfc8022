"""Requests for what stands below a URL, by HTTP or HTTPS, through a proxy where the usual variables name one.

Bytes are asked for as they stand, and never compressed. Where an answer breaks off, the next request asks for the rest. A server that
fails, or that can't be reached, is asked a few times more. No answer is read beyond its limit by more than a byte, and a redirect
leads to no other scheme.

No server holds a request for ever. Its answer has to begin in time, after a few answers of 1xx at the most, and what is asked for
has to come at a least rate, in however many answers.
"""
import base64
import functools
import http.client
import io
import re
import socket
import ssl
import time
from urllib import parse, request

from entries import Refused, shown

# How long a call on a connection may take, and an answer until its head is whole.
SECONDS = 30
# The bytes of a body that have to come in each span of so many seconds, but for the last one.
SPAN, LEAST = 60, 61_440
# How many heads an answer may have, each but the last of an answer of 1xx, and how many bytes may come without a piece of a body.
MOST_HEADS, MOST_AROUND = 16, 1_048_576
PIECE = 65_536
MOST_REDIRECTS = 5
REDIRECTS = {301, 302, 303, 307, 308}
# What a server answers that may answer otherwise the next time.
FAILS_NOW = {408, 429, 500, 502, 503, 504}
FAULTS = OSError, UnicodeError, http.client.HTTPException
# The seconds before each further request, where the one before brought nothing.
WAITS = 0, 1, 2, 4
RANGE = re.compile(r"bytes ([0-9]+)-[0-9]+/(?:[0-9]+|\*)")
SCHEME = re.compile(r"[A-Za-z][A-Za-z0-9+.-]*://")
PORTS = {"http": 80, "https": 443}


class Unreached(Refused):
    """The server can't be reached, or hasn't got what is asked for."""


class Broken(Exception):
    """A request that failed where the next one may go through."""


class Slow(Exception):
    """What is asked for comes at less than the least rate."""


class Pace:
    """How long the next bytes may take. It goes on from one answer to the next of what is asked for, and counts bodies alone."""

    def begin(self):
        """Something else is asked for."""
        self.since, self.count = time.monotonic(), 0
        self.head_by, self.around = None, 0

    def wait_for_head(self):
        self.head_by, self.around = time.monotonic() + SECONDS, 0

    def has_head(self):
        self.head_by = None

    def has_piece(self):
        self.around = 0

    def left(self, until):
        """The seconds to the next moment at which something has to have come, of which the last is given."""
        now = time.monotonic()
        if now >= self.since + SPAN:
            if self.count < LEAST:
                raise Slow
            self.since, self.count = now, 0
        if self.head_by and now >= self.head_by:
            raise TimeoutError("the head of the answer takes too long")
        return max(0.001, min(until, self.since + SPAN, self.head_by or until) - now)

    def add(self, count):
        self.around += count
        if self.head_by is None:
            self.count += count
        if self.around > MOST_AROUND:
            raise http.client.HTTPException("the answer has too much beside its body")


class Paced(io.RawIOBase):
    """What comes over a connection, as fast as the pace wants it."""

    def __init__(self, plain, connection, pace):
        self.plain, self.connection, self.pace = plain, connection, pace

    def readable(self):
        return True

    def readinto(self, buffer):
        until = time.monotonic() + SECONDS
        while True:
            self.connection.settimeout(self.pace.left(until))
            try:
                count = self.connection.recv_into(buffer)
                break
            except socket.timeout:
                if time.monotonic() >= until:
                    raise
        self.pace.add(count)
        return count

    def close(self):
        super().close()
        self.plain.close()


class Answer(http.client.HTTPResponse):
    """An answer that is read at a pace."""

    def __init__(self, connection, *words, pace, **named):
        super().__init__(connection, *words, **named)
        # the object that it reads by keeps the connection open, and so stays
        self.fp = io.BufferedReader(Paced(self.fp.detach(), connection, pace))
        self.heads = 0

    def _read_status(self):
        """Each answer of 100 is passed over by a further call of this."""
        self.heads += 1
        if self.heads > MOST_HEADS:
            raise http.client.HTTPException(f"more than {MOST_HEADS - 1} answers come before the one that was asked for")
        return super()._read_status()


class Text:
    """The bytes of an answer in memory. Nothing says whether two answers are parts of one text, so none goes on with another."""

    goes_on, least = False, 0

    def __init__(self, limit):
        self.limit, self.bytes = limit, bytearray()

    @property
    def size(self):
        return len(self.bytes)

    def append(self, piece):
        self.bytes += piece

    def clear(self):
        self.bytes.clear()


def base_of(url):
    """A URL below which files can be asked for: without a user, a query or a fragment."""
    parts = parse.urlsplit(url)
    if parts.scheme not in PORTS or not parts.hostname or parts.username is not None or parts.query or parts.fragment:
        raise ValueError("no URL of a folder by http or https")
    if parts.port == 0 or not parts.netloc.isascii():
        raise ValueError("no host and port")
    path = parse.quote(parts.path.rstrip("/"), safe="/%:@!$&'()*+,;=~")
    return f"{parts.scheme}://{parts.netloc}{path}"


def url_of(base, names):
    return "/".join((base, *(parse.quote(name, safe="") for name in names)))


def proxy_of(parts):
    """The proxy for a URL, or nothing."""
    named = request.getproxies().get(parts.scheme)
    if not named or request.proxy_bypass(parts.netloc):
        return None
    try:
        proxy = parse.urlsplit(named if "://" in named else f"http://{named}")
        is_one = proxy.scheme == "http" and proxy.hostname and proxy.port != 0
    except ValueError:
        is_one = False
    if not is_one:
        raise Refused(f"the proxy {shown(without_user(named))} is none by http")
    return proxy


def without_user(named):
    """The name of a proxy without its user and password, also where it is no URL."""
    before, at, host = named.rpartition("@")
    scheme = SCHEME.match(before)
    return (scheme[0] if at and scheme else "") + host


def headers_of(proxy):
    """What a proxy is told of its user."""
    if not proxy or proxy.username is None:
        return {}
    user = f"{parse.unquote(proxy.username)}:{parse.unquote(proxy.password or '')}"
    return {"Proxy-Authorization": "Basic " + base64.b64encode(user.encode(errors="surrogateescape")).decode()}


def connection_to(parts, proxy):
    """A connection for requests of the URL's host; it isn't opened before the first of these."""
    kind = {"http": http.client.HTTPConnection, "https": http.client.HTTPSConnection}[parts.scheme]
    if not proxy:
        return kind(parts.hostname, parts.port or PORTS[parts.scheme], timeout=SECONDS)
    connection = kind(proxy.hostname, proxy.port or PORTS["http"], timeout=SECONDS)
    if parts.scheme == "https":
        connection.set_tunnel(parts.hostname, parts.port or PORTS["https"], headers_of(proxy))
    return connection


def next_url(url, location):
    """Where a redirect leads, which has to be of the same scheme."""
    try:
        found = parse.quote(parse.urljoin(url, location or ""), safe="%/:=&?~#+!$,;'@()*[]")
        parts = parse.urlsplit(found)
        named = parts.hostname, parts.port
    except ValueError:
        raise Unreached(f"{url}: a redirect to no URL") from None
    if parts.scheme != parse.urlsplit(url).scheme:
        raise Refused(f"{url}: a redirect to another scheme: {shown(found)[:200]}")
    if not location or not named[0]:
        raise Unreached(f"{url}: a redirect to no URL")
    return found


def check_answer(url, response, start):
    """Refuses an answer that doesn't have the bytes from the start on, or all of them."""
    encoding = response.getheader("Content-Encoding", "identity")
    if response.status in FAILS_NOW:
        raise Broken(f"the server answers {response.status}")
    if response.status != 200 and not (response.status == 206 and start):
        raise Unreached(f"{url}: the server answers {response.status} {shown(response.reason)[:80]}".rstrip())
    if encoding != "identity":
        raise Refused(f"{url}: the answer is encoded, as nobody asked for: {shown(encoding)[:80]}")


def is_other_range(response, start):
    """Whether an answer says that there is no such range, or has another one than was asked for."""
    if response.status != 206:
        return response.status == 416 and start > 0
    found = RANGE.fullmatch(response.getheader("Content-Range", ""))
    return not found or int(found[1]) != start


def said(error):
    return shown(getattr(error, "strerror", None) or str(error) or type(error).__name__)[:200]


class Client:
    """Asks for one thing after another over a connection that is kept, as long as the host is the same."""

    def __init__(self):
        self.host = self.connection = None
        self.pace = Pace()

    def close(self):
        if self.connection:
            self.connection.close()
        self.host = self.connection = None

    def connect(self, parts, proxy):
        host = parts.scheme, parts.netloc
        if self.host != host:
            self.close()
            self.host, self.connection = host, connection_to(parts, proxy)
            self.connection.response_class = functools.partial(Answer, pace=self.pace)
        if self.connection.sock:
            # the last call may have had less time
            self.connection.sock.settimeout(SECONDS)
        return self.connection

    def answer_of(self, url, start):
        """The answer to one request, from a byte on."""
        parts = parse.urlsplit(url)
        proxy = proxy_of(parts)
        is_plain = proxy and parts.scheme == "http"
        headers = {"User-Agent": "hostext-fetch", **(headers_of(proxy) if is_plain else {}), **({"Range": f"bytes={start}-"} if start else {})}
        target = url if is_plain else parse.urlunsplit(("", "", parts.path or "/", parts.query, ""))
        try:
            connection = self.connect(parts, proxy)
            self.pace.wait_for_head()
            connection.request("GET", target, headers=headers)
            self.pace.wait_for_head()
            response = connection.getresponse()
            self.pace.has_head()
            return response
        except ssl.SSLCertVerificationError as error:
            raise Unreached(f"{url}: {error.verify_message}") from None
        except FAULTS as error:
            raise Broken(said(error)) from None

    def ask(self, url, start):
        """The answer that a URL leads to."""
        for _ in range(MOST_REDIRECTS + 1):
            response = self.answer_of(url, start)
            if response.status not in REDIRECTS:
                return response
            url = next_url(url, response.getheader("Location"))
            self.close()
        raise Unreached(f"{url}: more than {MOST_REDIRECTS} redirects")

    def get_into(self, url, body):
        """Appends to a body what it lacks of what stands at a URL, and tells whether the answer said where it ends."""
        response = self.ask(url, body.size)
        if is_other_range(response, body.size):
            body.clear()
            raise Broken("the server gives another range than was asked for")
        check_answer(url, response, body.size)
        if response.status == 200:
            body.clear()
        length = response.length
        if length is not None and length > body.limit - body.size:
            raise longer(url, body)
        for piece in pieces_of(response, body.limit + 1 - body.size):
            self.pace.has_piece()
            body.append(piece)
        if body.size > body.limit:
            raise longer(url, body)
        has_end = length is not None or response.chunked
        if not has_end and body.size < body.least:
            raise Broken("the connection was cut")
        return has_end


def longer(url, body):
    return Refused(f"{url}: it is longer than the {body.limit:,} bytes that it may have")


def pieces_of(response, most):
    """The pieces of an answer, as many bytes at the most. One that ends before its length is broken."""
    missing = response.length
    try:
        while most and (piece := response.read(min(PIECE, most))):
            most -= len(piece)
            missing = missing and missing - len(piece)
            yield piece
    except FAULTS as error:
        raise Broken(said(error)) from None
    if missing and most:
        raise Broken("the connection was cut")


def receive(client, url, body):
    """Fetches a body, from where it is. Each request that breaks off is followed by another, as long as they bring something, and a
    few times where they don't. Tells whether the answers said where it ends, and whether it is of one piece."""
    idle, pieces = 0, 1 if body.size == 0 else 2
    client.pace.begin()
    while True:
        before = body.size
        try:
            return client.get_into(url, body), pieces == 1
        except Broken as reason:
            client.close()
            if not body.goes_on:
                body.clear()
            idle = 0 if body.size > before else idle + 1
            if idle > len(WAITS):
                raise Unreached(f"{url}: {reason}") from None
            if idle:
                time.sleep(WAITS[idle - 1])
            pieces += 1
        except Slow:
            client.close()
            raise Unreached(f"{url}: less than {LEAST:,} bytes of it come in {SPAN} seconds") from None
        except BaseException:
            client.close()
            raise
