"""Bytes that are read once, from front to end: those of a file, of a part of one, or of a pipe, and what a compressed one has in it.

No more of a stream is in memory than a few pieces, whatever it unpacks to. Where it ends before its end, or is faulty, it is refused.
"""
import bz2
import hashlib
import lzma
import os
import subprocess
import threading
import zlib
from contextlib import suppress

from entries import PIECE, Refused, program, write_all

# A file that wants more memory to be unpacked is refused; `xz -9` wants 65 MB.
MOST_XZ_MEMORY = 268_435_456


class Part:
    """The bytes of a file from one place up to another, by its handle. It has a place of its own, so several parts may be read."""

    def __init__(self, handle, at, end):
        self.handle, self.at, self.end = handle, at, end

    def __call__(self):
        piece = os.pread(self.handle, min(PIECE, self.end - self.at), self.at) if self.at < self.end else b""
        self.at += len(piece)
        return piece

    def skip(self, count):
        self.at += count


class Pipe:
    """The bytes that come from a handle, whatever it is."""

    skip = None

    def __init__(self, handle):
        self.handle = handle

    def __call__(self):
        return os.read(self.handle, PIECE)


class Within:
    """The next bytes of a stream up to a number of them, which have to be there."""

    skip = None

    def __init__(self, stream, count):
        self.pieces = iter(stream.pieces(count))

    def __call__(self):
        return bytes(next(self.pieces, b""))


class Compared:
    """The bytes of another one, which have to have a digest."""

    skip = None

    def __init__(self, source, digest, what):
        self.source, (algorithm, self.wanted), self.what = source, digest, what
        self.sum = hashlib.new(algorithm)

    def __call__(self):
        piece = self.source()
        self.sum.update(piece)
        return piece

    def end(self):
        """Reads what is left, and compares the digest."""
        while self():
            pass
        if self.sum.hexdigest() != self.wanted:
            raise Refused(f"{self.what}: its digest is {self.sum.hexdigest()}, and not {self.wanted}")


class Stream:
    """The bytes of a source, which gives them piece by piece and none at its end."""

    def __init__(self, source, what):
        self.source, self.what = source, what
        self.piece, self.at, self.before = b"", 0, 0

    def tell(self):
        return self.before + self.at

    def filled(self):
        """Whether a byte is there, once the next piece was read where none was left of the last one."""
        if self.at < len(self.piece):
            return True
        self.before += len(self.piece)
        self.piece, self.at = self.source(), 0
        return bool(self.piece)

    def peek(self, count):
        """The next bytes, which stay; fewer where it ends."""
        while len(self.piece) - self.at < count:
            more = self.source()
            if not more:
                break
            self.before, self.piece, self.at = self.tell(), self.piece[self.at :] + more, 0
        return self.piece[self.at : self.at + count]

    def pieces(self, count):
        """The next bytes, as they come, without a copy of them. They have to be there."""
        if 0 < count <= len(self.piece) - self.at:
            self.at += count
            return (self.piece[self.at - count : self.at],)
        return self.further(count)

    def further(self, count):
        while count:
            if not self.filled():
                raise Refused(f"{self.what}: it ends early")
            piece = memoryview(self.piece)[self.at : self.at + count]
            self.at += len(piece)
            count -= len(piece)
            yield piece

    def read(self, count):
        """The next bytes; fewer where it ends."""
        piece = self.piece[self.at : self.at + count]
        self.at += len(piece)
        while len(piece) < count and self.filled():
            more = self.piece[self.at : self.at + count - len(piece)]
            self.at += len(more)
            piece += more
        return piece

    def skip(self, count):
        here = min(count, len(self.piece) - self.at)
        self.at += here
        if count > here and self.source.skip:
            self.source.skip(count - here)
            self.before += count - here
        else:
            for _ in self.pieces(count - here):
                pass

    def rest(self):
        """All pieces up to the end."""
        while self.filled():
            piece, self.at = self.piece[self.at :], len(self.piece)
            yield piece


class Inflater:
    """zlib's object for gzip, with the calls that those of lzma and bz2 have."""

    def __init__(self):
        self.inner, self.needs_input = zlib.decompressobj(31), True

    def decompress(self, piece, most):
        written = self.inner.decompress(self.inner.unconsumed_tail + piece, most)
        self.needs_input = not self.inner.unconsumed_tail and len(written) < most
        return written

    @property
    def eof(self):
        return self.inner.eof

    @property
    def unused_data(self):
        return self.inner.unused_data


def unpacks_xz():
    return lzma.LZMADecompressor(lzma.FORMAT_XZ, memlimit=MOST_XZ_MEMORY)


class Unpacked:
    """What a compressed stream has in it: one text or several, one after another, and zeros after them."""

    skip = None

    def __init__(self, stream, new):
        self.stream, self.new, self.unpacker = stream, new, new()
        self.pieces = stream.rest()

    def next_piece(self):
        piece = next(self.pieces, b"")
        if not piece:
            raise Refused(f"{self.stream.what}: it ends early")
        return piece

    def goes_on(self):
        """Whether another text follows the one that has ended, which then begins."""
        rest = self.unpacker.unused_data.lstrip(b"\0")
        while not rest:
            piece = next(self.pieces, b"")
            if not piece:
                return False
            rest = piece.lstrip(b"\0")
        self.unpacker = self.new()
        self.written = self.unpacker.decompress(rest, PIECE)
        return True

    def unpacked(self):
        while not self.unpacker.eof:
            written = self.unpacker.decompress(self.next_piece() if self.unpacker.needs_input else b"", PIECE)
            if written:
                return written
        while self.unpacker.eof:
            if not self.goes_on():
                return b""
            if self.written:
                return self.written
        return self.unpacked()

    def __call__(self):
        try:
            return self.unpacked()
        except (zlib.error, lzma.LZMAError, OSError, EOFError, ValueError) as error:
            raise Refused(f"{self.stream.what}: what is compressed is faulty: {error}") from None


class ByTool:
    """What a tool makes of a stream, which a thread hands to it."""

    skip = None

    def __init__(self, stream, words):
        self.stream, self.name, self.fault = stream, os.path.basename(words[0]), None
        streams = {"stdin": subprocess.PIPE, "stdout": subprocess.PIPE, "stderr": subprocess.PIPE, "bufsize": 0}
        self.child = subprocess.Popen(words, **streams)
        # what still waits for a pipe when the tool has ended holds nobody up
        self.feeder = threading.Thread(target=self.feed, daemon=True)
        self.feeder.start()

    def feed(self):
        with self.child.stdin as into, suppress(BrokenPipeError):
            try:
                for piece in self.stream.rest():
                    write_all(into.fileno(), piece)
            except Refused as fault:
                self.fault = fault

    def __call__(self):
        piece = self.child.stdout.read(PIECE)
        if not piece:
            self.end()
        return piece

    def end(self):
        self.feeder.join()
        said, status = self.child.stderr.read(), self.child.wait()
        if self.fault:
            raise self.fault
        if status:
            lines = said.decode(errors="replace").split("\n")
            raise Refused(f"{self.stream.what}: {self.name} doesn't unpack it: {lines[0]}")

    def close(self):
        self.child.kill()
        self.child.wait()
        for stream in self.child.stdout, self.child.stderr:
            stream.close()


GZIP, XZ, BZIP, ZSTD = b"\x1f\x8b", b"\xfd7zXZ\0", b"BZh", b"\x28\xb5\x2f\xfd"
UNPACKS = (GZIP, Inflater), (XZ, unpacks_xz), (BZIP, bz2.BZ2Decompressor)


def plain(stream, stack):
    """A stream of what is compressed in another one, by its first bytes; or that one. What is to be closed goes onto a stack."""
    begins = stream.peek(len(XZ))
    for magic, new in UNPACKS:
        if begins.startswith(magic):
            return Stream(Unpacked(stream, new), stream.what)
    if not begins.startswith(ZSTD):
        return stream
    try:
        tool = ByTool(stream, [program("zstd", "zstd"), "-dcq"])
    except Refused as reason:
        raise Refused(f"{stream.what}: {reason}") from None
    stack.callback(tool.close)
    return Stream(tool, stream.what)


def zeros(count):
    while count > 0:
        yield bytes(min(count, PIECE))
        count -= PIECE
