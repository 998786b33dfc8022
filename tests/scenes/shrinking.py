"""Makes a failing text smaller: pieces of it are dropped as long as it fails, lines at first and then bytes."""
import time

from scenes.running import Failed

# The longest time that one text is made smaller.
SECONDS = 20


def reason_of(kind, texts):
    """Why these texts fail, or nothing. The store is put back then."""
    try:
        kind.judge(texts)
    except Failed as reason:
        kind.bench.restore()
        return str(reason)
    return None


def without_pieces(fails, parts, late):
    """The parts that are left, of which no half, quarter and so on can be dropped."""
    size = max(1, len(parts) // 2)
    while parts and time.monotonic() < late:
        at = 0
        while at < len(parts) and time.monotonic() < late:
            rest = parts[:at] + parts[at + size :]
            if fails(rest):
                parts = rest
            else:
                at += size
        if size == 1:
            return parts
        size //= 2
    return parts


def shrunk(fails, text):
    """A smaller text that fails too."""
    late = time.monotonic() + SECONDS
    lines = without_pieces(lambda parts: fails(b"".join(parts)), text.splitlines(keepends=True), late)
    data = b"".join(lines)
    return bytes(without_pieces(lambda parts: fails(bytes(parts)), list(data), late))
