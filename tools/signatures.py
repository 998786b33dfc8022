"""Signatures of manifests, by gpgv(1), and which of two manifests is the older one.

What gpgv reads of a run stands in memory, so that nothing of it is left over however the run ends.
"""
import hashlib
import os
import re
import subprocess
from contextlib import contextmanager
from typing import NamedTuple

from depots import MANIFEST, SIGNATURE
from entries import Refused, shown, write_all
from texts import Faulty, read_manifest

# A line that says when a good signature was made, in seconds since 1970.
VALID = re.compile(r"^\[GNUPG:\] VALIDSIG \S+ \S+ ([0-9]+) ", re.M)
GOOD = re.compile(r"^\[GNUPG:\] GOODSIG ", re.M)
# Where a depot keeps the newest time that its own signature doesn't tell.
NEWEST = b".fetch-signed"
KEPT = re.compile(rb"([0-9]{1,18}) ([0-9a-f]{64})\n")


def check_keyring(keyring):
    """Refuses a keyring that can't be read."""
    try:
        os.close(os.open(keyring, os.O_RDONLY | os.O_NONBLOCK))
    except OSError as error:
        raise Refused(f"{shown(keyring)}: {error.strerror}") from None


@contextmanager
def in_memory(text):
    """The handle of a file that no folder has, with a text."""
    handle = os.memfd_create("fetch")
    try:
        write_all(handle, text)
        yield handle
    finally:
        os.close(handle)


def told_by_gpgv(text, signature, keyring):
    """Whether gpgv ends well, and its lines for programs."""
    # it has a folder of its own only where that is one
    words = ["gpgv", "--homedir", "/dev/null", "--status-fd", "1", "--keyring", os.path.abspath(keyring)]
    with in_memory(signature) as first, in_memory(text) as second:
        try:
            ended = subprocess.run([*words, f"/dev/fd/{first}", f"/dev/fd/{second}"], pass_fds=(first, second), capture_output=True)
        except FileNotFoundError:
            raise Refused("gpgv is missing, which looks at signatures: install it, or leave out --keyring") from None
    return ended.returncode == 0, ended.stdout.decode(errors="replace")


def signed_at(text, signature, keyring):
    """When a text was signed, in seconds since 1970, by a key of the keyring. All its signatures have to be good."""
    is_well, told = told_by_gpgv(text, signature, keyring)
    made = VALID.findall(told)
    if not is_well or not made or len(GOOD.findall(told)) != len(made):
        raise Refused(f"its signature is not a good one by a key of {shown(keyring)}")
    return max(map(int, made))


class Newest(NamedTuple):
    """When the newest manifest was signed of which a depot took anything, and the digest of one that lists all that it does."""

    time: int
    digest: str


def newest_of(depot):
    """What a depot keeps of it, or nothing."""
    kept = depot.read(NEWEST)
    found = kept and KEPT.fullmatch(kept)
    if kept is not None and not found:
        raise Refused(f"{shown(depot.path_of((NEWEST,)))}: it tells no time: --allow-older takes what comes")
    return Newest(int(found[1]), found[2].decode()) if found else None


def digest_of(text):
    return hashlib.sha256(text).hexdigest()


def lost_line(old, manifest):
    """The first name that an old manifest lists, and the new one doesn't with that digest."""
    try:
        return min((name for name, digest in read_manifest(old).items() if manifest.digests.get(name) != digest), default=None)
    except Faulty:
        return None


def time_of(depot, text, keyring):
    """When a depot's manifest was signed, or nothing where its signature is none."""
    try:
        return signed_at(text, depot.read(SIGNATURE) or b"", keyring)
    except Refused:
        return None


def newest_with(depot, manifest, keyring):
    """What a depot is to keep once anything of a manifest is taken. One that was signed before the newest is refused, unless it has
    each line of that one."""
    kept, old = newest_of(depot), depot.read(MANIFEST) or b""
    is_there = kept is None or kept.digest == digest_of(old)
    if not is_there and manifest.signed_at < kept.time:
        raise Refused(f"{shown(MANIFEST)}: it is older than one of which the depot has something: --allow-older takes it")
    made = kept.time if kept and is_there else None
    if old not in (b"", manifest.bytes):
        made = made or time_of(depot, old, keyring)
        check_lost(lost_line(old, manifest), made, manifest)
    return newest_by(manifest)._replace(time=max(manifest.signed_at, made or 0, kept.time if kept else 0))


def check_lost(lost, made, manifest):
    """Refuses a manifest that lacks a line of the depot's, which was made then, unless it is known to be newer."""
    if lost and made is None:
        raise Refused(f"{shown(MANIFEST)}: the depot's has no good signature, so it may be newer; it lists {shown(lost)}, and this one doesn't: --allow-older takes it")
    if lost and manifest.signed_at < made:
        raise Refused(f"{shown(MANIFEST)}: it is older than the depot's, and lacks what that lists as {shown(lost)}: --allow-older takes it")


def newest_by(manifest):
    return Newest(manifest.signed_at, digest_of(manifest.bytes))


def keep_newest(depot, newest):
    text = b"%d %b\n" % (newest.time, newest.digest.encode())
    if depot.read(NEWEST) != text:
        depot.put_text(NEWEST, text)


def forget_newest(depot):
    depot.remove(NEWEST)
