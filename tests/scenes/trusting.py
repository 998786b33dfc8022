"""tools/fetch --keyring: which signatures of manifests it takes, and which older manifests it doesn't. The keys are made by gpg(1) in
a folder of the scene; times of signatures are made up."""
import shutil
import subprocess
import sys
from contextlib import contextmanager

from scenes.running import SECONDS, Failed, Skipped, expect, named, tree_text
from scenes.serving import around, expect_like, fetch, fetch_words, publish, serving, stands, told
from scenes.stores import digest, in_a_place
from scenes.tools import beside

FINE = b"", b"", 0
# When keys are made, and the first and the second manifest are signed.
MADE, FIRST, SECOND = "20250101T000000", "20250201T000000", "20250301T000000"


class Keys:
    """Keys of gpg in a folder, by their names."""

    def __init__(self, home):
        self.home = home
        home.mkdir(mode=0o700)

    def gpg(self, *words, at=MADE):
        always = "--batch", "--quiet", "--no-tty", "--homedir", self.home, "--faked-system-time", at, "--pinentry-mode", "loopback", "--passphrase", ""
        return subprocess.run(["gpg", *always, *words], check=True, capture_output=True, timeout=SECONDS, env=around()).stdout

    def make(self, name, lasts="never"):
        self.gpg("--quick-gen-key", name, "ed25519", "sign", lasts)

    def ring(self, *names):
        """A keyring that has the keys of these names."""
        path = self.home / ("ring-" + "-".join(names))
        path.write_bytes(self.gpg("--export", *names))
        return path

    def sign(self, folder, *names, at=FIRST):
        """Signs a folder's manifest by the keys of these names."""
        users = [word for name in names for word in ("--local-user", name)]
        signature = folder / "SHA256SUMS.gpg"
        signature.unlink(missing_ok=True)
        self.gpg("--detach-sign", *users, "--output", signature, folder / "SHA256SUMS", at=at)


@contextmanager
def keys_of(place):
    for tool in "gpg", "gpgv", "gpgconf":
        if not shutil.which(tool):
            raise Skipped(f"there is no {tool}")
    keys = Keys(beside(place, "keys"))
    try:
        yield keys
    finally:
        # ends the agent that gpg started for this folder
        subprocess.run(["gpgconf", "--homedir", keys.home, "--kill", "gpg-agent"], capture_output=True)


def bad(ring):
    return b"", told(f"SHA256SUMS: its signature is not a good one by a key of {ring}"), 1


def only_a_good_signature_by_a_key_of_the_ring_counts(place):
    published = publish(beside(place, "out"), {"foo_1": b"one"})
    with keys_of(place) as keys, serving(published) as served:
        keys.make("ours")
        keys.make("other")
        keys.make("expired", "20250301T000000")
        ours, expired = keys.ring("ours"), keys.ring("expired")
        words = "--keyring", ours, served.url, place.depot
        expect(fetch(place, *words), (b"", told(f"{served.url}/SHA256SUMS.gpg: the server answers 404 Not Found"), 3))
        signature = published / "SHA256SUMS.gpg"
        for content in b"", b"no signature\n", b"\x88" * 100:
            signature.write_bytes(content)
            expect(fetch(place, *words), bad(ours))
        for names in ("other",), ("ours", "other"):
            keys.sign(published, *names)
            expect(fetch(place, *words), bad(ours))
        keys.sign(published, "expired")
        expect(fetch(place, "--keyring", expired, *words[2:]), bad(expired))
        keys.sign(published, "ours")
        good = (published / "SHA256SUMS").read_bytes()
        (published / "SHA256SUMS").write_bytes(good[:-1] + b" \n")
        expect(fetch(place, *words), bad(ours))
        (published / "SHA256SUMS").write_bytes(good)
        if stands(place.depot):
            raise Failed(f"the depot has {sorted(stands(place.depot))}")
        expect(fetch(place, *words), FINE)
        expect_like(place.depot, published)
        # a ring of that name beside the working folder, and not one of the user's
        expect(fetch(place, "--keyring", ours.name, *words[2:], cwd=ours.parent), FINE)


def a_signature_also_says_where_a_manifest_ends(place):
    published = publish(beside(place, "out"), {"foo_1": b"one"})
    with keys_of(place) as keys, serving(published) as served:
        keys.make("ours")
        keys.sign(published, "ours")
        text = (published / "SHA256SUMS").read_bytes()

        def without_a_length(request, text=text):
            request.head("200 OK", "Connection: close")
            request.send(text)
            request.hang_up()

        ring = keys.ring("ours")
        served.odd["SHA256SUMS"] = lambda request: without_a_length(request, text[:-2])
        expect(fetch(place, "--keyring", ring, served.url, place.depot), bad(ring))
        served.odd["SHA256SUMS"] = without_a_length
        expect(fetch(place, "--keyring", ring, served.url, place.depot), FINE)


def without_gpgv_or_the_ring_it_is_told(place):
    published = publish(beside(place, "out"), {"foo_1": b"one"})
    (published / "SHA256SUMS.gpg").write_bytes(b"x")
    ring = beside(place, "ring")
    with serving(published) as served:
        expect(fetch(place, "--keyring", ring, served.url, place.depot), (b"", told(f"{ring}: No such file or directory"), 1))
        ring.touch()
        words = [sys.executable, *fetch_words(place, "--keyring", ring, served.url, place.depot)]
        ended = subprocess.run(words, env=around(PATH="/nonexistent"), capture_output=True, timeout=SECONDS)
        line = "SHA256SUMS: gpgv is missing, which looks at signatures: install it, or leave out --keyring"
        expect((ended.stdout, ended.stderr, ended.returncode), (b"", told(line), 1))
    if stands(place.depot):
        raise Failed(f"the depot has {sorted(stands(place.depot))}")


def an_older_manifest_that_lacks_something_is_refused(place):
    old, new, both = (publish(beside(place, name), files) for name, files in (("old", {"foo_1": b"one", "bar": b"a"}), ("new", {"foo_2": b"two", "bar": b"a"}), ("both", {"foo_1": b"one", "foo_2": b"two", "bar": b"a"})))
    with keys_of(place) as keys:
        keys.make("ours")
        ring = keys.ring("ours")
        for folder, at in (old, FIRST), (both, FIRST), (new, SECOND):
            keys.sign(folder, "ours", at=at)

        def fetched(folder, *words):
            with serving(folder) as served:
                return fetch(place, "--keyring", ring, *words, served.url, place.depot)

        expect(fetched(old), FINE)
        # a newer one may lack something, and an older one may say more
        expect(fetched(new), FINE)
        expect(fetched(both), FINE)
        expect(fetched(new), FINE)
        before = stands(place.depot)
        older = "SHA256SUMS: it is older than the depot's, and lacks what that lists as foo_2: --allow-older takes it"
        expect(fetched(old), (b"", told(older), 1))
        (place.depot / "SHA256SUMS.gpg").unlink()
        unknown = "SHA256SUMS: the depot's has no good signature, so it may be newer; it lists foo_2, and this one doesn't: --allow-older takes it"
        expect(fetched(old), (b"", told(unknown), 1))
        (place.depot / "SHA256SUMS.gpg").write_bytes(before["SHA256SUMS.gpg"])
        # another digest of a listed name is as good as a name that lacks
        publish(old, {"foo_1": b"one", "foo_2": b"old", "bar": b"a"})
        keys.sign(old, "ours", at=FIRST)
        expect(fetched(old), (b"", told(older), 1))
        if stands(place.depot) != before:
            raise Failed("the depot is another than before")
        expect(fetched(old, "--allow-older"), FINE)
        if {name: stands(place.depot)[name] for name in stands(old)} != stands(old):
            raise Failed("the older manifest didn't come")


def an_older_manifest_is_refused_where_one_resource_is_fetched(place):
    """The manifest stays away then, so that nothing in the depot but the kept time says which one was the last."""
    texts = {version: tree_text(f"f 644 1 {digest(version)} a") for version in (b"1", b"2")}
    old = publish(beside(place, "old"), {"bar": b"a"}, [("x", texts[b"1"], {"a": b"1"})])
    new = publish(beside(place, "new"), {"bar": b"a", "foo": b"a"}, [("x", texts[b"2"], {"a": b"2"})])
    more = publish(beside(place, "more"), {"bar": b"a", "foo": b"a", "other": b"o"}, [("x", texts[b"2"], {"a": b"2"})])
    away, older = "the manifest stays away: of what it lists the depot lacks ", "SHA256SUMS: it is older than one of which the depot has something: --allow-older takes it"
    kept = place.depot / ".fetch-signed"
    with keys_of(place) as keys:
        keys.make("ours")
        ring = keys.ring("ours")
        for folder, at in (old, FIRST), (new, SECOND), (more, FIRST):
            keys.sign(folder, "ours", at=at)

        def fetched(folder, *words, options=()):
            with serving(folder) as served:
                return fetch(place, "--keyring", ring, *options, served.url, place.depot, *words)

        expect(fetched(old, "x"), (b"", told(away + "1 resource"), 0))
        expect(fetched(new, "x"), (b"", told(away + "2 resources"), 0))
        before = stands(place.depot)
        # also where all is fetched, and where it lists all and more
        for folder, words in (old, ("x",)), (old, ()), (more, ("x",)):
            expect(fetched(folder, *words), (b"", told(older), 1))
        if stands(place.depot) != before:
            raise Failed("the depot is another than before")
        kept.write_text("soon\n")
        expect(fetched(new, "x"), (b"", told(f"{kept}: it tells no time: --allow-older takes what comes"), 1))
        expect(fetched(new, "x", options=("--allow-older",)), (b"", told(away + "2 resources"), 0))
        # the signature of the whole depot tells the time
        expect(fetched(new), FINE)
        expect_like(place.depot, new)
        # an older one that lists all and more is taken, and the newer time stays known
        expect(fetched(more), FINE)
        if not kept.exists():
            raise Failed("the newest time is lost")
        lacks = "SHA256SUMS: it is older than the depot's, and lacks what that lists as foo: --allow-older takes it"
        expect(fetched(old, "x"), (b"", told(lacks), 1))
        expect(fetched(old, "x", options=("--allow-older",)), FINE)
        if (place.depot / "x/a").read_bytes() != b"1":
            raise Failed("the older one didn't come")


def without_a_ring_a_signature_of_another_manifest_goes(place):
    published = publish(beside(place, "out"), {"foo_1": b"one"})
    with keys_of(place) as keys, serving(published) as served:
        keys.make("ours")
        keys.sign(published, "ours")
        expect(fetch(place, "--keyring", keys.ring("ours"), served.url, place.depot), FINE)
        expect(fetch(place, served.url, place.depot), FINE)
        expect_like(place.depot, published)
        publish(published, {"foo_1": b"one", "foo_2": b"two"})
        expect(fetch(place, served.url, place.depot), FINE)
        (published / "SHA256SUMS.gpg").unlink()
        expect_like(place.depot, published)


CALLS = [
    *(only_a_good_signature_by_a_key_of_the_ring_counts, a_signature_also_says_where_a_manifest_ends, without_gpgv_or_the_ring_it_is_told),
    *(an_older_manifest_that_lacks_something_is_refused, an_older_manifest_is_refused_where_one_resource_is_fetched),
    without_a_ring_a_signature_of_another_manifest_goes,
]
scenes = named(*map(in_a_place, CALLS))
