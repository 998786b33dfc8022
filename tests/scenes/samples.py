"""The sample: what it comes to is worked out here from its rule, and made by the same commands over real folders.

A sample of N images has a host with the release file, and files usr/share/h/K for K from 0 to 10 N - 1, each `host K`. Its image
s-I, for I from 0 to N - 1, has a release file that fits, and files usr/share/h/K for K from 5 I to 5 I + 9, each `image I`. The
host is imported, the images below /var/lib/extensions; they are merged, unmerged and merged anew.
"""
import hashlib
import os

from scenes.running import expect, named, run
from scenes.stores import DONE, in_a_place
from scenes.uses import tree_of

RELEASE = b"ID=sample\nVERSION_ID=1\n"
COMMANDS = "init x86-64 system", "import-fs host /", "import-fs images /var/lib/extensions", "sysext merge", "sysext unmerge", "sysext refresh"


def host_of(images):
    return {"usr/lib/os-release": RELEASE, **{f"usr/share/h/{at}": b"host %d\n" % at for at in range(10 * images)}}


def image_of(image):
    release = f"usr/lib/extension-release.d/extension-release.s-{image}"
    return {release: RELEASE, **{f"usr/share/h/{at}": b"image %d\n" % image for at in range(5 * image, 5 * image + 10)}}


def images_of(images):
    return {f"s-{image}/{path}": content for image in range(images) for path, content in image_of(image).items()}


def visible(images):
    """The files of the host whose images are merged: where two have a path the later image shows."""
    found = host_of(images)
    for image in range(images):
        found |= image_of(image)
    return found | {f"var/lib/extensions/{path}": content for path, content in images_of(images).items()}


def reply_of(text):
    """What a sample writes whose host has this tree text."""
    files = [line.split(" ") for line in text.decode().splitlines() if line.startswith("f ")]
    entries, size = len(text.splitlines()) - 2, sum(int(line[2]) for line in files)
    return f"entries {entries}\nfiles {len(files)}\nbytes {size}\nsha256 {hashlib.sha256(text).hexdigest()}\n".encode()


def a_sample_comes_to_what_its_rule_says(program):
    """Neither folder is there."""
    for images in 1, 2, 11, 500:
        found = run(program, [b"/no/store", b"/no/depot", b"sample", b"%d" % images])
        expect(found, (reply_of(tree_of(visible(images))), b"", 0))
    if not reply_of(tree_of(visible(500))).startswith(b"entries 14009\nfiles 11001\n"):
        raise AssertionError("the rule is another")


def a_sample_is_what_its_commands_make_of_real_folders(place):
    images = 12
    for name, files in ("host", host_of(images)), ("images", images_of(images)):
        place.resource(name, tree_of(files), files)
    merged = f"merged {images}\n".encode() + b"".join(b"s-%d\n" % image for image in range(images))
    given = "".join(f"{line}\n" for line in (*COMMANDS, "tree /")).encode()
    text = tree_of(visible(images))
    words = [os.fsencode(word) for word in (place.store, place.depot, "batch")]
    expect(run(place.program, words, given), (DONE * 3 + merged + b"unmerged\n" + merged + text, b"", 0))
    expect(place.run("sample", str(images)), (reply_of(text), b"", 0))


scenes = named(a_sample_comes_to_what_its_rule_says, in_a_place(a_sample_is_what_its_commands_make_of_real_folders))
