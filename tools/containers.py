"""Images of containers: OCI image layouts and archives of `docker save`. Which layers an image has, the lowest first, and their bytes.

What a manifest lists by a digest is compared with it. Nothing that a manifest names is looked for elsewhere than in the image.
"""
import hashlib
import json
import os
import posixpath
import re
import stat
from typing import NamedTuple, Optional

from entries import MOST_ENTRIES, Folders, Refused, check_path, open_file, shown
from streams import Compared, Part, Stream, plain
from tar_members import Members, bytes_of, path_of

LAYOUT, INDEX, MANIFEST = b"oci-layout", b"index.json", b"manifest.json"
# The most bytes of a text, and how many layers an image and manifests an index may have.
MOST_JSON = 4_194_304
MOST_LAYERS = 1_000
MOST_MANIFESTS = 1_000
DIGEST = re.compile(r"(sha256):([0-9a-f]{64})|(sha512):([0-9a-f]{128})")
REFERENCE, KIND = "org.opencontainers.image.ref.name", "vnd.docker.reference.type"
# What the path of the first member of an archive is that may be an image.
FIRST = re.compile(rb"blobs(/.*)?|oci-layout|index\.json|manifest\.json|repositories|[0-9a-f]{64}(/.*|\.json|\.tar)?", re.S)


def may_be_image(head):
    """Whether an archive that begins so may be that of an image."""
    pieces = iter((head,))
    try:
        paths = (path_of(bytes_of(found.name)) for found in Members(Stream(lambda: next(pieces, b""), "")))
        return FIRST.fullmatch(next(filter(None, paths), b"")) is not None
    except Refused:
        return False


class InFolder:
    """The files of an image that is a folder."""

    def __init__(self, handle, stack):
        self.folders, self.stack = stack.enter_context(Folders(handle)), stack

    def has(self, path):
        try:
            return stat.S_ISREG(os.stat(path, dir_fd=self.folders.at(()), follow_symlinks=False).st_mode)
        except OSError:
            return False

    def part(self, path):
        names = tuple(path.split(b"/"))
        try:
            check_path(names)
            handle, status = open_file(names[-1], self.folders.at(names[:-1]))
        except (Refused, OSError) as error:
            raise Refused(f"{shown(path)}: {error.args[0] if isinstance(error, Refused) else error.strerror}") from None
        self.stack.callback(os.close, handle)
        return Part(handle, 0, status.st_size)


class InArchive:
    """The files of an image that is an archive in a file: where each begins and ends. A link leads to another file."""

    def __init__(self, handle, at, end, what):
        self.handle, self.files, self.links = handle, {}, {}
        for found in Members(Stream(Part(handle, at, end), what)):
            path = path_of(bytes_of(found.name))
            if found.isreg() and found.sparse is None:
                self.files[path] = at + found.offset_data, at + found.offset_data + found.size
            elif found.issym():
                self.links[path] = posixpath.normpath(posixpath.join(posixpath.dirname(path), bytes_of(found.linkname)))
            if len(self.files) + len(self.links) > MOST_ENTRIES:
                raise Refused(f"more than {MOST_ENTRIES:,} entries")

    def is_image(self):
        return {LAYOUT, INDEX} <= self.files.keys() or MANIFEST in self.files

    def has(self, path):
        return path in self.files

    def part(self, path):
        place = self.files.get(self.links.get(path, path))
        if place is None:
            raise Refused(f"{shown(path)}: the image has no such file")
        return Part(self.handle, *place)


class Layer(NamedTuple):
    """A layer of an image: the name of its file, the digest of that, and that of the archive that it unpacks to, where they are listed."""

    path: bytes
    digest: Optional[tuple]
    unpacked: Optional[tuple]


def digest_of(listed):
    found = DIGEST.fullmatch(listed)
    if not found:
        raise Refused(f"{shown(bytes_of(listed))}: no digest that is known")
    return tuple(filter(None, found.groups()))


def blob_at(digest):
    return "/".join(("blobs", *digest)).encode()


def part_of(value, name, kind, default=None):
    """A part of a JSON object, which has to have it of a kind where there is no default."""
    found = value.get(name, default) if isinstance(value, dict) else None
    if not isinstance(found, kind):
        raise Refused(f"`{name}` is missing, or is something else")
    return found


def json_in(shelf, path, digest=None):
    """What a file of JSON says."""
    try:
        text = Stream(shelf.part(path), shown(path)).read(MOST_JSON + 1)
        if len(text) > MOST_JSON:
            raise Refused(f"more than {MOST_JSON:,} bytes")
        if digest and hashlib.new(digest[0], text).hexdigest() != digest[1]:
            raise Refused("it has another digest")
        found = json.loads(text)
        # a text with half of a character can't be a name
        json.dumps(found, ensure_ascii=False).encode()
        return found
    except (ValueError, RecursionError):
        raise Refused(f"{shown(path)}: no JSON") from None


class Choice(NamedTuple):
    """An image that may be chosen: its names, and what it is."""

    names: tuple
    listed: dict


def chosen(choices, wanted):
    """The image of this name, or the only one."""
    found = [choice for choice in choices if wanted is None or wanted in choice.names]
    if len(found) == 1:
        return found[0].listed
    if wanted is not None and not found:
        raise Refused(f"no image {wanted}; there are {told(choices)}")
    if not found:
        raise Refused("it has no image")
    raise Refused(f"{len(found)} images; --image names one: {told(found)}")


def told(choices):
    return "; ".join(shown(" ".join(choice.names).encode("utf-8", "surrogateescape")) for choice in choices[:20])


def manifests_of(shelf, index, names=(), depth=0):
    """The manifests that an index lists, also in an index of its own, with their names."""
    if depth > 3:
        raise Refused("an index in an index in an index")
    for listed in part_of(index, "manifests", list):
        digest, marks = digest_of(part_of(listed, "digest", str)), part_of(listed, "annotations", dict, {})
        if KIND in marks:
            continue
        own = (*names, *filter(lambda name: isinstance(name, str), (marks.get(REFERENCE),)), *platform_of(listed), ":".join(digest))
        said = json_in(shelf, blob_at(digest), digest)
        if isinstance(said, dict) and "manifests" in said:
            yield from manifests_of(shelf, said, own, depth + 1)
        else:
            yield Choice(own, said)


def platform_of(listed):
    said = part_of(listed, "platform", dict, {})
    parts = [said[name] for name in ("os", "architecture", "variant") if isinstance(said.get(name), str)]
    return ("/".join(parts),) if parts else ()


def layers_of_layout(shelf, wanted):
    part_of(json_in(shelf, LAYOUT), "imageLayoutVersion", str)
    choices = []
    for choice in manifests_of(shelf, json_in(shelf, INDEX)):
        choices.append(choice)
        if len(choices) > MOST_MANIFESTS:
            raise Refused(f"more than {MOST_MANIFESTS:,} manifests")
    digests = [digest_of(part_of(layer, "digest", str)) for layer in part_of(chosen(choices, wanted), "layers", list)]
    return [Layer(blob_at(digest), digest, None) for digest in digests]


def layers_of_docker(shelf, wanted):
    images = json_in(shelf, MANIFEST)
    choices = [Choice((*names_in(image), part_of(image, "Config", str)), image) for image in (images if isinstance(images, list) else ())]
    image = chosen(choices, wanted)
    layers = part_of(image, "Layers", list)
    config = json_in(shelf, bytes_of(part_of(image, "Config", str)))
    digests = part_of(part_of(config, "rootfs", dict), "diff_ids", list)
    if len(digests) != len(layers) or not all(isinstance(name, str) for name in (*layers, *digests)):
        raise Refused("its layers are others than those of its configuration")
    return [Layer(bytes_of(path), None, digest_of(digest)) for path, digest in zip(layers, digests)]


def names_in(image):
    tags = image.get("RepoTags") if isinstance(image, dict) else None
    return filter(lambda tag: isinstance(tag, str), tags if isinstance(tags, list) else ())


def layers_of(shelf, is_docker, wanted):
    layers = layers_of_docker(shelf, wanted) if is_docker else layers_of_layout(shelf, wanted)
    if len(layers) > MOST_LAYERS:
        raise Refused(f"more than {MOST_LAYERS:,} layers")
    return layers


class Opened:
    """The archive of a layer as a stream, and the digests that are compared at its end."""

    def __init__(self, shelf, layer, what, stack):
        source, self.compared = shelf.part(layer.path), []
        what = f"{what}: {shown(layer.path)}"
        if layer.digest:
            source = self.comparing(source, layer.digest, what)
        self.stream = plain(Stream(source, what), stack)
        if layer.unpacked:
            rest = self.stream.rest()
            self.stream = Stream(self.comparing(lambda: next(rest, b""), layer.unpacked, what), what)

    def comparing(self, source, digest, what):
        self.compared.append(Compared(source, digest, what))
        return self.compared[-1]

    def end(self):
        for compared in reversed(self.compared):
            compared.end()
