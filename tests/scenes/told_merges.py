"""The rows of docs/FROM_SYSTEMD.md on merges, as functions: each changes what hostext gets of a stack by what its row says, so that
both have to come to the same."""
import re

from scenes.real_trees import below, directory, file, with_parents, without
from scenes.releases import read_release, verdict
from scenes.stacks import RELEASES, SEARCHED, THERE
from scenes.told_releases import stands_for
from scenes.tree_texts import Faulty
from scenes.updates import ORDER

DIRECTORIES = "d", "o"
IS_257 = 254


def kind_at(tree, path):
    """Of what kind the entry at a path is, or nothing."""
    return tree[path][0] if path in tree else None


def nothing_is_merged(stack):
    """The whole merge fails there: one image less is not the answer here, so that all of them go."""
    stack.images.clear()


def is_of_another_machine(image):
    return re.search(r"\.v/.*_(arm64|s390x)$", image.place)


def is_first(stack, image):
    """Whether no other image of its name comes before it. Of versions in one directory the greatest for this machine does."""
    folders = SEARCHED[stack.kind]
    rank = lambda one: next((at for at, folder in enumerate(folders) if one.place.startswith(f"{folder}/")), -1)
    comes_before = lambda one: (rank(one), ORDER(image.place)) < (rank(image), ORDER(one.place))
    others = [one for one in stack.images if one is not image and one.name == image.name and not is_of_another_machine(one)]
    return not is_of_another_machine(image) and not any(map(comes_before, others))


def fits(stack, image):
    """Whether hostext merges an image by its release file, read a second time."""
    try:
        host = read_release(release_of(stack.host))
        own = read_release(image.tree[image.release(stack.kind)][2])
    except (KeyError, IndexError, Faulty):
        return False
    return is_first(stack, image) and (stack.force or verdict(stack.kind.upper().encode(), host, own) == b"fits")


def release_of(host):
    return next(host[path][2] for path in ("etc/os-release", "usr/lib/os-release") if kind_at(host, path) == "f")


def with_release(stack, image, text):
    """Gives an image another release file, whose bytes stand for those that it has."""
    path = image.release(stack.kind)
    old = image.tree.get(path)
    if old and text != old[2]:
        image.tree[path] = file(stands_for(stack, old[2], text), old[1])


def modes_at_hierarchies(stack):
    """The mode of a hierarchy in the view is 755 in 252, and in 257 that of the host without setuid, setgid and the sticky bit."""
    for top in stack.hierarchies:
        host = stack.host.get(top, directory())
        mode = 0o755 if stack.version < IS_257 or host[0] != "d" else host[1] & 0o777
        for image in stack.images:
            if kind_at(image.tree, top) in DIRECTORIES:
                image.tree[top] = (image.tree[top][0], mode)


def marks_at_hierarchies(stack):
    """An opaque mark at a hierarchy itself counts for nothing."""
    for image in stack.images:
        for top in stack.hierarchies:
            if kind_at(image.tree, top) == "o":
                image.tree[top] = directory(image.tree[top][1])


def links_at_hierarchies_of_hosts(stack):
    """A link in place of a hierarchy is followed: the directory is put in its place."""
    for top in stack.hierarchies:
        if kind_at(stack.host, top) == "l":
            there = stack.host[top][1].lstrip("/")
            stack.host = with_parents({**without(stack.host, top), top: stack.host[there], **{f"{top}/{path}": entry for path, entry in below(stack.host, there).items()}})


def hosts_without_a_hierarchy(stack):
    """A hierarchy that the host lacks is made where a merged image has something in it, and stays; empty directories don't show."""
    for top in stack.hierarchies:
        if top in stack.host:
            continue
        merged = [image for image in stack.images if fits(stack, image)]
        if any(below(image.tree, top) for image in merged):
            stack.host[top] = directory()
        else:
            for image in stack.images:
                image.tree.pop(top, None)


def links_at_hierarchies_of_images(stack):
    """A link of an image in place of a hierarchy is followed in the image: the directory is put in its place."""
    for image in stack.images:
        for top in stack.hierarchies:
            if kind_at(image.tree, top) == "l":
                there = image.tree[top][1]
                image.tree = {**image.tree, top: image.tree[there], **{f"{top}/{path}": entry for path, entry in below(image.tree, there).items()}}


def masks(stack):
    """A link to /dev/null and an empty file of an image's name mask nothing."""
    for path, entry in list(stack.host.items()):
        is_mask = entry[:2] == ("l", "/dev/null") or (entry[0] == "f" and not entry[2] and not path.endswith(".raw"))
        if is_mask and path.rpartition("/")[0] in (*SEARCHED[stack.kind], THERE):
            del stack.host[path]


def images_in_files(stack):
    """An image in a file that can't be read makes the whole merge fail."""
    for path in list(stack.host):
        if path.endswith(".raw") and path.rpartition("/")[0] in (*SEARCHED[stack.kind], THERE):
            del stack.host[path]
            nothing_is_merged(stack)


def files_at_hierarchies_of_images(stack):
    """An image that has something other than a directory at a hierarchy makes the whole merge fail."""
    if any(kind_at(image.tree, top) == "f" for image in stack.images for top in stack.hierarchies):
        nothing_is_merged(stack)


def own_os_releases(stack):
    """An image with a usr/lib/os-release of its own makes the whole merge fail."""
    if stack.kind == "sysext" and any("usr/lib/os-release" in image.tree for image in stack.images):
        nothing_is_merged(stack)


def renamed(stack, image, name):
    """Gives an image another name, which stands in the lists and the view for its own."""
    path = image.release(stack.kind)
    stack.names[name] = image.name
    stack.paths[RELEASES[stack.kind] + name] = path
    entry = image.tree.pop(path, None)
    image.name, image.place = name, image.place.rpartition("/")[0] + f"/{name}"
    if entry:
        image.tree[image.release(stack.kind)] = entry


def names_with_a_dot_first(stack):
    """An image's name may begin with a dot: it gets one that has the same place in the order."""
    for image in stack.images:
        if image.name.startswith("."):
            renamed(stack, image, "-" + image.name[1:])


def directories_with_raw(stack):
    """A directory may be an image whose name ends in .raw."""
    for image in stack.images:
        if image.name.endswith(".raw"):
            renamed(stack, image, image.name[: -len(".raw")] + "-raw")


def endings_of_classes(stack):
    """In 257 a directory N.sysext is the image N."""
    for image in stack.images:
        image.place = image.place.removesuffix(f".{stack.kind}")


def candidates(stack):
    """The images that are versions, each with its version."""
    return [(image, image.place.rpartition("/")[2].removeprefix(f"{image.name}_")) for image in stack.images if re.search(r"\.v/[^/]+$", image.place)]


def picked_versions_with_marks(stack):
    """A version with `~` or `^` is none there."""
    for image, version in candidates(stack):
        if "~" in version or "^" in version:
            stack.images.remove(image)


def unknown_architectures(stack):
    """A version that ends in an architecture which this machine isn't is none, whichever it is."""
    for image, version in candidates(stack):
        if re.search(r"_(mips|sparc64|ppc|ia64)$", version):
            stack.images.remove(image)


def counters_of_tries(stack):
    """A counter of tries isn't part of the version, and one without any left comes last."""
    for image, version in candidates(stack):
        version, plus, tries = version.partition("+")
        if plus and tries.startswith("0"):
            stack.images.remove(image)
        elif plus:
            image.place = image.place.rpartition("+")[0]


def directories_of_versions(stack):
    """In 252 a directory N.v has no versions: it is an image without a release file."""
    if stack.version < IS_257:
        for image, _ in candidates(stack):
            stack.images.remove(image)


def release_files_of_any_name(stack):
    """A release file whose attribute user.extension-release.strict is false counts whatever its name."""
    for image in stack.images:
        for path, entry in list(image.tree.items()):
            if entry[0] == "f" and entry[3:]:
                del image.tree[path]
                image.tree[image.release(stack.kind)] = file(entry[2], entry[1])
                stack.paths[image.release(stack.kind)] = path


def release_files_without_the_version(stack):
    """In 257 the release file may have the image's name up to its first `_`."""
    for image in stack.images:
        short = RELEASES[stack.kind] + image.name.partition("_")[0]
        if stack.version >= IS_257 and image.release(stack.kind) not in image.tree and kind_at(image.tree, short) == "f" and "_" in image.name:
            image.tree[image.release(stack.kind)] = image.tree.pop(short)
            stack.paths[image.release(stack.kind)] = short


def signs_in_names(stack):
    """A name with a comma, a colon, a backslash or a quote makes the whole merge fail."""
    if any(re.search(r"""[,:\\'"]""", image.name) for image in stack.images):
        nothing_is_merged(stack)


def release_folders_out_of_reach(stack):
    """An image whose usr/lib is no directory makes the whole merge fail."""
    if stack.kind == "sysext" and any(kind_at(image.tree, "usr/lib") not in (None, *DIRECTORIES) for image in stack.images):
        nothing_is_merged(stack)


def search_directories_that_are_files(stack):
    """A search directory that is a file makes the command fail."""
    if any(kind_at(stack.host, folder) == "f" for folder in SEARCHED[stack.kind]):
        nothing_is_merged(stack)


def scopes_of_no_word(stack):
    """A scope that is set and has no word fits no host."""
    key = f"{stack.kind.upper()}_SCOPE".encode()
    for image in stack.images:
        if found := re.search(rb'^%b=(|""| +)$' % key, image.tree.get(image.release(stack.kind), (0, 0, b""))[2], re.M):
            text = image.tree[image.release(stack.kind)][2]
            with_release(stack, image, text.replace(found[0], key + b"=nothing"))


def like_other_systems(stack):
    """In 257 an image fits by a word of the host's ID_LIKE too."""
    found = re.search(rb'^ID_LIKE="?(.*?)"?$', host_text(stack), re.M)
    if stack.version < IS_257 or not found:
        return
    for image in stack.images:
        text = image.tree.get(image.release(stack.kind), (0, 0, b""))[2]
        for word in found[1].split():
            with_release(stack, image, re.sub(rb"^ID=%b$" % word, b"ID=debian", text, flags=re.M))
            text = image.tree.get(image.release(stack.kind), (0, 0, b""))[2]


def host_text(stack):
    try:
        return release_of(stack.host)
    except StopIteration:
        return b""


def hosts_without_an_id(stack):
    """A host whose release file sets no ID merges nothing."""
    try:
        has_one = b"ID" in read_release(host_text(stack))
    except Faulty:
        return
    if not has_one:
        nothing_is_merged(stack)


def images_without_a_release(stack):
    """By force an image without a release file is merged: it gets one, which doesn't show."""
    for image in stack.images:
        if not stack.force or image.release(stack.kind) in image.tree or not is_first(stack, image):
            continue
        path = image.release(stack.kind)
        added = [at for at in with_parents({path: file()}) if at not in image.tree]
        image.tree = with_parents({**image.tree, path: file(b"ID=_any\n")})
        others = {at for other in stack.images if other is not image and is_first(stack, other) for at in other.tree} | set(stack.host)
        stack.paths.update({at: None for at in added if at not in others})


def directories_for_release_files(stack):
    """The merge fails where the host's etc/os-release is a directory."""
    if kind_at(stack.host, "etc/os-release") == "d":
        nothing_is_merged(stack)


# In the order in which they are taken off.
ROWS = [
    *(search_directories_that_are_files, images_in_files, masks, directories_of_versions),
    *(picked_versions_with_marks, unknown_architectures, counters_of_tries, release_files_of_any_name),
    *(release_files_without_the_version, links_at_hierarchies_of_hosts, links_at_hierarchies_of_images, files_at_hierarchies_of_images),
    *(own_os_releases, release_folders_out_of_reach, signs_in_names, endings_of_classes),
    *(names_with_a_dot_first, directories_with_raw, scopes_of_no_word, like_other_systems),
    *(hosts_without_an_id, directories_for_release_files, images_without_a_release, marks_at_hierarchies),
    *(hosts_without_a_hierarchy, modes_at_hierarchies),
]
