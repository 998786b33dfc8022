"""What is done to random hosts with images so that rows of docs/FROM_SYSTEMD.md have something to tell. What a row of told_merges.py or
told_releases.py takes off has the name of that row; the others are the same in both."""
from scenes import odd_releases
from scenes.real_trees import WHITEOUT, at_and_below, directory, file, link, opaque, without
from scenes.stacks import FITS, MODES, RELEASES, SEARCHED, THERE, Image, drawn_image, grown

IS_257 = 254


def fresh(stack):
    """A name that no image has."""
    return f"k{len(stack.images)}"


def add(chance, stack, name, fits=FITS):
    """One more image, which fits."""
    image = drawn_image(chance, stack.kind, name, fits)
    stack.images.append(image)
    return image


def plain(chance, stack):
    """An image whose entry has its name alone, and no versions."""
    return chance.choice([image for image in stack.images if "." not in image.place.rpartition("/")[0]] or stack.images)


def of_sysext(make):
    """What is done to system extensions alone."""

    def made(chance, stack):
        if stack.kind == "sysext":
            make(chance, stack)

    made.__name__, made.__doc__ = make.__name__, make.__doc__
    return made


def of_257(make):
    """What is done where systemd is 257 or later."""

    def made(chance, stack):
        if stack.version >= IS_257:
            make(chance, stack)

    made.__name__, made.__doc__ = make.__name__, make.__doc__
    return made


def marks_at_hierarchies(chance, stack):
    image = chance.choice(stack.images)
    for top in stack.hierarchies:
        if image.tree.get(top, ("",))[0] == "d":
            image.tree[top] = opaque(image.tree[top][1])


@of_sysext
def links_at_hierarchies_of_hosts(chance, stack):
    stack.host = without(stack.host, "opt")
    stack.host.update({"opt": link(chance.choice(("var/opt", "/var/opt"))), "var/opt": directory(chance.choice(MODES))})
    stack.host.update({f"var/opt/{path}": entry for path, entry in grown(chance, 2, ("file", "directory", "none")).items()})


@of_sysext
def hosts_without_a_hierarchy(chance, stack):
    stack.host = without(stack.host, "opt")
    if chance.random() < 0.5:
        for image in stack.images:
            if "opt" in image.tree:
                image.tree = {**without(image.tree, "opt"), "opt": directory()}


@of_sysext
def links_at_hierarchies_of_images(chance, stack):
    image = chance.choice(stack.images)
    top = chance.choice(("opt", "usr") if stack.version >= IS_257 else ("opt",))
    if image.tree.get(top, link(""))[0] == "d":
        moved = {f"srv/{path}": entry for path, entry in at_and_below(image.tree, top).items()}
        image.tree = {**without(image.tree, top), **moved, "srv": directory(), top: link(f"srv/{top}")}


def masks(chance, stack):
    """In a search directory before that of the image, or in another one."""
    image = plain(chance, stack)
    stack.host[f"{SEARCHED[stack.kind][0]}/{image.name}"] = chance.choice((link("/dev/null"), file()))
    image.place = f"{SEARCHED[stack.kind][-1]}/{image.name}"


def empty_directories(chance, stack):
    """The same in both: one masks. By force nothing would, and nothing of it would show."""
    stack.force = False
    image = plain(chance, stack)
    image.place = f"{SEARCHED[stack.kind][-1]}/{image.name}"
    stack.images.append(Image(image.name, f"{SEARCHED[stack.kind][0]}/{image.name}", {}))


def images_twice(chance, stack):
    """The same in both: the first search directory counts."""
    image = plain(chance, stack)
    first, last = chance.sample(SEARCHED[stack.kind], 2)
    image.place = f"{first}/{image.name}"
    other = add(chance, stack, image.name)
    other.place = f"{last}/{image.name}"


def images_in_files(chance, stack):
    folders = [folder for folder in SEARCHED[stack.kind] if stack.host.get(folder, ("d",))[0] == "d"]
    stack.host[f"{chance.choice(folders)}/disk.raw"] = file(chance.choice((b"", b"no disk", b"\0" * 1024)))


@of_sysext
def files_at_hierarchies_of_images(chance, stack):
    image = add(chance, stack, fresh(stack))
    image.tree = {**without(image.tree, "opt"), "opt": file()}


@of_sysext
def own_os_releases(chance, stack):
    if stack.version < IS_257:
        stack.force = False
    image = add(chance, stack, fresh(stack))
    image.tree["usr/lib/os-release"] = file(b"ID=k\n")


def names_with_a_dot_first(chance, stack):
    add(chance, stack, f".{fresh(stack)}")


def directories_with_raw(chance, stack):
    add(chance, stack, f"{fresh(stack)}.raw")


@of_257
def endings_of_classes(chance, stack):
    add(chance, stack, fresh(stack)).place += f".{stack.kind}"


def picks(chance, stack, versions):
    """An image with versions, each an image of its own."""
    name = fresh(stack)
    place = f"{chance.choice(SEARCHED[stack.kind])}/{name}.v"
    for version in versions:
        add(chance, stack, name).place = f"{place}/{name}_{version}"


@of_257
def versions_to_pick(chance, stack):
    """The same in both."""
    picks(chance, stack, chance.sample(("9", "10", "9.1", "9_x86-64", "11_arm64", "8_s390x", "9-2"), 3))


@of_257
def picked_versions_with_marks(chance, stack):
    picks(chance, stack, ("9", chance.choice(("10~rc1", "10^post", "9~1"))))


@of_257
def unknown_architectures(chance, stack):
    picks(chance, stack, ("9", f"10_{chance.choice(('mips', 'sparc64', 'ppc', 'ia64'))}"))


@of_257
def counters_of_tries(chance, stack):
    picks(chance, stack, ("9", chance.choice(("10+3", "10+2-1", "10+0-3", "10+0"))))


def directories_of_versions(chance, stack):
    if stack.version < IS_257:
        stack.force = False
        picks(chance, stack, ("9", "10"))


def release_files_of_any_name(chance, stack):
    image = add(chance, stack, fresh(stack))
    path = image.release(stack.kind)
    image.tree[path + "-any"] = (*image.tree.pop(path), ("user.extension-release.strict", chance.choice((b"0", b"false", b"no"))))


@of_257
def release_files_without_the_version(chance, stack):
    name = fresh(stack)
    image = add(chance, stack, f"{name}_9")
    image.tree[RELEASES[stack.kind] + name] = image.tree.pop(image.release(stack.kind))


def signs_in_names(chance, stack):
    add(chance, stack, fresh(stack) + chance.choice((",", ":", "\\", "'", '"')) + "l")


@of_sysext
def release_folders_out_of_reach(chance, stack):
    image = add(chance, stack, fresh(stack))
    if stack.version < IS_257:
        stack.force = False
    image.tree = {**without(image.tree, "usr/lib"), "usr/lib": chance.choice((file(), WHITEOUT, link("lib")))}


def search_directories_that_are_files(chance, stack):
    stack.host[SEARCHED[stack.kind][1]] = file()


def links_on_the_way_to_images(chance, stack):
    """The same in both: links are followed."""
    stack.host.update({SEARCHED[stack.kind][0]: link(chance.choice((f"/{THERE}", f"../{THERE}"))), THERE: directory()})


def scopes_of_no_word(chance, stack):
    add(chance, stack, fresh(stack), b"ID=_any\n%b_SCOPE=%b\n" % (stack.kind.upper().encode(), chance.choice((b"", b'""', b" "))))


def release_path(stack):
    return next((path for path in ("etc/os-release", "usr/lib/os-release") if path in stack.host), None)


def like_other_systems(chance, stack):
    path = release_path(stack)
    if path:
        stack.host[path] = file(stack.host[path][2] + chance.choice((b"ID_LIKE=fedora\n", b'ID_LIKE="suse  fedora"\n', b"ID_LIKE=suse\n")))
    add(chance, stack, fresh(stack), b"ID=fedora\nVERSION_ID=12\n")


def hosts_without_an_id(chance, stack):
    path = release_path(stack)
    if path:
        stack.host[path] = file(chance.choice((b"VERSION_ID=12\n", b"ID=\nVERSION_ID=12\n", b"")))
    add(chance, stack, fresh(stack), b"ID=linux\nVERSION_ID=12\n")


def hosts_without_a_release(chance, stack):
    """The same in both: nothing is merged."""
    if path := release_path(stack):
        del stack.host[path]


def images_without_a_release(chance, stack):
    """By force they are merged there. The directory of release files is there."""
    image = add(chance, stack, fresh(stack))
    del image.tree[image.release(stack.kind)]


def directories_for_release_files(chance, stack):
    if stack.kind == "sysext" and "usr/lib/os-release" in stack.host:
        stack.host["etc/os-release"] = directory()


ODD = [
    *(marks_at_hierarchies, links_at_hierarchies_of_hosts, hosts_without_a_hierarchy, links_at_hierarchies_of_images, masks, empty_directories),
    *(images_twice, images_in_files, files_at_hierarchies_of_images, own_os_releases, names_with_a_dot_first, directories_with_raw),
    *(endings_of_classes, versions_to_pick, picked_versions_with_marks, unknown_architectures, counters_of_tries, directories_of_versions),
    *(release_files_of_any_name, release_files_without_the_version, signs_in_names, release_folders_out_of_reach),
    *(search_directories_that_are_files, links_on_the_way_to_images, scopes_of_no_word, like_other_systems, hosts_without_an_id),
    *(hosts_without_a_release, images_without_a_release, directories_for_release_files),
    *odd_releases.ODD,
]
