"""The homes of a generation: those that its image leads to, and the hard links of them by which it stays whole, whatever the store takes
away later.

An image is one that hostext_erofs wrote just now, by the layout that FORMATS tells: cells of 128 bytes, of which that of a file has the
path of its home behind its shared attributes.
"""
import os
import re
import struct
from itertools import groupby

from asking import DAMAGED
from entries import FOLDER_ONLY, Refused, shown

SUPERBLOCK, FIRST_CELL, CELL, BLOCK = 1024, 2048, 128, 512
MAGIC = 0xE0F5E1E2
FILE = 9
INODE, HEAD, ENTRY, NAME = 64, 12, 4, b"overlay.redirect"
HOME = re.compile(rb"/(g-[1-9][0-9]{0,9}/[0-9a-f]{3})/([0-9a-f]{2})")
MODE = 0o700
ANEW = "take away what is shown by `off`, and what is mounted by `umount`, and remove `active`: it is made anew"


def no_image(number):
    return Refused(f"what hostext_erofs wrote of generation {number} is no image that is known here")


def homes_of(image, number):
    """The homes that an image of a generation leads to, in order: each folder, and a name in it."""
    if len(image) < FIRST_CELL + CELL or struct.unpack_from("<I", image, SUPERBLOCK) != (MAGIC,):
        raise no_image(number)
    # the blocks of the root are the first behind the cells
    end = struct.unpack_from("<I", image, FIRST_CELL + 16)[0] * BLOCK
    if end > len(image):
        raise no_image(number)
    cells = range(FIRST_CELL, end - CELL + 1, CELL)
    try:
        found = {home_at(image, at + INODE) for at in cells if image[at] == FILE}
    except IndexError:
        raise no_image(number) from None
    return sorted(map(parts_of(number), found))


def home_at(image, at):
    """The text behind the head of a file's attributes, and the shared ones whose places stand there."""
    name = at + HEAD + 4 * image[at + 4]
    length = image[name + 2] | image[name + 3] << 8
    begin = name + ENTRY + len(NAME)
    return image[begin : begin + length]


def parts_of(number):
    def parts(home):
        said = HOME.fullmatch(home)
        if not said:
            raise no_image(number)
        return said.groups()

    return parts


def by_folder(homes):
    """Each folder with the names of the homes in it."""
    return ((folder, [name for _, name in group]) for folder, group in groupby(homes, key=lambda home: home[0]))


def numbers_in(folder):
    """The inode's number of each file in a folder, by its name."""
    with os.scandir(folder) as listing:
        return {os.fsencode(entry.name): entry.inode() for entry in listing if entry.is_file(follow_symlinks=False)}


def link(homes, store, links):
    """Gives each home of a store a hard link at its path below the handle of a folder. Where one stands there it has to be that file's."""
    for path, names in by_folder(homes):
        source = entered(store, path, is_made=False)
        try:
            target = entered(links, path, is_made=True)
            try:
                link_names(path, names, source, target)
            finally:
                os.close(target)
        finally:
            os.close(source)


def link_names(path, names, source, target):
    there, linked = numbers_in(source), numbers_in(target)
    for name in names:
        if name not in there:
            raise Refused(f"{shown(path)}/{shown(name)}: the store lacks this file", DAMAGED)
        if name not in linked:
            os.link(name, name, src_dir_fd=source, dst_dir_fd=target, follow_symlinks=False)
        elif linked[name] != there[name]:
            raise Refused(f"{shown(path)}/{shown(name)}: `active` has another file of that name, of a store that stood here before", ANEW)


def entered(root, path, is_made):
    """The handle of a folder at a path of two names below another one, where no link leads elsewhere."""
    handle = os.dup(root)
    for name in path.split(b"/"):
        try:
            if is_made:
                made(name, handle)
            below = os.open(name, FOLDER_ONLY, dir_fd=handle)
        finally:
            os.close(handle)
        handle = below
    return handle


def made(name, folder):
    try:
        os.mkdir(name, MODE, dir_fd=folder)
    except FileExistsError:
        pass


def drop(links, kept):
    """Takes away the links that aren't among the homes that are kept."""
    kept = set(kept)
    for generation in map(os.fsencode, os.listdir(links)):
        for part in names_below(links, generation):
            path = b"%b/%b" % (generation, part)
            folder = entered(links, path, is_made=False)
            try:
                for name in map(os.fsencode, os.listdir(folder)):
                    if (path, name) not in kept:
                        os.unlink(name, dir_fd=folder)
            finally:
                os.close(folder)
            remove_empty(path, links)
        remove_empty(generation, links)


def names_below(folder, name):
    handle = os.open(name, FOLDER_ONLY, dir_fd=folder)
    try:
        return list(map(os.fsencode, os.listdir(handle)))
    finally:
        os.close(handle)


def remove_empty(path, folder):
    try:
        os.rmdir(path, dir_fd=folder)
    except OSError:
        # something is kept in it
        pass
