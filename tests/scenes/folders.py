"""Real folders, laid over one another as files on a disk: what comes of it is the tree that `layer` has to give for their
tree texts."""
import os
import random
import shutil
import stat
import subprocess
import tempfile
from pathlib import Path

from scenes.running import LAYER, SECONDS, TOP, Skipped, expect, named, run

OPAQUE = "user.overlay.opaque"


def text_of(folder):
    return subprocess.run([TOP / "tools/tree-text", folder], stdout=subprocess.PIPE, check=True, timeout=SECONDS).stdout


def make_whiteout(place):
    os.mknod(place, stat.S_IFCHR, os.makedev(0, 0))


def is_whiteout(place):
    status = place.lstat()
    return stat.S_ISCHR(status.st_mode) and status.st_rdev == 0


def make_opaque(folder):
    os.setxattr(folder, OPAQUE, b"y")


def is_opaque(folder):
    return OPAQUE in os.listxattr(folder)


def grow(rng, folder, depth, kinds):
    """Fills a folder with entries of few names, so that those of several folders meet."""
    for name in ("a", "a b", "b", "ü"):
        place, kind = Path(folder, name), rng.choice(kinds)
        if kind == "link":
            place.symlink_to(rng.choice(["a", "../b c", "/dev/null"]))
        elif kind == "file":
            place.write_text(rng.choice(["", "abc", "def"]))
            place.chmod(rng.choice([0o644, 0o600, 0o755, 0o4755]))
        elif kind == "whiteout":
            make_whiteout(place)
        elif kind in ("directory", "opaque") and depth:
            place.mkdir()
            grow(rng, place, depth - 1, kinds)
            if kind == "opaque":
                make_opaque(place)
            place.chmod(rng.choice([0o755, 0o700, 0o1777]))


def clear(place):
    """Takes away what stands at a place, if anything does."""
    if place.is_dir() and not place.is_symlink():
        shutil.rmtree(place)
    elif os.path.lexists(place):
        place.unlink()


def lay(upper, lower):
    """Lays what stands in a folder over what stands in another."""
    for entry in map(Path, os.scandir(upper)):
        place = Path(lower, entry.name)
        is_directory = entry.is_dir() and not entry.is_symlink()
        stays = is_directory and not is_opaque(entry) and place.is_dir() and not place.is_symlink()
        if not stays:
            clear(place)
        if is_directory:
            place.mkdir(exist_ok=True)
            lay(entry, place)
            shutil.copymode(entry, place)
        elif not is_whiteout(entry):
            shutil.copy(entry, place, follow_symlinks=False)


def lay_stacks(program, seed, kinds):
    """Lays a dozen stacks of folders with entries of these kinds."""
    rng = random.Random(seed)
    for _ in range(12):
        with tempfile.TemporaryDirectory() as place:
            layers = [Path(place, f"layer-{at}") for at in range(rng.randrange(1, 5))]
            laid = Path(place, "laid")
            for folder in (*layers, laid):
                folder.mkdir()
            for layer in layers:
                grow(rng, layer, 3, kinds)
                lay(layer, laid)
            expect(run(program, LAYER, b"".join(map(text_of, layers))), (text_of(laid), b"", 0))


def folders_laid_over_one_another_are_the_layered_tree(program):
    lay_stacks(program, 1, ["link", "file", "directory", "directory", "none"])


def folders_with_whiteouts_and_opaque_directories(program):
    with tempfile.TemporaryDirectory() as place:
        try:
            make_whiteout(Path(place, "whiteout"))
            make_opaque(place)
        except OSError as error:
            raise Skipped(f"no whiteout or opaque directory can be made in {place}: {error.strerror}") from None
    lay_stacks(program, 2, ["link", "file", "directory", "directory", "opaque", "whiteout", "none"])


scenes = named(folders_laid_over_one_another_are_the_layered_tree, folders_with_whiteouts_and_opaque_directories)
