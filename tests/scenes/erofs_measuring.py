"""What an image of a host with as many entries as there may be takes: time, memory and bytes, beside its index; each alone."""
import os
import subprocess
import sys

from scenes.erofs_trees import STAMP, put_store, written_image
from scenes.memory import STARTER
from scenes.running import MOST_ENTRIES, SECONDS, Failed, imager, named
from scenes.stores import in_a_place

# Entries, and the seconds of a processor that their image may take: some five times as many as docs/PERFORMANCE.md tells, since a
# processor may be slow and what runs beside this makes it slower.
HOSTS = (14_009, 0.2), (MOST_ENTRIES, 3.5)
RUNS = 5
# Of the bytes of the index.
MOST_MEMORY, MOST_IMAGE = 3, 1.6
OF_PACKAGE = 20


def host(count):
    """Directories of packages, with files and links, as a system has them: of twenty entries one is a directory, and two are links."""
    entries = {names: (b"d", (b"755",)) for names in ((b"usr",), (b"usr", b"share"))}
    while len(entries) < count:
        at = len(entries)
        folder = b"usr", b"share", b"package-%05d" % (at // OF_PACKAGE)
        if folder not in entries:
            entries[folder] = b"d", (b"755",)
        elif at % OF_PACKAGE < 2:
            entries[(*folder, b"libexample-%06d.so" % at)] = b"l", (b"22", b"libexample-%06d.so.1" % at)
        else:
            entries[(*folder, b"module-%06d.conf" % at)] = b"f", (b"644", *STAMP)
    return entries


def processor_seconds(words):
    before = os.times()
    subprocess.run(words, stdin=subprocess.DEVNULL, stdout=subprocess.DEVNULL, check=True, timeout=SECONDS)
    after = os.times()
    return after.children_user + after.children_system - before.children_user - before.children_system


def peak(words):
    """The peak of a run's memory in bytes."""
    command = [sys.executable, "-I", "-S", "-c", STARTER, *words]
    status, found = subprocess.run(command, stdout=subprocess.PIPE, check=True, timeout=SECONDS).stdout.split()
    if int(status):
        raise Failed(f"it ended with {int(status)}")
    return int(found) * 1024


def images_of_large_hosts_are_soon_written(place):
    for count, most in HOSTS:
        put_store(place, 1, host(count))
        words = [os.fspath(imager()), os.fspath(place.store)]
        least = min(processor_seconds(words) for _ in range(RUNS))
        if least > most:
            raise Failed(f"the image of {count:,} entries takes {least:.3f} s of a processor, and may take {most} s")


def an_image_takes_little_more_than_its_index(place):
    put_store(place, 1, host(MOST_ENTRIES))
    index = (place.store / "g-1/index").stat().st_size
    for what, found, most in ("memory", peak([os.fspath(imager()), os.fspath(place.store)]), MOST_MEMORY), ("bytes", len(written_image(place)), MOST_IMAGE):
        if found > most * index:
            raise Failed(f"the image takes {found:,} bytes ({what}), {found / index:.2f} times the {index:,} of its index, and may take {most} times as many")


CALLS = images_of_large_hosts_are_soon_written, an_image_takes_little_more_than_its_index
scenes = named(*map(in_a_place, CALLS))
