"""Too little memory, and how much there must be."""
import resource
import subprocess
import sys

from scenes.running import LAYER, SECONDS, Failed, directories, expect, named, run, shortened, tree_text
from scenes.stores import DONE, in_a_place
from scenes.views import ANY, host, put


def out_of_memory_writes_nothing(program):
    """Under each limit on memory the reply comes whole, or it is out of memory; where a limit is too narrow even to start
    the program, nothing is asked of it. One limit at least shows each of the two."""
    source, found = directories(100_000), set()
    for limit in (2**at * 1_048_576 for at in range(12)):
        ended = run(program, LAYER, source, before=lambda limit=limit: resource.setrlimit(resource.RLIMIT_AS, (limit, limit)))
        if ended[2] == 7:
            expect(ended, (b"", b"hostext: out of memory\n", 7))
        elif ended[2] == 0:
            expect(ended, (source, b"", 0))
        elif 7 in found or ended[0]:
            raise Failed(f"under {limit:,} bytes it ended with {shortened(ended)}")
        found.add(ended[2])
    if not {0, 7} <= found:
        raise Failed(f"no limit shows each of the two: {sorted(found)}")


# Starts a command from a small process, since the peak of a process's memory begins with that of the one that started it.
STARTER = """
import os, sys
quiet = [(os.POSIX_SPAWN_OPEN, 1, os.devnull, os.O_WRONLY, 0)]
_, status, usage = os.wait4(os.posix_spawn(sys.argv[1], sys.argv[1:], os.environ, file_actions=quiet), 0)
print(os.waitstatus_to_exitcode(status), usage.ru_maxrss)
"""


def peak(place, *words):
    """The peak of a command's memory in KiB; the command is done."""
    command = [sys.executable, "-I", "-S", "-c", STARTER, place.program, place.store, place.depot, *words]
    status, found = subprocess.run(command, stdout=subprocess.PIPE, check=True, timeout=SECONDS).stdout.split()
    if int(status):
        raise Failed(f"`{' '.join(words)}` ended with {int(status)}")
    return int(found)


def a_hundred_links_to_one_image_take_the_memory_of_one(place):
    """Each is an image of its own name, and what it shows is what the others show."""
    host(place)
    names = [f"link{at:02}" for at in range(100)]
    releases = {f"usr/lib/extension-release.d/extension-release.{name}": ANY for name in names}
    put(place, "image", {**{f"usr/d{at // 100:04}/e{at % 100:02}": None for at in range(100_000)}, **releases}, "/srv/image")
    one, hundred = (merged_peak(place, names[:count]) for count in (1, 100))
    place.expect(("sysext status", b"".join([b"merged 100\n", *(b"%s\n" % name.encode() for name in names)])))
    if hundred >= 2 * one:
        raise Failed(f"a hundred links take {hundred:,} KiB, and one takes {one:,}")


def merged_peak(place, names):
    """The peak of a merge of links of these names to the one image."""
    put(place, "links", {name: "l 18 ../../../srv/image {path}" for name in names}, "/var/lib/extensions")
    return peak(place, "sysext", "refresh")


def a_large_import_without_memory_loses_nothing(place):
    """Under each of twenty limits it is done, or out of memory and nothing has changed; where a limit is too narrow even to start the
    program, nothing is asked of it. The next command works on the store, and an import with memory enough goes through."""
    large = directories(100_000)
    place.resource("small", tree_text("d 755 srv"))
    place.resource("large", large)
    place.expect(("init x86-64 system", DONE), ("import-fs small /", DONE))
    before, found = place.run("tree"), set()
    for limit in (2**at * part for at in range(20, 30) for part in (2, 3)):
        ended = place.run("import-fs", "large", "/opt", before=lambda limit=limit: resource.setrlimit(resource.RLIMIT_AS, (limit, limit)))
        found.add(ended[2])
        if ended[2] == 0:
            expect(ended, (DONE, b"", 0))
            place.expect(("check", b"ok 0 0\n"), ("remove /opt", DONE))
        elif ended[2] == 7:
            expect(ended, (b"", b"hostext: out of memory\n", 7))
        elif 7 in found or ended[0]:
            raise Failed(f"under {limit:,} bytes it ended with {shortened(ended)}")
        expect(place.run("tree"), before)
    if not {0, 7} <= found:
        raise Failed(f"no limit shows each of the two: {sorted(found)}")


scenes = named(out_of_memory_writes_nothing, in_a_place(a_large_import_without_memory_loses_nothing), in_a_place(a_hundred_links_to_one_image_take_the_memory_of_one))
