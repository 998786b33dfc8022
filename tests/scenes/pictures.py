"""bench/plot: the pictures that it draws of given lines, read back as XML. A place on an axis is held to the value that stands there by
the ratio of two steps."""
import math
import re
import subprocess
import tempfile
import xml.etree.ElementTree as xml
from pathlib import Path

from scenes.running import SECONDS, TOP, Failed, named

SVG = "{http://www.w3.org/2000/svg}"

# As bench/store and bench/layer print.
STORE = """\
1 images of 20 over 14,000         hostext                         0.030 s       15 MiB     1.00
1 images of 20 over 14,000         cp -al                          0.050 s        2 MiB     0.60
10 images of 20 over 14,000        hostext                         0.040 s       15 MiB     1.00
10 images of 20 over 14,000        cp -al                          0.060 s        2 MiB     0.67
100 images of 20 over 14,000       hostext                         0.130 s       18 MiB     1.00
100 images of 20 over 14,000       cp -al                          0.960 s        2 MiB     0.14
cat under 14,009 entries           1 lines                         0.007 s        8 MiB     1.00
cat under 14,009 entries           10,000 lines                    0.120 s        8 MiB     0.06
cat under 262,100 entries          1 lines                         0.050 s       38 MiB     1.00
one file under 14,009 entries      hostext                         0.020 s       10 MiB     1.00
tree of 262,100 entries            hostext                         0.130 s       68 MiB     1.00
import-fs of 110 files             copy.c hash                     0.000 s        2 MiB     1.00
import-fs of 11,001 files          copy.c hash                     0.120 s        2 MiB     1.00
check of 110 files                 hostext                         0.000 s        2 MiB     1.00
check of 11,001 files              hostext                         0.000 s        2 MiB     1.00
list of instances and versions     5,000 and 5,000                 0.900 s        8 MiB     1.00
list of instances and versions     5,000 and 5,000                 0.100 s        8 MiB     1.00
list of instances and versions     20,000 and 20,000               0.400 s       18 MiB     0.25
"""
LAYER = """\
seed 1, medians of 5 runs
shape                                               bytes    layer  of sort of sha256 of sort -m peak / bytes peak / line
1,000 entries of host, 8 images of 100            195,793   0.001s     1.10      0.50          -          0.0           0
10,000 entries of host, 8 images of 400         1,435,745   0.004s     0.80      0.40       2.00          0.0           0
64 images of 1,000                              7,087,277   0.034s     0.90      1.10       1.20          2.8         301
"""


def plot(folder, lines, *words):
    ended = subprocess.run([TOP / "bench/plot", "--folder", folder, *words], input=lines.encode(), capture_output=True, timeout=SECONDS)
    return ended.stdout.decode(), ended.stderr.decode(), ended.returncode


class Picture:
    """A picture that was drawn: its texts, and of each line its name, kind, markers and the corners of its way."""

    def __init__(self, file):
        self.root = xml.parse(file).getroot()
        self.texts = [found.text for found in self.root.iter(f"{SVG}text")]
        self.lines = {}
        for group in self.root.iter(f"{SVG}g"):
            paths = list(group.iter(f"{SVG}path"))
            way = next(path for path in paths if path.get("class") == "way")
            markers = [path for path in paths if path.get("class") == "marker"]
            self.lines[group.find(f"{SVG}text").text] = way.get("stroke-dasharray"), markers[0].get("d"), corners(way.get("d")), [moved(marker) for marker in markers]


def corners(form):
    return [(float(x), float(y)) for x, y in re.findall(r"[ML]([0-9.]+),([0-9.]+)", form)]


def moved(marker):
    return tuple(map(float, re.fullmatch(r"translate\(([0-9.]+) ([0-9.]+)\)", marker.get("transform")).groups()))


def pictures(lines, *words):
    with tempfile.TemporaryDirectory() as folder:
        written, said, status = plot(folder, lines, *words)
        if said or status:
            raise Failed(f"it ends with {status} and says {said}")
        made = sorted(Path(folder).iterdir())
        if sorted(written.splitlines()) != [str(path) for path in made]:
            raise Failed(f"it writes {written}, and made {made}")
        return {path.stem: Picture(path) for path in made}


def near(found, wanted, what):
    if abs(found - wanted) > 0.02:
        raise Failed(f"{what} has the ratio {found:.3f}, and not {wanted:.3f}")


def steps(places, values, by):
    """That places stand as values do: the steps from the first to the second and to the third have one ratio."""
    a, b, c = map(by, values)
    near((places[1] - places[0]) / (places[2] - places[0]), (b - a) / (c - a), f"{values}")


def each_subject_with_two_sizes_is_drawn(_program):
    found = pictures(STORE + LAYER)
    if found.keys() != {"merge", "cat", "import", "updates", "layer"}:
        raise Failed(f"there are pictures of {sorted(found)}")
    names = {stem: list(picture.lines) for stem, picture in found.items()}
    wanted = {
        "merge": ["hostext", "cp -al"],
        "cat": ["under 14,009 entries", "under 262,100 entries"],
        "import": ["copy.c hash"],
        "updates": ["hostext"],
        "layer": ["layer", "sort", "sha256sum", "sort -m"],
    }
    if names != wanted:
        raise Failed(f"the lines are {names}")
    for stem, unit, title in (("merge", "images", "sysext merge of images of 20 entries over 14,000"), ("cat", "lines", "a batch of cat"), ("layer", "bytes", "layer of a host and 8 images")):
        if not {unit, "seconds", title} <= set(found[stem].texts):
            raise Failed(f"the picture of {stem} says {found[stem].texts}")


def places_stand_for_values(_program):
    values = {"hostext": (0.030, 0.040, 0.130), "cp -al": (0.050, 0.060, 0.960)}
    sizes = 1, 10, 100
    for words, by_x, by_y in ((), float, float), (("--log", "x"), math.log, float), (("--log", "y"), float, math.log), (("--log", "xy"), math.log, math.log):
        picture = pictures(STORE, *words)["merge"]
        for name, seconds in values.items():
            _, _, places, markers = picture.lines[name]
            if places != markers or len(places) != 3:
                raise Failed(f"the line has corners {places}, and markers {markers}")
            steps([x for x, _ in places], sizes, by_x)
            steps([-y for _, y in places], seconds, by_y)
        lower, upper = (picture.lines[name][2][2][1] for name in ("hostext", "cp -al"))
        if lower <= upper or ("images (log)" in picture.texts) != ("x" in "".join(words)) or ("seconds (log)" in picture.texts) != ("y" in "".join(words)[5:]):
            raise Failed(f"with {words} hostext ends at {lower}, cp at {upper}, and it says {picture.texts}")


def marks_stand_where_their_values_would(_program):
    """On a linear axis each mark is a number on the same scale as the points: hostext's first time lies between two marks."""
    picture = pictures(STORE)["merge"]
    marks = {float(found.text): float(found.get("y")) - 4 for found in picture.root.iter(f"{SVG}text") if found.get("text-anchor") == "end"}
    zero, one = marks[0.0], marks[0.2]
    for value, (_, y) in zip((0.050, 0.060, 0.960), picture.lines["cp -al"][2]):
        near((zero - y) / (zero - one), value / 0.2, "a time beside the marks")
    width, height = (float(picture.root.get(name)) for name in ("width", "height"))
    for _, _, places, _ in picture.lines.values():
        if not all(0 <= x <= width and 0 <= y <= height for x, y in places):
            raise Failed(f"the picture has a point outside: {places}")


def lines_differ_without_colour(_program):
    kinds = [(dash, marker) for dash, marker, _, _ in pictures(LAYER)["layer"].lines.values()]
    if len({dash for dash, _ in kinds}) != 4 or len({marker for _, marker in kinds}) != 4:
        raise Failed(f"the lines are {kinds}")


def the_seconds_of_a_program_beside_layer_are_worked_out(_program):
    """Those of sort were 0.001 / 1.1 and 0.004 / 0.8, those of sha256sum 0.002 and 0.01."""
    picture = pictures(LAYER)["layer"]
    layer, sort, sums = (picture.lines[name][2] for name in ("layer", "sort", "sha256sum"))
    bottom = max(y for _, _, places, _ in picture.lines.values() for _, y in places)
    near((layer[0][1] - layer[1][1]) / (sums[0][1] - sums[1][1]), 0.003 / 0.008, "layer beside sha256sum")
    near((sort[0][1] - sort[1][1]) / (sums[0][1] - sums[1][1]), (0.005 - 0.001 / 1.1) / 0.008, "sort beside sha256sum")
    if len(picture.lines["sort -m"][2]) != 1 or bottom != sort[0][1]:
        raise Failed(f"sort -m is at {picture.lines['sort -m'][2]}, and the lowest point at {bottom}")


def a_later_row_counts_and_no_time_of_zero_on_an_axis_of_ratios(_program):
    places = pictures(STORE)["updates"].lines["hostext"][2]
    if len(places) != 2 or places[0][1] <= places[1][1]:
        raise Failed(f"the points of updates are {places}")
    if len(pictures(STORE)["import"].lines["copy.c hash"][2]) != 2 or "check" in pictures(STORE, "--log", "y"):
        raise Failed("a time of 0 isn't drawn where it can be, or is where it can't")
    if len(pictures(STORE, "--log", "xy")["import"].lines["copy.c hash"][2]) != 1:
        raise Failed("a time of 0 stands on an axis of ratios")


def without_two_sizes_it_is_told(_program):
    with tempfile.TemporaryDirectory() as folder:
        for lines in "", "no row\n", STORE.splitlines()[0] + "\n":
            found = plot(folder, lines)
            if found != ("", "plot: no subject of these lines has two sizes\n", 1) or list(Path(folder).iterdir()):
                raise Failed(f"of {lines!r} it gives {found}")
        if plot(folder, STORE, "--log", "z")[2] != 2:
            raise Failed("--log z is taken")


scenes = named(
    *(each_subject_with_two_sizes_is_drawn, places_stand_for_values, marks_stand_where_their_values_would, lines_differ_without_colour),
    *(the_seconds_of_a_program_beside_layer_are_worked_out, a_later_row_counts_and_no_time_of_zero_on_an_axis_of_ratios),
    without_two_sizes_it_is_told,
)
