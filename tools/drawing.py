"""The pictures of the documents: the house of the crates, by room and floor, and the parts of hostext, by the text beside their picture.
What `tools/pictures` writes."""
import re
import xml.etree.ElementTree as xml
from typing import NamedTuple

from entries import Refused
from house import floors_of, rooms_of

HOUSE, PARTS, PARTS_TEXT = "docs/figures/crates.svg", "docs/figures/hostext.svg", "docs/figures/hostext.txt"
FONT = {"font-family": "sans-serif", "font-size": "12", "fill": "#222"}
SMALL, BOLD = {"font-size": "11"}, {"font-weight": "bold"}
INK, PALE, FILLS = "#222", "#ccc", ("#eef3fa", "#fbf1e6")
# How wide a character is, and a bold one, and how high a line.
CHARACTER, BOLD_CHARACTER, LINE = 6.7, 8, 18
NUMBERS, HEAD, GAP = 34, 64, 6
SIDES = {"left": (0, 0.5), "right": (1, 0.5), "top": (0.5, 0), "bottom": (0.5, 1)}
BOX = re.compile(r"(?P<kind>box|frame) (?P<name>\w+) (?P<places>\d+ \d+ \d+ \d+): (?P<words>.+)")
ARROW = re.compile(r"arrow (?P<begin>\w+\.\w+) (?P<end>\w+\.\w+): (?P<words>.*)")
PLACE = re.compile(r"(?P<box>\w+)\.(?P<side>left|right|top|bottom)")
SIZE = re.compile(r"size (?P<width>\d+) (?P<height>\d+): (?P<title>.+)")


class Box(NamedTuple):
    """Where a box of a picture stands, and how large it is."""

    x: int
    y: int
    width: int
    height: int

    def at(self, side):
        across, down = SIDES[side]
        return self.x + across * self.width, self.y + down * self.height


def picture(width, height, title):
    drawn = xml.Element("svg", {"xmlns": "http://www.w3.org/2000/svg", "width": str(width), "height": str(height), "viewBox": f"0 0 {width} {height}", "role": "img"})
    xml.SubElement(drawn, "title").text = title
    xml.SubElement(drawn, "rect", {"width": "100%", "height": "100%", "fill": "white"})
    return drawn


def text_of(drawn):
    xml.indent(drawn, " ")
    return xml.tostring(drawn, encoding="unicode") + "\n"


def words(parent, x, y, said, **more):
    style = {**FONT, "text-anchor": "middle", **{name.replace("_", "-"): value for name, value in more.items()}}
    xml.SubElement(parent, "text", {"x": f"{x:g}", "y": f"{y:g}", **style}).text = said


def rectangle(parent, box, fill, stroke=INK):
    places = {"x": f"{box.x:g}", "y": f"{box.y:g}", "width": f"{box.width:g}", "height": f"{box.height:g}"}
    xml.SubElement(parent, "rect", {**places, "rx": "4", "fill": fill, "stroke": stroke})


def short(crate):
    return crate.removeprefix("ext_")


def width_of(title, crates):
    """How wide the column of a room is: its longest crate, or the longest word of its title."""
    longest = max(len(short(crate)) for crate in crates) * CHARACTER, max(map(len, title.split())) * BOLD_CHARACTER
    return round(max(longest)) + 2 * GAP


def columns_of(rooms):
    """The left side and the width of each room's column."""
    found, left = {}, NUMBERS
    for title, crates in rooms.items():
        found[title] = left, width_of(title, crates)
        left += found[title][1]
    return found, left + GAP


def lines_of_floors(rooms, floors):
    """The crates of each floor by room, from the highest floor down."""
    highest = max(floors.values())
    return {floor: {title: [crate for crate in crates if floors[crate] == floor] for title, crates in rooms.items()} for floor in range(highest, 0, -1)}


def draw_titles(drawn, columns, bottom):
    """Each room's title, a word a line, over its column."""
    for at, (title, (left, width)) in enumerate(columns.items()):
        rectangle(drawn, Box(left, 0, width, bottom), FILLS[at % 2], PALE)
        for line, word in enumerate(title.split()):
            words(drawn, left + width / 2, LINE * (line + 1), word, **BOLD)


def draw_floor(drawn, floor, crates, columns, top, bottom):
    """The crates of a floor, those of a room one above another, and the floor under them."""
    group = xml.SubElement(drawn, "g", {"id": f"floor-{floor}"})
    words(group, NUMBERS / 2, (top + bottom) / 2 + 4, str(floor), **BOLD)
    for title, standing in crates.items():
        left, width = columns[title]
        for at, crate in enumerate(reversed(standing)):
            lower = bottom - LINE * (at + 1)
            rectangle(group, Box(left + 2, lower, width - 4, LINE - 2), "white")
            words(group, left + width / 2, lower + 12, short(crate), **SMALL)
    xml.SubElement(group, "path", {"d": f"M0,{bottom:g}H{sum(list(columns.values())[-1])}", "stroke": PALE})


def house(sources):
    """The crates, each in the column of its room and on its floor."""
    rooms, floors = rooms_of(sources), floors_of(sources)
    columns, width = columns_of(rooms)
    lines = lines_of_floors(rooms, floors)
    heights = {floor: GAP + LINE * max(map(len, crates.values())) for floor, crates in lines.items()}
    bottom = HEAD + sum(heights.values())
    drawn = picture(width, bottom + GAP, "The crates, each in the column of its room and on its floor")
    draw_titles(drawn, columns, bottom)
    top = HEAD
    for floor, crates in lines.items():
        draw_floor(drawn, floor, crates, columns, top, top + heights[floor])
        top += heights[floor]
    return text_of(drawn)


def draw_box(drawn, row):
    """A box or a frame with its title, and the lines of a box in it."""
    box, (title, *lines) = Box(*map(int, row["places"].split())), row["words"].split(" | ")
    rectangle(drawn, box, "white" if row["kind"] == "frame" else FILLS[0], PALE if row["kind"] == "frame" else INK)
    words(drawn, box.x + box.width / 2, box.y + LINE, title, **BOLD)
    for at, line in enumerate(lines):
        words(drawn, box.x + box.width / 2, box.y + LINE * (at + 2), line, **SMALL)
    return box


def end_of(place, boxes):
    found = PLACE.fullmatch(place)
    if not found or found["box"] not in boxes:
        raise Refused(f"{PARTS_TEXT} has an arrow at {place}, which is no side of a box above it")
    return boxes[found["box"]].at(found["side"])


def draw_arrow(drawn, row, boxes):
    """An arrow from side to side, and its words on the way."""
    (begin_x, begin_y), (end_x, end_y) = end_of(row["begin"], boxes), end_of(row["end"], boxes)
    xml.SubElement(drawn, "path", {"d": f"M{begin_x:g},{begin_y:g}L{end_x:g},{end_y:g}", "stroke": INK, "marker-end": "url(#head)"})
    for at, line in enumerate(filter(None, row["words"].split(" | "))):
        style = {**SMALL, "stroke": "white", "stroke_width": "4", "paint_order": "stroke", "fill": INK}
        words(drawn, (begin_x + end_x) / 2, (begin_y + end_y) / 2 - 5 + LINE * at, line, **style)


def head_of_arrows(drawn):
    marker = {"id": "head", "viewBox": "0 0 8 8", "refX": "8", "refY": "4", "markerWidth": "8", "markerHeight": "8", "orient": "auto"}
    xml.SubElement(xml.SubElement(xml.SubElement(drawn, "defs"), "marker", marker), "path", {"d": "M0,0L8,4L0,8z", "fill": INK})


def parts(sources):
    """The parts of hostext and what goes between them, as their text says."""
    lines = [line for line in sources.text(PARTS_TEXT).splitlines() if line and not line.startswith("#")]
    size = SIZE.fullmatch(lines[0]) if lines else None
    if not size:
        raise Refused(f"{PARTS_TEXT} doesn't begin with a size")
    drawn, boxes = picture(int(size["width"]), int(size["height"]), size["title"]), {}
    head_of_arrows(drawn)
    for line in lines[1:]:
        if row := BOX.fullmatch(line):
            boxes[row["name"]] = draw_box(drawn, row)
        elif row := ARROW.fullmatch(line):
            draw_arrow(drawn, row, boxes)
        else:
            raise Refused(f"{PARTS_TEXT} has a line that is no size, box, frame or arrow: {line}")
    return text_of(drawn)


# What draws each picture.
PICTURES = {HOUSE: house, PARTS: parts}
