"""The house of the crates: its rooms, as docs/ARCHITECTURE.md has them, and its floors, by what each crate stands on in crates.txt."""
import re

from entries import Refused

ARCHITECTURE, CRATES = "docs/ARCHITECTURE.md", "crates.txt"
# A heading of a room, and the row of a crate in the table below one.
ROOM_OR_CRATE = re.compile(r"^### (?P<room>.*)$|^\| `(?P<crate>ext_\w+)` \|", re.M)


def below_each(sources):
    """What each crate of crates.txt stands on, in the order of its lines."""
    lines = (line.partition(":") for line in sources.text(CRATES).splitlines() if line[:1].isalpha())
    return {crate: below.split() for crate, _, below in lines}


def rooms_of(sources):
    """The crates of each room, in the order of the tables."""
    found, room = {}, None
    tables = sources.text(ARCHITECTURE).partition("\n## The crates\n")[2].partition("\n## ")[0]
    for row in ROOM_OR_CRATE.finditer(tables):
        if row["room"]:
            room = found.setdefault(row["room"], [])
        elif room is None:
            raise Refused(f"{ARCHITECTURE} has {row['crate']} above its first room")
        else:
            room.append(row["crate"])
    check_rooms(found, below_each(sources))
    return found


def check_rooms(rooms, below):
    """That each crate has one room, and none of them is missing."""
    placed = [crate for crates in rooms.values() for crate in crates]
    reasons = [f"{ARCHITECTURE} has no room for {crate} of {CRATES}" for crate in below if crate not in placed]
    reasons += [f"{ARCHITECTURE} has {crate}, which {CRATES} hasn't" for crate in placed if crate not in below]
    reasons += [f"{ARCHITECTURE} has {crate} twice" for crate in sorted({crate for crate in placed if placed.count(crate) > 1})]
    if reasons:
        raise Refused(*reasons)


def floors_of(sources):
    """The floor of each crate: one above the highest of those that it stands on, or the first."""
    floors = {}
    for crate, below in below_each(sources).items():
        floors[crate] = 1 + max((floors[lower] for lower in below if lower in floors), default=0)
    return floors
