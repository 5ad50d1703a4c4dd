"""Writes the files of dsda_build as hostile as their form allows: WADs of one map, play tables and demos."""

import math
import struct
from dataclasses import dataclass, field

NO_SIDE = 0xFFFF
END_MARK = 0xFFFF
SUBSECTOR = 0x8000
TWO_SIDED = 4
PLAYER = struct.pack("<hhhHh", 0, 0, 0, 1, 7)
LUMPS = ("THINGS", "LINEDEFS", "SIDEDEFS", "VERTEXES", "SEGS", "SSECTORS", "NODES", "SECTORS", "REJECT", "BLOCKMAP")


def thing(x, y, number, angle=0, options=7):
    return struct.pack("<hhhHh", x, y, angle, number, options)


def line(first, last, front, back=NO_SIDE, special=0, tag=0, flags=None):
    """A line between two vertices with these sides."""
    if flags is None:
        flags = 1 if back == NO_SIDE else TWO_SIDED
    return struct.pack("<HHhHhHH", first, last, flags, special, tag, front, back)


def side(sector):
    return struct.pack("<hh24xH", 0, 0, sector)


def vertex(x, y):
    return struct.pack("<hh", x, y)


def seg(number, of_side=0):
    """A seg along a side of the line with this number."""
    return struct.pack("<hhhHHh", 0, 0, 0, number, of_side, 0)


def subsector(first, count=1):
    return struct.pack("<HH", count, first)


def node(x, y, dx, dy, front, back):
    return struct.pack("<hhhh16xHH", x, y, dx, dy, front, back)


def sector(floor=0, ceiling=128, special=0, tag=0, light=128):
    return struct.pack("<hh16xhHh", floor, ceiling, light, special, tag)


def block_map(columns, rows, places, words, x=-1024, y=-1024):
    """A block map: the place of each block's list, and the words behind these."""
    head = struct.pack("<hhhh", x, y, columns, rows)
    return head + struct.pack(f"<{len(places)}H", *places) + struct.pack(f"<{len(words)}H", *words)


def shared_map(columns, rows, lines, x=-1024, y=-1024):
    """A block map whose blocks all have the same list: these lines."""
    return block_map(columns, rows, [4 + columns * rows] * (columns * rows), [*lines, END_MARK], x, y)


@dataclass
class Level:
    """The lumps of a level. At first it is a square room whose walls lie `reach` away from the player in its middle."""

    reach: int = 512
    lumps: dict = field(default_factory=dict)

    def __post_init__(self):
        r = self.reach
        corners = [(-r, -r), (-r, r), (r, r), (r, -r)]
        self.lumps = {name: b"" for name in LUMPS}
        self.lumps["THINGS"] = PLAYER
        self.lumps["VERTEXES"] = b"".join(vertex(*corner) for corner in corners)
        self.lumps["LINEDEFS"] = b"".join(line(i, (i + 1) % 4, i) for i in range(4))
        self.lumps["SIDEDEFS"] = side(0) * 4
        self.lumps["SEGS"] = seg(0)
        self.lumps["SSECTORS"] = subsector(0)
        self.lumps["SECTORS"] = sector()
        self.lumps["BLOCKMAP"] = shared_map(16, 16, range(4))

    def add(self, name, records):
        """Adds records behind those of a lump."""
        self.lumps[name] += records
        return self

    def put(self, name, records):
        """Puts records in place of a lump."""
        self.lumps[name] = records
        return self

    def wad(self, label="MAP01", entries_before=0):
        """The WAD of the level, behind so many entries of other names."""
        at, whole, entries = 12, [], [struct.pack("<ii8s", 12, 0, b"FILLER")] * entries_before
        entries.append(struct.pack("<ii8s", 12, 0, label.encode()))
        for name in LUMPS:
            lump = self.lumps[name]
            entries.append(struct.pack("<ii8s", at, len(lump), name.encode()))
            whole.append(lump)
            at += len(lump)
        return b"".join([b"PWAD", struct.pack("<ii", len(entries), at), *whole, *entries])


def directory_first(wad):
    """The same WAD with its directory before the lumps."""
    count, directory = struct.unpack_from("<4xii", wad)
    entries = [struct.unpack_from("<ii8s", wad, at) for at in range(directory, directory + 16 * count, 16)]
    moved = b"".join(struct.pack("<ii8s", at + 16 * count, length, name) for at, length, name in entries)
    return wad[:4] + struct.pack("<ii", count, 12) + moved + wad[12:directory]


def walled(level, count, special=0, tag=0, x=4000, back_sector=0):
    """Adds so many two-sided lines to a level, all of them at one place far from the player."""
    vertices = len(level.lumps["VERTEXES"]) // 4
    sides = len(level.lumps["SIDEDEFS"]) // 30
    level.add("VERTEXES", vertex(x, 100) + vertex(x, 300))
    level.add("SIDEDEFS", side(0) + side(back_sector))
    return level.add("LINEDEFS", line(vertices, vertices + 1, sides, sides + 1, special, tag) * count)


def kind(number, flags, radius=16, height=16, ticks=0):
    """A kind of things, its radius and height in map units."""
    return struct.pack("<HHiii", number, flags, radius * 65536, height * 65536, ticks)


def tables(kinds):
    """Play tables with these kinds, whose random number i is i."""
    sines = [int(65536 * math.sin((i + 0.5) * math.pi / 4096)) for i in range(10240)]
    arcs = [int(math.atan(i / 2048) * 2**31 / math.pi) for i in range(2049)]
    head = b"PTAB" + struct.pack("<I", len(kinds))
    return head + struct.pack("<10240i", *sines) + struct.pack("<2049I", *arcs) + bytes(range(256)) + b"".join(kinds)


def demo(tics=b"", version=109, level=1):
    """A demo of these bytes of tics."""
    return bytes([version, 3, 1, level, 0, 0, 0, 1, 0, 1, 0, 0, 0]) + tics + b"\x80"


def tic(forward=0, side_way=0, turn=0, buttons=0):
    return struct.pack("<bbBB", forward, side_way, turn, buttons)
