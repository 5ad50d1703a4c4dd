"""Writes small WADs and play tables, in the formats of docs/FORMATS.md, for the tools beside it."""

import functools
import itertools
import math
import struct
from dataclasses import dataclass, field

BLOCKING, TWO_SIDED = 1, 4  # flags of lines
SPECIAL, SOLID, SHOOTABLE, HANGS = 1, 2, 4, 8  # flags of kinds of things
SUBSECTOR, NONE, END_OF_LIST = 0x8000, 0xFFFF, 0xFFFF
BLOCK = 128
PLAYER, EVERY_SKILL = 1, 7


@dataclass
class Level:
    """A level as lists of records, each a tuple of its lump's fields. What adds a record gives its number."""

    things: list = field(default_factory=list)
    lines: list = field(default_factory=list)
    sides: list = field(default_factory=list)
    vertices: list = field(default_factory=list)
    segs: list = field(default_factory=list)
    nodes: list = field(default_factory=list)
    sectors: list = field(default_factory=list)

    def thing(self, number, x, y, angle=0, options=EVERY_SKILL):
        """Puts a thing."""
        self.things.append((x, y, angle, number, options))

    def sector(self, floor, ceiling, tag=0, special=0, light=128):
        """Adds a sector."""
        self.sectors.append((floor, ceiling, b"", b"", light, special, tag))
        return len(self.sectors) - 1

    def side(self, sector):
        """Adds a side that faces a sector."""
        self.sides.append((0, 0, b"", b"", b"", sector))
        return len(self.sides) - 1

    def line(self, start, end, front, back=None, special=0, tag=0, flags=None):
        """Adds a line with the sector `front` to its right. Without a sector behind it, it is a wall."""
        if flags is None:
            flags = BLOCKING if back is None else TWO_SIDED
        first = len(self.vertices)
        self.vertices += [start, end]
        sides = self.side(front), NONE if back is None else self.side(back)
        self.lines.append((first, first + 1, flags, special, tag, *sides))
        return len(self.lines) - 1

    def subsector(self, line):
        """Adds a subsector of the sector in front of a line."""
        first, last, *_ = self.lines[line]
        self.segs.append((first, last, 0, line, 0, 0))
        return len(self.segs) - 1

    def node(self, start, way, right, left):
        """Adds a node at a place, along a way. A child is an earlier node, or SUBSECTOR and a subsector; the last node
        is the root."""
        self.nodes.append((*start, *way, *[0] * 8, right, left))
        return len(self.nodes) - 1

    def blockmap(self):
        """A block map around all vertices, each block with all lines."""
        west, south = (min(place[axis] for place in self.vertices) for axis in (0, 1))
        columns, rows = ((max(place[axis] for place in self.vertices) - low) // BLOCK + 1
                         for axis, low in ((0, west), (1, south)))
        words = [4 + columns * rows] * (columns * rows) + [*range(len(self.lines)), END_OF_LIST]
        return struct.pack("<4h", west, south, columns, rows) + struct.pack(f"<{len(words)}H", *words)

    def lumps(self):
        """Name and bytes of each of the level's lumps."""
        subsectors = [(1, seg) for seg in range(len(self.segs))]
        listed = [("THINGS", "<hhhHh", self.things), ("LINEDEFS", "<HHhHhHH", self.lines),
                  ("SIDEDEFS", "<hh8s8s8sH", self.sides), ("VERTEXES", "<hh", self.vertices),
                  ("SEGS", "<HHhHHh", self.segs), ("SSECTORS", "<HH", subsectors), ("NODES", "<12hHH", self.nodes),
                  ("SECTORS", "<hh8s8shHh", self.sectors)]
        packed = [(name, b"".join(struct.pack(form, *record) for record in records)) for name, form, records in listed]
        return [*packed, ("REJECT", b""), ("BLOCKMAP", self.blockmap())]

    def wad(self, label):
        """A WAD that holds this level alone."""
        lumps = [(label, b""), *self.lumps()]
        offsets = itertools.accumulate((len(content) for _, content in lumps), initial=12)
        entries = [struct.pack("<ii8s", offset, len(content), name.encode())
                   for offset, (name, content) in zip(offsets, lumps)]
        content = b"".join(content for _, content in lumps)
        return struct.pack("<4sii", b"PWAD", len(lumps), 12 + len(content)) + content + b"".join(entries)


@dataclass(frozen=True)
class Kind:
    """A kind of things; radius and height are in map units, and `first` is the length of its first state in tics."""

    number: int
    flags: int
    radius: int
    height: int
    first: int = 0


@functools.cache
def angles():
    """The sines and the arc tangents of play tables. Entry i of the sines is that of i / 8192 of a turn, without the
    half that an engine's have, so that who looks east walks east to the bit."""
    sines = [round(math.sin(i / 8192 * math.tau) * 65536) for i in range(10240)]
    tangents = [round(math.atan(i / 2048) / math.tau * 2**32) for i in range(2049)]
    return struct.pack("<10240i2049I", *sines, *tangents)


def tables(kinds, random=bytes(range(256))):
    """A file of play tables; the random number at index i is i."""
    packed = [struct.pack("<HHiii", kind.number, kind.flags, kind.radius << 16, kind.height << 16, kind.first)
              for kind in kinds]
    return struct.pack("<4sI", b"PTAB", len(kinds)) + angles() + random + b"".join(packed)


def demo(tics=(), skill=3, episode=1, number=1, version=109):
    """A demo of version 109 or 111 on a map; a tic is forward, side, turn and buttons."""
    header = bytes([version, skill, episode, number, 0, 0, 0, 1, 0, 1, 0, 0, 0])
    form = "<bbbB" if version == 109 else "<bbhB"
    return header + b"".join(struct.pack(form, *tic) for tic in tics) + b"\x80"
