"""A level as its lumps say it: what doesn't change while it is played."""

import struct
from dataclasses import dataclass
from typing import Optional

from wads import last_place, records

from .fixed import UNIT, fixed_div, wrap32
from .geometry import Box, node_side

BLOCKING, BLOCKS_MONSTERS, TWO_SIDED = 1, 2, 4  # flags of lines
NO_SIDE, END_OF_LIST, SUBSECTOR = 0xFFFF, 0xFFFF, 0x8000
AROUND_SECTOR = 32 * UNIT


@dataclass(eq=False)
class Line:
    """A line from one vertex to another. Its special as the level starts is the level's, not the world's."""

    number: int
    x: int
    y: int
    x2: int
    y2: int
    flags: int
    special: int
    tag: int
    front: int
    back: Optional[int]

    def __post_init__(self):
        self.dx, self.dy = wrap32(self.x2 - self.x), wrap32(self.y2 - self.y)
        self.rises = self.dx != 0 and fixed_div(self.dy, self.dx) > 0
        self.box = Box(min(self.x, self.x2), max(self.x, self.x2), min(self.y, self.y2), max(self.y, self.y2))


@dataclass(frozen=True)
class Node:
    """A way through the level, and what lies in front and behind: a node, or a subsector with its bit."""

    x: int
    y: int
    dx: int
    dy: int
    children: tuple


@dataclass(frozen=True)
class Ground:
    """A sector as the level starts."""

    floor: int
    ceiling: int
    light: int
    special: int
    tag: int


class BlockGrid:
    """The block map: squares of 128 units, each with a list of lines."""

    def __init__(self, data):
        x, y, self.width, self.height = struct.unpack_from("<4h", data)
        self.x, self.y = x * UNIT, y * UNIT
        words = struct.unpack(f"<{len(data) // 2}H", data[: len(data) // 2 * 2])
        self.lists = [words[at : words.index(END_OF_LIST, at)] for at in words[4 : 4 + self.width * self.height]]

    def column(self, x):
        """The column of an x."""
        return wrap32(x - self.x) >> 23

    def row(self, y):
        """The row of a y."""
        return wrap32(y - self.y) >> 23

    def block(self, column, row):
        """The number of a block; None outside of the grid."""
        inside = 0 <= column < self.width and 0 <= row < self.height
        return row * self.width + column if inside else None

    def blocks(self, box):
        """The blocks that a box touches, column by column."""
        columns = range(max(self.column(box.left), 0), min(self.column(box.right), self.width - 1) + 1)
        rows = range(max(self.row(box.bottom), 0), min(self.row(box.top), self.height - 1) + 1)
        return [row * self.width + column for column in columns for row in rows]

    def lines(self, blocks):
        """The numbers of the lines of blocks, each once, in order."""
        return list(dict.fromkeys(number for block in blocks for number in self.lists[block]))


class Level:
    """The map that a demo's header names."""

    def __init__(self, lumps, episode, number):
        label, at = found_label(lumps, episode, number)
        things, lines, sides, vertices, segs, subsectors, nodes, sectors, _, blocks = (
            content for _, content in lumps[at + 1 : at + 11])
        self.episode_form = label.startswith("E")
        self.things = records("<hhhHh", things)
        self.sectors = [Ground(floor * UNIT, ceiling * UNIT, light, special, tag)
                        for floor, ceiling, light, special, tag in records("<hh16xhHh", sectors)]
        of_side = [sector for (sector,) in records("<28xH", sides)]
        ends = [(x * UNIT, y * UNIT) for x, y in records("<hh", vertices)]
        line_records = records("<HHhHhHH", lines)
        self.lines = [Line(i, *ends[first], *ends[last], flags, special, tag, of_side[front],
                           None if back == NO_SIDE else of_side[back])
                      for i, (first, last, flags, special, tag, front, back) in enumerate(line_records)]
        self.nodes = [Node(x * UNIT, y * UNIT, dx * UNIT, dy * UNIT, (front, back))
                      for x, y, dx, dy, front, back in records("<4h16xHH", nodes)]
        seg_places = records("<6xHH2x", segs)
        self.subsectors = [of_side[line_records[seg_places[first][0]][5 + seg_places[first][1]]]
                           for _, first in records("<HH", subsectors)]
        self.grid = BlockGrid(blocks)
        self.lines_of = [[] for _ in self.sectors]
        for line in self.lines:
            for sector in {line.front, line.back} - {None}:
                self.lines_of[sector].append(line)

    def sector_at(self, x, y):
        """The number of the sector in which a place lies."""
        if not self.nodes:
            return self.subsectors[0]
        node = self.nodes[-1]
        while True:
            child = node.children[node_side(node, x, y)]
            if child & SUBSECTOR:
                return self.subsectors[child ^ SUBSECTOR]
            node = self.nodes[child]

    def neighbours(self, sector):
        """The sectors behind the two-sided lines of a sector, in the order of lines."""
        across = (line.back if line.front == sector else line.front
                  for line in self.lines_of[sector] if line.flags & TWO_SIDED)
        return [other for other in across if other is not None]

    def blocks_around(self, sector):
        """The blocks in and around a sector."""
        lines = self.lines_of[sector]
        if not lines:
            return []
        box = Box(min(line.box.left for line in lines), max(line.box.right for line in lines),
                  min(line.box.bottom for line in lines), max(line.box.top for line in lines))
        return self.grid.blocks(box.widened(AROUND_SECTOR))


def found_label(lumps, episode, number):
    """The label of a map and its place."""
    for label in [f"MAP{number:02}"] + ([f"E{episode}M{number}"] if number <= 9 else []):
        at = last_place(lumps, label)
        if at is not None:
            return label, at
    raise ValueError(f"no map {number} of episode {episode}")
