"""Reads WAD files, the maps in them and demos, for the tools beside it."""

import re
import struct
from dataclasses import dataclass
from typing import Optional

SEVERAL = 16  # the option of a thing that is there for several players alone


def lumps_of(wad):
    """Name and bytes of each of a WAD's lumps, in the directory's order."""
    with open(wad, "rb") as file:
        whole = file.read()
    count, directory = struct.unpack_from("<4xii", whole)
    for at in range(directory, directory + 16 * count, 16):
        offset, size, name = struct.unpack_from("<ii8s", whole, at)
        yield name.rstrip(b"\0").decode("latin-1"), whole[offset : offset + size]


def maps_of(names):
    """Label, episode and map of each map label among the names of a WAD's lumps, in their order."""
    for name in dict.fromkeys(names):
        doom, doom2 = re.fullmatch(r"E(\d)M(\d)", name), re.fullmatch(r"MAP(\d\d)", name)
        if doom:
            yield name, int(doom[1]), int(doom[2])
        elif doom2:
            yield name, 1, int(doom2[1])


def records(form, lump):
    """The whole records of a lump."""
    return list(struct.iter_unpack(form, lump[: len(lump) // struct.calcsize(form) * struct.calcsize(form)]))


def last_place(lumps, name):
    """The place of the last lump of a name, or None."""
    return max((place for place, (label, _) in enumerate(lumps) if label == name), default=None)


@dataclass(frozen=True)
class Line:
    """A line of a map, from one end to the other in map units. Its front is to the right; one without a back has no floor
    there."""

    number: int
    start: tuple
    end: tuple
    special: int
    tag: int
    front_floor: int
    back_floor: Optional[int]


@dataclass(frozen=True)
class Thing:
    """A thing of a map, with its number in the editors."""

    x: int
    y: int
    angle: int
    number: int
    options: int


@dataclass(frozen=True)
class Map:
    """A map: its label, its lines and its things."""

    label: str
    lines: list
    things: list

    @classmethod
    def read(cls, wad, episode, number):
        """The map that a demo's header names; a ValueError where the WAD has none."""
        lumps = list(lumps_of(wad))
        for label in [f"MAP{number:02}", f"E{episode}M{number}"]:
            at = last_place(lumps, label)
            if at is not None:
                break
        else:
            raise ValueError(f"{wad} has no map {number} of episode {episode}")
        things, lines, sides, vertices, sectors = (lumps[at + place][1] for place in (1, 2, 3, 4, 8))
        ends, floors = records("<hh", vertices), [floor for (floor,) in records("<h24x", sectors)]
        of_side = {i: floors[sector] for i, (sector,) in enumerate(records("<28xH", sides))}
        listed = [Line(i, ends[first], ends[last], special, tag, of_side[front], of_side.get(back))
                  for i, (first, last, special, tag, front, back) in enumerate(records("<HH2xHhHH", lines))]
        return cls(label, listed, [Thing(*thing) for thing in records("<hhhHh", things)])


@dataclass(frozen=True)
class Demo:
    """A demo's header, and how many tics it has."""

    skill: int
    episode: int
    map: int
    tics: int

    @classmethod
    def read(cls, path):
        """The demo in a file; a ValueError where there is none."""
        with open(path, "rb") as file:
            data = file.read()
        if len(data) < 14 or data[0] not in (109, 111):
            raise ValueError(f"{path} is no demo of version 109 or 111")
        size = 4 if data[0] == 109 else 5
        tics, at = 0, 13
        while at < len(data) and data[at] != 0x80:
            tics, at = tics + 1, at + size
        if at >= len(data):
            raise ValueError(f"{path} has no end byte")
        return cls(data[1], data[2], data[3], tics)

    def sees(self, options):
        """Whether a thing with these options is there for one player at the demo's skill."""
        at_skill = 1 if self.skill < 2 else 2 if self.skill == 2 else 4
        return bool(options & at_skill and not options & SEVERAL)
