"""Rows of doors, lifts and floors, each with the way that it goes, and the runs that show them, for tools/check_movers.

A way is told in words, one leg after the other: `rises to 124 by 2, waits 150, falls to 0 by 2`. Heights are in map
units, speeds in map units a tic, waits in tics.

- A leg takes one tic more than it moves, at its end, where the plane would go past it: from 0 to 124 by 2 takes 63.
  So does one that ends where it `is blocked`, or `goes back` to; one that `is turned` or `is stopped` doesn't.
- A jump takes one tic.
- After its last leg a plane stays where it is. A way that ends with `and so on` is not followed any further.
"""

import re
from dataclasses import dataclass
from fractions import Fraction
from typing import Optional

from levels import BLOCKING, HANGS, PLAYER, SHOOTABLE, SOLID, SPECIAL, SUBSECTOR, TWO_SIDED, Kind, Level

UNIT = 65536
TAG = 7  # of movers and of lines, where a row names no other
BETWEEN = 3  # tics between the end of a way and a second start
AFTER = 3  # tics that are played after the end of all ways
ENDLESS = ", and so on"

# Things that can be in the way, and keys.
BARREL, TARGET, PILLAR, HANGING = 2035, 3006, 30, 63
BLUE, YELLOW, RED, BLUE_SKULL, YELLOW_SKULL, RED_SKULL = 5, 6, 13, 40, 39, 38
KINDS = [Kind(BARREL, SOLID | SHOOTABLE, 10, 42), Kind(TARGET, SHOOTABLE, 10, 42), Kind(PILLAR, SOLID, 16, 52),
         Kind(HANGING, SHOOTABLE | HANGS, 16, 20),
         *(Kind(key, SPECIAL, 20, 16) for key in (BLUE, YELLOW, RED, BLUE_SKULL, YELLOW_SKULL, RED_SKULL))]

# What the player does, by forward and buttons of each tic. A step leads 1.6 units to the west and ends at once, so that
# lines so far away are crossed one a step, each in its step's first tic.
ACTS = {"step": [(-50, 0), (45, 0)], "return": [(50, 0), (-45, 0)], "use": [(0, 2)], "nudge": [(1, 0)],
        "west": [(-50, 0)], "east": [(50, 0)]}
STEPS = [1, 3, 4, 6, 7]

LEG = re.compile(r"(?:(?:rises|falls) to (\S+) by (\S+?)|jumps to (\S+)|waits (\d+))"
                 r"(?: and (is turned|is stopped|is blocked|goes back))?")


@dataclass(frozen=True)
class Mover:
    """A sector that moves: its floor and ceiling as the level starts, and the way of each."""

    bottom: int
    top: int
    floor: str = ""
    ceiling: str = ""
    tag: int = TAG
    special: int = 0
    thing: Optional[int] = None  # the number of a thing in its middle


@dataclass(frozen=True)
class Row:
    """A mover among its neighbours, and how it is started.

    The numbers in `starts` are lines, each in a run of its own: walked over (W), a switch (S) or a door by hand (D),
    once (1) or again and again (R). The ways begin in the tic of the start. Where `again` names a second way, the same
    is done once more after the end of the first, and a line of the second form then starts that one.

    Without `starts` the player does `acts`, by tics: it steps over `lines`, each a number or a number and a tag, from
    the first on, and uses the switch or the door by hand. The ways begin in tic 1."""

    what: str
    starts: str
    around: list  # floor and ceiling of the player's room, of the next one to the east, and of more neighbours
    mover: Mover
    again: str = ""
    more: tuple = ()  # more movers, to the east, with a room behind each
    inside: bool = False  # the player stands in the mover; `around` begins with the room to the east
    alone: bool = False  # the mover has no neighbours: no line of its has two sides
    x: int = 0  # where the player stands; its room ends at 48
    key: int = 0  # the number of a key at the player's place
    lines: tuple = ()
    switch: int = 0
    hand: int = 0
    acts: tuple = ()  # pairs of a tic and a word of ACTS
    feet: str = ""  # the way of the player's feet
    halt: str = ""  # the reason of a halt, in the tic after the mover's last leg

    @property
    def movers(self):
        """All movers of the row."""
        return (self.mover, *self.more)

    @property
    def goes_on(self):
        """Whether a way isn't followed to its end."""
        ways = [self.feet, self.again, *(way for mover in self.movers for way in (mover.floor, mover.ceiling))]
        return any(way.endswith(ENDLESS) for way in ways)


@dataclass(frozen=True)
class Run:
    """A row that is started in one way: what the player does, and the heights in each tic, from 0, in 65,536ths."""

    label: str
    row: Row
    lines: tuple
    switch: int
    hand: int
    acts: tuple
    heights: list  # in each tic, of each sector, floor and ceiling
    feet: Optional[list]
    halt: Optional[int]  # the tic that halts

    @property
    def tics(self):
        """How many tics are played."""
        return len(self.heights) - 1

    def inputs(self):
        """Forward and buttons of each tic, from 1."""
        pressed = [(0, 0)] * self.tics
        for tic, act in self.acts:
            for at, (forward, buttons) in enumerate(ACTS[act], tic - 1):
                pressed[at] = (pressed[at][0] + forward, pressed[at][1] | buttons)
        return pressed


def fixed(word):
    """A number in words, in 65,536ths."""
    number = Fraction(word) * UNIT
    if number.denominator != 1:
        raise ValueError(f"{word} is no number of 65,536ths")
    return int(number)


def leg_heights(text, height):
    """The heights in the tics of a leg that begins at a height."""
    found = LEG.fullmatch(text)
    if not found:
        raise ValueError(f"no leg: {text!r}")
    end, speed, jump, wait, ended = found.groups()
    if wait:
        return [height] * int(wait)
    if jump:
        return [fixed(jump)]
    end, step = fixed(end), fixed(speed) if text.startswith("rises") else -fixed(speed)
    moves = list(range(height + step, end + (1 if step > 0 else -1), step))
    return moves if ended in ("is turned", "is stopped") else [*moves, end]


def way_heights(way, height):
    """The heights in the tics of a way that begins at a height."""
    heights = []
    for text in filter(None, way.removesuffix(ENDLESS).split(", ")):
        heights += leg_heights(text, heights[-1] if heights else height)
    return heights


def held(heights, height, start, total):
    """A height in each tic, from 0: as at first until the start, then along the heights, and then as at their end."""
    whole = [height] * start + heights
    return (whole + whole[-1:] * total)[: total + 1]


def planes_of(row, again=""):
    """The heights on the ways of floor and ceiling of each mover, with a second way of what moves."""
    planes = []
    for mover in row.movers:
        for way, height in ((mover.floor, mover.bottom), (mover.ceiling, mover.top)):
            heights = way_heights(way, height * UNIT)
            if again and way:
                heights += heights[-1:] * BETWEEN
                heights += way_heights(again, heights[-1])
            planes.append(heights)
    return list(zip(planes[::2], planes[1::2]))


def longest(planes):
    """How many tics the longest way takes."""
    return max(len(plane) for pair in planes for plane in pair)


def rooms_of(row):
    """Floor, ceiling and mover, if it is one, of each room from west to east."""
    around = [(bottom, top, None) for bottom, top in row.around]
    movers = [(mover.bottom, mover.top, mover) for mover in row.movers]
    if row.inside:
        return [movers[0], *around[:1]]
    rooms = [around[0], movers[0], *around[1:2]]
    for mover in movers[1:]:
        rooms += [mover, around[0]]
    return rooms


def niches_of(row):
    """Floor and ceiling of the mover's neighbours that are no rooms."""
    return row.around[1 if row.inside else 2 :]


def heights_of(row, planes, start, total):
    """Floor and ceiling of each sector in each tic; a line of tag 0 starts something in all of them."""
    columns, ways = [], iter(planes)
    for bottom, top, mover in [*rooms_of(row), *((*niche, None) for niche in niches_of(row))]:
        floors, ceilings = next(ways) if mover else planes[0] if row.mover.tag == 0 else ([], [])
        columns.append(zip(held(floors, bottom * UNIT, start, total), held(ceilings, top * UNIT, start, total)))
    return list(zip(*columns))


def run_of(row, label, start, total, planes, **triggers):
    """A run of a row, of so many tics, whose ways begin in a tic."""
    stands_on = rooms_of(row)[(row.x + 80) // 128][0] * UNIT
    feet = held(way_heights(row.feet, stands_on), stands_on, start, total) if row.feet else None
    halt = start + longest(planes[:1]) if row.halt else None
    return Run(label, row, heights=heights_of(row, planes, start, total), feet=feet, halt=halt, **triggers)


def started(row, way):
    """The run of a row that is started by a line, as `W1 4`."""
    form, number = way.split()
    how, again, number = form[0], form[1] == "R", int(number)
    start, act, back = (1, "step", "return") if how == "W" else (2, "use", "use")
    first, whole = planes_of(row), planes_of(row, row.again)
    acts = [(1, "nudge")] if row.key else []
    acts += [(start, act)] + ([(start + longest(first) + BETWEEN, back)] if row.again else [])
    total = start - 1 + longest(whole) + (0 if row.goes_on else AFTER)
    return run_of(row, f"{row.what}, {way}", start, total, whole if again else first, acts=tuple(acts),
                  lines=(number,) if how == "W" else (), switch=number if how == "S" else 0,
                  hand=number if how == "D" else 0)


def runs_of(row):
    """The runs of a row, one for each line that starts it."""
    if row.starts:
        return [started(row, way) for way in row.starts.split(", ")]
    planes = planes_of(row)
    total = max(longest(planes), len(way_heights(row.feet, 0))) + (0 if row.goes_on else AFTER)
    return [run_of(row, row.what, 1, total, planes, acts=row.acts, lines=row.lines, switch=row.switch, hand=row.hand)]


def edges(room):
    """The west and the east of a room."""
    return 128 * room - 80, 128 * room + 48


def put_walls(level, row, room, count):
    """Puts the walls of a room, with the other neighbours behind the mover's north wall. Gives the room's subsector."""
    west, east = edges(room)
    niches = niches_of(row) if room == (0 if row.inside else 1) else []
    part = level.subsector(level.line((east, -64), (west, -64), room))
    places = [west + 128 * i // len(niches) for i in range(len(niches))] + [east] if niches else []
    for (bottom, top), start, end in zip(niches, places, places[1:]):
        level.line((start, 64), (end, 64), room, level.sector(bottom, top), flags=BLOCKING | TWO_SIDED)
    if not niches:
        level.line((west, 64), (east, 64), room)
    if room == 0:
        level.line((west, -64), (west, 64), room)
    if room == count - 1:
        level.line((east, 64), (east, -64), room)
    return part


def put_triggers(level, run):
    """Puts the lines that the player steps over, to its west, and then the switch, to its east. The former lie beside
    its way, where its box meets them and its uses don't."""
    x, tag = run.row.x, run.row.mover.tag
    room = (x + 80) // 128
    for line, away in zip(run.lines, STEPS):
        special, other = line if isinstance(line, tuple) else (line, tag)
        level.line((x - away, 12), (x - away, 4), room, room, special=special, tag=other)
    if run.switch:
        level.line((x + 24, 8), (x + 24, -8), room, special=run.switch, tag=tag)


def put_things(level, row, rooms):
    """Puts the player, its key, and what is in the middle of a mover."""
    level.thing(PLAYER, row.x, 0)
    if row.key:
        level.thing(row.key, row.x, 0)
    for room, (_, _, mover) in enumerate(rooms):
        if mover and mover.thing:
            level.thing(mover.thing, sum(edges(room)) // 2, 0)


def level_of(run):
    """The level of a run: rooms from west to east, and what is in them. A switch is its last line."""
    level, row, rooms = Level(), run.row, rooms_of(run.row)
    for bottom, top, mover in rooms:
        level.sector(bottom, top, mover.tag if mover else 0, mover.special if mover else 0)
    parts = [put_walls(level, row, room, len(rooms)) for room in range(len(rooms))]
    left = SUBSECTOR + parts[0]
    for room in range(len(rooms) - 1):
        east = edges(room)[1]
        level.line((east, 64), (east, -64), room, room + 1, special=run.hand if room == 0 else 0,
                   flags=BLOCKING if row.alone else TWO_SIDED)
        left = level.node((east, -64), (0, 128), SUBSECTOR + parts[room + 1], left)
    put_triggers(level, run)
    put_things(level, row, rooms)
    return level
