"""Draws levels, tables and tics at random, for tools/check_random.

A level is a rectangle that is split again and again, by ways in any direction, into faces. Each is a subsector; some
are one sector together. Free lines that may act and things are strewn over it. The same seed draws the same.
"""

import functools
import random
import struct
from dataclasses import dataclass, field, replace

from levels import BLOCK, BLOCKING, END_OF_LIST, HANGS, NONE, SHOOTABLE, SOLID, SPECIAL, SUBSECTOR, TWO_SIDED
from levels import Kind, Level, tables
from specials import specials

BLOCKS_MONSTERS, MONSTER, UNLINKED = 2, 16, 32
EXIT_PLACE = 14
KEYS = [5, 6, 13, 38, 39, 40]
TAKEN = [83, 2011, 2012, 2013, 2014, 2015, 2018, 2019, 2022, 2023, 2025]
OBSTACLES = [2035, 3006, 30, 63, 27]
TAGS = [0, 1, 1, 1, 1, 2, 2]
TICS, LONG = (50, 200), (400, 1300)
REACH = 70  # of what stands near the player's start


@dataclass
class BlockedLevel(Level):
    """A level whose block map is as `blocked` says: all lines in each block, or those near it, in order or in some
    other, with a leading 0 or without one."""

    blocked: str = "all"

    def near(self, line, left, bottom):
        """Whether the rectangle of a line meets a block."""
        (x1, y1), (x2, y2) = (self.vertices[end] for end in self.lines[line][:2])
        return (min(x1, x2) <= left + BLOCK and max(x1, x2) >= left
                and min(y1, y2) <= bottom + BLOCK and max(y1, y2) >= bottom)

    def blockmap(self):
        if self.blocked == "all":
            return super().blockmap()
        west, south = (min(place[axis] for place in self.vertices) for axis in (0, 1))
        east, north = (max(place[axis] for place in self.vertices) for axis in (0, 1))
        columns, rows = (east - west) // BLOCK + 1, (north - south) // BLOCK + 1
        offsets, lists = [], []
        for block in range(columns * rows):
            left, bottom = west + block % columns * BLOCK, south + block // columns * BLOCK
            near = [line for line in range(len(self.lines)) if self.near(line, left, bottom)]
            offsets.append(4 + columns * rows + len(lists))
            lists += [0] * (self.blocked == "leading") + near[:: -1 if self.blocked == "backward" else 1]
            lists.append(END_OF_LIST)
        words = offsets + lists
        return struct.pack("<4h", west, south, columns, rows) + struct.pack(f"<{len(words)}H", *words)


@dataclass(frozen=True)
class Theme:
    """What a kind of levels has more of: lines that act, of these kinds; specials of sectors; things; and how the map
    lies and is drawn."""

    acting: tuple = ()
    sectors: tuple = (0,)
    things: tuple = ()
    thing_count: int = 3
    floors: tuple = (0, 0, 0, 0, 8, 16, 24, 25, -16, -40, 40)
    exits: int = 0  # places to which teleporters lead
    triggers: int = 9
    halting: float = 0.0005  # the chance of a tic that a button in it halts
    idle: float = 0.1  # the chance that the player rests for a while
    tics: tuple = TICS
    corner: bool = False  # the player runs into the corner of a square
    far: bool = False  # at the edge of all coordinates
    wild: bool = False  # sines at random


LIGHTS, DAMAGE = (0, 1, 1, 1, 2, 3, 8, 12, 13, 17), (0, 5, 7, 16, 4, 4, 4, 9, 11)
ALL_SECTORS = (0,) * 8 + (1, 2, 3, 4, 5, 7, 8, 9, 10, 11, 12, 13, 14, 16, 17)
ALL_THINGS = (*OBSTACLES, *KEYS, *TAKEN)
MOVERS = ("door", "lift", "floor")
THEMES = {
    "walls": Theme(triggers=4),
    "corners": Theme(triggers=1, corner=True),
    "things": Theme(things=ALL_THINGS, thing_count=30, floors=(0, 0, 55, 56, 56, 57, -8, -9, 24)),
    "doors": Theme(("door",), (0, 0, 0, 10, 14), (*KEYS, *OBSTACLES), 12),
    "locks": Theme(("lock",), (0,), KEYS, 12),
    "lifts": Theme(("lift",), (0,), OBSTACLES, 6),
    "floors": Theme(("floor",), (0,), OBSTACLES, 6),
    "movers": Theme(MOVERS, (0,), KEYS, 4, triggers=14),
    "waits": Theme(("door", "lift"), (0, 0, 10), KEYS, 6, idle=0.9, tics=LONG),
    "crowds": Theme(("light",), (0, 9), triggers=60),
    "lights": Theme(("light",), LIGHTS, OBSTACLES, 2),
    "damage": Theme(("floor",), DAMAGE, TAKEN, 12),
    "teleporters": Theme(("teleport",), (0, 0, 9), (*OBSTACLES, *TAKEN), 5, exits=5),
    "exits": Theme(("exit", "light", "floor"), (0, 0, 9, 11), ALL_THINGS, 4, triggers=3),
    "halts": Theme(("halt", "door", "lift"), (0, 0, 0, 0, 6, 15, 99), ALL_THINGS, 4, halting=0.002, triggers=40),
    "wild sines": Theme(MOVERS, (0,), ALL_THINGS, 6, wild=True),
    "far away": Theme((*MOVERS, "teleport"), (0,), ALL_THINGS, 6, exits=2, far=True),
    "all": Theme((*MOVERS, "light", "teleport", "exit"), ALL_SECTORS, ALL_THINGS, 10, exits=2),
}


@dataclass
class Drawn:
    """A level with all that plays it. A tic is forward, side, turn and buttons."""

    theme: str
    seed: int
    label: str
    level: BlockedLevel
    tables: bytes
    skill: int
    long_turns: bool
    tics: list = field(default_factory=list)

    def demo(self):
        """A demo of the level without tics."""
        return bytes([111 if self.long_turns else 109, self.skill, 1, 1, 0, 0, 0, 1, 0, 1, 0, 0, 0, 0x80])

    def with_level(self, **lists):
        """The same with other lists of the level."""
        return replace(self, level=replace(self.level, **lists))


class Faces:
    """A rectangle that is split into faces, whose places go clockwise. What is split goes into `nodes` of the level."""

    def __init__(self, rng, level, left, bottom, width, height):
        self.rng, self.level, self.places = rng, level, []
        right, top = left + width, bottom + height
        self.places.append([(left, bottom), (left, top), (right, top), (right, bottom)])

    def place_on(self, start, end):
        """A place on an edge, one of its ends perhaps, as near as whole numbers go."""
        at = self.rng.choice([0, 0.5, self.rng.uniform(0.2, 0.8)])
        return tuple(round(low + (high - low) * at) for low, high in zip(start, end))

    def put_place(self, start, end, place):
        """Puts a place on the edge of all faces that have it."""
        for face in self.places:
            for first, last in ((start, end), (end, start)):
                at = next((i for i in range(len(face)) if (face[i - 1], face[i]) == (first, last)), None)
                if at is not None and place not in face:
                    face.insert(at, place)

    def split(self, face, depth):
        """Splits a face as often as it goes, and gives its node, or its bit and its number."""
        ends = self.ends_of_split(face) if depth else None
        if not ends:
            return SUBSECTOR + face
        start, end = ends
        around = self.places[face]
        first, last = around.index(start), around.index(end)
        turned = around[first:] + around[:first]
        until = (last - first) % len(around)
        self.places[face] = [start, *turned[until:]]
        self.places.append([end, start, *turned[1:until]])
        other = len(self.places) - 1
        children = self.split(face, depth - 1), self.split(other, depth - 1)
        return self.level.node(start, (end[0] - start[0], end[1] - start[1]), *children)

    def ends_of_split(self, face):
        """Two places on a face between which it is split; None where it is too small."""
        around = self.places[face]
        edges = [(around[i - 1], around[i]) for i in range(len(around))]
        chosen = self.rng.sample(edges, 2)
        ends = [self.place_on(*edge) for edge in chosen]
        for edge, place in zip(chosen, ends):
            self.put_place(*edge, place)
        around = self.places[face]
        apart = (around.index(ends[0]) - around.index(ends[1])) % len(around)
        if ends[0] == ends[1] or apart in (1, len(around) - 1):
            return None
        (x1, y1), (x2, y2) = ends
        return ends if abs(x1 - x2) + abs(y1 - y2) > 40 else None


@functools.cache
def known_specials():
    """The numbers by which lines act."""
    return list(specials().values())


def middle(face):
    """The middle of a face."""
    return tuple(sum(place[axis] for place in face) // len(face) for axis in (0, 1))


class Drawing:
    """A level as it is drawn."""

    def __init__(self, theme, seed):
        self.theme, self.rng = THEMES[theme], random.Random(f"{theme} {seed}")
        self.level = BlockedLevel(blocked=self.rng.choice(["all", "near", "leading", "backward"]))
        self.numbers = {"walk": {}, "use": {}}  # of each, by kinds, which are as likely
        for special in known_specials():
            how = "walk" if "walk" in special.words or "crossed" in special.words else "use"
            if special.kind in self.theme.acting or special.key and "lock" in self.theme.acting:
                kind = "hand" if "by hand" in special.words else special.kind
                self.numbers[how].setdefault(kind, []).append(special.number)
        self.walked = self.rng.choice([0.1, 0.6, 0.9])  # the chance that a line on the way acts
        self.left, self.bottom = self.corner()
        self.width, self.height = self.rng.randint(300, 700), self.rng.randint(300, 600)
        if self.theme.corner:
            self.width = self.height = self.height // 2 * 2
        self.faces = Faces(self.rng, self.level, self.left, self.bottom, self.width, self.height)
        self.sector_of_face = {}

    def corner(self):
        """The south west of the level."""
        if self.theme.far:
            return self.rng.choice([-32768, 32767 - 700]), self.rng.choice([-32768, 32767 - 600])
        return self.rng.randint(-600, 100), self.rng.randint(-600, 100)

    def draw(self):
        """The level."""
        self.faces.split(0, 0 if self.theme.corner else self.rng.choice([1, 2, 3, 3, 4]))
        for face in range(len(self.faces.places)):
            self.put_sector(face)
        self.put_edges()
        for _ in range(self.rng.randint(self.theme.triggers // 2, self.theme.triggers)):
            self.put_free_line()
        for face in range(len(self.faces.places)):
            self.put_subsector(face)
        self.put_things()
        return self.level

    def put_sector(self, face):
        """Gives a face a sector, that of another face perhaps. The player's is the first."""
        rng = self.rng
        if face and rng.random() < 0.15:
            self.sector_of_face[face] = rng.randrange(len(self.level.sectors))
            return
        floor = 0 if face == 0 else rng.choice([*self.theme.floors, rng.randint(-60, 80)])
        ceiling = floor + (128 if face == 0 else rng.choice([0, 40, 56, 64, 100, 128, 128, rng.randint(56, 160)]))
        special = 0 if face == 0 and rng.random() < 0.4 else rng.choice(self.theme.sectors)
        light = rng.choice([0, 96, 128, 160, 255, rng.randint(0, 255)])
        self.sector_of_face[face] = self.level.sector(floor, ceiling, rng.choice(TAGS), special, light)

    def special(self, chance, how):
        """The number of a line that is walked over or used, with a chance that it has one."""
        rng = self.rng
        numbers = self.numbers[how if rng.random() < 0.9 else rng.choice(["walk", "use"])]
        return rng.choice(rng.choice(list(numbers.values()))) if numbers and rng.random() < chance else 0

    def tag(self):
        """The tag of a line, mostly that of a sector."""
        return self.rng.choice(TAGS if self.rng.random() < 0.1 else [sector[6] for sector in self.level.sectors])

    def put_edges(self):
        """Puts the lines between faces, and around all."""
        faces = enumerate(self.faces.places)
        at = {(face[i - 1], face[i]): number for number, face in faces for i in range(len(face))}
        for (start, end), face in at.items():
            other, front = at.get((end, start)), self.sector_of_face[face]
            if other is None:
                self.level.line(start, end, front, special=self.special(0.6, "use"), tag=self.tag())
            elif face < other:
                self.put_edge(start, end, front, self.sector_of_face[other], 0.2 if face == 0 else 0.5)

    def put_edge(self, start, end, front, back, turned):
        """Puts the line between two faces, with a chance that it is turned, or a wall in its place. Between faces of
        one sector there may be none."""
        rng, chance = self.rng, self.rng.random()
        if front == back and chance < 0.7:
            return
        if rng.random() < turned:
            start, end, front, back = end, start, back, front
        flags = TWO_SIDED if chance < 0.9 else rng.choice([0, BLOCKING, BLOCKS_MONSTERS, 5, 6])
        if chance > 0.98:
            back, flags = None, rng.choice([0, BLOCKING, TWO_SIDED])
        special = self.special(0.8, rng.choice([how for how in ("walk", "use") if self.numbers[how]] or ["use"]))
        self.level.line(start, end, front, back, special, self.tag(), flags)

    def place(self):
        """A place in the level."""
        return (self.left + self.rng.randrange(self.width), self.bottom + self.rng.randrange(self.height))

    def near_start(self):
        """A place near the player's start."""
        x, y = middle(self.faces.places[0])
        return self.inside((x + self.rng.randint(-REACH, REACH), y + self.rng.randint(-REACH, REACH)))

    def put_free_line(self):
        """Puts a line somewhere, mostly one that only acts, and mostly near the player's start."""
        rng, near = self.rng, self.rng.random() < 0.7
        start = self.near_start() if near else self.place()
        any_way = rng.randint(-160, 160), rng.randint(-160, 160)
        way = rng.choice([(0, 120), (160, 0), (0, -120), (-90, 0), (96, 96), any_way, any_way, any_way])
        end = self.inside((start[0] + way[0], start[1] + way[1]))
        sector = 0 if near else rng.randrange(len(self.level.sectors))
        if near or rng.random() < 0.8:
            self.level.line(start, end, sector, sector, self.special(self.walked, "walk"), self.tag(), TWO_SIDED)
        else:
            self.level.line(start, end, sector, rng.choice([None, sector]), self.special(0.6, "use"), self.tag(),
                            rng.choice([0, 1, 4, 6]))

    def inside(self, place):
        """The nearest place in the level."""
        return (min(max(place[0], self.left), self.left + self.width),
                min(max(place[1], self.bottom), self.bottom + self.height))

    def put_subsector(self, face):
        """Adds the subsector of a face: a line of its sector with the side that is there."""
        sector = self.sector_of_face[face]
        for line, (first, last, _, _, _, front, back) in enumerate(self.level.lines):
            for side, number in enumerate((front, back)):
                if number != NONE and self.level.sides[number][5] == sector:
                    self.level.segs.append((first, last, 0, line, side, 0))
                    return
        raise ValueError(f"no line of sector {sector}")

    def put_things(self):
        """Puts the player in the first face, and what else is there."""
        rng = self.rng
        angle = rng.choice([0, 45, 90, 180, 225, 270, rng.randint(-400, 400)])
        if self.theme.corner:
            angle = rng.choice([45, 135, 225, 315])
        self.level.thing(1, *middle(self.faces.places[0]), angle)
        if "lock" in self.theme.acting:
            for key in rng.sample(KEYS, 4):
                self.level.thing(key, *middle(self.faces.places[0]))
        for _ in range(rng.randint(0, self.theme.thing_count) if self.theme.things else 0):
            number, near = rng.choice(self.theme.things), rng.random() < 0.5
            place = self.near_start() if near and (number not in OBSTACLES or rng.random() < 0.1) else self.place()
            if number in OBSTACLES and rng.random() < 0.3:
                place = self.level.things[-1][:2] if len(self.level.things) > 1 else place
            self.level.thing(number, *place, rng.randrange(360), rng.choice([7, 7, 7, 1, 2, 4, 23]))
        for _ in range(self.theme.exits):
            face = rng.choice(self.faces.places)
            self.level.thing(EXIT_PLACE, *middle(face), rng.randrange(0, 360, 45))


def drawn_kinds(rng):
    """Kinds of things, with sizes at random."""
    flags = {2035: SOLID | SHOOTABLE, 3006: SHOOTABLE, 30: SOLID, 63: SHOOTABLE | HANGS, 27: 0, EXIT_PLACE: UNLINKED}
    flags.update({number: SPECIAL for number in KEYS + TAKEN})
    odd = rng.choice(KEYS + TAKEN)
    flags[odd] |= rng.choice([SOLID, SHOOTABLE, HANGS, MONSTER])
    return [Kind(number, flag, rng.choice([10, 16, 20, rng.randint(1, 40)]), rng.choice([16, 42, rng.randint(1, 80)]),
                 rng.choice([-1, 0, 6])) for number, flag in flags.items()]


def drawn_tables(rng, wild):
    """Play tables with random bytes at random; the sines are true, or at random too."""
    made = tables(drawn_kinds(rng), rng.randbytes(256))
    if not wild:
        return made
    sines = [rng.randint(-65536, 65536) for _ in range(10240)]
    return made[:8] + struct.pack("<10240i", *sines) + made[8 + 4 * len(sines) :]


def drawn_turn(rng, long_turns):
    """A turn of 256ths of a circle, or of 65,536ths."""
    turn = rng.choice([0, 0, rng.randint(-3, 3), rng.randint(-12, 12), rng.randint(-64, 64)])
    return turn * 256 + rng.randrange(256) if long_turns else turn


def drawn_tics(rng, theme, long_turns):
    """What is pressed: runs, strafes, turns, rests and uses, a few tics each."""
    tics, count = [(50, 0, 0, 0)] * 40 if theme.corner else [], rng.randint(*theme.tics)
    while len(tics) < count:
        rests = len(tics) > 40 and rng.random() < theme.idle
        forward = 0 if rests else rng.choice([50, 50, 25, 25, 10, -25, 0, rng.randint(-127, 127)])
        side = 0 if rests else rng.choice([0, 0, 24, -24, rng.randint(-128, 127)])
        turn = drawn_turn(rng, long_turns)
        for _ in range(rng.choice([1, 2, 5, 8, 12, 35])):
            halting = rng.choice([1, 128]) if rng.random() < theme.halting else 0
            use = 0 if rests and rng.random() < 0.9 else rng.choice([0, 0, 2, 4])
            tics.append((forward, side, turn, use | halting))
    return tics[:count]


def drawn(theme, seed):
    """A level of a theme."""
    drawing = Drawing(theme, seed)
    level, rng = drawing.draw(), drawing.rng
    long_turns = rng.random() < 0.25
    label, made = rng.choice(["MAP01", "E1M1"]), drawn_tables(rng, drawing.theme.wild)
    tics = drawn_tics(rng, drawing.theme, long_turns)
    return Drawn(theme, seed, label, level, made, rng.randrange(5), long_turns, tics)
