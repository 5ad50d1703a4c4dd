"""The world: what changes while a level is played."""

from .body import Body
from .fixed import UNIT
from .geometry import Box
from .tables import HANGS, SHOOTABLE, SOLID

PLAYER_RADIUS, PLAYER_HEIGHT = 16 * UNIT, 56 * UNIT
PLAYER = 1  # the number of its thing


class Halt(Exception):
    """The replay ends here, for a reason."""


class Sector:
    """A sector as it stands. It names a mover, or none."""

    def __init__(self, ground):
        self.floor, self.ceiling = ground.floor, ground.ceiling
        self.light, self.special, self.tag = ground.light, ground.special, ground.tag
        self.mover = None


class Thing:
    """A thing as it stands, between a floor and a ceiling."""

    def __init__(self, number, flags, radius, height):
        self.number, self.flags, self.radius, self.height = number, flags, radius, height
        self.x = self.y = self.z = self.floorz = self.ceilingz = self.angle = 0
        self.block = None

    @property
    def is_player(self):
        """Whether it is the player."""
        return False


class Player(Thing):
    """The player, at rest."""

    def __init__(self, soft):
        super().__init__(PLAYER, SOLID | SHOOTABLE, PLAYER_RADIUS, PLAYER_HEIGHT)
        self.momx = self.momy = self.momz = 0
        self.keys, self.use_held, self.body = 0, True, Body(soft)

    @property
    def is_player(self):
        return True


class Opening:
    """The gap between the sectors of a line."""

    def __init__(self, front, back):
        self.top, self.bottom = min(front.ceiling, back.ceiling), max(front.floor, back.floor)
        self.low = min(front.floor, back.floor)


class World:
    """A level that is played, with its things, its movers and lights, and the player."""

    def __init__(self, level, tables):
        self.level, self.tables = level, tables
        self.sectors = [Sector(ground) for ground in level.sectors]
        self.specials = [line.special for line in level.lines]
        self.things, self.player, self.linked = [], None, {}
        self.thinkers, self.acted = [], []
        self.rng = self.time = self.tics = 0
        self.exited = self.asked = 0  # 1 the exit, 2 the secret exit
        self.halted = None

    def draw(self):
        """The next random number."""
        self.rng = (self.rng + 1) & 255
        return self.tables.random[self.rng]

    def sector_of(self, x, y):
        """The sector in which a place lies."""
        return self.sectors[self.level.sector_at(x, y)]

    def around(self, number):
        """The neighbours of a sector."""
        return [self.sectors[other] for other in self.level.neighbours(number)]

    def opening(self, line):
        """The gap of a line; None where nothing lies behind it."""
        return None if line.back is None else Opening(self.sectors[line.front], self.sectors[line.back])

    def put(self, thing, x, y):
        """Puts a new thing at a place, on its floor or under its ceiling."""
        sector = self.sector_of(x, y)
        thing.x, thing.y, thing.floorz, thing.ceilingz = x, y, sector.floor, sector.ceiling
        thing.z = sector.ceiling - thing.height if thing.flags & HANGS else sector.floor
        self.things.append(thing)

    def link(self, thing):
        """Links a thing anew, first in its block."""
        self.unlink(thing)
        grid = self.level.grid
        thing.block = grid.block(grid.column(thing.x), grid.row(thing.y))
        if thing.block is not None:
            self.linked.setdefault(thing.block, []).insert(0, thing)

    def unlink(self, thing):
        """Takes a thing out of its block."""
        if thing.block is not None:
            self.linked[thing.block].remove(thing)
            thing.block = None

    def remove(self, thing):
        """Takes a thing out of the world."""
        self.unlink(thing)
        self.things.remove(thing)

    def linked_in(self, blocks):
        """The things of blocks, in each the last linked first."""
        return [thing for block in blocks for thing in self.linked.get(block, ())]

    def things_around(self, x, y, radius):
        """The things in the blocks of a square, wider by the greatest radius of a thing."""
        box = Box.around(x, y, radius).widened(32 * UNIT)
        return self.linked_in(self.level.grid.blocks(box))
