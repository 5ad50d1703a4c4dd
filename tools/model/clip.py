"""The position check, the clip of a height, and the change of a sector."""

from .fixed import UNIT, wrap32
from .geometry import Box, box_side
from .level import BLOCKING, BLOCKS_MONSTERS
from .tables import SHOOTABLE, SOLID, SPECIAL
from .world import Halt

MOST_LISTED = 8
HIGHEST_REACH, LOWEST_REACH = 56 * UNIT, -8 * UNIT
BLUE, YELLOW, RED = 1, 2, 4
KEYS = {5: BLUE, 40: BLUE, 6: YELLOW, 39: YELLOW, 13: RED, 38: RED}


class Position:
    """What a check finds: whether the way is clear, between which heights, and which special lines are there."""

    def __init__(self, sector):
        self.floor = self.dropoff = sector.floor
        self.ceiling = sector.ceiling
        self.listed, self.clear = [], True

    def narrow(self, opening):
        """Goes on over a line with a gap."""
        self.ceiling = min(self.ceiling, opening.top)
        self.floor = max(self.floor, opening.bottom)
        self.dropoff = min(self.dropoff, opening.low)

    def list_line(self, line):
        """Lists a line with a special."""
        if len(self.listed) == MOST_LISTED:
            raise Halt("listed")
        self.listed.append(line)


def touch(world, thing):
    """The player touches a special thing."""
    player, away = world.player, wrap32(thing.z - world.player.z)
    if not LOWEST_REACH <= away <= HIGHEST_REACH:
        return
    if thing.number in KEYS:
        player.keys |= KEYS[thing.number]
        world.remove(thing)
    elif player.body.take(thing.number, not world.level.episode_form):
        world.remove(thing)


def thing_in_the_way(world, mover, x, y):
    """Whether a thing is in the way of another at a place. The player touches what it meets before."""
    for other in world.things_around(x, y, mover.radius):
        apart = wrap32(other.radius + mover.radius)
        if other is mover or not other.flags & (SPECIAL | SOLID | SHOOTABLE):
            continue
        if abs(other.x - x) >= apart or abs(other.y - y) >= apart:
            continue
        if other.flags & SPECIAL and mover.is_player:
            touch(world, other)
        if other.flags & SOLID:
            return True
    return False


def line_in_the_way(line, mover):
    """Whether a line that a box meets is in the way, whatever its heights."""
    return line.back is None or line.flags & BLOCKING or (line.flags & BLOCKS_MONSTERS and not mover.is_player)


def check_position(world, mover, x, y):
    """Checks a thing at a place."""
    level, box = world.level, Box.around(x, y, mover.radius)
    found = Position(world.sector_of(x, y))
    if thing_in_the_way(world, mover, x, y):
        found.clear = False
        return found
    for number in level.grid.lines(level.grid.blocks(box)):
        line = level.lines[number]
        if not box.overlaps(line.box) or box_side(line, box) is not None:
            continue
        if line_in_the_way(line, mover):
            found.clear = False
            return found
        found.narrow(world.opening(line))
        if world.specials[number]:
            found.list_line(line)
    return found


def height_clip(world, thing):
    """Clips a thing to the floor and the ceiling where it is. Whether it fits."""
    on_floor = thing.z == thing.floorz
    found = check_position(world, thing, thing.x, thing.y)
    thing.floorz, thing.ceilingz = found.floor, found.ceiling
    if on_floor:
        thing.z = thing.floorz
    elif wrap32(thing.z + thing.height) > thing.ceilingz:
        thing.z = wrap32(thing.ceilingz - thing.height)
    return wrap32(thing.ceilingz - thing.floorz) >= thing.height


def change_sector(world, number):
    """Clips all things in and around a sector. Whether one that can be hurt doesn't fit."""
    stuck = False
    for thing in world.linked_in(world.level.blocks_around(number)):
        fits = height_clip(world, thing)
        if not fits and thing.flags & SHOOTABLE:
            stuck = True
    return stuck
