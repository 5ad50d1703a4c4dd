"""How a level starts: its things, their links, and what its sectors begin."""

from .fixed import UNIT, toward_zero
from .lights import begin_sectors
from .tables import MONSTER, TURN, UNLINKED
from .world import PLAYER, Player, Thing, World

OF_DOOM2 = {*range(64, 70), 71, 84, 88, 89}
OTHER_STARTS, SPITTER = {0, 2, 3, 4, 11}, 89
SEVERAL = 16  # the option of a thing that is there for several players alone


class Refused(Exception):
    """The level can't start, for a reason."""


def angle_of(degrees):
    """The angle of a thing: eighths of a turn, without a rest."""
    return toward_zero(degrees, 45) * 2**29 % TURN


def is_left_out(number, options, skill):
    """Whether a thing is nothing for one player at a skill."""
    at_skill = 1 if skill < 2 else 2 if skill == 2 else 4
    return number in OTHER_STARTS or number != PLAYER and (options & SEVERAL or not options & at_skill)


def made_thing(world, index, number, skill):
    """A thing of a number, with its draws; None where monsters are left out."""
    if number == PLAYER:
        if world.player:
            raise Refused("voodoo")
        world.player = Player(soft=skill == 0)
        world.draw()
        return world.player
    if number == SPITTER:
        raise Refused(f"spitter {index}")
    if number not in world.tables.kinds:
        raise Refused(f"thing {index} number {number}")
    kind = world.tables.kinds[number]
    if kind.flags & MONSTER:
        return None
    world.draw()
    if kind.first > 0:
        world.draw()
    return Thing(number, kind.flags, kind.radius, kind.height)


def started(level, tables, skill):
    """The world of a level as it starts."""
    world = World(level, tables)
    for index, (x, y, degrees, number, options) in enumerate(level.things):
        if level.episode_form and number in OF_DOOM2:
            raise Refused(f"doom2 thing {index}")
        thing = None if is_left_out(number, options, skill) else made_thing(world, index, number, skill)
        if thing:
            thing.angle = angle_of(degrees)
            world.put(thing, x * UNIT, y * UNIT)
    if not world.player:
        raise Refused("no start")
    for thing in world.things:
        if not thing.flags & UNLINKED:
            world.link(thing)
    begin_sectors(world)
    return world
