"""How doors, lifts and floors start."""

from .clip import BLUE, RED, YELLOW
from .fixed import GREATEST, UNIT, wrap32
from .movers import CLOSED_WAIT, DOWN, FIRST_WAIT, UP, WAITING, Door, Floor, Lift
from .world import Halt

BELOW_CEILING, ABOVE_FLOOR = 4 * UNIT, 8 * UNIT
LEAST_HIGHEST = -500 * UNIT
FIVE_MINUTES, LIFT_WAIT = 10500, 105
MOST_LIFTS, MOST_NEXT = 30, 20

BY_HAND = {1: ("normal", 0), 26: ("normal", BLUE), 27: ("normal", YELLOW), 28: ("normal", RED),
           31: ("open", 0), 32: ("open", BLUE), 33: ("open", RED), 34: ("open", YELLOW),
           117: ("blazing", 0), 118: ("blazing open", 0)}
TURNED_BY = {1, 26, 27, 28, 117}
OPENED_ONCE = {31, 32, 33, 34, 118}


def top_of(world, number):
    """How far a door opens."""
    return wrap32(min([GREATEST] + [sector.ceiling for sector in world.around(number)]) - BELOW_CEILING)


def lowest_floor(world, number):
    """The lowest floor of a sector and its neighbours."""
    return min([world.sectors[number].floor] + [sector.floor for sector in world.around(number)])


def highest_floor(world, number):
    """The highest floor of the neighbours."""
    return max([LEAST_HIGHEST] + [sector.floor for sector in world.around(number)])


def lowest_ceiling(world, number):
    """The lowest ceiling of a sector and its neighbours."""
    return min([world.sectors[number].ceiling] + [sector.ceiling for sector in world.around(number)])


def next_floor(world, number):
    """The least of the first floors of neighbours above a sector's own, or its own."""
    own = world.sectors[number].floor
    higher = [sector.floor for sector in world.around(number) if sector.floor > own]
    return min(higher[:MOST_NEXT], default=own)


def free_sectors(world, tag):
    """The sectors of a tag that name no mover, in order; what one start does is seen by the next."""
    for number, sector in enumerate(world.sectors):
        if sector.tag == tag and sector.mover is None:
            yield number


def start_door(world, number, kind):
    """A door starts in a sector."""
    if kind == "close30":
        Door(world, number, kind, DOWN, world.sectors[number].ceiling)
    else:
        Door(world, number, kind, DOWN if kind.endswith("close") else UP, top_of(world, number))


def start_timed_door(world, number, special):
    """A door that closes in 30 seconds (10) or opens in five minutes (14), as the level starts."""
    if special == 10:
        Door(world, number, "normal", WAITING, None, CLOSED_WAIT)
    else:
        Door(world, number, "raise5", FIRST_WAIT, top_of(world, number), FIVE_MINUTES)


def start_lift(world, number, kind):
    """A lift starts in a sector."""
    sector = world.sectors[number]
    if sum(isinstance(thinker, Lift) for thinker in world.thinkers if not thinker.ended) >= MOST_LIFTS:
        raise Halt("lifts")
    if kind in ("down-wait-up", "blazing"):
        Lift(world, number, kind, DOWN, lowest_floor(world, number), sector.floor, LIFT_WAIT)
    elif kind == "perpetual":
        high = max(highest_floor(world, number), sector.floor)
        phase = DOWN if world.draw() & 1 else UP
        Lift(world, number, kind, phase, lowest_floor(world, number), high, LIFT_WAIT)
    elif kind == "next":
        sector.special = 0
        Lift(world, number, kind, UP, None, next_floor(world, number), 0)
    else:
        Lift(world, number, kind, UP, None, wrap32(sector.floor + int(kind) * UNIT), 0)


def rest_of_floor(world, number, kind):
    """Where a floor comes to rest."""
    own = world.sectors[number].floor
    if kind == "to highest":
        return highest_floor(world, number)
    if kind == "to lowest":
        return lowest_floor(world, number)
    if kind == "turbo to highest":
        highest = highest_floor(world, number)
        return highest if highest == own else wrap32(highest + ABOVE_FLOOR)
    if kind == "to ceiling":
        return lowest_ceiling(world, number)
    if kind == "24":
        return wrap32(own + 24 * UNIT)
    return next_floor(world, number)


def start_floor(world, number, kind):
    """A floor starts in a sector."""
    up = kind not in ("to highest", "to lowest", "turbo to highest")
    Floor(world, number, kind.startswith("turbo"), up, rest_of_floor(world, number, kind))


def lifts_of(world, tag):
    """The lifts of the sectors with a tag."""
    return [thinker for thinker in world.thinkers if isinstance(thinker, Lift) and not thinker.ended
            and world.sectors[thinker.number].tag == tag]


def stop_lifts(world, tag):
    """Stops the lifts of a tag. Whether one was stopped."""
    going = [lift for lift in lifts_of(world, tag) if not lift.stopped]
    for lift in going:
        lift.stopped = True
    return bool(going)


def start_movers(world, tag, what, kind):
    """Starts a door, lift or floor in each free sector of a tag. Whether one started."""
    if (what, kind) == ("lift", "stop"):
        return stop_lifts(world, tag)
    if (what, kind) == ("lift", "perpetual"):
        for lift in lifts_of(world, tag):
            lift.stopped = False
    start, started = {"door": start_door, "lift": start_lift, "floor": start_floor}[what], False
    for number in free_sectors(world, tag):
        start(world, number, kind)
        started = True
    return started


def open_by_hand(world, line):
    """The player opens the door behind a line. Whether it made or turned one."""
    number = world.specials[line.number]
    kind, key = BY_HAND[number]
    if key and not world.player.keys & key:
        return False
    if line.back is None:
        raise Halt(f"noback {line.number}")
    mover = world.sectors[line.back].mover
    if mover is not None and not isinstance(mover, Door):
        raise Halt("mover")
    if mover is not None and number in TURNED_BY:
        mover.turn()
        return True
    Door(world, line.back, kind, UP, top_of(world, line.back))
    if number in OPENED_ONCE:
        world.specials[line.number] = 0
    return True
