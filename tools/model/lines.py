"""What lines do that are crossed or used."""

from .clip import BLUE, RED, YELLOW
from .geometry import FRONT
from .lights import line_light
from .starts import BY_HAND, open_by_hand, start_movers
from .tables import SHOOTABLE
from .world import Halt

TELEPORT_EXIT, FROZEN = 14, 18

# What acts, and its numbers: walk once, walk again, switch once, switch again.
TABLE = [
    ("door", "open", 2, 86, 103, 61), ("door", "close", 3, 75, 50, 42), ("door", "normal", 4, 90, 29, 63),
    ("door", "close30", 16, 76, 0, 0), ("door", "blazing", 108, 105, 111, 114),
    ("door", "blazing open", 109, 106, 112, 115), ("door", "blazing close", 110, 107, 113, 116),
    ("blue", "blazing open", 0, 0, 133, 99), ("red", "blazing open", 0, 0, 135, 134),
    ("yellow", "blazing open", 0, 0, 137, 136),
    ("lift", "down-wait-up", 10, 88, 21, 62), ("lift", "blazing", 121, 120, 122, 123),
    ("lift", "perpetual", 53, 87, 0, 0), ("lift", "stop", 54, 89, 0, 0), ("lift", "next", 22, 95, 20, 68),
    ("lift", "24", 0, 0, 15, 66), ("lift", "32", 0, 0, 14, 67),
    ("floor", "to highest", 19, 83, 102, 45), ("floor", "to lowest", 38, 82, 23, 60),
    ("floor", "turbo to highest", 36, 98, 71, 70), ("floor", "to ceiling", 5, 91, 101, 64),
    ("floor", "24", 58, 92, 0, 0), ("floor", "next", 119, 128, 18, 69), ("floor", "turbo next", 130, 129, 131, 132),
    ("light", "greatest", 12, 80, 0, 0), ("light", "255", 13, 81, 0, 138), ("light", "35", 35, 79, 0, 139),
    ("light", "strobe", 17, 0, 0, 0), ("light", "least", 104, 0, 0, 0),
    ("exit", "1", 52, 0, 11, 0), ("exit", "2", 124, 0, 51, 0), ("teleport", "", 39, 97, 0, 0)]
WALK, SWITCH = {}, {}  # by number: what, how, and whether it is used up
for _what, _how, _walk_once, _walk_again, _switch_once, _switch_again in TABLE:
    WALK[_walk_once], WALK[_walk_again] = (_what, _how, True), (_what, _how, False)
    SWITCH[_switch_once], SWITCH[_switch_again] = (_what, _how, True), (_what, _how, False)
del WALK[0], SWITCH[0]

KEYS = {"blue": BLUE, "yellow": YELLOW, "red": RED}
HALTS_WALK = {6, 8, 25, 30, 37, 40, 44, 56, 57, 59, 72, 73, 74, 77, 84, 93, 94, 96, 100, 141}
HALTS_SWITCH = {7, 9, 41, 43, 49, 55, 65, 127, 140}
KEPT = {52, 124}


def act(world, line, what, how):
    """What a line's number does. Whether that counts as done."""
    if what == "exit":
        world.asked = int(how)
    elif what == "light":
        line_light(world, line.tag, how)
    elif what in KEYS:
        return bool(world.player.keys & KEYS[what]) and start_movers(world, line.tag, "door", how)
    else:
        return start_movers(world, line.tag, what, how)
    return True


def cross_line(world, line, side):
    """The player crosses a line that it had on a side. Whether it came out of a teleporter."""
    number, teleported = world.specials[line.number], False
    if number in HALTS_WALK:
        raise Halt(f"special {number}")
    if number not in WALK:
        return False
    what, how, once = WALK[number]
    if what == "teleport":
        teleported = side == FRONT and teleport(world, line.tag)
    else:
        act(world, line, what, how)
    world.acted.append(number)
    if once and number not in KEPT:
        world.specials[line.number] = 0
    return teleported


def use_line(world, line, side):
    """The player uses a line from a side."""
    number = world.specials[line.number]
    if side != FRONT:
        return
    if number in HALTS_SWITCH:
        raise Halt(f"special {number}")
    if number in BY_HAND:
        acted = open_by_hand(world, line)
    elif number in SWITCH:
        what, how, once = SWITCH[number]
        acted = act(world, line, what, how)
        if acted and once:
            world.specials[line.number] = 0
    else:
        return
    if acted:
        world.acted.append(number)


def teleport_exit(world, tag):
    """The first exit of the first sector of a tag that has one, and its sector; None where there is none."""
    for number, sector in enumerate(world.sectors):
        if sector.tag != tag:
            continue
        for thing in world.things:
            if thing.number == TELEPORT_EXIT and world.level.sector_at(thing.x, thing.y) == number:
                return thing, sector
    return None


def someone_stands_at(world, place):
    """Whether something that can be hurt is in the player's way at an exit."""
    player = world.player
    for other in world.things_around(place.x, place.y, player.radius):
        apart = other.radius + player.radius
        if other is not player and other.flags & SHOOTABLE:
            if abs(other.x - place.x) < apart and abs(other.y - place.y) < apart:
                return True
    return False


def teleport(world, tag):
    """The player goes to the exit of a tag. Whether there is one."""
    found, player = teleport_exit(world, tag), world.player
    if not found:
        return False
    place, sector = found
    if someone_stands_at(world, place):
        raise Halt("stomp")
    player.floorz, player.ceilingz = sector.floor, sector.ceiling
    player.x, player.y, player.z, player.angle = place.x, place.y, sector.floor, place.angle
    player.momx = player.momy = player.momz = 0
    world.link(player)
    world.draw()
    world.draw()
    player.body.react = FROZEN
    return True
