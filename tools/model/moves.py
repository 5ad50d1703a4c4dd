"""How the player moves: tries, slides, falls, and the move by its momentum."""

from .clip import check_position
from .fixed import UNIT, aprox_distance, fixed_mul, toward_zero, wrap32
from .geometry import BACK, line_side
from .level import TWO_SIDED
from .lines import cross_line
from .tables import ANG180, TURN
from .trace import lines_on
from .world import PLAYER_HEIGHT, PLAYER_RADIUS

HIGHEST_STEP = 24 * UNIT
FASTEST, HALVED_ABOVE = 30 * UNIT, 15 * UNIT
AT_REST, FRICTION = 0x1000, 0xE800
GRAVITY = UNIT
SHORT_OF_LINE = 0x800
PASSES = 2


def try_move(world, x, y):
    """The player tries a place. Whether it went there."""
    player = world.player
    found = check_position(world, player, x, y)
    if not found.clear or wrap32(found.ceiling - found.floor) < PLAYER_HEIGHT:
        return False
    if wrap32(found.ceiling - player.z) < PLAYER_HEIGHT or wrap32(found.floor - player.z) > HIGHEST_STEP:
        return False
    old = player.x, player.y
    player.floorz, player.ceilingz, player.x, player.y = found.floor, found.ceiling, x, y
    world.link(player)
    cross_listed(world, found.listed, old, (x, y))
    return True


def cross_listed(world, listed, old, new):
    """The player crosses the listed lines between two places, the last listed first, until a teleport ends it."""
    for line in reversed(listed):
        side = line_side(line, *old)
        if world.specials[line.number] and side != line_side(line, *new):
            if cross_line(world, line, side):
                return


def stops_slide(world, line):
    """Whether a line stops a slide."""
    player = world.player
    if not line.flags & TWO_SIDED:
        return line_side(line, player.x, player.y) != BACK
    gap = world.opening(line)
    return (gap is None or wrap32(gap.top - gap.bottom) < PLAYER_HEIGHT
            or wrap32(gap.top - player.z) < PLAYER_HEIGHT or wrap32(gap.bottom - player.z) > HIGHEST_STEP)


def slide_starts(player):
    """The corners of the player from which it looks ahead."""
    ahead_x = PLAYER_RADIUS if player.momx > 0 else -PLAYER_RADIUS
    ahead_y = PLAYER_RADIUS if player.momy > 0 else -PLAYER_RADIUS
    for x, y in ((ahead_x, ahead_y), (-ahead_x, ahead_y), (ahead_x, -ahead_y)):
        yield wrap32(player.x + x), wrap32(player.y + y)


def nearest_stop(world):
    """The least fraction of the move at which a line stops it, and the line; None where no line does."""
    player, best = world.player, None
    for start in list(slide_starts(player)):
        end = wrap32(start[0] + player.momx), wrap32(start[1] + player.momy)
        met = lines_on(world.level, start, end)
        first = next(((fraction, line) for fraction, line in met if stops_slide(world, line)), None)
        if first and (best is None or first[0] < best[0]):
            best = first
    return best


def along(world, line, dx, dy):
    """What is left of a move along a line."""
    player, tables = world.player, world.tables
    if line.dx == 0:
        return 0, dy
    if line.dy == 0:
        return dx, 0
    angle = tables.angle_of(line.dx, line.dy)
    if line_side(line, player.x, player.y) == BACK:
        angle = (angle + ANG180) % TURN
    between = (tables.angle_of(dx, dy) - angle) % TURN
    if between > ANG180:
        between = (between + ANG180) % TURN
    length = fixed_mul(aprox_distance(dx, dy), tables.cosine(between))
    return fixed_mul(length, tables.cosine(angle)), fixed_mul(length, tables.sine(angle))


def stair_step(world):
    """The player tries one axis of its momentum, and then the other."""
    player = world.player
    if not try_move(world, player.x, wrap32(player.y + player.momy)):
        try_move(world, wrap32(player.x + player.momx), player.y)


def slide_pass(world):
    """A pass of a slide. Whether the slide ends with it."""
    player, best = world.player, nearest_stop(world)
    if best is None:
        stair_step(world)
        return True
    fraction, line = best
    part = fraction - SHORT_OF_LINE
    if part > 0 and not try_move(world, wrap32(player.x + fixed_mul(player.momx, part)),
                                 wrap32(player.y + fixed_mul(player.momy, part))):
        stair_step(world)
        return True
    rest = min(UNIT - fraction, UNIT)
    if rest <= 0:
        return True
    rest_x, rest_y = fixed_mul(player.momx, rest), fixed_mul(player.momy, rest)
    player.momx, player.momy = along(world, line, rest_x, rest_y)
    return try_move(world, wrap32(player.x + player.momx), wrap32(player.y + player.momy))


def slide(world):
    """The player slides along what stopped it."""
    for _ in range(PASSES):
        if slide_pass(world):
            return
    stair_step(world)


def move_parts(player):
    """The parts of a move by the player's momentum."""
    mx, my = player.momx, player.momy
    while mx or my:
        if mx > HALVED_ABOVE or my > HALVED_ABOVE:
            yield toward_zero(mx, 2), toward_zero(my, 2)
            mx, my = mx >> 1, my >> 1
        else:
            yield mx, my
            mx = my = 0


def xy_move(world, tic):
    """The player moves by its momentum, which then wears off."""
    player = world.player
    if player.momx == 0 and player.momy == 0:
        return
    player.momx = max(-FASTEST, min(FASTEST, player.momx))
    player.momy = max(-FASTEST, min(FASTEST, player.momy))
    for dx, dy in list(move_parts(player)):
        if not try_move(world, wrap32(player.x + dx), wrap32(player.y + dy)):
            slide(world)
    if player.z > player.floorz:
        return
    if abs(player.momx) < AT_REST and abs(player.momy) < AT_REST and not tic.forward and not tic.side:
        player.momx = player.momy = 0
    else:
        player.momx, player.momy = fixed_mul(player.momx, FRICTION), fixed_mul(player.momy, FRICTION)


def z_move(world):
    """The player falls or rises."""
    player = world.player
    if player.z == player.floorz and player.momz == 0:
        return
    player.z = wrap32(player.z + player.momz)
    if player.z <= player.floorz:
        player.momz, player.z = max(player.momz, 0), player.floorz
    elif player.momz == 0:
        player.momz = -2 * GRAVITY
    else:
        player.momz = wrap32(player.momz - GRAVITY)
    if wrap32(player.z + PLAYER_HEIGHT) > player.ceilingz:
        player.momz, player.z = min(player.momz, 0), wrap32(player.ceilingz - PLAYER_HEIGHT)
