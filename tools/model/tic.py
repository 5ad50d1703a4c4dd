"""A tic of the game."""

from dataclasses import dataclass

from .body import Hurt
from .fixed import fixed_mul, wrap32
from .geometry import line_side
from .lines import use_line
from .moves import xy_move, z_move
from .tables import ANG90, TURN
from .trace import lines_on
from .world import Halt

ATTACK, USE, BUTTON = 1, 2, 128
USE_RANGE, KEY_FORCE = 64, 2048
BEAT, SUIT_LEAKS, ALMOST_DEAD = 32, 5, 10


@dataclass(frozen=True)
class Tic:
    """What is pressed in a tic; the turn is one of 65,536ths of a circle."""

    forward: int
    side: int
    turn: int
    buttons: int


def thrust(world, angle, key):
    """A key drives the player."""
    player, tables = world.player, world.tables
    player.momx = wrap32(player.momx + fixed_mul(key * KEY_FORCE, tables.cosine(angle)))
    player.momy = wrap32(player.momy + fixed_mul(key * KEY_FORCE, tables.sine(angle)))


def turn_and_thrust(world, tic):
    """The player turns, and on its floor is driven by its keys, but for the time after a teleport."""
    player = world.player
    if player.body.react > 0:
        player.body.react -= 1
        return
    player.angle = (player.angle + tic.turn * 65536) % TURN
    if player.z <= player.floorz:
        if tic.forward:
            thrust(world, player.angle, tic.forward)
        if tic.side:
            thrust(world, (player.angle - ANG90) % TURN, tic.side)


def hurt(world, points, spare_last=False):
    """A hit of the player."""
    ended = world.player.body.hurt(points, spare_last)
    if ended == Hurt.DIED:
        raise Halt("died")
    if ended == Hurt.LIVED:
        world.draw()


def feel_floor(world):
    """What the player feels of the floor on which it stands."""
    player, beat = world.player, world.time % BEAT == 0
    sector = world.sector_of(player.x, player.y)
    if sector.special == 0 or sector.floor != player.z:
        return
    if sector.special in (5, 7):
        if beat and player.body.suit == 0:
            hurt(world, 10 if sector.special == 5 else 5)
    elif sector.special in (4, 16):
        if (player.body.suit == 0 or world.draw() < SUIT_LEAKS) and beat:
            hurt(world, 20)
    elif sector.special == 9:
        sector.special = 0
    elif sector.special == 11:
        if beat:
            hurt(world, 20, spare_last=True)
        if player.body.health <= ALMOST_DEAD:
            world.asked = 1
    else:
        raise Halt(f"sector {sector.special}")


def use_ahead(world):
    """The player uses what is before it."""
    player, tables = world.player, world.tables
    end = (wrap32(player.x + USE_RANGE * tables.cosine(player.angle)),
           wrap32(player.y + USE_RANGE * tables.sine(player.angle)))
    for _, line in lines_on(world.level, (player.x, player.y), end):
        if world.specials[line.number]:
            use_line(world, line, line_side(line, player.x, player.y))
            return
        gap = world.opening(line)
        if gap is None or wrap32(gap.top - gap.bottom) <= 0:
            return


def press_use(world, tic):
    """The use button, which acts where it was not held."""
    pressed, held = bool(tic.buttons & USE), world.player.use_held
    world.player.use_held = pressed
    if pressed and not held:
        use_ahead(world)


def run_thinkers(world):
    """Lights and movers in the order of their making, those of this tic too."""
    for thinker in world.thinkers:
        if not thinker.ended:
            thinker.run(world)
    world.thinkers = [thinker for thinker in world.thinkers if not thinker.ended]


def parts_of_tic(world, tic):
    """The parts of a tic, the first halt of which ends it."""
    world.acted = []
    if tic.buttons & BUTTON:
        raise Halt("button")
    if tic.buttons & ATTACK:
        raise Halt("attack")
    turn_and_thrust(world, tic)
    feel_floor(world)
    press_use(world, tic)
    world.player.body.tick()
    xy_move(world, tic)
    z_move(world)
    run_thinkers(world)
    world.time += 1


def step(world, tic):
    """A tic."""
    if world.halted:
        return
    try:
        if world.exited == 0:
            parts_of_tic(world, tic)
    except Halt as halt:
        world.halted = f"halt tic {world.tics + 1} {halt}"
        return
    world.tics += 1
    world.exited = world.asked
