"""Doors, lifts and floors, tic by tic."""

from enum import Enum

from .clip import change_sector
from .fixed import UNIT, wrap32
from .world import Halt

DOOR_WAIT, CLOSED_WAIT = 150, 1050
DOOR_SPEED, BLAZING_SPEED = 2 * UNIT, 8 * UNIT
LIFT_SPEEDS = {"down-wait-up": 4 * UNIT, "blazing": 8 * UNIT, "perpetual": UNIT}
RAISE_SPEED = UNIT // 2
FLOOR_SPEED, TURBO_SPEED = UNIT, 4 * UNIT
UP, DOWN, WAITING, FIRST_WAIT = "up", "down", "waiting", "first wait"


class Moved(Enum):
    """How a plane went on."""

    GOING = 1
    PAST = 2
    BLOCKED = 3


def move_plane(world, number, plane, speed, end, up):
    """Moves the floor or the ceiling of a sector toward an end."""
    sector = world.sectors[number]
    before = getattr(sector, plane)
    after = wrap32(before + speed if up else before - speed)
    past = after > end if up else after < end
    setattr(sector, plane, end if past else after)
    stuck = change_sector(world, number)
    if stuck and (past or plane == "floor" or not up):
        setattr(sector, plane, before)
        change_sector(world, number)
    if past:
        return Moved.PAST
    if stuck and (plane == "floor" or not up):
        return Moved.BLOCKED
    return Moved.GOING


class Mover:
    """What moves a plane of a sector. Who makes one has the sector name it."""

    def __init__(self, world, number):
        self.number, self.ended = number, False
        world.sectors[number].mover = self
        world.thinkers.append(self)

    def end(self, world):
        """Ends: its sector names no mover then, whichever it named."""
        self.ended = True
        world.sectors[self.number].mover = None


class Door(Mover):
    """A door: its ceiling goes up to a top, which may not be set, and down to the floor."""

    def __init__(self, world, number, kind, phase, top, count=0):
        super().__init__(world, number)
        self.kind, self.phase, self.top, self.count = kind, phase, top, count
        self.speed = BLAZING_SPEED if kind.startswith("blazing") else DOOR_SPEED

    def run(self, world):
        """A tic."""
        if self.phase == UP:
            self.go_up(world)
        elif self.phase == DOWN:
            self.go_down(world)
        else:
            self.wait()

    def go_up(self, world):
        """A tic on its way up."""
        if self.top is None:
            raise Halt("unset")
        if move_plane(world, self.number, "ceiling", self.speed, self.top, up=True) != Moved.PAST:
            return
        if self.kind in ("normal", "blazing"):
            self.phase, self.count = WAITING, DOOR_WAIT
        elif self.kind in ("open", "blazing open", "close30"):
            self.end(world)

    def go_down(self, world):
        """A tic on its way down."""
        floor = world.sectors[self.number].floor
        moved = move_plane(world, self.number, "ceiling", self.speed, floor, up=False)
        if moved == Moved.PAST and self.kind == "close30":
            self.phase, self.count = WAITING, CLOSED_WAIT
        elif moved == Moved.PAST and self.kind in ("normal", "blazing", "close", "blazing close"):
            self.end(world)
        elif moved == Moved.BLOCKED and self.kind not in ("close", "blazing close"):
            self.phase = UP

    def wait(self):
        """A tic of a wait."""
        self.count = wrap32(self.count - 1)
        if self.count != 0:
            return
        if self.phase == FIRST_WAIT:
            self.kind, self.phase = "normal", UP
        elif self.kind in ("normal", "blazing"):
            self.phase = DOWN
        elif self.kind == "close30":
            self.phase = UP

    def turn(self):
        """Is turned by hand."""
        self.phase = UP if self.phase == DOWN else DOWN


class Lift(Mover):
    """A lift: its floor goes between a low, which may not be set, and a high."""

    def __init__(self, world, number, kind, phase, low, high, wait):
        super().__init__(world, number)
        self.kind, self.phase, self.low, self.high, self.wait_tics = kind, phase, low, high, wait
        self.count, self.stopped = 0, False
        self.speed = LIFT_SPEEDS.get(kind, RAISE_SPEED)

    def run(self, world):
        """A tic."""
        if self.stopped:
            return
        if self.phase == UP:
            self.go_up(world)
        elif self.phase == DOWN:
            self.go_down(world)
        else:
            self.wait(world)

    def begin_wait(self):
        """Waits at an end."""
        self.phase, self.count = WAITING, self.wait_tics

    def the_low(self):
        """Its low, which has to be set."""
        if self.low is None:
            raise Halt("unset")
        return self.low

    def go_up(self, world):
        """A tic on its way up."""
        moved = move_plane(world, self.number, "floor", self.speed, self.high, up=True)
        if moved == Moved.BLOCKED:
            self.phase, self.count = DOWN, self.wait_tics
        elif moved == Moved.PAST and self.kind == "perpetual":
            self.begin_wait()
        elif moved == Moved.PAST:
            self.end(world)

    def go_down(self, world):
        """A tic on its way down."""
        if move_plane(world, self.number, "floor", self.speed, self.the_low(), up=False) == Moved.PAST:
            self.begin_wait()

    def wait(self, world):
        """A tic of a wait."""
        self.count = wrap32(self.count - 1)
        if self.count == 0:
            self.phase = UP if world.sectors[self.number].floor == self.the_low() else DOWN


class Floor(Mover):
    """A floor on its way to an end."""

    def __init__(self, world, number, turbo, up, end):
        super().__init__(world, number)
        self.speed, self.up, self.rest = TURBO_SPEED if turbo else FLOOR_SPEED, up, end

    def run(self, world):
        """A tic."""
        if move_plane(world, self.number, "floor", self.speed, self.rest, self.up) == Moved.PAST:
            self.end(world)
