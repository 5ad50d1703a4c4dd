"""Lights: how they begin, what they do in a tic, and what lines do to them."""

from .fixed import wrap16
from .starts import start_timed_door

FAST_DARK, SLOW_DARK = 15, 35  # tics
BRIGHT, FLICKER_COUNT, GLOW_STEP = 5, 4, 8
DAMAGE_STROBE = 4  # the sector special that is a light and a damage floor


def least_light(world, number):
    """The least light of a sector and its neighbours."""
    return min([world.sectors[number].light] + [sector.light for sector in world.around(number)])


class Light:
    """A light of a sector, between the least light around and its own. One never ends."""

    ended = False

    def __init__(self, world, number, count=0):
        self.number, self.count = number, count
        self.least, self.most = least_light(world, number), world.sectors[number].light
        world.thinkers.append(self)

    def run(self, world):
        """A tic: the light turns where the count comes to 0."""
        self.count -= 1
        if self.count == 0:
            self.turn(world, world.sectors[self.number])

    def turn(self, world, sector):
        """What the light does, and the next count."""
        raise NotImplementedError


class Flash(Light):
    """A light that is seldom dark."""

    def __init__(self, world, number):
        super().__init__(world, number, (world.draw() & 64) + 1)

    def turn(self, world, sector):
        if sector.light == self.most:
            sector.light, self.count = self.least, (world.draw() & 7) + 1
        else:
            sector.light, self.count = self.most, (world.draw() & 64) + 1


class Strobe(Light):
    """A light that is seldom bright."""

    def __init__(self, world, number, dark, in_step):
        super().__init__(world, number, 1 if in_step else (world.draw() & 7) + 1)
        self.dark = dark
        if self.least == self.most:
            self.least = 0

    def turn(self, world, sector):
        if sector.light == self.least:
            sector.light, self.count = self.most, BRIGHT
        else:
            sector.light, self.count = self.least, self.dark


class Flicker(Light):
    """A fire."""

    def __init__(self, world, number):
        super().__init__(world, number, FLICKER_COUNT)
        self.least = wrap16(self.least + 16)

    def turn(self, world, sector):
        away = (world.draw() & 3) * 16
        sector.light = self.least if sector.light - away < self.least else wrap16(self.most - away)
        self.count = FLICKER_COUNT


class Glow(Light):
    """A light that goes down and up, without a count."""

    down = True

    def run(self, world):
        sector = world.sectors[self.number]
        after = wrap16(sector.light - GLOW_STEP if self.down else sector.light + GLOW_STEP)
        if after <= self.least if self.down else after >= self.most:
            self.down = not self.down
        else:
            sector.light = after


BEGINNINGS = {1: Flash, 8: Glow, 17: Flicker,
              2: lambda world, number: Strobe(world, number, FAST_DARK, in_step=False),
              4: lambda world, number: Strobe(world, number, FAST_DARK, in_step=False),
              3: lambda world, number: Strobe(world, number, SLOW_DARK, in_step=False),
              12: lambda world, number: Strobe(world, number, SLOW_DARK, in_step=True),
              13: lambda world, number: Strobe(world, number, FAST_DARK, in_step=True)}


def begin_sectors(world):
    """What the specials of sectors begin as the level starts."""
    for number, sector in enumerate(world.sectors):
        special = sector.special
        if special in BEGINNINGS:
            BEGINNINGS[special](world, number)
            sector.special = special if special == DAMAGE_STROBE else 0
        elif special in (10, 14):
            start_timed_door(world, number, special)
            sector.special = 0


def line_light(world, tag, action):
    """What a line does to the lights of the sectors with its tag."""
    greatest = 0
    for number, sector in enumerate(world.sectors):
        if sector.tag != tag:
            continue
        if action == "greatest":
            greatest = greatest or max([0] + [other.light for other in world.around(number)])
            sector.light = greatest
        elif action == "least":
            sector.light = least_light(world, number)
        elif action == "strobe":
            begin_strobe(world, number)
        else:
            sector.light = int(action)


def begin_strobe(world, number):
    """A line begins a slow strobe in a sector that names no mover."""
    sector = world.sectors[number]
    if sector.mover is None:
        Strobe(world, number, SLOW_DARK, in_step=False)
        sector.special = 0
