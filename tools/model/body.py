"""The player's body: health, armour, a suit, an invulnerability, and the freeze after a teleport."""

from enum import Enum

from .fixed import toward_zero

FULL, MOST = 100, 200
SUIT, GUARD = 2100, 1050  # tics


class Hurt(Enum):
    """How a hit ends."""

    SPARED = 1
    LIVED = 2
    DIED = 3


class Body:
    """A body; one that is soft takes half of each hit."""

    def __init__(self, soft):
        self.health, self.armour, self.armour_type = FULL, 0, 0
        self.suit = self.guard = self.react = 0
        self.soft = soft

    def hurt(self, points, spare_last):
        """A hit, of which the last point of health may be spared."""
        if self.soft:
            points >>= 1
        if spare_last and points >= self.health:
            points = self.health - 1
        if self.guard > 0:
            return Hurt.SPARED
        saved = toward_zero(points, {0: 1, 1: 3, 2: 2}[self.armour_type]) if self.armour_type else 0
        if self.armour_type and self.armour <= saved:
            saved, self.armour_type = self.armour, 0
        self.armour -= saved
        self.health = max(0, self.health - (points - saved))
        if self.health == 0:
            return Hurt.DIED
        self.react = 0
        return Hurt.LIVED

    def take(self, number, doom2):
        """Takes a thing of a number. Whether it was taken."""
        takers = {2011: lambda: self.heal(10), 2012: lambda: self.heal(25),
                  2014: lambda: self.raise_health(1), 2013: lambda: self.raise_health(100),
                  2015: self.take_helmet, 2018: lambda: self.put_on(100, 1), 2019: lambda: self.put_on(200, 2),
                  83: lambda: doom2 and self.take_mega_sphere(), 2023: self.take_berserk,
                  2025: self.take_suit, 2022: self.take_invulnerability}
        return takers[number]() if number in takers else False

    def heal(self, points):
        """A stimpack or a medikit."""
        if self.health >= FULL:
            return False
        self.health = min(FULL, self.health + points)
        return True

    def raise_health(self, points):
        """A bonus that goes past full health."""
        self.health = min(MOST, self.health + points)
        return True

    def take_helmet(self):
        """One point of armour."""
        self.armour = min(MOST, self.armour + 1)
        self.armour_type = self.armour_type or 1
        return True

    def put_on(self, points, armour_type):
        """An armour, where it is better than the one that is worn."""
        if self.armour >= points:
            return False
        self.armour, self.armour_type = points, armour_type
        return True

    def take_mega_sphere(self):
        """Full health and armour."""
        self.health = MOST
        self.put_on(MOST, 2)
        return True

    def take_berserk(self):
        """Health is filled up."""
        self.heal(FULL)
        return True

    def take_suit(self):
        """A radiation suit."""
        self.suit = SUIT
        return True

    def take_invulnerability(self):
        """An invulnerability."""
        self.guard = GUARD
        return True

    def tick(self):
        """A tic of what wears off."""
        self.suit = max(0, self.suit - 1)
        self.guard = max(0, self.guard - 1)
