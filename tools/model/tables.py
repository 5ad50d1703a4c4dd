"""The play tables: sines, arc tangents, random bytes, kinds of things."""

import struct
from dataclasses import dataclass

from .fixed import slope_div

ANG90, ANG180, ANG270, TURN = 2**30, 2**31, 3 * 2**30, 2**32
SPECIAL, SOLID, SHOOTABLE, HANGS, MONSTER, UNLINKED = 1, 2, 4, 8, 16, 32
SINES, TANGENTS, RANDOM, KINDS = 8, 8 + 4 * 10240, 8 + 4 * 10240 + 4 * 2049, 49420


@dataclass(frozen=True)
class Kind:
    """A kind of things; radius and height are in 65,536ths, and `first` is the length of its first state in tics."""

    number: int
    flags: int
    radius: int
    height: int
    first: int


class Tables:
    """The play tables of a file."""

    def __init__(self, data):
        self.sines = struct.unpack_from("<10240i", data, SINES)
        self.arcs = struct.unpack_from("<2049I", data, TANGENTS)
        self.random = data[RANDOM : RANDOM + 256]
        self.kinds = {fields[0]: Kind(*fields) for fields in struct.iter_unpack("<HHiii", data[KINDS:])}

    def sine(self, angle):
        """The sine of an angle in 2^32nds of a turn."""
        return self.sines[angle >> 19]

    def cosine(self, angle):
        """The cosine of an angle."""
        return self.sines[(angle >> 19) + 2048]

    def angle_of(self, x, y):
        """The angle of a way."""
        if x == 0 and y == 0:
            return 0
        wide, high = abs(x), abs(y)
        flat = wide > high
        arc = self.arcs[slope_div(high, wide) if flat else slope_div(wide, high)]
        if x >= 0 and y >= 0:
            angle = arc if flat else ANG90 - 1 - arc
        elif x >= 0:
            angle = -arc if flat else ANG270 + arc
        elif y >= 0:
            angle = ANG180 - 1 - arc if flat else ANG90 + arc
        else:
            angle = ANG180 + arc if flat else ANG270 - 1 - arc
        return angle % TURN
