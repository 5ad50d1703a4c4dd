"""Which lines a trace meets, in order."""

from .fixed import UNIT, fixed_div, fixed_mul, wrap32
from .geometry import Way, fraction_of, meets
from .world import Halt

MOST_BLOCKS, MOST_INTERCEPTS = 64, 128
BLOCK = 128 * UNIT


def off_the_edge(place, origin):
    """A place, a unit further on where it lies on the edge of a block."""
    return wrap32(place + UNIT) if wrap32(place - origin) & (BLOCK - 1) == 0 else place


class Axis:
    """One axis of the way from block to block: from a place to another, both from the grid's origin, while the other
    axis goes by `other`. Each block further on, the other axis is met `other_step` further, first at `other_first`."""

    def __init__(self, start, end, other_start, other_end):
        self.block, self.last = start >> 23, end >> 23
        in_block, length = (start >> 7) & (UNIT - 1), abs(wrap32(end - start))
        if self.last == self.block:
            self.step, partial, self.other_step = 0, UNIT, 256 * UNIT
        else:
            self.step = 1 if self.last > self.block else -1
            partial = UNIT - in_block if self.step == 1 else in_block
            self.other_step = fixed_div(wrap32(other_end - other_start), length)
        self.other = wrap32((other_start >> 7) + fixed_mul(partial, self.other_step))

    def meets(self, other_block):
        """Whether the next block on this axis is met in a row or column of the other."""
        return self.other >> 16 == other_block

    def go_on(self):
        """To the next block."""
        self.other = wrap32(self.other + self.other_step)
        self.block += self.step


def blocks_on(grid, start, end):
    """The columns and rows of the blocks between two places."""
    x1, y1 = wrap32(start[0] - grid.x), wrap32(start[1] - grid.y)
    x2, y2 = wrap32(end[0] - grid.x), wrap32(end[1] - grid.y)
    across, up = Axis(x1, x2, y1, y2), Axis(y1, y2, x1, x2)
    for _ in range(MOST_BLOCKS):
        yield across.block, up.block
        if (across.block, up.block) == (across.last, up.last):
            return
        if across.meets(up.block):
            across.go_on()
        elif up.meets(across.block):
            up.go_on()


def lines_on(level, start, end):
    """Each line that a trace meets, with its fraction, the nearest first."""
    grid = level.grid
    start = off_the_edge(start[0], grid.x), off_the_edge(start[1], grid.y)
    trace = Way(*start, wrap32(end[0] - start[0]), wrap32(end[1] - start[1]))
    blocks = [grid.block(*place) for place in blocks_on(grid, start, end)]
    met = []
    for number in grid.lines(block for block in blocks if block is not None):
        line = level.lines[number]
        fraction = fraction_of(trace, line) if meets(trace, line) else -1
        if fraction >= 0:
            met.append((fraction, line))
    if len(met) > MOST_INTERCEPTS:
        raise Halt("intercepts")
    return sorted((pair for pair in met if pair[0] <= UNIT), key=lambda pair: pair[0])
