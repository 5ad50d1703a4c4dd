"""Sides of lines, and where a trace meets them. Front is 0 and back is 1."""

from dataclasses import dataclass

from .fixed import UNIT, fixed_div, fixed_mul, wrap32

FRONT, BACK = 0, 1
LONG_TRACE = 16 * UNIT


@dataclass(frozen=True)
class Way:
    """A way from a place, as a trace has it."""

    x: int
    y: int
    dx: int
    dy: int


def upright_or_level_side(way, x, y):
    """The side of a place on a way without a part in x or without one in y; None on any other way."""
    if way.dx == 0:
        return int(way.dy > 0) if x <= way.x else int(way.dy < 0)
    if way.dy == 0:
        return int(way.dx < 0) if y <= way.y else int(way.dx > 0)
    return None


def line_side(line, x, y):
    """The side of a line on which a place lies."""
    side = upright_or_level_side(line, x, y)
    if side is not None:
        return side
    right = fixed_mul(line.dy >> 16, wrap32(x - line.x))
    return FRONT if fixed_mul(wrap32(y - line.y), line.dx >> 16) < right else BACK


def side_by_signs(way, px, py, cut):
    """The side of a place that lies at (px, py) from a slanted way, by signs where these say it. Else two products
    say it, whose factors lose the bits that `cut` names: those of the way, and those of the place."""
    negative = [way.dy < 0, way.dx < 0, px < 0, py < 0]
    if sum(negative) % 2:
        return int((way.dy < 0) != (px < 0))
    of_way, of_place = cut
    left = fixed_mul(way.dy >> of_way, px >> of_place)
    right = fixed_mul(py >> of_place, way.dx >> of_way)
    return FRONT if right < left else BACK


def node_side(node, x, y):
    """The side of a node on which a place lies."""
    side = upright_or_level_side(node, x, y)
    return side_by_signs(node, wrap32(x - node.x), wrap32(y - node.y), (16, 0)) if side is None else side


def trace_side(trace, x, y):
    """The side of a trace on which a place lies."""
    side = upright_or_level_side(trace, x, y)
    return side_by_signs(trace, wrap32(x - trace.x), wrap32(y - trace.y), (8, 8)) if side is None else side


@dataclass(frozen=True)
class Box:
    """A rectangle."""

    left: int
    right: int
    bottom: int
    top: int

    @classmethod
    def around(cls, x, y, radius):
        """The square around a place."""
        return cls(wrap32(x - radius), wrap32(x + radius), wrap32(y - radius), wrap32(y + radius))

    def widened(self, by):
        """The rectangle that is wider on each side."""
        return Box(wrap32(self.left - by), wrap32(self.right + by), wrap32(self.bottom - by), wrap32(self.top + by))

    def overlaps(self, other):
        """Whether it has more than an edge in common with another."""
        return (self.right > other.left and self.left < other.right
                and self.top > other.bottom and self.bottom < other.top)


def box_side(line, box):
    """The side of a line on which all of a box lies, or None."""
    if line.dx == 0:
        flip = line.dy < 0
        sides = (box.right < line.x) != flip, (box.left < line.x) != flip
    elif line.dy == 0:
        flip = line.dx < 0
        sides = (box.top > line.y) != flip, (box.bottom > line.y) != flip
    elif line.rises:
        sides = line_side(line, box.left, box.top), line_side(line, box.right, box.bottom)
    else:
        sides = line_side(line, box.right, box.top), line_side(line, box.left, box.bottom)
    return int(sides[0]) if sides[0] == sides[1] else None


def meets(trace, line):
    """Whether a trace has the ends of a line on two sides; of a short trace, whether the line has its ends so."""
    if abs(trace.dx) > LONG_TRACE or abs(trace.dy) > LONG_TRACE:
        return trace_side(trace, line.x, line.y) != trace_side(trace, line.x2, line.y2)
    end = wrap32(trace.x + trace.dx), wrap32(trace.y + trace.dy)
    return line_side(line, trace.x, trace.y) != line_side(line, *end)


def fraction_of(trace, line):
    """At which fraction of a trace it meets a line."""
    den = wrap32(fixed_mul(line.dy >> 8, trace.dx) - fixed_mul(line.dx >> 8, trace.dy))
    if den == 0:
        return 0
    num = wrap32(fixed_mul(wrap32(line.x - trace.x) >> 8, line.dy) + fixed_mul(wrap32(trace.y - line.y) >> 8, line.dx))
    return fixed_div(num, den)
