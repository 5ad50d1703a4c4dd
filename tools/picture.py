"""Draws a map and a way through it as SVG, for tools/route_svg."""

import math
from dataclasses import dataclass
from html import escape

from specials import specials

SECOND = 35  # tics
WIDE, HIGH = 940, 740  # pixels: the most that the map's part of the picture has where it shows the box of the way
WHOLE = 1.6  # and that many times as much where it shows all of the map
LEAST = 640  # map units: the least that a side of the view shows
NARROW, FLAT = 0.7, 0.52  # the least width for a height, and height for a width
FARTHEST = 64  # map units in a tic: whoever comes farther is teleported
STEP = 24  # map units: what can be stepped up

# Lines that don't act, in the order of their weight: colour, width and words.
WALLS = {"wall": ("#2f2f2f", 1.5, "wall"), "step": ("#9b9b9b", 1, "step of more than 24 units"),
         "edge": ("#d6d6d6", 0.8, "edge")}
# Lines that act, in the order of their weight.
KINDS = {"exit": "#d6006c", "door": "#1d8a3e", "lift": "#008aa6", "floor": "#8a5a2b", "teleport": "#8e3fc0",
         "halt": "#000000", "light": "#a89a3c"}
ENDS = {"exit": "#d6006c", "halt": "#000000", "end": "#2f2f2f"}
# Things, by their number in the editors, and their colours, by the first word.
THINGS = {5: "blue key", 40: "blue key", 6: "yellow key", 39: "yellow key", 13: "red key", 38: "red key",
          14: "teleport exit"}
COLOURS = {"blue": "#1f57e0", "yellow": "#d9a900", "red": "#d81e1e", "teleport": KINDS["teleport"]}

# The way's colour up to each speed, in map units a tic.
SPEEDS = [(8, "#fdb863", "up to 8 units a tic"), (16.7, "#f4803c", "up to 16.7, a run straight ahead"),
          (21.4, "#d7301f", "up to 21.4, with a strafe of 40"), (math.inf, "#7a0177", "faster, as with a strafe of 50")]


@dataclass(frozen=True)
class Place:
    """Where the player is after a tic, in map units, which way it looks, and how the level was left, if it was."""

    tic: int
    x: float
    y: float
    angle: float
    exit: str


@dataclass(frozen=True)
class Event:
    """Something that happened at a place: `exit`, `halt`, `end`, or a key taken; and what is said of it."""

    place: Place
    kind: str
    text: str


@dataclass(frozen=True)
class Way:
    """The places that a way is drawn through, and what happened on it. They are so many tics apart, or fewer."""

    places: list
    events: list
    every: int


def time_text(tics):
    """A time as runners write it."""
    return f"{tics // SECOND // 60}:{tics / SECOND % 60:05.2f}"


class View:
    """The box of a map that is shown, and where on the picture a place of it lies."""

    def __init__(self, left, bottom, right, top, times):
        """The box of these sides, with a margin, and a least width and height, on so many times the room."""
        margin = 48 + 0.05 * max(right - left, top - bottom)
        across, up = max(LEAST, right - left + 2 * margin), max(LEAST, top - bottom + 2 * margin)
        across, up = max(across, NARROW * up), max(up, FLAT * across)
        self.left, self.top = (left + right - across) / 2, (bottom + top + up) / 2
        self.scale = min(WIDE / across, HIGH / up) * times
        self.width, self.height = round(across * self.scale), round(up * self.scale)

    def at(self, x, y):
        """A place's pixels."""
        return round((x - self.left) * self.scale, 1), round((self.top - y) * self.scale, 1)

    def has(self, line):
        """Whether a line's box meets the view."""
        left, bottom = self.at(*map(min, zip(line.start, line.end)))
        right, top = self.at(*map(max, zip(line.start, line.end)))
        return left <= self.width and right >= 0 and top <= self.height and bottom >= 0

    def holds(self, x, y):
        """Whether a place is in view."""
        across, down = self.at(x, y)
        return 0 <= across <= self.width and 0 <= down <= self.height


def width_of(words, size, bold=False):
    """About the width of words of that size in pixels."""
    return len(words) * size * (0.72 if bold else 0.64)


class Texts:
    """Texts that are put beside what they name, none over another or a symbol, nor over lines where there is room."""

    CELL = 4  # pixels: what is taken is kept as cells of that size
    REACHES = (6, 11, 18, 28)

    def __init__(self, view):
        self.view = view
        self.taken, self.lined = set(), set()

    def cells(self, left, top, right, bottom):
        size = self.CELL
        return {(column, row) for column in range(int(left // size), int(right // size) + 1)
                for row in range(int(top // size), int(bottom // size) + 1)}

    def take(self, x, y, reach):
        """Keeps the square about a symbol free of texts."""
        self.taken |= self.cells(x - reach, y - reach, x + reach, y + reach)

    def take_line(self, start, end):
        """Keeps a line free of texts that have room elsewhere."""
        steps = int(math.dist(start, end) / self.CELL) + 1
        for step in range(steps + 1):
            x, y = (a + (b - a) * step / steps for a, b in zip(start, end))
            self.lined |= self.cells(x - 1, y - 1, x + 1, y + 1)

    def places(self, x, y, wide, tall, towards):
        """Where a box near a place could have its upper left corner, the best first: near, and on this side of it."""
        turns = [math.pi * turn / 8 for turn in range(16)]
        for reach in self.REACHES:
            for turn in sorted(turns, key=lambda turn: math.cos(turn - towards), reverse=True):
                across, down = math.cos(turn), math.sin(turn)
                left, top = x + reach * across + (across - 1) * wide / 2, y + reach * down + (down - 1) * tall / 2
                if 2 < left < self.view.width - wide - 2 and 2 < top < self.view.height - tall - 2:
                    yield left, top

    def put(self, parts, x, y, size, towards=0.0, over_lines=False):
        """A text near a place, rather on this side of it, where it has room, else none. Its parts are pairs of words and
        attributes. It may be one that lies over lines where it has to."""
        wide, tall = sum(width_of(words, size, "bold" in how) for words, how in parts) + 3 * (len(parts) - 1), size * 0.8
        for kept in (self.taken | self.lined, self.taken)[: 1 + over_lines]:
            for left, top in self.places(x, y, wide, tall, towards):
                cells = self.cells(left, top, left + wide, top + tall)
                if not cells & kept:
                    self.taken |= cells
                    spans = "".join(f"<tspan {how}>{escape(words)}</tspan>" for words, how in parts)
                    return f'<text x="{left:.1f}" y="{top + tall:.1f}" font-size="{size}">{spans}</text>'
        return ""


def path(points):
    """The path of a list of pieces, each a list of pixels. A piece that begins where the one before ends goes on."""
    text, last = [], None
    for first, *others in points:
        if first != last:
            text.append(f"M{first[0]:g} {first[1]:g}")
        text += [f"L{x:g} {y:g}" for x, y in others]
        last = others[-1]
    return "".join(text)


def stroke(points, colour, width, more="", title=""):
    """A path of these pieces."""
    end = f"><title>{escape(title)}</title></path>" if title else "/>"
    return f'<path d="{path(points)}" stroke="{colour}" stroke-width="{width}"{more}{end}'


def dot(x, y, radius, fill, line="#ffffff", width=1.2):
    return f'<circle cx="{x:g}" cy="{y:g}" r="{radius}" fill="{fill}" stroke="{line}" stroke-width="{width}"/>'


def thing_symbol(word, colour):
    if word.endswith("key"):
        return f'<path d="M0 -7l7 7l-7 7l-7 -7z" fill="{colour}" stroke="#2f2f2f"/>'
    return dot(0, 0, 5, "none", colour, 2)


def wall_kind(line):
    if line.back_floor is None:
        return "wall"
    return "step" if abs(line.front_floor - line.back_floor) > STEP else "edge"


class Picture:
    """A picture as it grows: what lies on it from the ground up, and what its legend names."""

    def __init__(self, level, demo, way, whole):
        self.level, self.demo, self.way = level, demo, way
        places = [(place.x, place.y) for place in way.places]
        xs, ys = zip(*places, *(end for line in level.lines if whole for end in (line.start, line.end)))
        self.view = View(min(xs), min(ys), max(xs), max(ys), WHOLE if whole else 1)
        self.texts = Texts(self.view)
        self.parts = []
        self.seen = {}  # the special of each number of a line in view
        self.lines = [line for line in level.lines if self.view.has(line)]

    def pixels(self, line):
        return [self.view.at(*line.start), self.view.at(*line.end)]

    def draw_lines(self):
        """Walls, steps and edges, and over them the lines that act."""
        known = specials()
        self.acting = [line for line in self.lines if line.special in known]
        plain = [line for line in self.lines if line.special not in known]
        for kind, (colour, width, _) in reversed(WALLS.items()):
            pieces = [self.pixels(line) for line in plain if wall_kind(line) == kind]
            self.parts.append(stroke(pieces, colour, width) if pieces else "")
        for line in self.acting:
            special = self.seen[line.special] = known[line.special]
            title = f"line {line.number}, special {line.special}: {special.words}; tag {line.tag}"
            dashed = ' stroke-dasharray="5 3"' if special.kind == "halt" else ""
            self.parts.append(stroke([self.pixels(line)], colour_of(special), 2.6, dashed, title))

    def draw_things(self):
        """Keys and the exits of teleporters that are there."""
        self.there = []
        for thing in self.level.things:
            if not self.demo.sees(thing.options) or not self.view.holds(thing.x, thing.y):
                continue
            word = THINGS.get(thing.number)
            if word:
                colour = COLOURS[word.split()[0]]
                x, y = self.view.at(thing.x, thing.y)
                self.parts.append(f'<g transform="translate({x:g} {y:g})">{thing_symbol(word, colour)}</g>')
                self.there.append((word, colour, x, y))

    def draw_way(self):
        """The way, piece by piece of one speed, with a white rim; jumps are dashed."""
        pieces, jumps = [], []
        for before, after in zip(self.way.places, self.way.places[1:]):
            speed = math.dist((before.x, before.y), (after.x, after.y)) / (after.tic - before.tic)
            ends = [self.view.at(before.x, before.y), self.view.at(after.x, after.y)]
            if speed > FARTHEST:
                jumps.append(ends)
            elif ends[0] != ends[1]:
                pieces.append((next(colour for most, colour, _ in SPEEDS if speed <= most), ends))
        self.parts.append(stroke([ends for _, ends in pieces], "#ffffff", 5.5) if pieces else "")
        self.parts.append(stroke(jumps, KINDS["teleport"], 1.6, ' stroke-dasharray="2 4"') if jumps else "")
        for colour, run in runs(pieces):
            self.parts.append(stroke(run, colour, 3))

    def draw_marks(self):
        """The way's marks and what happened on it, and then all texts, the weightiest first."""
        marks = [place for place in self.way.places if place.tic % SECOND == 0 and place.tic]
        for before, after in zip(self.way.places, self.way.places[1:]):
            self.texts.take_line(self.view.at(before.x, before.y), self.view.at(after.x, after.y))
        for _, _, x, y in self.there:
            self.texts.take(x, y, 6)
        for line in self.acting:
            self.texts.take_line(*self.pixels(line))
        for place in marks:
            x, y = self.view.at(place.x, place.y)
            self.texts.take(x, y, 3)
            five = place.tic % (5 * SECOND) == 0
            across, down = 9 * math.cos(place.angle), -9 * math.sin(place.angle)
            self.parts.append(f'<path d="M{x:g} {y:g}l{across:.1f} {down:.1f}" stroke="#2f2f2f" stroke-width="1.2"/>')
            self.parts.append(dot(x, y, 4 if five else 2.6, "#2f2f2f" if five else "#ffffff", "#2f2f2f", 1.2))
        self.draw_start()
        self.draw_events()
        for place in marks:
            if place.tic % (5 * SECOND) == 0:
                seconds = [(f"{place.tic // SECOND} s", 'font-weight="bold" fill="#2f2f2f"')]
                self.parts.append(self.texts.put(seconds, *self.view.at(place.x, place.y), 11))
        taken = {event.kind for event in self.way.events}
        for word, colour, x, y in self.there:
            if word.endswith("key") and word not in taken:
                self.parts.append(self.texts.put([(word, f'fill="{colour}"')], x, y, 11))
        self.draw_numbers()

    def draw_start(self):
        """An arrow where the player starts, along the way that it looks."""
        first = self.way.places[0]
        x, y = self.view.at(first.x, first.y)
        turned = f'transform="translate({x:g} {y:g}) rotate({-math.degrees(first.angle):.1f})"'
        self.parts.append(f'<path d="M11 0L-7 -7L-3 0L-7 7z" {turned} fill="#2fb457" stroke="#2f2f2f"/>')
        self.texts.take(x, y, 8)
        self.parts.append(self.texts.put([("start", 'font-weight="bold" fill="#1d8a3e"')], x, y, 13, over_lines=True))

    def draw_events(self):
        """Keys taken, and the end."""
        for event in self.way.events:
            x, y = self.view.at(event.place.x, event.place.y)
            colour = ENDS.get(event.kind) or COLOURS[event.kind.split()[0]]
            cross = f'<path d="M{x - 4:g} {y - 4:g}l8 8m0 -8l-8 8" stroke="#ffffff" stroke-width="2"/>'
            inner = cross if event.kind == "halt" else dot(x, y, 2.5, "#ffffff", width=0)
            self.parts.append(dot(x, y, 7.5, colour) + inner)
            self.texts.take(x, y, 6)
            words = [(event.text, f'font-weight="bold" fill="{colour}"')]
            self.parts.append(self.texts.put(words, x, y, 13, over_lines=True))

    def draw_numbers(self):
        """The numbers of the lines that act, exits first and lights last, each in front of its line."""
        order = list(KINDS)
        for line in sorted(self.acting, key=lambda line: order.index(self.seen[line.special].kind)):
            special = self.seen[line.special]
            (x1, y1), (x2, y2) = self.pixels(line)
            front = math.atan2(y2 - y1, x2 - x1) + math.pi / 2
            numbers = [(str(line.special), f'font-weight="bold" fill="{colour_of(special)}"'),
                       (str(line.number), 'dx="3" fill="#777777"')]
            self.parts.append(self.texts.put(numbers, (x1 + x2) / 2, (y1 + y2) / 2, 9, front))

    def legend(self, names):
        """The column beside the map."""
        last = self.way.places[-1].tic
        column = Column(self.view.width + 18)
        column.head(f"{self.level.label} of {names[0]}")
        column.words(f"{names[1]}, skill {self.demo.skill + 1}")
        column.words(f"{last} tics, {time_text(last)}" + (f", drawn each {self.way.every}" if self.way.every > 1 else ""))
        column.head("The way")
        for _, colour, words in SPEEDS:
            column.line(colour, 3, words)
        column.line(KINDS["teleport"], 1.6, "teleported", "2 4")
        column.symbol(dot(0, 0, 2.6, "#ffffff", "#2f2f2f"), "a mark each 35 tics, with the view")
        column.symbol(dot(0, 0, 4, "#2f2f2f", "#2f2f2f"), "each fifth of them")
        column.head("The map")
        for colour, width, words in WALLS.values():
            column.line(colour, width, words)
        for word, colour in dict.fromkeys((word, colour) for word, colour, _, _ in self.there):
            column.symbol(thing_symbol(word, colour), word)
        if self.seen:
            column.head("Lines that act")
            column.words("special and line, as in 117 412")
        order = list(KINDS)
        for number, special in sorted(self.seen.items(), key=lambda item: (order.index(item[1].kind), item[0])):
            column.line(colour_of(special), 2.6, f"{number} {special.words}", "5 3" if special.kind == "halt" else "")
        return column

    def draw_bar(self):
        """A length in map units, below on the left."""
        units = 2 ** math.floor(math.log2(140 / self.view.scale))
        wide, y, middle = units * self.view.scale, self.view.height - 14, 'font-size="11" text-anchor="middle"'
        self.texts.taken |= self.texts.cells(8, y - 18, wide + 24, y + 6)
        self.parts += [f'<rect x="8" y="{y - 18}" width="{wide + 16:.1f}" height="24" fill="#f7f5ef"/>',
                       f'<path d="M16 {y - 5}v5h{wide:.1f}v-5" stroke="#2f2f2f" stroke-width="1.4"/>',
                       f'<text x="{16 + wide / 2:.1f}" y="{y - 5}" {middle}>{units} units</text>']


class Column:
    """The rows of a legend, and where its last row and its longest text end."""

    def __init__(self, x):
        self.x, self.y, self.right, self.parts = x, 8, x, []

    def text(self, x, size, words, bold=False):
        more = ' font-weight="bold"' if bold else ""
        self.parts.append(f'<text x="{x}" y="{self.y}" font-size="{size}"{more}>{escape(words)}</text>')
        self.right = max(self.right, x + width_of(words, size, bold))

    def head(self, words):
        self.y += 24
        self.text(self.x, 14, words, True)

    def words(self, words):
        self.y += 17
        self.text(self.x, 11, words)

    def line(self, colour, width, words, dashes=""):
        dashed = f' stroke-dasharray="{dashes}"' if dashes else ""
        self.y += 17
        self.parts.append(f'<path d="M{self.x} {self.y - 4}h24" stroke="{colour}" stroke-width="{width}"{dashed}/>')
        self.text(self.x + 32, 11, words)

    def symbol(self, symbol, words):
        self.y += 17
        self.parts.append(f'<g transform="translate({self.x + 12} {self.y - 4})">{symbol}</g>')
        self.text(self.x + 32, 11, words)


def colour_of(special):
    return COLOURS[special.key] if special.key else KINDS[special.kind]


def runs(pieces):
    """Neighbours of one colour together."""
    joined = []
    for colour, ends in pieces:
        if joined and joined[-1][0] == colour:
            joined[-1][1].append(ends)
        else:
            joined.append((colour, [ends]))
    return joined


def drawn(level, demo, way, names, whole):
    """The picture of a way through a map, as a text. The names are those of the WAD and of the demo."""
    picture = Picture(level, demo, way, whole)
    picture.draw_lines()
    picture.draw_things()
    picture.draw_way()
    picture.draw_bar()
    picture.draw_marks()
    view, legend = picture.view, picture.legend(names)
    width, height = math.ceil(legend.right) + 12, max(view.height, legend.y + 12)
    parts = "\n".join(filter(None, picture.parts))
    return f"""<svg xmlns="http://www.w3.org/2000/svg" viewBox="0 0 {width} {height}" width="{width}" height="{height}">
<title>{escape(names[1])} on {escape(level.label)} of {escape(names[0])}</title>
<style>
text {{ font-family: "DejaVu Sans", Verdana, sans-serif; fill: #2f2f2f }}
.map text {{ paint-order: stroke; stroke: #f7f5ef; stroke-width: 3px; stroke-linejoin: round }}
</style>
<clipPath id="map"><rect width="{view.width}" height="{view.height}"/></clipPath>
<rect width="{width}" height="{height}" fill="#ffffff"/>
<rect width="{view.width}" height="{view.height}" fill="#f7f5ef"/>
<g class="map" clip-path="url(#map)" fill="none" stroke-linecap="round" stroke-linejoin="round">
{parts}
</g>
<g fill="none">{"".join(legend.parts)}</g>
</svg>
"""
