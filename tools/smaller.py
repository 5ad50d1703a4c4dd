"""Makes a random level smaller as long as something still holds of it, for tools/check_random."""

from dataclasses import replace

NO_TIC = (0, 0, 0, 0)
SPECIAL_OF_LINE, SPECIAL_OF_SECTOR = 3, 5


def without_pieces(items, can_lose, holds):
    """The items that stay when pieces are left out, ever smaller ones, as long as it holds of the rest."""
    size = len(items)
    while size:
        at = 0
        while at < len(items):
            rest = items[:at] + items[at + size :]
            if all(map(can_lose, items[at : at + size])) and holds(rest):
                items = rest
            else:
                at += size
        size //= 2
    return items


def cleared(records, place, holds):
    """The records with a field of them 0, as long as it holds."""
    for i, record in enumerate(records):
        other = records[:i] + [record[:place] + (0,) + record[place + 1 :]] + records[i + 1 :]
        if record[place] and holds(other):
            records = other
    return records


def without_line(level, line):
    """A level without one of its lines, which is no subsector's; None where it is one's."""
    if any(seg[3] == line for seg in level.segs):
        return None
    segs = [(*seg[:3], seg[3] - (seg[3] > line), *seg[4:]) for seg in level.segs]
    return replace(level, lines=level.lines[:line] + level.lines[line + 1 :], segs=segs)


def without_lines(drawn, holds):
    """A level without the lines that it doesn't need."""
    for line in reversed(range(len(drawn.level.lines))):
        level = without_line(drawn.level, line)
        other = level and replace(drawn, level=level)
        if other and holds(other):
            drawn = other
    return drawn


def smallest(drawn, holds):
    """A level of which it still holds, with less of all."""
    tics = without_pieces(drawn.tics, lambda _: True, lambda tics: holds(replace(drawn, tics=tics)))
    drawn = replace(drawn, tics=tics)
    things = without_pieces(drawn.level.things, lambda thing: thing[3] != 1,
                            lambda things: holds(drawn.with_level(things=things)))
    drawn = drawn.with_level(things=things)
    lines = cleared(drawn.level.lines, SPECIAL_OF_LINE, lambda lines: holds(drawn.with_level(lines=lines)))
    drawn = drawn.with_level(lines=lines)
    sectors = cleared(drawn.level.sectors, SPECIAL_OF_SECTOR, lambda sectors: holds(drawn.with_level(sectors=sectors)))
    drawn = without_lines(drawn.with_level(sectors=sectors), holds)
    for i, tic in enumerate(drawn.tics):
        other = replace(drawn, tics=[*drawn.tics[:i], NO_TIC, *drawn.tics[i + 1 :]])
        if tic != NO_TIC and holds(other):
            drawn = other
    return drawn
