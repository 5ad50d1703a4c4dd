"""What the numbers of lines do, by the tables of docs/PROFILE.md, for the tools beside it."""

import os
import re
from dataclasses import dataclass
from typing import Optional

import builder

@dataclass(frozen=True)
class Special:
    """What a line's number does: its kind (door, lift, floor, light, teleport, exit or halt), in words, and its key."""

    number: int
    kind: str
    words: str
    key: Optional[str] = None


def section(text, heading):
    """The text under a heading, up to the next one."""
    return re.split(r"^#+ ", text.split(f"# {heading}\n", 1)[1], maxsplit=1, flags=re.MULTILINE)[0]


def rows(text):
    """The cells of each row of the tables in a text."""
    lines = [line.strip().strip("|") for line in text.splitlines() if line.startswith("| ")]
    return [[cell.strip() for cell in line.split("|")] for line in lines]


def kind_of(action):
    """The kind of an action, by its words."""
    return next(kind for kind in ("door", "lift", "floor", "teleport", "exit", "light", "strobe") if kind in action)


def numbered(action, how, cell):
    """The specials of a cell of the table of actions."""
    locked = re.fullmatch(r"(.*), by the (\w+) key", action)
    kind = kind_of(action).replace("strobe", "light")
    for number in re.findall(r"\d+", cell):
        yield Special(int(number), kind, f"{action}, {how}", locked and locked[2])


def by_hand(numbers, keys, door):
    """The specials of a row of doors that are opened by hand."""
    for number, key in zip(re.findall(r"\d+", numbers), keys.split(", "), strict=True):
        key = None if key == "none" else key
        yield Special(int(number), "door", f"door {door}, by hand" + (f", {key} key" if key else ""), key)


def specials():
    """Every number that a line acts or halts by."""
    with open(os.path.join(builder.TOP, "docs", "PROFILE.md"), encoding="utf-8") as file:
        text = file.read()
    acting = section(text, "Lines that act")
    head, *actions = rows(acting)
    found = []
    for action, *cells in actions:
        for how, cell in zip(head[1:], cells):
            found += numbered(action, how, cell)
    for numbers, keys, door, *_ in rows(section(text, "Doors that are opened by hand"))[1:]:
        found += by_hand(numbers, keys, door)
    halting = re.search(r"Crossed, these halt[^:]*: ([\d,\s]+)\. Used\s+from the front, these: ([\d,\s]+)\.", acting)
    crossed, used = halting.groups()
    for how, listed in (("crossed", crossed), ("used", used)):
        found += [Special(int(number), "halt", f"halts the replay, {how}") for number in re.findall(r"\d+", listed)]
    return {special.number: special for special in found}
