"""Hostile inputs of dsda_build, each of a size: the files that check_sizes runs it on."""

import struct

import hostile as h

MILLION = 1_000_000
WAD_LIMIT = 268_435_456
GRID = 250  # columns and rows: 62,500 blocks, so that a list behind their places can still be named

PASSED, GIANT, MARKER = 2001, 2003, 14
KINDS = [h.kind(PASSED, 0), h.kind(GIANT, 0, radius=15900), h.kind(MARKER, 0)]
TABLES = h.tables(KINDS)

USE = h.tic() + h.tic(buttons=2)  # a use that is no use yet at the start, since the button counts as held


def level_files(wad, demo=h.demo(), script=b"", tables=TABLES):
    return {"w.wad": wad, "t.ptab": tables, "d.lmp": demo, "s.script": script}


def sparse(head, length):
    """A file that begins so and has zeros up to this length."""
    return [head, length]


def empty_wad(size):
    return level_files(sparse(b"PWAD" + bytes(4) + (12).to_bytes(4, "little"), size))


def wide_directory(size):
    return level_files(sparse(b"PWAD" + size.to_bytes(4, "little") + (12).to_bytes(4, "little"), 12 + 16 * size))


def deep_directory(size):
    return level_files(h.Level().wad(entries_before=size - 11))


def same_lumps(size, things=None):
    """A WAD in which all lumps but NODES, and THINGS where it is given, are the same bytes."""
    entries = [(12, 0, "MAP01")]
    start = 12 + 11 * 16 + 10
    for name in h.LUMPS:
        length = 0 if name in ("NODES", "REJECT") else size - start
        entries.append((start - 10, 10, name) if things and name == "THINGS" else (start, length, name))
    directory = b"".join(struct.pack("<ii8s", at, length, name.encode()) for at, length, name in entries)
    head = b"PWAD" + struct.pack("<ii", 11, 12) + directory + (things or h.PLAYER)
    return head + b"\1\0" * ((size - start) // 2 - 1) + b"\xff\xff"


def many_of_all(size, special):
    """A level with so many lines, sides, vertices, segs, subsectors, nodes, sectors, things and, about, blocks."""
    level = h.Level()
    level.put("VERTEXES", b"".join(h.vertex(i % 255 * 100 - 12700, i // 255 * 100 - 12700) for i in range(size)))
    level.put("SIDEDEFS", b"".join(h.side(i) for i in range(size)))
    level.put("LINEDEFS", b"".join(h.line(i, (i + 1) % size, i, (i + 1) % size) for i in range(size)))
    level.put("SEGS", b"".join(h.seg(i) for i in range(size)))
    level.put("SSECTORS", b"".join(h.subsector(i) for i in range(size)))
    leaves = min(size, 32768)
    level.put("NODES", b"".join(h.node(0, 0, 0, 1, h.SUBSECTOR + i % leaves, h.SUBSECTOR) for i in range(size)))
    level.put("SECTORS", b"".join(h.sector(special=special) for _ in range(size)))
    spots = [(i % 255 * 100 - 12700, i // 255 * 100 - 12700) for i in range(size - 1)]
    level.add("THINGS", b"".join(h.thing(*spot, PASSED) for spot in spots))
    rows = size // 255
    places = [h.END_MARK] * (255 * rows)
    return level.put("BLOCKMAP", h.block_map(255, rows, places, [h.END_MARK] * 65536, -16000, -16000))


def in_one_block(size):
    level = h.walled(h.Level(), size - 4)
    return level.put("BLOCKMAP", h.shared_map(1, 1, range(size), -64, -64))


def at_one_place(size):
    return h.Level().add("THINGS", h.thing(0, 0, PASSED) * (size - 1))


def chain_of_nodes(size, markers=0):
    """As many nodes in a chain as things that are at its end."""
    nodes = [h.node(0, 0, 0, 1, h.SUBSECTOR, h.SUBSECTOR)]
    nodes += [h.node(0, 0, 0, 1, i - 1, i - 1) for i in range(1, size)]
    things = h.thing(0, 0, MARKER if markers else PASSED) * (size - 1)
    return h.Level().put("NODES", b"".join(nodes)).add("THINGS", things)


def round_player(columns, rows, lines):
    """A block map with the player in its middle, whose blocks share a list of these lines."""
    return h.shared_map(columns, rows, lines, -64 * columns, -64 * rows)


def with_switch(level, special, tag=0, open_behind=False):
    """The level with a switch before the player, and a sector behind a line that lies lower than the player's."""
    vertices, sides = len(level.lumps["VERTEXES"]) // 4, len(level.lumps["SIDEDEFS"]) // 30
    sectors = len(level.lumps["SECTORS"]) // 26
    level.add("VERTEXES", h.vertex(40, 64) + h.vertex(40, -64))
    level.add("SIDEDEFS", h.side(0) + h.side(sectors))
    level.add("SECTORS", h.sector(floor=-64))
    switch = len(level.lumps["LINEDEFS"]) // 14
    back = sides if open_behind else h.NO_SIDE
    level.add("LINEDEFS", h.line(vertices, vertices + 1, sides, back, special, tag))
    level.add("LINEDEFS", h.line(0, 1, sides, sides + 1))
    return level, switch


def lowered(level):
    """The level with a switch that lowers the player's sector."""
    level, switch = with_switch(level, 60)
    return level.put("BLOCKMAP", round_player(16, 16, [0, 1, 2, 3, switch]))


def one_sector(size):
    """A sector of so many lines, all of them in the list of each block, with a lift."""
    level, switch = with_switch(h.walled(h.Level(), size - 6), 62)
    return level.put("BLOCKMAP", h.shared_map(16, 16, [*range(switch + 1)], -1024, -1024))


def tagged(size, across=False):
    """So many sectors that one switch lowers, each with a line of its own: at one place, or all across the map."""
    level = h.Level().add("SECTORS", h.sector(tag=1) * size)
    level, switch = with_switch(level, 60, tag=1)
    vertices, sides = len(level.lumps["VERTEXES"]) // 4, len(level.lumps["SIDEDEFS"]) // 30
    level.add("VERTEXES", h.vertex(-15900, -15900) + (h.vertex(15900, 15900) if across else h.vertex(-15800, -15800)))
    level.add("SIDEDEFS", b"".join(h.side(1 + i) for i in range(size)))
    level.add("LINEDEFS", b"".join(h.line(vertices, vertices + 1, sides + i, sides - 1) for i in range(size)))
    return level.put("BLOCKMAP", round_player(GRID, min(size, GRID), [0, 1, 2, 3, switch]))


def giant(size):
    """A thing as wide as half the map in a sector that is lowered. The blocks, in so many rows, share a list of as many
    lines, none of which stops it. The player is out of its reach."""
    level = h.walled(h.Level(), size, x=-15990).add("THINGS", h.thing(-15990, 0, GIANT))
    level, switch = with_switch(level, 60, open_behind=True)
    rows = min(size, GRID)
    return level.put("BLOCKMAP", h.shared_map(255, rows, [switch, *range(4, 4 + size)], -32000, -64 * rows))


def giant_overlapped(size):
    """The same where the blocks' lists begin one word after the other, in as many rows of blocks, and end with one
    word. The last of their lines are those of the room and the switch."""
    level = h.walled(h.Level(), 1, x=-15990).add("THINGS", h.thing(-15990, 0, GIANT))
    level, switch = with_switch(level, 60, open_behind=True)
    columns, rows = 255, min(size, GRID)
    starts = [4 + columns * rows + i for i in range(columns * rows)]
    words = [4] * (columns * rows) + [switch, h.END_MARK]
    return level.put("BLOCKMAP", h.block_map(columns, rows, starts, words, -32000, -64 * rows))


def overlapping(size):
    """Blocks whose lists begin one word after the other and all end with the last word."""
    rows = size // GRID
    level = h.walled(h.Level(), 65531)
    places = [4 + i for i in range(GRID * rows)]
    return level.put("BLOCKMAP", h.block_map(GRID, rows, places, [*range(65535), h.END_MARK], -16000, -16000))


def switched(level_tics):
    """A switch that starts a floor which ends at once, pressed in every other tic."""
    level, switch = with_switch(h.Level().put("SECTORS", h.sector() + h.sector(tag=1)), 60, tag=1)
    level.put("BLOCKMAP", h.shared_map(16, 16, [0, 1, 2, 3, switch]))
    return level_files(level.wad(), h.demo(USE * (level_tics // 2)), b"seek %d\nshow\n" % (level_tics // 2 * 2))


def teleports(exits, tics=200):
    """So many exits at one place under a chain of nodes, and a teleporter that is crossed again and again."""
    level = chain_of_nodes(exits, markers=1)
    level.add("VERTEXES", h.vertex(20, 64) + h.vertex(20, -64)).add("LINEDEFS", h.line(4, 5, 0, 0, special=97))
    level.put("BLOCKMAP", h.shared_map(16, 16, range(5)))
    return level_files(level.wad(), script=b"put 50 0 0 0\nrepeat %d\nshow\n" % (tics - 1))


def long_teleports(size):
    """The same for so many tics, with a thousand exits."""
    return teleports(1000, size)


def play(level, forward=0, count=35):
    """The files of a few tics in a level, the second of which presses use, and the others go forward."""
    tics = USE + h.tic(forward) * (count - 2)
    return level_files(level.wad(), h.demo(tics), b"seek %d\nshow\n" % count)


def glowing(size):
    level = many_of_all(size, 8)
    return level_files(level.wad(), script=b"put 0 0 0 0\nrepeat %d\nshow\n" % (size // 2 - 1))


def shows(size):
    return level_files(h.Level().wad(), h.demo(h.tic() * MILLION), b"seek 1000000\n" + b"show\n" * size)


def seeks(size):
    lines = b"seek 0\nseek %d\n" % (size - 1)
    return {"d.lmp": h.demo(h.tic() * size), "s.script": b"delete\n" + lines * (size // 20)}


def edits_all_over(size):
    """So many tics of a full demo that are deleted, and others that are inserted, each far from the one before."""
    places = [k * 618_034 % (MILLION - 1) for k in range(2 * size)]
    lines = b"".join(b"seek %d\ndelete\nseek %d\ninsert 1 0 0 0\n" % pair for pair in zip(places[::2], places[1::2]))
    return {"d.lmp": h.demo(h.tic() * MILLION), "s.script": lines}


def puts_amid(size):
    """So many tics put in the middle of a full demo, each of which is shown."""
    return level_files(h.Level().wad(), h.demo(h.tic() * MILLION), b"seek 500000\n" + b"put 1 0 0 0\nshow\n" * size)


def ordered(size):
    """Searches of one sequence by two hands, under an order in which the second comes last."""
    files = level_files(h.Level().wad(), script=b"brute 1\nwant exit\ngo\n" * (size // 40))
    return {**files, "o.order": b"0 " * (size // 2 - 1) + b"1 "}


def interleaved(size):
    """The same under an order in which the second hand has the first turn and the last one."""
    return {**ordered(size), "o.order": b"1 " + b"0 " * (size // 2 - 2) + b"1 "}


def long_demo(size):
    return {"d.lmp": h.demo(h.tic(50, 24, 2, 1) * size), "s.script": b""}


def many_kinds(size, again=0):
    """So many kinds, and a thing of each but the last."""
    kinds = [h.kind(10000 + i, 0) for i in range(size)]
    if again:
        kinds[-1] = kinds[0]
    things = b"".join(h.thing(0, 0, 10000 + i) for i in range(size - 1))
    return level_files(h.Level().add("THINGS", things).wad(), tables=h.tables(kinds))


def kinds_twice(size):
    return many_kinds(size, again=1)


def long_turns(size):
    return {"d.lmp": h.demo(b"\1\2\3\4\5" * size, version=111), "s.script": b""}


def footer(size):
    return {"d.lmp": h.demo() + bytes(size), "s.script": b""}


def footer_above(size):
    return footer(size - 14)


def script_of(line):
    """A script of these lines, and of LFs up to the size."""
    def files(size):
        whole = line * (size // len(line))
        return {"d.lmp": h.demo(), "s.script": whole + b"\n" * (size - len(whole))}
    return files


def script_line(size):
    return {"d.lmp": h.demo(), "s.script": b"x" * size}


def order_of(word):
    """An order of these words, and of spaces up to the size."""
    def files(size):
        whole = word * (size // len(word))
        script = b"brute 1\ngo\n"
        return {**level_files(h.Level().wad(), script=script), "o.order": whole + b" " * (size - len(whole))}
    return files


def all_of(size):
    return level_files(many_of_all(size, 0).wad())


def same_level(size):
    return level_files(same_lumps(size))


def same_level_played(size):
    return level_files(same_lumps(size, h.PLAYER), h.demo(h.tic(50) * 5), b"seek 5\nshow\n")


def crowd(size):
    return lowered(at_one_place(size))


def chain(size):
    level = chain_of_nodes(size)
    return level.put("THINGS", h.PLAYER)


def chained(size):
    return level_files(chain_of_nodes(size).wad())


def sharing(size):
    level = h.walled(h.Level(), 65531)
    return level.put("BLOCKMAP", h.shared_map(GRID, size // GRID, range(65535), -16000, -16000))


def tagged_across(size):
    return tagged(size, across=True)


def searches(size):
    return level_files(h.Level().wad(), script=b"brute 1\ngo\n" * size)


def searches_of_all(size):
    """So many searches of one sequence in a level with as many sectors, lines and things."""
    return level_files(many_of_all(size, 0).wad(), script=b"brute 1\ngo\n" * size)


def deep_searches(size):
    return level_files(h.Level().wad(), script=b"brute 35\nwant exit\ngo\n" * size)


def repeats(size):
    """So many times all tics but the first are put anew."""
    return {"d.lmp": h.demo(h.tic()), "s.script": b"seek 1\nrepeat 999999\n" * size}


FIRST = b"brute 5\nrange all turn 0 255\nwant rng = 1\ngo\n"
ABOVE = b"brute 5\nrange all turn 0 255\nrange 1 use 0 1\ngo\n"
TARGETS = b"brute 1\n" + b"want rng = 1\n" * 16 + b"go\n"
TARGETS_ABOVE = b"brute 1\n" + b"want rng = 1\n" * 17 + b"go\n"
SECOND_BLOCK = b"brute 1\nrange 1 forward 0 127\nrange 1 side 0 3\nwant momx > 117856\ngo\n"
ONE_BLOCK = b"brute 1\nrange 1 turn 0 255\nwant x > 30000u\ngo\n"


def search(lines):
    """A script of one size."""
    return lambda size: level_files(h.Level().wad(), script=lines)
