"""The ways of doors, lifts and floors, worked out by hand from docs/PROFILE.md, for tools/check_movers.

tools/movers.py says how a row is read. Where a row has no thing but the player, a perpetual lift draws the number 2,
which is even; with one thing more it draws 3.
"""

from movers import BARREL, HANGING, PILLAR, TARGET, Mover, Row
from movers import BLUE, BLUE_SKULL, RED, RED_SKULL, YELLOW, YELLOW_SKULL

DOOR = [(0, 128), (0, 72)]  # a door between these opens to 68
LIFT = [(0, 128), (16, 128), (32, 128)]
FLOOR = [(0, 128), (24, 128), (-16, 112)]
NEXT = [(0, 128), (24, 128), (16, 128)]
FLAT = [(0, 128)]

OPENS_AND_CLOSES = "rises to 68 by 2, waits 150, falls to 0 by 2"  # 220 tics
BLAZES = "rises to 68 by 8, waits 150, falls to 0 by 8"
LIFT_GOES = "falls to 0 by 4, waits 105, rises to 64 by 4"
FAST_LIFT_GOES = "falls to 0 by 8, waits 105, rises to 60 by 8"
LOW_LIFT_GOES = "falls to 0 by 4, waits 105, rises to 16 by 4"  # 115 tics

# Doors that are closed, or as high as 60, as a level starts.
NORMAL = Mover(0, 0, ceiling=OPENS_AND_CLOSES)
OPEN = Mover(0, 0, ceiling="rises to 68 by 2")
BLAZE_OPEN = Mover(0, 0, ceiling="rises to 68 by 8")
STAYS_CLOSED = Mover(0, 0, ceiling="waits 20")
LOW_LIFT = Mover(16, 128, floor=LOW_LIFT_GOES)
RAISED = Mover(0, 128, floor="rises to 24 by 1")

DOORS = [
    Row("door normal", "W1 4, WR 90, S1 29, SR 63, DR 1", DOOR, NORMAL, again=OPENS_AND_CLOSES),
    Row("door open", "W1 2, WR 86, S1 103, SR 61, D1 31", DOOR, OPEN),
    Row("door close", "W1 3, WR 75, S1 50, SR 42", DOOR, Mover(0, 60, ceiling="falls to 0 by 2")),
    Row("door close for 30 seconds, and up to where it was", "W1 16, WR 76", DOOR,
        Mover(0, 60, ceiling="falls to 0 by 2, waits 1050, rises to 60 by 2"), again="falls to 0 by 2"),
    Row("door blazing", "W1 108, WR 105, S1 111, SR 114, DR 117", DOOR, Mover(0, 0, ceiling=BLAZES), again=BLAZES),
    Row("door blazing open", "W1 109, WR 106, S1 112, SR 115, D1 118", DOOR, BLAZE_OPEN),
    Row("door blazing close", "W1 110, WR 107, S1 113, SR 116", DOOR, Mover(0, 60, ceiling="falls to 0 by 8")),
    Row("door that closes after 30 seconds of the level", "", DOOR,
        Mover(0, 60, special=10, ceiling="waits 1050, falls to 0 by 2")),
    Row("door that opens after five minutes of the level", "", DOOR,
        Mover(0, 0, special=14, ceiling="waits 10500, " + OPENS_AND_CLOSES)),
    Row("door open that has ended, and another one", "", DOOR, lines=(86, 75), acts=((1, "step"), (41, "step")),
        mover=Mover(0, 0, ceiling="rises to 68 by 2, waits 5, falls to 0 by 2")),
    Row("door blazing open that has ended, and another one", "", DOOR, lines=(106, 75),
        acts=((1, "step"), (41, "step")), mover=Mover(0, 0, ceiling="rises to 68 by 8, waits 31, falls to 0 by 2")),
    Row("door close that has ended, and another one", "", DOOR, lines=(75, 86), acts=((1, "step"), (41, "step")),
        mover=Mover(0, 60, ceiling="falls to 0 by 2, waits 9, rises to 68 by 2")),
    Row("door blazing close that has ended, and another one", "", DOOR, lines=(107, 86),
        acts=((1, "step"), (41, "step")), mover=Mover(0, 60, ceiling="falls to 0 by 8, waits 32, rises to 68 by 2")),
    Row("door up to below the lowest of five ceilings", "WR 86", [(0, 128), (0, 96), (0, 200), (-8, 52), (0, 300)],
        Mover(0, 0, ceiling="rises to 48 by 2")),
    Row("door whose ceiling is above its top", "WR 90", DOOR,
        Mover(0, 100, ceiling="jumps to 68, waits 150, falls to 0 by 2")),
    Row("door onto a high floor, by an odd way", "WR 75", DOOR, Mover(9, 40, ceiling="falls to 9 by 2")),
    Row("door without neighbours", "W1 2", DOOR, Mover(0, 32760, ceiling="rises to 2147221503/65536 by 2"),
        alone=True),
    Row("door without neighbours, whose next place wraps", "W1 2", DOOR, alone=True,
        mover=Mover(0, 32767, ceiling="jumps to -32767, rises to -32707 by 2 and is turned, and so on")),
]

LOCKED = [
    Row("door by hand with the blue key", "DR 26", DOOR, NORMAL, again=OPENS_AND_CLOSES, key=BLUE),
    Row("door by hand with the yellow key", "DR 27", DOOR, NORMAL, key=YELLOW),
    Row("door by hand with the red key", "DR 28", DOOR, NORMAL, key=RED),
    Row("door open by hand with the blue key", "D1 32", DOOR, OPEN, key=BLUE_SKULL),
    Row("door open by hand with the yellow key", "D1 34", DOOR, OPEN, key=YELLOW_SKULL),
    Row("door open by hand with the red key", "D1 33", DOOR, OPEN, key=RED_SKULL),
    Row("door blazing open with the blue key", "S1 133, SR 99", DOOR, BLAZE_OPEN, key=BLUE),
    Row("door blazing open with the red key", "S1 135, SR 134", DOOR, BLAZE_OPEN, key=RED),
    Row("door blazing open with the yellow key", "S1 137, SR 136", DOOR, BLAZE_OPEN, key=YELLOW),
    Row("door that needs another key than the blue one", "DR 27, DR 28, D1 33, D1 34, S1 135, SR 134, S1 137, SR 136",
        DOOR, STAYS_CLOSED, key=BLUE),
    Row("door that needs another key than the red one", "DR 26, D1 32, S1 133, SR 99", DOOR, STAYS_CLOSED, key=RED),
    Row("door that needs a key, without one", "DR 26, DR 27, DR 28, D1 32, D1 33, D1 34", DOOR, STAYS_CLOSED),
    Row("switch once without its key keeps its number", "", DOOR, Mover(0, 0, ceiling="waits 9, rises to 68 by 8"),
        switch=133, key=BLUE, acts=((2, "use"), (5, "nudge"), (10, "use"))),
    Row("door by hand in a wall, without its key", "", DOOR, Mover(0, 0, ceiling="waits 9"), switch=26,
        acts=((2, "use"),)),
    Row("door by hand in a wall, with its key", "", DOOR, Mover(0, 0, ceiling="waits 9"), switch=26, key=BLUE,
        acts=((1, "nudge"), (10, "use")), halt="noback SWITCH"),
    Row("door open by hand in a wall", "", DOOR, Mover(0, 0, ceiling="waits 1"), switch=31, acts=((2, "use"),),
        halt="noback SWITCH"),
]

TURNED = [
    Row("door by hand, turned twice on its way", "", DOOR, hand=1, acts=((2, "use"), (12, "use"), (20, "use")),
        mover=Mover(0, 0, ceiling="waits 1, rises to 20 by 2 and is turned, falls to 4 by 2 and is turned, "
                                  + OPENS_AND_CLOSES)),
    Row("door by hand, turned while it waits", "", DOOR, hand=1, acts=((2, "use"), (50, "use")),
        mover=Mover(0, 0, ceiling="waits 1, rises to 68 by 2, waits 13, falls to 0 by 2")),
    Row("door blazing by hand, turned on its way", "", DOOR, hand=117, acts=((2, "use"), (6, "use")),
        mover=Mover(0, 0, ceiling="waits 1, rises to 32 by 8 and is turned, falls to 0 by 8")),
    Row("door open by hand, used again", "", DOOR, hand=31, acts=((2, "use"), (12, "use")),
        mover=Mover(0, 0, ceiling="waits 1, rises to 68 by 2")),
    Row("door open, turned by hand, stays at the bottom", "", DOOR, lines=(86,), hand=1,
        acts=((1, "step"), (11, "use"), (61, "use")),
        mover=Mover(0, 0, ceiling="rises to 20 by 2 and is turned, falls to 0 by 2, waits 39, rises to 68 by 2, "
                                  "waits 200")),
    Row("door close, turned by hand, stays at the top", "", DOOR, lines=(75,), hand=1,
        acts=((1, "step"), (11, "use"), (61, "use")),
        mover=Mover(0, 60, ceiling="falls to 40 by 2 and is turned, rises to 68 by 2, waits 35, falls to 0 by 2")),
    Row("door close for 30 seconds, turned by hand at the bottom, waits anew", "", DOOR, lines=(76,), hand=26, key=BLUE,
        acts=((1, "step"), (31, "use")),
        mover=Mover(0, 20, ceiling="falls to 0 by 2, waits 20, waits 1050, rises to 20 by 2")),
    Row("door that opens after five minutes, turned by hand", "", DOOR, hand=1,
        acts=((2, "use"), (12, "use"), (280, "use")),
        mover=Mover(0, 0, special=14, ceiling="waits 11, rises to 68 by 2, waits 233, falls to 0 by 2")),
    Row("door that opens after five minutes, turned by hand onto a barrel", "", DOOR, hand=1,
        acts=((2, "use"), (12, "use"), (80, "use")),
        mover=Mover(0, 0, special=14, thing=BARREL, ceiling="waits 11, rises to 68 by 2, waits 33, "
                                                            "falls to 42 by 2 and is blocked, rises to 68 by 2")),
    Row("door that closes after 30 seconds, turned by hand twice", "", DOOR, hand=1, acts=((2, "use"), (12, "use")),
        mover=Mover(0, 60, special=10, ceiling="waits 1, falls to 40 by 2 and is turned"), halt="unset"),
    Row("door open by hand, made beside a door", "", DOOR, lines=(90,), hand=31, acts=((1, "step"), (11, "use")),
        mover=Mover(0, 0, ceiling="rises to 20 by 2 and is turned, rises to 68 by 4, waits 150, falls to 0 by 2")),
    Row("door of a sector that the end of an older one has freed", "", DOOR, lines=(107, 90), hand=31,
        acts=((1, "step"), (2, "use"), (21, "step")),
        mover=Mover(0, 60, ceiling="falls to 52 by 8 and is turned, falls to 4 by 6 and is turned, jumps to 2, "
                                   "rises to 22 by 2 and is turned, rises to 66 by 4 and is turned, jumps to 68, "
                                   "waits 150, falls to 0 by 2")),
    Row("door of a sector that the end of a newer one has freed", "", DOOR, lines=(90,), hand=31,
        acts=((1, "step"), (11, "use"), (40, "return")),
        mover=Mover(0, 0, ceiling="rises to 20 by 2 and is turned, rises to 68 by 4, waits 150, "
                                  "falls to 34 by 2 and is turned, falls to 2 by 4 and is turned, jumps to 0")),
    Row("door by hand of a lift", "", LIFT, lines=(88,), hand=1, acts=((1, "step"), (11, "use")),
        mover=Mover(64, 128, floor="falls to 24 by 4 and is turned"), halt="mover"),
    Row("door open by hand of a floor", "", LIFT, lines=(82,), hand=118, acts=((1, "step"), (11, "use")),
        mover=Mover(64, 128, floor="falls to 54 by 1 and is turned"), halt="mover"),
]

DOORS_ON_THINGS = [
    Row("door normal on a barrel", "WR 90, DR 1", DOOR,
        Mover(0, 0, thing=BARREL, ceiling="rises to 68 by 2, waits 150, falls to 42 by 2 and is blocked, "
                                          "rises to 68 by 2, waits 150, falls to 42 by 2 and is blocked, and so on")),
    Row("door blazing on a barrel", "WR 105, DR 117", DOOR,
        Mover(0, 0, thing=BARREL, ceiling="rises to 68 by 8, waits 150, falls to 44 by 8 and is blocked, "
                                          "rises to 68 by 8, waits 150, and so on")),
    Row("door close on a barrel", "WR 75", DOOR,
        Mover(0, 60, thing=BARREL, ceiling="falls to 42 by 2 and is blocked, waits 20")),
    Row("door blazing close on a barrel", "WR 107", DOOR,
        Mover(0, 60, thing=BARREL, ceiling="falls to 44 by 8 and is blocked, waits 20")),
    Row("door close for 30 seconds on a barrel", "WR 76", DOOR,
        Mover(0, 60, thing=BARREL, ceiling="falls to 42 by 2 and is blocked, rises to 60 by 2"),
        again="falls to 42 by 2 and is blocked, rises to 60 by 2"),
    Row("door open, turned by hand onto a barrel", "", DOOR, lines=(86,), hand=1, acts=((1, "step"), (30, "use")),
        mover=Mover(0, 0, thing=BARREL, ceiling="rises to 58 by 2 and is turned, falls to 42 by 2 and is blocked, "
                                                "rises to 68 by 2")),
    Row("door blazing open, turned by hand onto a barrel", "", DOOR, lines=(106,), hand=1,
        acts=((1, "step"), (8, "use")),
        mover=Mover(0, 0, thing=BARREL, ceiling="rises to 56 by 8 and is turned, falls to 48 by 8 and is blocked, "
                                                "rises to 68 by 8")),
    Row("door close on a barrel, turned by hand twice", "", DOOR, lines=(75,), hand=1,
        acts=((1, "step"), (20, "use"), (60, "use")),
        mover=Mover(0, 60, thing=BARREL, ceiling="falls to 42 by 2 and is blocked, waits 9, rises to 68 by 2, "
                                                 "waits 26, falls to 42 by 2 and is blocked")),
    Row("door that closes after 30 seconds, on a barrel", "", DOOR, halt="unset",
        mover=Mover(0, 100, special=10, thing=BARREL, ceiling="waits 1050, falls to 42 by 2 and is blocked")),
    Row("door close on what is not solid, but can be hurt", "WR 75", DOOR,
        Mover(0, 60, thing=TARGET, ceiling="falls to 42 by 2 and is blocked")),
    Row("door close on what is solid, but can't be hurt", "WR 75", DOOR,
        Mover(0, 60, thing=PILLAR, ceiling="falls to 0 by 2")),
    Row("door close on what hangs", "WR 75", DOOR,
        Mover(0, 60, thing=HANGING, ceiling="falls to 20 by 2 and is blocked")),
    Row("door that goes back from its top, over a barrel", "WR 90", [(0, 128), (0, 43)],
        Mover(0, 0, thing=BARREL, ceiling="rises to 38 by 2 and goes back, waits 400")),
    Row("door close on the player", "S1 50", [(0, 72)], inside=True, feet="waits 60",
        mover=Mover(0, 128, ceiling="falls to 56 by 2 and is blocked, waits 20")),
    Row("door normal on the player", "S1 29", [(0, 72)], inside=True, feet="waits 60",
        mover=Mover(0, 128, ceiling="jumps to 68, waits 150, falls to 56 by 2 and is blocked, rises to 68 by 2, "
                                    "waits 150, falls to 56 by 2 and is blocked, and so on")),
    Row("door blazing close on the player, who falls, pushes it down", "", [(24, 200)], inside=True, x=40, lines=(110,),
        acts=((1, "step"), *((tic, "west") for tic in range(13, 16))),
        feet="jumps to 24, waits 14, jumps to 16, jumps to 8, jumps to 0",
        mover=Mover(0, 200, ceiling="falls to 56 by 8 and is blocked, waits 20")),
    Row("door close on the player, who goes away", "", DOOR, lines=(75,), x=60,
        acts=((1, "step"), *((tic, "west") for tic in range(60, 66))),
        mover=Mover(0, 60, ceiling="falls to 56 by 2 and is blocked, waits 61, falls to 0 by 2")),
]

LIFTS = [
    Row("lift down, wait and up", "W1 10, WR 88, S1 21, SR 62", LIFT, Mover(64, 128, floor=LIFT_GOES), again=LIFT_GOES),
    Row("lift blazing", "W1 121, WR 120, S1 122, SR 123", LIFT, Mover(60, 128, floor=FAST_LIFT_GOES),
        again=FAST_LIFT_GOES),
    Row("lift perpetual, up by an even number", "W1 53, WR 87", LIFT,
        Mover(8, 128, floor="rises to 32 by 1, waits 105, falls to 0 by 1, waits 105, rises to 32 by 1, waits 105, "
                            "and so on")),
    Row("lift perpetual, down by an odd number", "W1 53, WR 87", LIFT,
        Mover(8, 128, thing=PILLAR, floor="falls to 0 by 1, waits 105, rises to 32 by 1, waits 105, falls to 0 by 1, "
                                          "and so on")),
    Row("lift perpetual above its neighbours", "WR 87", LIFT,
        Mover(40, 128, floor="waits 1, waits 105, falls to 0 by 1, waits 105, rises to 40 by 1, and so on")),
    Row("lift raise to next", "W1 22, WR 95, S1 20, SR 68", NEXT, Mover(0, 128, floor="rises to 16 by 0.5"),
        again="rises to 24 by 0.5"),
    Row("lift raise by 24", "S1 15, SR 66", LIFT, Mover(0, 128, floor="rises to 24 by 0.5"),
        again="rises to 48 by 0.5"),
    Row("lift raise by 32", "S1 14, SR 67", LIFT, Mover(0, 128, floor="rises to 32 by 0.5"),
        again="rises to 64 by 0.5"),
    Row("lift raise to next takes its sector's special, which would halt the player on it", "", [(0, 128), (8, 128)],
        Mover(0, 128, special=6, floor="rises to 8 by 0.5"), lines=(22,), feet="waits 37, jumps to 8, waits 20",
        acts=((1, "step"), *((tic, "east") for tic in range(30, 34)))),
    Row("lift perpetual, stopped on its way and woken", "", LIFT, lines=(87, 89, 87),
        acts=((1, "step"), (11, "step"), (31, "step")),
        mover=Mover(8, 128, floor="rises to 18 by 1 and is stopped, waits 20, rises to 32 by 1, waits 105, "
                                  "falls to 0 by 1, and so on")),
    Row("lift perpetual, stopped twice and woken", "", LIFT, lines=(87, 89, 89, 87),
        acts=((1, "step"), (11, "step"), (21, "step"), (31, "step")),
        mover=Mover(8, 128, floor="rises to 18 by 1 and is stopped, waits 20, rises to 32 by 1, waits 105, "
                                  "and so on")),
    Row("lift perpetual, stopped and woken by lines that act once", "", LIFT, lines=(53, 54, 53),
        acts=((1, "step"), (11, "step"), (31, "step")),
        mover=Mover(8, 128, floor="rises to 18 by 1 and is stopped, waits 20, rises to 32 by 1, waits 105, "
                                  "and so on")),
    Row("lift perpetual, stopped in its wait, keeps its count", "", LIFT, lines=(87, 89, 87),
        acts=((1, "step"), (35, "step"), (65, "step")),
        mover=Mover(8, 128, floor="rises to 32 by 1, waits 135, falls to 0 by 1, and so on")),
    Row("lift down, stopped, and woken by a perpetual start", "", LIFT, lines=(88, 89, 87),
        acts=((1, "step"), (11, "step"), (31, "step")),
        mover=Mover(64, 128, floor="falls to 24 by 4 and is stopped, waits 20, " + LIFT_GOES)),
    Row("lift that is stopped is busy", "", LIFT, lines=(87, 89, 88), acts=((1, "step"), (11, "step"), (31, "step")),
        mover=Mover(8, 128, floor="rises to 18 by 1 and is stopped, waits 60")),
]

LIFTS_WITH_THINGS = [
    Row("lift perpetual under a ceiling, with a barrel", "WR 87", LIFT,
        Mover(8, 70, thing=BARREL, floor="falls to 0 by 1, waits 105, rises to 28 by 1 and is blocked, "
                                         "falls to 0 by 1, waits 105, and so on")),
    Row("lift down, wait and up under a ceiling, with the player, who came", "", LIFT, lines=(10,), x=28,
        acts=((1, "step"), *((tic, "east") for tic in range(40, 43))),
        mover=Mover(64, 110, floor="falls to 0 by 4, waits 105, rises to 52 by 4 and is blocked, falls to 0 by 4, "
                                   "waits 105, rises to 52 by 4 and is blocked, and so on"),
        feet="waits 122, rises to 52 by 4 and is blocked, falls to 0 by 4, "
             "waits 105, rises to 52 by 4 and is blocked, and so on"),
    Row("lift blazing from where a barrel does not fit", "WR 120", LIFT,
        Mover(64, 100, thing=BARREL, floor="falls to 0 by 8, waits 105, rises to 56 by 8 and is blocked, "
                                           "falls to 0 by 8, waits 105, and so on")),
    Row("lift down from where a barrel does not fit stays", "WR 88", LIFT,
        Mover(64, 100, thing=BARREL, floor="waits 300")),
    Row("lift down beside the player, who does not fit above it and goes away", "", [(40, 200), (0, 200)], switch=62,
        x=33, acts=((2, "use"), (20, "west")), mover=Mover(64, 110, floor="waits 19, " + LIFT_GOES)),
    Row("lift blazing that goes back from its upper end, and ends", "WR 120", LIFT,
        Mover(62, 100, thing=BARREL, floor="falls to 0 by 8, waits 105, rises to 56 by 8 and goes back"),
        again="falls to 0 by 8, waits 105, rises to 56 by 8"),
    Row("lift raise by 24 under a ceiling, with a barrel", "S1 15, SR 66", LIFT, halt="unset",
        mover=Mover(0, 60, thing=BARREL, floor="rises to 18 by 0.5 and is blocked")),
    Row("lift raise by 32 under a ceiling, with a barrel", "S1 14", LIFT, halt="unset",
        mover=Mover(0, 60, thing=BARREL, floor="rises to 18 by 0.5 and is blocked")),
    Row("lift raise to next under a ceiling, with a barrel", "W1 22, SR 68", [(0, 128), (24, 128)], halt="unset",
        mover=Mover(0, 60, thing=BARREL, floor="rises to 18 by 0.5 and is blocked")),
    Row("lift down, wait and up under the player", "S1 21", FLAT, Mover(64, 192, floor=LIFT_GOES), inside=True,
        feet=LIFT_GOES),
    Row("lift blazing under the player", "S1 122", FLAT, Mover(60, 192, floor=FAST_LIFT_GOES), inside=True,
        feet=FAST_LIFT_GOES),
    Row("lift beside the player, who stands on its edge", "WR 88", [(64, 192), (0, 128)],
        Mover(64, 192, floor=LIFT_GOES), x=40, feet="waits 1"),
]

FLOORS = [
    Row("floor lower to highest", "W1 19, WR 83, S1 102, SR 45", FLOOR, Mover(64, 128, floor="falls to 24 by 1")),
    Row("floor lower to highest, at least -500", "WR 83", [(-600, -400), (-700, -400)],
        Mover(-480, -300, floor="falls to -500 by 1")),
    Row("floor lower to highest from below it", "WR 83", [(0, 128), (40, 128)], Mover(0, 128, floor="jumps to 40")),
    Row("floor lower to lowest", "W1 38, WR 82, S1 23, SR 60", FLOOR, Mover(64, 128, floor="falls to -16 by 1")),
    Row("floor lower to lowest that is the lowest", "WR 82", FLOOR, Mover(-40, 128, floor="waits 20")),
    Row("floor turbo lower, to 8 above the highest", "W1 36, WR 98, S1 71, SR 70", FLOOR,
        Mover(62, 128, floor="falls to 32 by 4"), again="waits 20"),
    Row("floor turbo lower that is as high as the highest", "WR 98", FLOOR, Mover(24, 128, floor="waits 20")),
    Row("floor turbo lower from less than 8 above the highest", "WR 98", FLOOR, Mover(28, 128, floor="jumps to 32")),
    Row("floor raise to ceiling", "W1 5, WR 91, S1 101, SR 64", [(0, 128), (0, 72), (0, 40)],
        Mover(0, 64, floor="rises to 40 by 1")),
    Row("floor raise to ceiling, at most its own", "WR 91", DOOR, Mover(0, 32, floor="rises to 32 by 1")),
    Row("floor raise to ceiling without neighbours", "WR 91", DOOR, Mover(0, 32, floor="rises to 32 by 1"), alone=True),
    Row("floor raise by 24", "W1 58, WR 92", FLOOR, RAISED, again="rises to 48 by 1"),
    Row("floor raise to next", "W1 119, WR 128, S1 18, SR 69", NEXT, Mover(0, 128, floor="rises to 16 by 1"),
        again="rises to 24 by 1"),
    Row("floor turbo raise to next", "W1 130, WR 129, S1 131, SR 132", [*NEXT, (10, 128)],
        Mover(0, 128, floor="rises to 10 by 4"), again="rises to 16 by 4"),
    Row("floor raise to next that is the highest", "WR 128", NEXT, Mover(30, 128, floor="waits 20")),
    Row("floor raise to next, of those above it the twentieth", "WR 128",
        [(0, 200), (0, 200), (-8, 200), *((52 - i, 200) for i in range(19)), (4, 200)],
        Mover(0, 200, floor="rises to 4 by 1")),
    Row("floor raise to next, of those above it not the 21st", "WR 128",
        [(0, 200), (0, 200), (-8, 200), *((52 - i, 200) for i in range(20)), (4, 200)],
        Mover(0, 200, floor="rises to 33 by 1")),
    Row("floor lower to lowest whose next place wraps", "W1 38", DOOR,
        Mover(-32768, 0, floor="jumps to 32767, falls to 32737 by 1 and is turned, and so on")),
]

FLOORS_WITH_THINGS = [
    Row("floor raise by 24 under a ceiling, with a barrel, is busy", "", FLOOR, lines=(92, 82),
        acts=((1, "step"), (41, "step")),
        mover=Mover(0, 60, thing=BARREL, floor="rises to 18 by 1 and is blocked, waits 60")),
    Row("floor raise to ceiling with a barrel", "WR 91", FLOOR,
        Mover(0, 100, thing=BARREL, floor="rises to 58 by 1 and is blocked"), again="waits 20"),
    Row("floor raise to ceiling with what can't be hurt", "WR 91", FLOOR,
        Mover(0, 100, thing=PILLAR, floor="rises to 100 by 1")),
    Row("floor turbo raise to next with a barrel", "WR 129", NEXT,
        Mover(0, 50, thing=BARREL, floor="rises to 8 by 4 and is blocked"), again="waits 20"),
    Row("floor turbo raise to next that goes back from its end, and ends", "", [(0, 128), (10, 128)], lines=(129, 82),
        acts=((1, "step"), (11, "step")),
        mover=Mover(0, 51, thing=BARREL, floor="rises to 8 by 4 and goes back, waits 7, falls to 0 by 1")),
    Row("floor lower to highest from below it, where a barrel does not fit", "WR 83", [(0, 128), (40, 128)],
        Mover(0, 60, thing=BARREL, floor="waits 20")),
    Row("floor lower to lowest from where a barrel does not fit stays", "WR 82", FLOOR,
        Mover(64, 100, thing=BARREL, floor="waits 60")),
    Row("floor turbo lower from where a barrel does not fit", "WR 98", FLOOR,
        Mover(64, 104, thing=BARREL, floor="falls to 32 by 4")),
    Row("floor raise to ceiling with the player on it", "S1 101, SR 64", FLAT, inside=True, feet="rises to 44 by 1",
        mover=Mover(0, 100, floor="rises to 44 by 1 and is blocked, waits 20")),
    Row("floor lower to lowest with the player on it", "S1 23, SR 60", FLAT, Mover(64, 192, floor="falls to 0 by 1"),
        inside=True, feet="falls to 0 by 1"),
    Row("floor turbo lower with the player on it", "S1 71, SR 70", FLAT, Mover(64, 192, floor="falls to 8 by 4"),
        inside=True, feet="falls to 8 by 4"),
    Row("floor raise by 24 under the edge of the player", "WR 92", FLOOR, RAISED, x=40, feet="rises to 24 by 1"),
    Row("floor raise to ceiling under the edge of the player, who goes away", "", [(0, 128), (0, 100)], lines=(5,),
        x=40, acts=((1, "step"), *((tic, "west") for tic in range(100, 103))),
        mover=Mover(0, 128, floor="rises to 72 by 1 and is blocked, waits 28, rises to 100 by 1")),
]

STARTS = [
    Row("line whose tag no sector has", "", DOOR, STAYS_CLOSED, lines=((90, 8),), acts=((1, "step"),)),
    Row("doors of one tag, one of them busy", "", DOOR, lines=(90,), hand=1, acts=((2, "use"), (12, "step")),
        mover=Mover(0, 0, ceiling="waits 1, " + OPENS_AND_CLOSES),
        more=(Mover(0, 0, ceiling="waits 11, " + OPENS_AND_CLOSES),)),
    Row("switch once whose sector is busy keeps its number", "", DOOR, lines=(90,), switch=29,
        acts=((1, "step"), (10, "use"), (230, "use")),
        mover=Mover(0, 0, ceiling=f"{OPENS_AND_CLOSES}, waits 9, {OPENS_AND_CLOSES}")),
    Row("line once whose sector is busy loses its number", "", DOOR, lines=(90, 4),
        acts=((1, "step"), (10, "step"), (230, "return")), mover=Mover(0, 0, ceiling=f"{OPENS_AND_CLOSES}, waits 60")),
    Row("line again whose sector is busy, and later is not", "", DOOR, lines=(90, 90),
        acts=((1, "step"), (10, "step"), (230, "return")),
        mover=Mover(0, 0, ceiling=f"{OPENS_AND_CLOSES}, waits 9, {OPENS_AND_CLOSES}")),
    Row("door of a sector whose floor is on its way, and later is not", "", DOOR, lines=(92, 90),
        acts=((1, "step"), (5, "step"), (40, "return")),
        mover=Mover(0, 60, floor="rises to 24 by 1",
                    ceiling="waits 39, rises to 68 by 2, waits 150, falls to 24 by 2")),
    Row("line of tag 0 starts all sectors of tag 0", "WR 92", [(0, 128), (0, 128), (0, 128)],
        Mover(0, 128, tag=0, floor="rises to 24 by 1"), again="rises to 48 by 1",
        feet="rises to 24 by 1, waits 3, rises to 48 by 1"),
    Row("floors of one tag, each by its own neighbours", "WR 98", FLOOR, Mover(62, 128, floor="falls to 32 by 4"),
        more=(Mover(100, 200, floor="falls to 32 by 4"), Mover(40, 200, floor="falls to 8 by 4"))),
    Row("30 lifts", "WR 88", FLAT, LOW_LIFT, again="falls to 0 by 4", more=(LOW_LIFT,) * 29),
    Row("31 lifts", "W1 10, WR 88, S1 21, SR 62, WR 120, WR 87", FLAT, Mover(16, 128), more=(Mover(16, 128),) * 30,
        halt="lifts"),
    Row("31 floors", "WR 92", FLAT, RAISED, more=(RAISED,) * 30),
    Row("30 lifts that are stopped, and one more", "", FLAT, lines=(87, 89, (88, 8)),
        acts=((1, "step"), (11, "step"), (21, "step")), mover=Mover(16, 128, floor="waits 20"), halt="lifts",
        more=(*(Mover(16, 128, floor="falls to 6 by 1 and is stopped" if i % 2 else "") for i in range(1, 30)),
              Mover(16, 128, tag=8))),
    Row("30 lifts that have ended, and one more", "", FLAT, LOW_LIFT, lines=(88, (88, 8)),
        acts=((1, "step"), (120, "step")),
        more=(*(LOW_LIFT,) * 29, Mover(16, 128, tag=8, floor="waits 119, falls to 0 by 4"))),
]

GROUPS = {"doors": DOORS, "doors with locks and in walls": LOCKED, "doors that are turned by hand": TURNED,
          "doors with something in the way": DOORS_ON_THINGS, "lifts": LIFTS,
          "lifts with something in the way": LIFTS_WITH_THINGS, "floors": FLOORS,
          "floors with something in the way": FLOORS_WITH_THINGS, "starts": STARTS}
