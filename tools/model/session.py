"""A session: a demo on its level, a script of edits and shows, and its report."""

from . import NotModelled
from .level import Level
from .start import Refused, started
from .tables import Tables
from .tic import Tic, step

END = 0x80


def signed(byte):
    """A byte as a signed number."""
    return byte - 256 if byte > 127 else byte


class Demo:
    """A demo: skill, episode, map, whether its turns are long, and its tics."""

    def __init__(self, data):
        self.long, self.skill, self.episode, self.map = data[0] == 111, *data[1:4]
        self.tics, size = [], 5 if self.long else 4
        for at in range(13, len(data), size):
            if data[at] == END:
                break
            forward, side, *turn, buttons = data[at : at + size]
            turn = turn[0] | turn[1] << 8 if self.long else turn[0] << 8
            self.tics.append(Tic(signed(forward), signed(side), turn, buttons))


def tic_line(world):
    """The player's line."""
    player, left = world.player, ["", " exit", " secret"][world.exited]
    return (f"tic {world.tics} x {player.x} y {player.y} z {player.z} momx {player.momx} momy {player.momy} "
            f"momz {player.momz} angle {player.angle} rng {world.rng}{left}")


def sector_line(world, number):
    """A sector's line."""
    sector = world.sectors[number]
    return f"sector {number} floor {sector.floor} ceiling {sector.ceiling} light {sector.light}"


def health_line(world):
    """The line of the player's body."""
    body = world.player.body
    return (f"health {body.health} armour {body.armour} type {body.armour_type} suit {body.suit} "
            f"guard {body.guard} react {body.react}")


class Session:
    """A demo on its level, with a cursor among its tics."""

    def __init__(self, lumps, tables, demo):
        demo = Demo(demo)
        self.level, self.tables, self.skill = Level(lumps, demo.episode, demo.map), Tables(tables), demo.skill
        self.tics, self.cursor, self.scale = demo.tics, 0, 1 if demo.long else 256
        self.world, self.played = None, []

    def world_here(self):
        """The world after the tics before the cursor."""
        wanted = self.tics[: self.cursor]
        if self.world is None or self.played != wanted[: len(self.played)]:
            self.world, self.played = started(self.level, self.tables, self.skill), []
        for tic in wanted[len(self.played) :]:
            step(self.world, tic)
        self.played = wanted
        return self.world

    def shown(self, words):
        """What `show` reports."""
        world = self.world_here()
        if world.halted:
            return world.halted
        if not words:
            return tic_line(world)
        if words[0] == "sector":
            return sector_line(world, int(words[1]))
        return f"keys {world.player.keys}" if words[0] == "keys" else health_line(world)

    def tic_of(self, words):
        """A tic in the words of a script."""
        forward, side, turn, buttons = map(int, words)
        return Tic(forward, side, turn * self.scale % 65536, buttons)

    def edit(self, command, words):
        """Carries out an edit."""
        if command == "seek":
            self.cursor = int(words[0])
        elif command == "put":
            self.tics[self.cursor : self.cursor + 1] = [self.tic_of(words)]
            self.cursor += 1
        elif command == "insert":
            self.tics[self.cursor : self.cursor] = [self.tic_of(words)]
            self.cursor += 1
        elif command == "delete":
            del self.tics[self.cursor]
        elif command == "cut":
            del self.tics[self.cursor :]
        elif command == "repeat":
            self.tics[self.cursor : self.cursor] = self.tics[self.cursor - 1 : self.cursor] * int(words[0])
            self.cursor += int(words[0])
        else:
            raise NotModelled(command)

    def carry_out(self, script):
        """The lines of the report of a script."""
        for line in script.splitlines():
            command, *words = line.split() or ["#"]
            if command == "show":
                yield self.shown(words)
            elif not command.startswith("#"):
                self.edit(command, words)


def report(lumps, tables, demo, script):
    """The lines of the report of a session."""
    session = Session(lumps, tables, demo)
    try:
        session.world_here()
    except Refused as refused:
        yield f"refused: {refused}"
        return
    yield from session.carry_out(script)
