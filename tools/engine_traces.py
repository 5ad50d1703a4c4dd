"""The demos of tools/traces, each with the states that an engine had, for the tools beside it."""

import hashlib
import os
import re
from dataclasses import dataclass

import builder

TRACES = os.path.join(builder.TOP, "tools", "traces")

# The release of the WADs that the traces were made on.
OF_TRACES = {"freedoom1.wad": "84c3a912f2973892a8025d09d65f5053b1ee2304968a5a172526d683a185b885",
             "freedoom2.wad": "c72de2af7e2d0c17f6213e751a167e2f1913278aaf37ae6957854fe3cd6588ca"}


@dataclass(frozen=True)
class Trace:
    """A demo, and the lines that an engine's states make while it plays it. In the file the line that says so stands
    before them."""

    name: str
    wad: str
    map: str
    tics: int
    lines: list

    @classmethod
    def read(cls, name):
        """The trace of a name."""
        with open(os.path.join(TRACES, f"{name}.txt"), encoding="ascii") as file:
            said, *lines = file.read().splitlines()
        wad, label, tics = re.match(r"# WAD MAP: (\S+) (\S+), skill byte \d, (\d+) tics, ", said).groups()
        return cls(name, wad, label, int(tics), lines)

    @property
    def demo(self):
        """The demo's file."""
        return os.path.join(TRACES, f"{self.name}.lmp")

    def script(self):
        """The script whose report the lines are."""
        for line in self.lines:
            what, number, *_ = line.split()
            yield f"seek {number}\nshow\n" if what == "tic" else f"show {what} {number}\n"


def traces():
    """The traces, by name. Each demo has one, and each trace a demo."""
    names = sorted({os.path.splitext(name)[0] for name in os.listdir(TRACES) if name.endswith((".lmp", ".txt"))})
    return [Trace.read(name) for name in names]


def is_of_traces(wad):
    """Whether this is a WAD that the traces were made on."""
    with open(wad, "rb") as file:
        return hashlib.sha256(file.read()).hexdigest() == OF_TRACES.get(os.path.basename(wad))
