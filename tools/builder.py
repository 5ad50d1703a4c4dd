"""Finds and runs dsda_build, for the tools beside it.

The program is the one that the environment variable DSDA_BUILD names, and else this checkout's own, which is built where
it is missing.
"""

import os
import subprocess

TOP = os.path.dirname(os.path.dirname(os.path.realpath(__file__)))
PROGRAM = os.environ.get("DSDA_BUILD") or os.path.join(TOP, "dsda_build")


def built():
    """The built program itself, for tools that time it, copy it or load something into it; `run` runs it from then on."""
    global PROGRAM
    if "DSDA_BUILD" not in os.environ:
        run("--version")  # builds it where it is missing
        PROGRAM = os.path.join(TOP, "crates", "dsda_build", "out", "dsda_build")
    PROGRAM = os.path.realpath(PROGRAM)
    return PROGRAM


def run(*words):
    """A run of the program on these words, with its status and both outputs."""
    return subprocess.run([PROGRAM, *words], capture_output=True, text=True, check=False)


def build(wad, tables, demo, script, out):
    """A run of `build`, which carries out a script on a demo."""
    return run("build", wad, tables, demo, script, out)
