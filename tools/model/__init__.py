"""A second program that plays by the rules of docs/PROFILE.md, for tools/check_random.

It was written from the rules alone, apart from the crates, in the plainest form: one object for each sector, thing and
mover, and no copies. It reads files that are in order; what it can't do it says by `NotModelled`.
"""


class NotModelled(Exception):
    """Something that this program can't do."""
