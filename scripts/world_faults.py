"""The statuses of anvilwater-world, and what ends a call of it."""

# All was done; nothing was; other words are needed; the program can't be built; all was done, but for chunks that stay as they were, are left out or
# have a fault; another has the world. A signal's is 128 and its number.
DONE, NOTHING, WORDS, UNBUILT, PARTLY, HELD = range(6)


class Problem(Exception):
    """Why the work ends, in a line."""
    status = NOTHING


class Stuck(Problem):
    """Why what was begun can't be finished."""


class Held(Problem):
    """Who has the world meanwhile. The same call may do later."""
    status = HELD
