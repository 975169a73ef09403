#!/usr/bin/env python3
"""Runs ten drawn regions with a hundred drawn lists of edits each, every time with one worker and with a drawn number of 2 to 8, and
compares what is printed and written.

    scripts/check_workers.py PROGRAM        as crates/av_main/out/av_main

A region is some flat chunks at three places, with holes and stones near the ground, into which water, stone and air are put in ticks 1 to 3.
Entries are due in seven of 16 ticks, and together they are so many that one of these has 256 or more, which several workers turn in
groups.
"""
import os
import random
import sys
from concurrent.futures import ThreadPoolExecutor

sys.dont_write_bytecode = True
from flat_runs import ROWS, WATER, asked, edit, flat

RUNS = 1000
REGIONS = 10
EDITS = 1000
TICKS = 16
TABLE = "version = 3\nmin_section = 3\nsections = 2\n" + ROWS

# In how many of the ticks entries are due, and how many entries are enough for several workers.
DUE_TICKS = 7
MANY = 256


def drawn_region(draw):
    """A region of three places far apart, each of three rows of some chunks, about one of eight of which is not there, and those that are.
    Groups of one place wait for none of another."""
    wide = draw.randrange(2, 6)
    chunks = [(11 * place + x, z) for z in range(3) for place in range(3) for x in range(wide) if draw.randrange(8)]
    ground = [(16 * x + draw.randrange(16), draw.choice((63, 64)), 16 * z + draw.randrange(16)) for x, z in chunks for _ in range(12)]
    blocks = {at: "minecraft:air" if at[1] == 63 else "minecraft:stone" for at in ground}
    return flat(blocks, chunks), chunks


def drawn_edits(draw, chunks):
    """Edits of ticks 1 to 3 near the ground of some chunks, four of five of them sources."""
    lines = []
    for _ in range(EDITS):
        x, z = draw.choice(chunks)
        at = 16 * x + draw.randrange(16), draw.randrange(62, 68), 16 * z + draw.randrange(16)
        state = draw.choice((WATER,) * 8 + ("minecraft:stone", "minecraft:air"))
        lines.append(edit(draw.randrange(1, 4), *at, state))
    return "".join(lines)


def is_same(program, number, region, chunks):
    """Whether a run leaves the same by one worker and by several, and has enough entries for several. Says what differs."""
    draw = random.Random(number)
    edits = drawn_edits(draw, chunks)
    workers = draw.randrange(2, 9)
    alone = asked(program, region, edits, TICKS, workers=1, table=TABLE)
    words = alone[0].split()
    least = DUE_TICKS * (MANY - 1) + 1
    if len(words) != 4 or words[2] != "turns" or int(words[3]) < least:
        print("run %d by one worker: %s, where at least %d turns were to be" % (number, alone[:2], least))
        return False
    shared = asked(program, region, edits, TICKS, workers=workers, table=TABLE)
    if shared != alone:
        print("run %d by %d workers: %s for %s, or another file" % (number, workers, shared[:2], alone[:2]))
        return False
    return True


def main():
    program = os.path.abspath(sys.argv[1])
    regions = [drawn_region(random.Random("region %d" % number)) for number in range(REGIONS)]
    with ThreadPoolExecutor(os.cpu_count()) as pool:
        same = list(pool.map(lambda number: is_same(program, number, *regions[number % REGIONS]), range(RUNS)))
    wrong = same.count(False)
    print("%d asked of numbers of workers, %d wrong" % (len(same), wrong))
    sys.exit(wrong > 0)


if __name__ == "__main__":
    main()
