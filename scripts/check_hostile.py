#!/usr/bin/env python3
"""Runs small worlds whose keys were chosen to share a hash, or whose ticks can be shared out badly, and looks at each block, each
scheduled tick and each count.

    scripts/check_hostile.py PROGRAM        as crates/av_main/out/av_main

What is to be told apart: names with one hash, names that are equal up to their last bytes, one state again and again in a palette,
and positions and sections that a map would keep in few of its buckets. The written files are read by the reader of check_rewrite.py.
"""
import os
import sys

sys.dont_write_bytecode = True
import check_rewrite
import hostile_files as files
from flat_runs import Run

HEIGHT = "version = 3\nmin_section = -4\nsections = 24\n"


def names_in(run, at, y):
    """The name of each block of a section."""
    return [dict(cell)[b"Name"][1] for cell in check_rewrite.cells(run.sections(at)[y])]


def entries_of(run, at):
    """The positions and times of a chunk's scheduled ticks, in their order."""
    tags = map(dict, run.chunks[at][b"fluid_ticks"][1][1])
    return [tuple(entry[name][1] for name in (b"x", b"y", b"z", b"t")) for entry in tags]


def places(names):
    return [names[place % len(names)] for place in range(4096)]


def of_names(ask):
    """Each block has its own name."""
    names = files.chosen_names(300)
    turned = names[150:] + names[:150]
    run = ask(files.region({(x, 0): files.chunk(x, 0, [files.section_of_names(0, part)]) for x, part in enumerate((names, turned))}))
    yield "300 names of one hash", (places(names), places(turned)), tuple(names_in(run, (x, 0), 0) for x in range(2))
    again = names[:3] + [names[1]] * 40 + [names[0]]
    run = ask(files.region({(0, 0): files.chunk(0, 0, [files.section(0, again, [place % 44 for place in range(4096)])])}))
    yield "a name 41 times", places(again), names_in(run, (0, 0), 0)
    for is_first in (False, True):
        long = files.long_names(12, is_first)
        run = ask(files.names_by_chunks(long, 12))
        yield "names of 65,004 bytes", places(long), names_in(run, (0, 0), 0)


def of_positions(ask):
    """In ten ticks half of the entries are due, on air that stays as it is. The others keep their order, ten ticks nearer."""
    positions = files.crowded(files.blocks_of(0, 0), 700, 1 << 10)
    run = ask(files.entries_in_chunks(positions, lambda number: 1 + number % 20), 10)
    left = [(*at, 1 + number % 20 - 10) for number, at in enumerate(positions) if number % 20 >= 10]
    yield "700 positions in few buckets", ("chunks 1 turns 350", left), (run.line, entries_of(run, (0, 0)))


def of_sections(ask):
    """All entries are due at once, and are put into parts by their sections."""
    sections = files.crowded(files.sections_of(8), 400, 1 << 9)
    for workers in (1, 4):
        run = ask(files.entries_in_sections(sections, 8), 1, workers)
        yield "400 sections in few buckets", "chunks 64 turns 400", run.line
        yield "none is left", [], [entry for at in run.chunks for entry in entries_of(run, at)]


def of_times(ask):
    """Entries of blocks of air, all overdue in an order in which places far apart come by turns, or at drawn times: all leave in the first
    tick."""
    far = (0, 0), (28, 31)
    four = *far, (0, 31), (28, 0)
    cases = [("600 times by turns", files.taking_turns(far, 600), 2), ("4,000 times, 40 by turns", files.taking_turns(four, 4_000, 40), 4)]
    cases.append(("900 drawn times in nine chunks", files.random_times(files.square(3), 100), 9))
    cases.append(("1,024 drawn times in 64 chunks", files.random_times(files.square(8), 16), 64))
    for name, timed, chunks in cases:
        for workers in (1, 2, 4, 8):
            run = ask(files.entries_at(timed), 1, workers)
            yield "%s, %d workers" % (name, workers), "chunks %d turns %d" % (chunks, len(timed)), run.line
            yield "none is left", [], [entry for at in run.chunks for entry in entries_of(run, at)]


def of_a_flood(ask):
    """Each block of a chunk's lowest layer of air is a source, and so is each of the layer above, and in the next tick that is air again:
    what is left is a layer of sources, and water at level 1 around it, whose sources lie beside it. More entries come than one thread is
    worth."""
    inside = [(32 + place % 16, 32 + place // 16) for place in range(256)]
    edits = "".join("1 %d %d %d minecraft:water[level=0]\n" % (x, y, z) for y in (64, 65) for x, z in inside)
    edits += "".join("2 %d 65 %d minecraft:air\n" % at for at in inside)
    beside = [(x, z) for edge in range(32, 48) for x, z in ((edge, 31), (edge, 48), (31, edge), (48, edge))]
    wet = {(x, 64, z): 0 for x, z in inside} | {(x, 64, z): 1 for x, z in beside}
    for workers in (1, 2, 4, 8):
        run = ask(files.stone_floor(5), 6, workers, edits)
        yield "a flood over one chunk, %d workers" % workers, wet, run.wet()


def main():
    program = os.path.abspath(sys.argv[1])

    def ask(data, ticks=0, workers=1, edits=""):
        run = Run(program, data, edits, ticks, workers=workers, table=HEIGHT)
        if run.fault:
            sys.exit("a file of chosen keys: %s" % run.fault)
        return run

    asked = wrong = 0
    for examples in (of_names, of_positions, of_sections, of_times, of_a_flood):
        for name, expected, found in examples(ask):
            asked += 1
            if expected != found:
                wrong += 1
                print("%s: expected %.200r, found %.200r" % (name, expected, found))
    print("%d asked of chosen keys, %d wrong" % (asked, wrong))
    sys.exit(wrong > 0)


if __name__ == "__main__":
    main()
