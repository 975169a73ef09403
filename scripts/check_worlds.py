#!/usr/bin/env python3
"""Runs small worlds, made by hand, with the built program, and compares what it prints and writes with worked examples.

    scripts/check_worlds.py PROGRAM         as crates/av_main/out/av_main

The flat world has stone at y 63 and air elsewhere. The values are worked out by hand from docs/RULE.md, docs/LIGHT.md and
docs/FORMATS.md.
"""
import itertools
import os
import sys

sys.dont_write_bytecode = True
import make_samples
import written_regions
from flat_runs import ROUND, ROWS, SIDES, SLAB, SLABS, WATER, Run, chunk, edit, flat, many_chunks, state_tags, tick_tags
from written_regions import BYTE, BYTES, INT, LIST, LONGS, Tag, compound, compounds

# ---------------------------------------------------------------- examples


def spreading(run):
    source = edit(1, 8, 64, 8, WATER)
    five, six = run(flat(), source, 5), run(flat(), source, 6)
    yield "before its turn", ("chunks 1 turns 0", {(8, 64, 8): 0}), (five.line, five.wet())
    yield "after its turn", ("chunks 1 turns 1", {(8, 64, 8): 0, **{at: 1 for at in SIDES}}), (six.line, six.wet())
    woken = [(8, 64, 7, 5, False), (8, 64, 8, 5, True), (8, 64, 9, 5, False), (7, 64, 8, 5, False), (9, 64, 8, 5, False)]
    yield "the entries of a turn", woken, six.entries()
    yield "eleven ticks", "chunks 1 turns 6", run(flat(), source, 11).line
    whole = run(flat(), source, 36)
    yield "113 blocks by their distance", board(8, 64, 8), whole.wet()
    yield "a run that is stopped", whole.data, run(run(flat(), source, 20).data, "", 16).data
    dried = source + edit(25, 8, 64, 8, "minecraft:air")
    later = run(run(flat(), source, 20).data, edit(5, 8, 64, 8, "minecraft:air"), 16)
    yield "a run that is stopped between edits", run(flat(), dried, 36).data, later.data
    both = run(flat(), source + edit(7, 8, 64, 8, "minecraft:air"), 11)
    yield "a source that is taken away", ("chunks 1 turns 6", {}, []), (both.line, both.wet(), both.entries())
    version = "version = 3\nmin_section = -4\nsections = 24\n" + ROWS
    yield "the game's height by a table", whole.data, run(flat(), source, 36, table=version).data


def flowing(run):
    two = run(flat(), edit(1, 8, 64, 8, WATER) + edit(1, 10, 64, 8, WATER), 6)
    yield "two sources", ("chunks 1 turns 2", 0), (two.line, two.wet()[9, 64, 8])
    for hole, side in (((11, 63, 8), (9, 64, 8)), ((8, 63, 5), (8, 64, 7))):
        wet = run(flat({hole: "minecraft:air"}), edit(1, 8, 64, 8, WATER), 6).wet()
        yield "to the nearest drop", {(8, 64, 8): 0, side: 1}, wet
    falls = {ticks: run(flat(), edit(1, 8, 70, 8, WATER), ticks).wet() for ticks in (10, 11, 30, 31, 35, 36)}
    high = [(x, 70, z) for x, _, z in SIDES]
    yield "sides of a source in the air", ([None] * 4, [1] * 4), tuple([falls[n].get(at) for at in high] for n in (10, 11))
    yield "the ground under it", (None, 8), (falls[30].get((8, 64, 8)), falls[31].get((8, 64, 8)))
    yield "round the ground", ([None] * 4, [1] * 4), tuple([falls[n].get(at) for at in SIDES] for n in (35, 36))
    low = run(flat(), edit(1, 8, -64, 8, WATER), 6).wet()
    yield "on the bottom of the world", {(8, -64, 8): 0, **{(x, -64, z): 1 for x, _, z in SIDES}}, low
    parts = run(flat(), edit(1, 8, 72, 8, WATER) + edit(1, 8, 40, 8, WATER), 6)
    yield "two parts of one chunk", [(8, 71, 8, 5, False), (8, 72, 8, 5, True), (8, 39, 8, 5, False), (8, 40, 8, 5, True)], parts.entries()
    yield "and their turns", "chunks 1 turns 2", parts.line
    row = run(flat(chunks=[(x, 0) for x in range(4)]), "".join(edit(1, 16 * x + 8, 64, 8, WATER) for x in range(4)), 6)
    beside = {(16 * n + x, y, z): 1 for n in range(4) for x, y, z in SIDES} | {(16 * n + 8, 64, 8): 0 for n in range(4)}
    yield "four chunks in a row", ("chunks 4 turns 4", beside), (row.line, row.wet())


def board(x, y, z):
    """Where a source in the middle of a chunk has spread to after 36 ticks: a block further every 5 ticks, over a floor."""
    return {(x + dx, y, z + dz): abs(dx) + abs(dz) for dx in range(-7, 8) for dz in range(-7, 8) if abs(dx) + abs(dz) < 8}


def parts(run):
    """Ticks of some dozens of entries, which lie in two parts or more."""
    # 18 sources in each of two sections of a chunk, far enough from each other that none meets another's water
    sources = [(x, y, z) for x in range(0, 16, 3) for z in (2, 7, 12) for y in (72, 40)]
    lines = "".join(edit(1, *at, WATER) for at in sources)
    six = run(flat(), lines, 6)
    fallen = {at: 0 for at in sources} | {(x, y - 1, z): 8 for x, y, z in sources}
    yield "36 sources in the air", ("chunks 1 turns 36", fallen), (six.line, six.wet())
    woken = [entry for x, y, z in sources for entry in ((x, y - 1, z, 5, False), (x, y, z, 5, True))]
    yield "their entries by their makers' places", woken, six.entries()
    # then each of the 72 is turned: what fell falls on, and a source that has water below it spreads to its sides
    eleven = run(flat(), lines, 11)
    beside = {(x + dx, y, z + dz): 1 for x, y, z in sources for _, dx, dz in ROUND if x + dx in range(16)}
    yield "and eleven ticks", ("chunks 1 turns 108", fallen | beside | {(x, y - 2, z): 8 for x, y, z in sources}), (eleven.line, eleven.wet())

    # 8 sources on the ground in each of five chunks, whose reaches stay in them
    sources = [(16 * chunk + x, 64, z) for x in (5, 8) for z in (3, 6, 9, 12) for chunk in range(5)]
    row = run(flat(chunks=[(x, 0) for x in range(5)]), "".join(edit(1, *at, WATER) for at in sources), 6)
    spread = {(x + dx, y, z + dz): level for x, y, z in sources for level, dx, dz in ((0, 0, 0), *ROUND)}
    yield "40 sources in five chunks", ("chunks 5 turns 40", spread), (row.line, row.wet())
    order = ((0, -1), (0, 0), (0, 1), (-1, 0), (1, 0))
    woken = [(x + dx, y, z + dz, 5, dx == dz == 0) for x, y, z in sorted(sources, key=lambda at: at[0] // 16) for dx, dz in order]
    yield "their entries chunk by chunk", woken, row.entries()

    # A board's entries in the ticks 6, 11, .. 36: the source; it and its four sides; and from then on the blocks at the distances
    # n - 1 and n, which are 4 * (n - 1) and 4 * n.
    turns = 1 + 5 + 12 + 20 + 28 + 36 + 44
    yield "a board's turns", "chunks 1 turns %d" % turns, run(flat(), edit(1, 8, 64, 8, WATER), 36).line
    far = run(flat(chunks=((0, 0), (3, 0))), edit(1, 8, 64, 8, WATER) + edit(1, 56, 64, 8, WATER), 36)
    yield "two boards far from each other", ("chunks 2 turns %d" % (2 * turns), board(8, 64, 8) | board(56, 64, 8)), (far.line, far.wet())
    floor = {(x, 31, z): "minecraft:stone" for x in range(16) for z in range(16)}
    both = run(flat(floor), edit(1, 8, 64, 8, WATER) + edit(1, 8, 32, 8, WATER), 36)
    yield "two boards of one chunk", ("chunks 1 turns %d" % (2 * turns), board(8, 64, 8) | board(8, 32, 8)), (both.line, both.wet())


def many(run):
    """More chunks than are read together, of more states than each run begins with."""
    world = many_chunks()
    after = run(world.data, world.edits, 6, table=world.table)
    yield "128 chunks", ("chunks 128 turns 64", world.wet), (after.line, after.wet())
    yield "their other blocks", world.others, after.others()
    yield "and the one that is kept", world.kept, after.payloads[128]


def entries(run):
    sources = {(4, 64, 4): WATER, (8, 64, 8): WATER}
    overdue = run(flat(sources, ticks=[(4, 64, 4, 1), (8, 64, 8, -3), (8, 64, 8, 9)]), "", 1)
    woken = [(x + dx, 64, x + dz, 5, dx == dz == 0) for x in (8, 4) for dx, dz in ((0, -1), (0, 0), (0, 1), (-1, 0), (1, 0))]
    yield "overdue entries", ("chunks 1 turns 2", woken), (overdue.line, overdue.entries())
    yield "an overdue entry in no tick", [(8, 64, 8, -3, True)], run(flat(sources, ticks=[(8, 64, 8, -3)])).entries()
    later = run(flat(ticks=[(4, 64, 4, 9), (5, 64, 4, 7), (6, 64, 4, 12)]), "", 5)
    yield "due less the ticks run", [(4, 64, 4, 4, False), (5, 64, 4, 2, False), (6, 64, 4, 7, False)], later.entries()
    same = run(flat(sources), edit(1, 8, 64, 8, WATER), 6)
    yield "a block that is set to the state that it has wakes", "chunks 1 turns 1", same.line
    far = run(flat(ticks=[(8, 64, 8, 99)]), edit(1, 8, 64, 8, WATER), 20)
    yield "an entry far off hides wakings", ("chunks 1 turns 0", {(8, 64, 8): 0}), (far.line, far.wet())
    # the second source has nowhere to go, and is woken by the turn of the first, before its own turn comes
    shut = {at: "minecraft:stone" for at in ((10, 64, 7), (10, 64, 9), (11, 64, 8))}
    woken = [(8, 64, 7, 5, False), (8, 64, 8, 5, True), (8, 64, 9, 5, False), (7, 64, 8, 5, False), (9, 64, 8, 5, True), (10, 64, 8, 5, True)]
    two = run(flat({(8, 64, 8): WATER, (10, 64, 8): WATER, **shut}, ticks=[(8, 64, 8, 1), (10, 64, 8, 1)]), "", 1)
    yield "all entries leave before the first is turned", ("chunks 1 turns 2", woken), (two.line, two.entries())
    both = ((0, 0), (1, 0))
    lines = edit(1, 8, 64, 8, WATER) + edit(1, 24, 64, 8, WATER)
    yield "two chunks", "chunks 2 turns 2", run(flat(chunks=both), lines, 6).line
    lines += edit(1, 15, 64, 8, WATER)
    yield "three sources in two chunks", "chunks 2 turns 3", run(flat(chunks=both), lines, 6).line
    yield "and eleven ticks", "chunks 2 turns 18", run(flat(chunks=both), lines, 11).line


def soaked(run):
    version = "version = 2" + ROWS
    one = run(flat(), edit(1, 8, 64, 8, SLAB), 6, table=version)
    yield "a soaked block", ("chunks 1 turns 1", {at: 1 for at in SIDES}), (one.line, one.wet())
    yield "the same by a table that soaks none", ("chunks 1 turns 0", {}), (lambda r: (r.line, r.wet()))(run(flat(), edit(1, 8, 64, 8, SLAB), 6))
    two = run(flat(), edit(1, 8, 64, 8, SLAB) + edit(1, 10, 64, 8, SLAB), 6, table=version)
    yield "two soaked blocks", ("chunks 1 turns 2", 0), (two.line, two.wet()[9, 64, 8])
    drop = run(flat(), edit(1, 8, 64, 8, WATER) + edit(1, 11, 63, 8, SLAB), 6, table=version)
    yield "a soaked block is a hole", ("chunks 1 turns 2", {(8, 64, 8): 0, (9, 64, 8): 1, (11, 62, 8): 8}), (drop.line, drop.wet())


def kept(run):
    """A chunk that is not full, with a source and an entry at the edge of a loaded one."""
    beside = chunk(1, 0, {(16, 64, 8): WATER}, [(16, 64, 8, 1)], {})
    beside.value["Status"] = Tag(written_regions.TEXT, "features")
    world = written_regions.region_bytes({(0, 0): chunk(0, 0, {}, (), {}), (1, 0): beside})
    after = run(world, edit(1, 14, 64, 8, WATER), 11)
    spread = {at: level for at, level in board(14, 64, 8).items() if at[0] < 16 and level < 3}
    yield "water flows along a kept chunk", ("chunks 1 turns 6", spread | {(16, 64, 8): 0}), (after.line, after.wet())
    yield "which stays as it is", written_regions.named("", beside), after.payloads[1]
    yield "and takes no edit", "fault 22: EditOutside 1", run(world, edit(1, 16, 64, 8, "minecraft:stone"), 1).fault


def light(run):
    both = ((0, 0), (1, 0))
    lit = run(flat({(15, 64, 8): "minecraft:glowstone"}, both))
    east, west = lit.light((1, 0), 4), lit.light((0, 0), 4)
    yield "light over the edge of a chunk", (0xDE, 0x12, 0x00, 0xFE), (east[64], east[70], east[71], west[71])
    dark = run(flat({(15, 64, 8): "minecraft:glowstone"}, both), edit(1, 15, 64, 8, "minecraft:air"), 1)
    yield "light goes with its emitter", {0}, {byte for at in both for y in range(-4, 20) for byte in dark.light(at, y)}
    stone = run(flat({(8, 70, 8): "minecraft:glowstone", (9, 70, 8): "minecraft:stone"}))
    yield "light round a stone", [15, 14, 0, 11], [stone.light_at(x, 70, 8) for x in (8, 7, 9, 10)]
    slab = run(flat({(8, 70, 8): "minecraft:glowstone", (9, 70, 8): SLAB}), table="version = 2" + ROWS + SLABS)
    yield "light of a soaked block by its row", [15, 14, 7, 11], [slab.light_at(x, 70, 8) for x in (8, 7, 9, 10)]
    shut = "version = 2" + ROWS + SLABS.replace("opacity = 8", "opacity = 15")
    slab = run(flat({(8, 70, 8): "minecraft:glowstone", (9, 70, 8): SLAB}), table=shut)
    yield "and of one that stops all light", [15, 14, 0, 11], [slab.light_at(x, 70, 8) for x in (8, 7, 9, 10)]


def heights(run):
    version = "version = 3\nmin_section = 0\nsections = 16\n" + ROWS
    for y in (256, -1):
        yield "y %d is outside" % y, "fault 22: EditOutside 1", run(flat(), edit(1, 8, y, 8, "minecraft:stone"), 1, table=version).fault
    low = run(flat(), edit(1, 8, 0, 8, WATER), 6, table=version)
    yield "y 0 is the bottom", ("chunks 1 turns 1", {(8, 0, 8): 0, **{(x, 0, z): 1 for x, _, z in SIDES}}), (low.line, low.wet())
    yield "16 sections are lit", 16, sum(b"BlockLight" in dict(section) for section in low.sections((0, 0)).values())
    yield "an entry above them", "fault 16: BadTick", run(flat(ticks=[(8, 300, 8, 1)]), table=version).fault
    yield "and in the game's height", "chunks 1 turns 0", run(flat(ticks=[(8, 300, 8, 1)])).line


def refusals(run):
    stone = edit(1, 8, 64, 8, "minecraft:stone")
    for lines, fault in (("# x\n1 8 64 8 Stone\n", "fault 20: BadEdit 2"), ("0 8 64 8 minecraft:stone", "fault 21: EditTick 1"),
                         (edit(1, 8, 320, 8, "minecraft:stone") + "x\n", "fault 22: EditOutside 1"),
                         ("1  8 64 8 minecraft:stone", "fault 20: BadEdit 1"), ("1 +8 64 8 minecraft:stone", "fault 20: BadEdit 1"),
                         (stone + "\n#\n" + edit(3, 8, 64, 8, "minecraft:stone"), "fault 21: EditTick 4"),
                         ("1 8 64 8 minecraft:water[level=16]", "fault 20: BadEdit 1")):
        yield lines.strip(), (fault, None), (lambda r: (r.fault, r.data))(run(flat(), lines, 2))
    yield "line ends and zeros", "chunks 1 turns 0", run(flat(), "\r\n001 -0 064 7 minecraft:stone\r\n" + stone.strip(), 1).line
    data = flat()
    last = 8192 + 4 + int.from_bytes(data[8192:8196], "big")
    yield "cut before the data's end", "fault 06: TruncatedChunk", run(data[:last - 1]).fault
    yield "cut in the padding", run(data).data, run(data[:last]).data
    pad = 1_044_476 - 1 - len(written_regions.named("", written_regions.Tag(written_regions.COMPOUND, dict(large(0).value))))
    full = written_regions.region_bytes({(0, 0): large(pad)})
    yield "a chunk as large as can be", 1_044_476, int.from_bytes(full[8192:8196], "big")
    yield "is too large when it is written", ("fault 24: ChunkTooLarge 0 0", None), (lambda r: (r.fault, r.data))(run(full))
    kept = written_regions.region_bytes({(3, 1): make_samples.unfinished_tags(3, 1)})
    same = run(kept, "", 3)
    yield "a chunk that is kept", ("chunks 0 turns 0", kept), (same.line, same.data)


def without_chunks(run):
    """Regions without chunks."""
    none = run(bytes(8192), "", 10)
    yield "8,192 zeros", ("chunks 0 turns 0", bytes(8192)), (none.line, none.data)
    yield "no byte", ("chunks 0 turns 0", bytes(8192)), (lambda r: (r.line, r.data))(run(b"", "", 10))
    yield "100 bytes", ("fault 04: ShortHeader", None), (lambda r: (r.fault, r.data))(run(bytes(100), "", 10))


def judging(run):
    """Which of several faults is the first, and the ends of what is counted."""
    yield "a million ticks", "chunks 1 turns 0", run(flat(), "", 1_000_000).line
    yield "one tick more", "fault 23: BadCount", run(flat(), "", 1_000_001).fault
    empty = {"r.%d.1.mca" % x: b"" for x in range(1024)}
    yield "1,025 files", "fault 23: BadCount", run(flat(), others=empty).fault
    del empty["r.0.1.mca"]
    yield "1,024 files", "chunks 1 turns 0", run(flat(), others=empty).line
    yield "files before edits", "fault 16: BadTick", run(flat(ticks=[(16, 64, 8, 1)]), "x\n", 1).fault
    within = bytes.fromhex("00000001")
    beyond = bytes.fromhex("00000501")
    by_z = {"r.0.1.mca": beyond + bytes(8188), "r.1.0.mca": within + bytes(8188)}
    yield "regions by z and then by x", "fault 05: BadLocation", run(flat(), others=by_z).fault
    by_number = {"r.10.0.mca": beyond + bytes(8188), "r.9.0.mca": within + bytes(8188)}
    yield "regions as numbers", "fault 05: BadLocation", run(flat(), others=by_number).fault
    by_index = bytes(4) + within + bytes(4 * 30) + beyond + bytes(8192 - 4 * 33)
    yield "chunks of a region by z and then by x", "fault 05: BadLocation", run(by_index).fault


def crowding(run):
    bad = [(16, 64, 8, 1)]
    yield "65,535 states", "chunks 1 turns 0", run(crowded(65_525)).line
    yield "one state more", "fault 18: TooManyStates", run(crowded(65_526)).fault
    yield "a bad tick comes before too many states", "fault 16: BadTick", run(crowded(65_526, bad)).fault
    new, other = (edit(1, 8, 64, 8, name) for name in ("minecraft:stone", "minecraft:dirt"))
    yield "a new state of an edit", "fault 18: TooManyStates", run(crowded(65_525), new, 1).fault
    yield "one that is known", "chunks 1 turns 0", run(crowded(65_525), edit(1, 8, 64, 8, "minecraft:air"), 1).line
    yield "a place outside comes before it", "fault 22: EditOutside 1", run(crowded(65_525), edit(1, 8, 320, 8, "minecraft:stone"), 1).fault
    yield "room for one state", "chunks 1 turns 0", run(crowded(65_524), new, 1).line
    yield "but not for two", "fault 18: TooManyStates", run(crowded(65_524), new + other, 1).fault


def crowded(count, ticks=()):
    """A chunk of so many block states beside air and the nine of water, each at one place at least."""
    letters = "abcdefghijklmnopqrstuvwxyz0123456789_-./+"
    names = ["".join(name) for name in itertools.islice(itertools.product(letters, repeat=3), count)]
    sections = []
    for start in range(0, count, 4096):
        some = names[start:start + 4096]
        palette = Tag(LIST, (written_regions.COMPOUND, [state_tags(name) for name in some]))
        data = Tag(LONGS, written_regions.pack([place % len(some) for place in range(4096)], 12))
        states = Tag(written_regions.COMPOUND, {"palette": palette, "data": data})
        sections.append({"Y": Tag(BYTE, start // 4096 - 4), "block_states": states})
    root = compound(xPos=Tag(INT, 0), zPos=Tag(INT, 0), Status=Tag(written_regions.TEXT, "full"),
                    sections=compounds(sections), fluid_ticks=compounds([tick_tags(*tick) for tick in ticks]))
    return written_regions.region_bytes({(0, 0): root})


def large(pad):
    """A loaded chunk without sections, and so many bytes."""
    return compound(xPos=Tag(INT, 0), zPos=Tag(INT, 0), Status=Tag(written_regions.TEXT, "full"), sections=compounds([]),
                    pad=Tag(BYTES, bytes(pad)))


def shown(value):
    return "%d bytes" % len(value) if isinstance(value, bytes) else "%.300r" % (value,)


def main():
    if len(sys.argv) != 2:
        sys.exit(__doc__)
    program = os.path.abspath(sys.argv[1])
    asked = wrong = 0

    def run(*given, **named):
        """A run, with the same answer by each number of workers."""
        nonlocal asked, wrong
        first, *others = [Run(program, *given, workers=workers, **named) for workers in (1, 2, 3, 5, 8)]
        asked += 1
        for other in others:
            if other.answer() != first.answer():
                wrong += 1
                print("by other workers: expected %s, found %s" % (shown(first.answer()), shown(other.answer())))
        return first

    for examples in (spreading, flowing, parts, many, entries, soaked, kept, light, heights, refusals, without_chunks, judging, crowding):
        for what, want, got in examples(run):
            asked += 1
            if want != got:
                wrong += 1
                print("%s, %s: expected %s, found %s" % (examples.__name__, what, shown(want), shown(got)))
    print("%d worked examples of runs, %d wrong" % (asked, wrong))
    sys.exit(1 if wrong else 0)


if __name__ == "__main__":
    main()
