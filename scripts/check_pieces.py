"""Worlds that anvilwater-world lights in pieces, for check_world.py: the same light as in one piece, and which pieces there are."""
import os
import zlib

import flat_runs
import world_pieces
from kept_worlds import DAMAGED, Document, full, payload, small_world, stored_chunks_of, unfinished, write_world
from region_files import Place
from stored_chunks import EXTERNAL, GZIP, ZLIB, gzipped, write
from world_calls import call, contents, refused
from world_places import MIB, Size

# ---------------------------------------------------------------- light

LAMP, STONE = "minecraft:glowstone", "minecraft:stone"
# A lamp in the corner at which four regions meet. Another behind a wall that is as wide as a chunk and reaches higher and lower than
# light does: the way round it leads over the chunk to the west, which is of another region. Its last block is a lamp of a region to the east.
CORNER, BEHIND, EAST = (0, 70, 0), (0, 180, 4), (512, 70, 8)
WALL = {(x, y, 6): STONE for x in range(16) for y in range(164, 197)}
BLOCKS = {CORNER: LAMP, BEHIND: LAMP, EAST: LAMP, **WALL}


def stored(x, z):
    return ZLIB, zlib.compress(full(x, z, blocks=BLOCKS))


def lamps():
    """Regions of chunks that touch those of others: one in a file of its own, one that is damaged, and one that is not full."""
    return {(0, 0): {at: stored(*at) for at in ((0, 0), (1, 0), (5, 5), (31, 0))},
            (-1, 0): {(-1, 0): (GZIP, gzipped(full(-1, 0))), (-1, 1): (ZLIB, DAMAGED)},
            (0, -1): {(0, -1): (EXTERNAL + ZLIB, stored(0, -1)[1])},
            (-1, -1): {(-1, -1): stored(-1, -1), (-9, -9): stored(-9, -9)},
            (1, 0): {(32, 0): stored(32, 0), (32, 1): (ZLIB, zlib.compress(unfinished(32, 1)))}}


# Steps from the lamps, over the edges of regions.
LIGHT = {(0, 70, -1): 14, (-1, 70, 0): 14, (-1, 70, -1): 13, (-1, 70, -13): 1, (511, 70, 8): 14, (499, 70, 8): 2,
         # To (-1, 180, 4), along three blocks to (-1, 180, 7), and back: 5 steps.
         (-1, 180, 4): 14, (0, 180, 7): 10, (3, 180, 7): 7}
TOLD = ["r.-1.0.mca -1 1: its zlib stream is cut short; it stays as it was, not lit"]


def light_of(folder, regions):
    chunks = [chunk for place in regions for at, chunk in stored_chunks_of(folder, *place).items() if at not in ((-1, 1), (32, 1))]
    levels = {at: level for chunk in chunks for at, level in Document(payload(chunk)).light.items()}
    return {at: levels.get(at) for at in LIGHT}


def same_light(work, program):
    """A world that memory does not hold is lit region by region, to the same bytes."""
    write(work, "table", flat_runs.TABLE.encode())
    table, found = os.path.join(work, "table"), {}
    for memory, told in ((1 << 20, "chunks 9 turns 0"), (1, "regions 6 pieces 6")):
        world = os.path.join(work, "world%d" % memory)
        write_world(world, lamps())
        region = os.path.join(world, "region")
        status, out, err = call(world, "--table", table, "--memory", str(memory), program=program)
        yield told, (4, ["folder " + region, told, "replaced 5 added 0 removed 1"], TOLD), (status, out[:-1], err)
        yield "light, " + told, LIGHT, light_of(region, lamps())
        found[memory] = contents(region)
    yield "each file", found[1 << 20], found[1]
    yield "once more", (4, ["folder " + region, "regions 6 pieces 6", "nothing changed"], TOLD), \
        call(world, "--table", table, "--memory", "1", program=program)


# ---------------------------------------------------------------- pieces

# A full region of chunks of 28 KiB: 70 KiB of memory for the bytes of each and 130 for the chunk, so 200 MiB, and 160 go to the program.
FULL = Size(1024, 28 * MIB)


def regions(*found):
    return {Place(z, x): FULL for x, z in found}


def sizes(work, _):
    """What memory is needed, and which regions are lit at once."""
    yield "what is needed", [160 * MIB, 360 * MIB, 960 * MIB], [world_pieces.needed(Size(1024 * count, 28 * count * MIB)) for count in (0, 1, 4)]
    yield "of some chunks", [Size(32, 896 << 10), Size(3, 84 << 10), Size(0, 0)], [FULL.of(32), Size(3, 84 << 10).of(32), Size(0, 0).of(32)]
    row, ordered = regions((2, 0), (0, 0), (1, 0), (0, -1)), [Place(-1, 0), Place(0, 0), Place(0, 1), Place(0, 2)]
    # Of the first two regions 32 chunks of the third touch one, and its corner both: 160 + 2 * 200 + 32 * 200 / 1024 MiB are 566.25. Of the
    # first three it is a side of the fourth: 766.25. Two regions have more beside them in the middle of the row, 64 chunks: 572.5.
    for memory, ends in ((960, [0, 4]), (959, [0, 3, 4]), (767, [0, 3, 4]), (766, [0, 2, 4]), (567, [0, 2, 4]), (566, range(5)), (1, range(5))):
        want = [ordered[start:end] for start, end in zip(ends, ends[1:])]
        yield "regions in %d MiB" % memory, want, [piece.own for piece in world_pieces.divided(row, memory * MIB, True)]
    two = world_pieces.divided(row, 567 * MIB, True)[0]
    yield "all chunks of a piece", Size(2048 + 32, (2048 + 32) * 28 << 10), two.size
    many = regions(*((x, 9) for x in range(1025)))
    yield "more files than the program takes", [100] * 10 + [25], [len(piece.own) for piece in world_pieces.divided(many, 1 << 62, True)]
    yield "one less", [1024], [len(piece.own) for piece in world_pieces.divided(dict([*many.items()][1:]), 1 << 62, True)]


def beside(work, _):
    """Which chunks of others touch a region, and two."""
    around = regions(*((x, z) for x in range(4, 9) for z in range(-9, -4)))
    west, east, north, south = range(0, 1024, 32), range(31, 1024, 32), range(32), range(992, 1024)
    one = {(-1, -1): [1023], (0, -1): south, (1, -1): [992], (-1, 0): east, (1, 0): west, (-1, 1): [31], (0, 1): north, (1, 1): [0]}
    yield "chunks round a region", {Place(z - 7, x + 6): [*indices] for (x, z), indices in one.items()}, world_pieces.touching([Place(-7, 6)], around)
    two = {Place(0, -1): [*east], Place(1, -1): [31], Place(1, 0): [*north], Place(1, 1): [*north], Place(1, 2): [0]}
    places = regions(*((x, z) for x in range(-1, 3) for z in (0, 1) if (x, z) != (2, 0)))
    yield "and round two", two, world_pieces.touching([Place(0, 0), Place(0, 1)], places)


def refusals(work, _):
    """A run of ticks or edits is of the whole world, and refused where less than half of the memory is there that it takes."""
    world = os.path.join(work, "world")
    write_world(world, small_world())
    write(work, "edits", b"")
    edits = "--edits", os.path.join(work, "edits"), "--ticks", "0"
    # The program alone takes 160 MiB.
    for words, status in ((("--ticks", "1", "--memory", "79"), 1), ((*edits, "--memory", "79"), 1), (("--memory", "79"), 0)):
        done = call(world, *words, what="same")
        yield words, (status, status), (done[0], len([line for line in done[2] if line.endswith("--memory names more; nothing is done")]))
    for number in range(1020):
        write(world, "region/r.%d.9.mca" % number, b"")
    line = "there are 1025 region files, and the program takes 1024 where there are ticks or edits; nothing is done"
    yield "many", refused(line), call(world, "--ticks", "1", "--memory", "1000")[::2]
    yield "many that are lit", (0, "regions 1025 pieces 11"), (lambda done: (done[0], done[1][1]))(call(world, "--memory", "1000", what="same"))
    os.unlink(os.path.join(world, "region", "r.0.9.mca"))
    yield "as many as it takes", (0, "chunks 1024 turns 0"), \
        (lambda done: (done[0], done[1][1]))(call(world, "--ticks", "1", "--memory", "1000", what="same"))


# ---------------------------------------------------------------- memory

INFO = "MemTotal:       16000 kB\nMemFree:          100 kB\nMemAvailable:    5000 kB\n"


def laid(top, files):
    for name, content in files.items():
        path = os.path.join(top, name)
        os.makedirs(os.path.dirname(path), exist_ok=True)
        write(*os.path.split(path), content.encode() if isinstance(content, str) else content)


def group(limit, used, active, inactive):
    """The files of a control group of the second version."""
    return {"memory.max": limit, "memory.current": used, "memory.stat": "anon 7\nactive_file %d\ninactive_file %d\n" % (active, inactive)}


def first_group(limit, used, active, inactive):
    """And of the first one."""
    pages = "total_active_file %d\ntotal_inactive_file %d\nactive_file 1\n" % (active, inactive)
    return {"memory.limit_in_bytes": limit, "memory.usage_in_bytes": used, "memory.stat": pages}


def memory(work, _):
    """What is free by the system's files, and by those of control groups."""
    inner, first = "0::/a/b\n", "4:memory:/a/b\n1:name=systemd:/\n0::/\n"
    for what, want, info, mine, groups in (
            ("nothing is said", 1 << 62, None, "", {}), ("the system's", 5_120_000, INFO, "0::/\n", {}),
            ("a group without a limit", 5_120_000, INFO, "0::/\n", {"": group("max\n", "7000\n", 5, 6)}),
            ("a group", 3_011, INFO, "0::/\n", {"": group("10000\n", "7000\n", 5, 6)}),
            ("the group over it", 1_005, INFO, inner, {"a/b": group("10000\n", "7000\n", 5, 6), "a": group("9000\n", "8000\n", 2, 3)}),
            ("a group beside it", 5_120_000, INFO, inner, {"b": group("10000\n", "7000\n", 5, 6)}),
            ("a name of other bytes", 3_011, INFO, b"0::/\xff\n", {"": group("10000\n", "7000\n", 5, 6)}),
            ("no group", 5_120_000, INFO, "nothing\n", {"": group("10000\n", "7000\n", 5, 6)}),
            ("a group of the first version", 2_009, INFO, first, {"memory/a": first_group("10000\n", "8000\n", 4, 5)}),
            ("one without a limit", 5_120_000, INFO, first, {"memory": first_group("9223372036854771712\n", "8000\n", 4, 5)})):
        top = os.path.join(work, what)
        laid(top, {"proc/self/cgroup": mine} | ({"proc/meminfo": info} if info else {}))
        for name, files in groups.items():
            laid(os.path.join(top, "sys/fs/cgroup", name), files)
        yield what, want, world_pieces.free_memory(top)
