"""Flat worlds that are made by hand, with stone at y 63 and air elsewhere, and what the built program makes of them.

Files are written by make_samples.py and read by the reader of check_rewrite.py, which share nothing.
"""
import collections
import os
import subprocess
import tempfile

import check_rewrite
import make_samples
import written_regions
from written_regions import BYTE, BYTES, INT, LIST, LONGS, Tag, compound, compounds

ROWS = """
[[block]]
name = "minecraft:stone"
open = false
floor = true
opacity = 15
emission = 0
[[block]]
name = "minecraft:glowstone"
open = false
floor = true
opacity = 15
emission = 15
"""
SLABS = """
[[block]]
name = "minecraft:oak_slab"
open = false
floor = true
opacity = 8
emission = 0
"""
TABLE = "version = 1" + ROWS
WATER = "minecraft:water[level=0]"
SLAB = "minecraft:oak_slab[type=bottom,waterlogged=true]"
SIDES = [(8, 64, 7), (8, 64, 9), (7, 64, 8), (9, 64, 8)]

# The level that a source gives to its sides, and where they are.
ROUND = [(1, 0, -1), (1, 0, 1), (1, -1, 0), (1, 1, 0)]

# ---------------------------------------------------------------- files


def state_tags(text):
    name, _, rest = text.partition("[")
    tags = {"Name": Tag(written_regions.TEXT, name)}
    if rest:
        pairs = [pair.split("=") for pair in rest[:-1].split(",")]
        tags["Properties"] = Tag(written_regions.COMPOUND, {key: Tag(written_regions.TEXT, value) for key, value in pairs})
    return tags


def section_tags(y, cells):
    """A section of some cells, given by their places, with air elsewhere."""
    palette = list(dict.fromkeys(["minecraft:air", *cells.values()]))
    bits = max(4, (len(palette) - 1).bit_length())
    indices = [palette.index(cells.get(place, "minecraft:air")) for place in range(4096)]
    tags = {"palette": Tag(LIST, (written_regions.COMPOUND, [state_tags(text) for text in palette]))}
    if len(palette) > 1:
        tags["data"] = Tag(LONGS, written_regions.pack(indices, bits))
    return {"Y": Tag(BYTE, y), "block_states": Tag(written_regions.COMPOUND, tags)}


def tick_tags(x, y, z, due):
    tags = {"i": Tag(written_regions.TEXT, "minecraft:water")}
    return {**tags, **{name: Tag(INT, value) for name, value in zip("xyztp", (x, y, z, due, 0))}}


def chunk(x, z, blocks, ticks, more):
    """A full chunk of the flat world with some other blocks."""
    cells = {(16 * x + i % 16, 63, 16 * z + i // 16): "minecraft:stone" for i in range(256)}
    cells |= {at: text for at, text in blocks.items() if (at[0] >> 4, at[2] >> 4) == (x, z)}
    sections = {}
    for (bx, by, bz), text in cells.items():
        sections.setdefault(by >> 4, {})[256 * (by & 15) + 16 * (bz & 15) + (bx & 15)] = text
    return compound(xPos=Tag(INT, x), zPos=Tag(INT, z), Status=Tag(written_regions.TEXT, "full"),
                    sections=compounds([section_tags(y, sections[y]) for y in sorted(sections)]),
                    fluid_ticks=compounds([tick_tags(*tick) for tick in ticks]), **more)


def flat(blocks=(), chunks=((0, 0),), ticks=(), **more):
    """The region (0, 0) of some flat chunks."""
    return written_regions.region_bytes({at: chunk(*at, dict(blocks), ticks, more) for at in chunks})


# What a run of many chunks is given, and its water, its other blocks and its kept payload after 6 ticks.
ManyChunks = collections.namedtuple("ManyChunks", "data edits table wet others kept")


def many_chunks():
    """128 flat chunks, in the order of a region 64 and 64 more, and one that is not full. Each has a block of one of twelve states,
    so that those of the second 64 are known but for the one of chunk (4, 3), and 8,000 bytes of a tag that is no block. In 64 of them
    a source is set, whose reach stays in its chunk. The world has two sections."""
    states = ["minecraft:%s_wool" % color for color in "red blue lime pink gray cyan".split()]
    states += ["minecraft:oak_log[axis=%s]" % axis for axis in "xyz"]
    states += ["minecraft:oak_stairs[facing=%s,half=top]" % side for side in ("north", "south", "west")]
    places = [(x, z) for z in range(4) for x in range(32)]
    others = {(16 * x + 3, 64, 16 * z + 3): states[(x + z) % 12] for x, z in places}
    others[16 * 4 + 3, 64, 16 * 3 + 3] = "minecraft:bell"
    pad = {"pad": Tag(BYTES, bytes(8_000))}
    chunks = {(x, z): chunk(x, z, others, (), pad) for x, z in places}
    chunks[0, 4] = make_samples.unfinished_tags(0, 4)
    sources = [(16 * x + 8, 64, 16 * z + 8) for x, z in places if x % 2 == 0]
    wet = {(x + dx, y, z + dz): level for x, y, z in sources for level, dx, dz in ((0, 0, 0), *ROUND)}
    table = "version = 3\nmin_section = 3\nsections = 2\n" + ROWS
    edits = "".join(edit(1, *at, WATER) for at in sources)
    return ManyChunks(written_regions.region_bytes(chunks), edits, table, wet, others, written_regions.named("", chunks[0, 4]))


# ---------------------------------------------------------------- runs


def said(errors):
    """What a run wrote to standard error, but for the line on states that have no row."""
    return "\n".join(line for line in errors.splitlines() if " states have no row in the table and " not in line)


def asked(program, data, edits, ticks, *, workers, table=TABLE, others=()):
    """What the program prints to each of its outputs, and the bytes that it writes for the region (0, 0), or None. Other files of the folder
    are given by their names."""
    with tempfile.TemporaryDirectory() as work:
        for name in ("in", "out"):
            os.mkdir(os.path.join(work, name))
        named = [("in/" + name, content) for name, content in dict(others).items()]
        for name, content in [("in/r.0.0.mca", data), ("table", table.encode()), ("edits", edits.encode()), *named]:
            with open(os.path.join(work, name), "wb") as file:
                file.write(content)
        words = [program, "run", "--in", "in", "--out", "out", "--table", "table", "--edits", "edits",
                 "--ticks", str(ticks), "--workers", str(workers)]
        done = subprocess.run(words, cwd=work, capture_output=True, text=True)
        path = os.path.join(work, "out", "r.0.0.mca")
        written = None
        if os.path.exists(path):
            with open(path, "rb") as file:
                written = file.read()
        return done.stdout.strip(), said(done.stderr), written


class Run:
    """What `asked` answers, with the file's payloads, timestamps and chunks where there is one."""

    def __init__(self, program, data, edits="", ticks=0, **how):
        self.line, self.fault, self.data = asked(program, data, edits, ticks, **how)
        self.chunks = {}
        if self.data is not None:
            self.payloads, self.stamps = check_rewrite.region_of(self.data)
            for index, payload in enumerate(self.payloads):
                if payload is not None:
                    self.chunks[index % 32, index // 32] = dict(check_rewrite.document(payload)[1])

    def answer(self):
        return self.line, self.fault, self.data

    def sections(self, at):
        return {dict(section)[b"Y"][1]: section for section in self.chunks[at][b"sections"][1][1]}

    def wet(self):
        """The blocks of water, and the text of their level."""
        found = {}
        for at in self.chunks:
            for y, section in self.sections(at).items():
                for place, state in enumerate(check_rewrite.cells(section)):
                    tags = dict(state)
                    if tags[b"Name"][1] == b"minecraft:water":
                        pos = (16 * at[0] + place % 16, 16 * y + place // 256, 16 * at[1] + place // 16 % 16)
                        found[pos] = int(dict(tags[b"Properties"][1])[b"level"][1])
        return found

    def others(self):
        """The blocks that are neither air, stone nor water, and the texts of their states."""
        found = {}
        for at in self.chunks:
            for y, section in self.sections(at).items():
                for place, state in enumerate(check_rewrite.cells(section)):
                    tags = dict(state)
                    name = tags[b"Name"][1].decode()
                    if name not in ("minecraft:air", "minecraft:stone", "minecraft:water"):
                        pairs = [(key + b"=" + value).decode() for key, (_, value) in tags.get(b"Properties", (0, ()))[1]]
                        pos = (16 * at[0] + place % 16, 16 * y + place // 256, 16 * at[1] + place // 16 % 16)
                        found[pos] = name + ("[%s]" % ",".join(pairs) if pairs else "")
        return found

    def entries(self):
        """x, y, z, t of the entries, and whether each is of still water."""
        found = []
        for at in sorted(self.chunks, key=lambda at: (at[1], at[0])):
            for entry in self.chunks[at][b"fluid_ticks"][1][1]:
                tags = dict(entry)
                found.append((*(tags[name][1] for name in (b"x", b"y", b"z", b"t")), tags[b"i"][1] == b"minecraft:water"))
        return found

    def light(self, at, y):
        return dict(self.sections(at)[y])[b"BlockLight"][1]

    def light_at(self, x, y, z):
        place = 256 * (y & 15) + 16 * (z & 15) + (x & 15)
        return self.light((x >> 4, z >> 4), y >> 4)[place // 2] >> 4 * (place % 2) & 15


def edit(tick, x, y, z, text):
    return "%d %d %d %d %s\n" % (tick, x, y, z, text)
