#!/usr/bin/env python3
"""Makes region files that stand for what a Minecraft 1.18.2 server writes.

    scripts/make_samples.py                 samples/ and the regions of the stored runs of av_main and av_bench
    scripts/make_samples.py --bench FILE    a full region of 1,024 chunks
    scripts/make_samples.py --dark FILE     the same with nothing in it that gives light
    scripts/make_samples.py --edits FILE    5,000 edits of it in the ticks 1 to 20
    scripts/make_samples.py --copy FILE X Z TO      a region file's copy as that of the region (X, Z), from (0, 0)

Chunks are uncompressed (type 3), DataVersion 2975, sections -4 to 19, with the tags that a server
writes (minecraft.wiki: Region file format, Chunk format, NBT format). The blocks come from a small
terrain of scripts/terrain.py. Light, biomes and heightmaps are of the right shape; their values are
only plausible. All output is a function of these files: there is no clock and no outside randomness.
"""
import os
import re
import struct
import sys

from terrain import (
    AIR, CAVE_AIR, KELP, LAVA, LEAVES, LOWEST, PLANTS, SEA, SECTIONS, STATES, STONE, TORCH, WATER, Chunk, Dice, state_text, surface_at)
from written_regions import BYTE, BYTES, COMPOUND, INT, LIST, LONG, LONGS, SHORT, TEXT, Tag, compound, compounds, pack, region_bytes

REPOSITORY = os.path.dirname(os.path.dirname(os.path.abspath(__file__)))

# ---------------------------------------------------------------- a chunk's tags


def state_tags(number):
    name, properties = STATES[number]
    tags = {"Name": Tag(TEXT, "minecraft:" + name)}
    if properties:
        tags["Properties"] = Tag(COMPOUND, {key: Tag(TEXT, value) for key, value in properties})
    return tags


def block_states(cells, spare=None, data_first=False):
    """The tag of a section's cells (4,096 state numbers): palette and data."""
    used = list(dict.fromkeys(cells))
    if spare is not None and spare not in used:
        used.insert(1, spare)
    tags = {"palette": Tag(LIST, (COMPOUND, [state_tags(number) for number in used]))}
    if len(used) > 1:
        index = bytes.maketrans(bytes(used), bytes(range(len(used))))
        bits = max(4, (len(used) - 1).bit_length())
        data = Tag(LONGS, pack(cells.translate(index), bits))
        tags = {"data": data, **tags} if data_first else {**tags, "data": data}
    return Tag(COMPOUND, tags)


BIOMES = ("minecraft:plains", "minecraft:forest", "minecraft:river", "minecraft:lush_caves", "minecraft:dripstone_caves")


def biomes(dice, y):
    count = 1 if y > 6 else 1 + dice.below(3)
    first = dice.below(len(BIOMES))
    palette = [BIOMES[(first + step) % len(BIOMES)] for step in range(count)]
    tags = {"palette": Tag(LIST, (TEXT, palette))}
    if count > 1:
        tags["data"] = Tag(LONGS, pack([dice.below(count) for _ in range(64)], (count - 1).bit_length()))
    return Tag(COMPOUND, tags)


def block_light(chunk, y):
    """A light array with 14 at each light of the section and less around it along x; None where there is none."""
    places = [place for section, place in chunk.lights if section == y]
    if not places:
        return None
    light = bytearray(2048)
    for place in places:
        for step in range(-7, 8):
            at = place + step
            if place // 16 == at // 16:
                shift = 4 * (at % 2)
                light[at // 2] |= max(0, 14 - abs(step)) << shift
    return light


def sky_light(chunk, y):
    low, high = min(chunk.surface), max(chunk.surface)
    if 16 * y > high:
        return b"\xff" * 2048
    if 16 * y + 15 < low:
        return None
    rows = bytearray(2048)
    for place in range(4096):
        if 16 * y + place // 256 > chunk.surface[place % 256]:
            rows[place // 2] |= 15 << 4 * (place % 2)
    return rows


def section_tags(chunk, y):
    tags = {"Y": Tag(BYTE, y)}
    if y in SECTIONS:
        spare = STONE if chunk.dice.below(8) == 0 else None
        tags["block_states"] = block_states(bytes(chunk.cells[y]), spare, chunk.dice.below(2) == 0)
        tags["biomes"] = biomes(chunk.dice, y)
    light = block_light(chunk, y)
    if light is not None:
        tags["BlockLight"] = Tag(BYTES, light)
    sky = sky_light(chunk, y) if y in SECTIONS else b"\xff" * 2048
    if sky is not None and y >= -4:
        tags["SkyLight"] = Tag(BYTES, sky)
    return tags


def heightmaps(chunk):
    def column(place, passes):
        y = max(chunk.surface[place], SEA) + 12
        while chunk.cells[y >> 4][256 * (y & 15) + place] in passes:
            y -= 1
        return y + 1 - LOWEST

    air = {AIR, *PLANTS, TORCH}
    fluids = air | set(WATER) | {KELP}
    kinds = {"MOTION_BLOCKING": air, "MOTION_BLOCKING_NO_LEAVES": air | set(LEAVES), "OCEAN_FLOOR": fluids,
             "WORLD_SURFACE": {AIR}}
    return Tag(COMPOUND, {name: Tag(LONGS, pack([column(place, passes) for place in range(256)], 9))
                          for name, passes in kinds.items()})


def tick_tags(entry):
    fluid, x, y, z, time = entry
    return {"i": Tag(TEXT, fluid), "p": Tag(INT, 0), "t": Tag(INT, time), "x": Tag(INT, x), "y": Tag(INT, y), "z": Tag(INT, z)}


def structures(chunk):
    references = {"minecraft:mineshaft": Tag(LONGS, [(chunk.z & 0xFFFFFFFF) << 32 | (chunk.x & 0xFFFFFFFF)])}
    return compound(References=Tag(COMPOUND, references), starts=Tag(COMPOUND, {}))


def post_processing(chunk):
    lists = []
    for y in SECTIONS:
        shorts = [chunk.dice.below(4096) for _ in range(3)] if y == 2 else []
        lists.append((SHORT if shorts else 0, shorts))
    return Tag(LIST, (LIST, lists))


def chunk_tags(chunk, status):
    """The tags of a full chunk, in one of two orders."""
    extra_sections = [-5, 20] if chunk.dice.below(2) == 0 else [-5]
    sections = [section_tags(chunk, y) for y in sorted([*extra_sections, *SECTIONS])]
    if chunk.dice.below(3) == 0:
        sections.reverse()
    head = {"DataVersion": Tag(INT, 2975), "xPos": Tag(INT, chunk.x), "yPos": Tag(INT, -4), "zPos": Tag(INT, chunk.z),
            "Status": Tag(TEXT, status), "LastUpdate": Tag(LONG, 123456 + chunk.dice.below(9999)),
            "InhabitedTime": Tag(LONG, chunk.dice.below(99999))}
    block_ticks = [("minecraft:gravel", 16 * chunk.x + 3, 11, 16 * chunk.z + 9, 2)] if chunk.dice.below(5) == 0 else []
    body = {"sections": compounds(sections), "Heightmaps": heightmaps(chunk), "isLightOn": Tag(BYTE, 1),
            "block_entities": compounds(chunk.block_entities), "block_ticks": compounds([tick_tags(t) for t in block_ticks]),
            "fluid_ticks": compounds([tick_tags(t) for t in chunk.fluid_ticks]),
            "PostProcessing": post_processing(chunk), "structures": structures(chunk)}
    names = list(body)
    if chunk.dice.below(2) == 0:
        names.reverse()
    return Tag(COMPOUND, {**head, **{name: body[name] for name in names}})


def unfinished_tags(x, z):
    """A chunk that world generation has not finished: it is kept as it is."""
    stone = {"Y": Tag(BYTE, 0), "block_states": block_states(bytes([STONE]) * 4096), "biomes": biomes(Dice(5, x, z), 0)}
    return compound(DataVersion=Tag(INT, 2975), xPos=Tag(INT, x), yPos=Tag(INT, -4), zPos=Tag(INT, z),
                    Status=Tag(TEXT, "minecraft:features"), LastUpdate=Tag(LONG, 777), InhabitedTime=Tag(LONG, 0),
                    sections=compounds([stone]), Heightmaps=compound(), block_entities=compounds([]),
                    entities=compounds([]), Lights=Tag(LIST, (LIST, [(0, [])] * 24)), block_ticks=compounds([]),
                    fluid_ticks=compounds([]), structures=compound(References=compound(), starts=compound()),
                    PostProcessing=Tag(LIST, (LIST, [(0, [])] * 24)))


# ---------------------------------------------------------------- region files

def write(path, data):
    path = os.path.join(REPOSITORY, path)
    os.makedirs(os.path.dirname(path), exist_ok=True)
    with open(path, "wb") as file:
        file.write(data)


def expectations(name, chunks, dice):
    """Lines FILE X Y Z STATE: cells picked over all chunks, every odd state, and cells beside the loaded ones."""
    lines = []
    for chunk in chunks:
        seen = {}
        for y in SECTIONS:
            for place, number in enumerate(chunk.cells[y]):
                if number not in seen or dice.below(400) == 0:
                    seen[number] = (y, place)
        picks = sorted(seen.items())
        for number, (y, place) in picks[::2] + [(None, (dice.pick(SECTIONS), dice.below(4096))) for _ in range(4)]:
            number = chunk.cells[y][place] if number is None else number
            x, z = 16 * chunk.x + place % 16, 16 * chunk.z + place // 16 % 16
            lines.append("%s %d %d %d %s" % (name, x, 16 * y + place // 256, z, state_text(number)))
    first = chunks[0]
    for y in (320, -65):
        lines.append("%s %d %d %d unloaded" % (name, 16 * first.x, y, 16 * first.z))
    return lines


def samples():
    lines = ["# FILE X Y Z STATE, from the model of scripts/make_samples.py and not from the files"]
    first = [Chunk(x, z).build(furnished) for x, z, furnished in ((0, 0, True), (1, 0, False), (4, 31, False))]
    roots = {(c.x, c.z): chunk_tags(c, "full") for c in reversed(first)}
    roots[(0, 1)] = unfinished_tags(0, 1)
    for path in ("samples/r.0.0.mca", "crates/av_bench/data/r.0.0.mca"):
        write(path, region_bytes(roots, gap=1))
    lines += expectations("r.0.0.mca", first, Dice(7))
    lines += ["r.0.0.mca 5 64 20 unloaded", "r.0.0.mca 40 64 200 unloaded", "r.0.0.mca 512 64 0 unloaded"]
    second = [Chunk(x, z).build(furnished) for x, z, furnished in ((-1, -1, True), (-32, -7, False))]
    write("samples/r.-1.-1.mca", region_bytes({(c.x, c.z): chunk_tags(c, "minecraft:full") for c in second}))
    lines += expectations("r.-1.-1.mca", second, Dice(8)) + ["r.-1.-1.mca -40 64 -200 unloaded"]
    write("samples/blocks.txt", ("\n".join(lines) + "\n").encode())


def stored_run():
    """Chunk (-1, -1) with one section: air, and one stone at the place whose index is in the high bits of long 15."""
    longs = [0] * 256
    longs[15] = 0x1000000000000000
    palette = Tag(LIST, (COMPOUND, [{"Name": Tag(TEXT, "minecraft:air")}, {"Name": Tag(TEXT, "minecraft:stone")}]))
    section = {"Y": Tag(BYTE, 4), "block_states": compound(palette=palette, data=Tag(LONGS, longs))}
    root = compound(DataVersion=Tag(INT, 2975), xPos=Tag(INT, -1), zPos=Tag(INT, -1), yPos=Tag(INT, -4),
                    Status=Tag(TEXT, "full"), sections=compounds([section]))
    write("crates/av_main/data/r.-1.-1.mca", region_bytes({(-1, -1): root}))


def bench(path, bright=True):
    """Four villages stand in it. Without `bright` nothing in it gives light."""
    def chunk_at(x, z):
        chunk = Chunk(x, z).build((x + 5 * z) % 16 == 0)
        if x % 16 < 6 and z % 16 < 6:
            chunk.light_up()
        if not bright:
            dark = bytes.maketrans(bytes((LAVA, TORCH)), bytes((CAVE_AIR, AIR)))
            chunk.cells = {y: bytearray(cells.translate(dark)) for y, cells in chunk.cells.items()}
        return chunk

    chunks = {(x, z): chunk_tags(chunk_at(x, z), "full") for z in range(32) for x in range(32)}
    write(os.path.abspath(path), region_bytes(chunks))


def edits(path):
    """Water over the ground, and now and then a stone or a torch."""
    dice = Dice(11)
    states = ["minecraft:water[level=0]"] * 6 + ["minecraft:stone", "minecraft:torch"]
    lines = []
    for _ in range(5000):
        x, z = dice.below(512), dice.below(512)
        y = max(surface_at(x, z), SEA) + 1 + dice.below(6)
        lines.append("%d %d %d %d %s" % (1 + dice.below(20), x, y, z, dice.pick(states)))
    write(os.path.abspath(path), ("\n".join(lines) + "\n").encode())


def moved(data, x, z):
    """The bytes of the region (0, 0) as those of another: its chunks' places and all that lies in them."""
    for name, shift in ((b"xPos", 32 * x), (b"zPos", 32 * z), (b"x", 512 * x), (b"z", 512 * z)):
        tag = bytes([INT]) + struct.pack(">H", len(name)) + name
        data = re.sub(re.escape(tag) + b"(.{4})", lambda found: tag + struct.pack(">i", struct.unpack(">i", found[1])[0] + shift), data, flags=re.DOTALL)
    return data


def copy(path, x, z, to):
    with open(path, "rb") as file:
        data = file.read()
    write(os.path.abspath(to), moved(data, int(x), int(z)))


def main():
    if len(sys.argv) == 3 and sys.argv[1] == "--bench":
        bench(sys.argv[2])
    elif len(sys.argv) == 3 and sys.argv[1] == "--dark":
        bench(sys.argv[2], bright=False)
    elif len(sys.argv) == 3 and sys.argv[1] == "--edits":
        edits(sys.argv[2])
    elif len(sys.argv) == 6 and sys.argv[1] == "--copy":
        copy(*sys.argv[2:])
    elif len(sys.argv) == 1:
        samples()
        stored_run()
    else:
        sys.exit(__doc__)


if __name__ == "__main__":
    main()
