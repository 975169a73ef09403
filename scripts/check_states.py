#!/usr/bin/env python3
"""Lists the states of small worlds with the built program, and compares each line with a count of this script's own.

    scripts/check_states.py PROGRAM         as crates/av_main/out/av_main

The worlds are made by hand from the blocks that are counted, and each row is found by a few lines here. Chunks that are not full have no
blocks, and those with a fault are left out, as are files that are cut short.
"""
import collections
import os
import struct
import subprocess
import sys
import tempfile

sys.dont_write_bytecode = True
import make_samples
import written_regions
from flat_runs import chunk, flat, section_tags
from written_regions import BYTE, BYTES, INT, LIST, TEXT, Tag, compound, compounds

AIR, STONE, LAMP = "minecraft:air", "minecraft:stone", "minecraft:redstone_lamp"
PLACES, SECTIONS = 4096, 24
# name, properties, open, floor, opacity, emission, wet
ROWS = [
    (STONE, {}, False, True, 15, 0, False),
    (LAMP, {"lit": "true"}, False, True, 15, 15, False),
    (LAMP, {"lit": "true", "hot": "yes"}, True, False, 1, 2, False),
    ("mod:kelp", {}, False, False, 1, 0, True),
]
BUILT_IN = {AIR: (True, False, 0, 0, False), "minecraft:water": (False, False, 1, 0, False)}

# ---------------------------------------------------------------- what is expected


def parts(text):
    """The name and the properties of a state's text, in order."""
    name, _, rest = text.partition("[")
    return name, sorted(tuple(pair.split("=")) for pair in rest[:-1].split(",")) if rest else []


def row_of(text):
    name, pairs = parts(text)
    if name in BUILT_IN:
        return BUILT_IN[name]
    for row, properties, *values, wet in ROWS:
        if row == name and set(properties.items()) <= set(pairs):
            return (*values, wet or ("waterlogged", "true") in pairs)
    return None


def line(text, blocks, has_table):
    if not has_table:
        return "%d %s" % (blocks, text)
    row = row_of(text)
    if row is None:
        return "%d %s no row" % (blocks, text)
    keys = zip(("open", "floor", "opacity", "emission", "wet"), row)
    return "%d %s %s" % (blocks, text, " ".join("%s=%s" % (key, str(value).lower()) for key, value in keys))


def lines(counts, has_table=True):
    """The most blocks first, and then by the name and the properties."""
    found = sorted(counts.items(), key=lambda count: (-count[1], parts(count[0])))
    return [line(text, blocks, has_table) for text, blocks in found]


def world(blocks, chunks=1):
    """The counts of so many flat chunks, some of whose blocks are others."""
    counts = collections.Counter({STONE: 256 * chunks, AIR: (SECTIONS * PLACES - 256) * chunks})
    for text in blocks:
        counts[text] += 1
        counts[AIR] -= 1
    return counts


def left_out(count):
    return "%d chunks or files have a fault and are left out: `anvilwater check --in DIR` lists them\n" % count if count else ""


# ---------------------------------------------------------------- files


def table():
    rows = ["version = 2\n"]
    for name, properties, *flags, opacity, emission, wet in ROWS:
        pairs = ", ".join('%s = "%s"' % pair for pair in properties.items())
        values = [*zip(("open", "floor"), map(str, flags)), ("opacity", str(opacity)), ("emission", str(emission)), ("wet", str(wet))]
        rows.append('[[block]]\nname = "%s"\nproperties = { %s }\n' % (name, pairs))
        rows.append("".join("%s = %s\n" % (key, value.lower()) for key, value in values))
    return "".join(rows)


def chunk_of_sections(x, z, sections):
    return compound(xPos=Tag(INT, x), zPos=Tag(INT, z), Status=Tag(TEXT, "full"), sections=compounds(sections))


def section_of_entries(y, entries, indices):
    """A section whose palette is written as it is, entries that are there twice or unused too."""
    states = written_regions.COMPOUND
    tags = {"palette": Tag(LIST, (states, entries)), "data": Tag(written_regions.LONGS, written_regions.pack(indices, 4))}
    return {"Y": Tag(BYTE, y), "block_states": Tag(states, tags)}


def entry(name, **properties):
    tags = {"Name": Tag(TEXT, name)}
    if properties:
        tags["Properties"] = Tag(written_regions.COMPOUND, {key: Tag(TEXT, value) for key, value in properties.items()})
    return tags


# ---------------------------------------------------------------- examples: files, the table or none, status, lines, errors


def plain():
    """Two chunks, some blocks with and without rows, and states that tie."""
    blocks = {(1, 64, 1): LAMP + "[lit=true]", (2, 64, 1): LAMP + "[lit=false]", (3, 64, 1): LAMP + "[hot=yes,lit=true]",
              (20, 70, 3): "mod:kelp", (21, 70, 3): "mod:kelp", (4, 64, 1): "mod:a_b", (5, 64, 1): "mod:a", (6, 64, 1): "mod:a[k=v]",
              (7, 64, 1): "minecraft:water[level=3]", (8, 64, 1): "mod:a0"}
    files = {"r.0.0.mca": flat(blocks, ((0, 0), (1, 0)))}
    counts = world(blocks.values(), 2)
    yield "blocks with and without rows", files, True, 0, lines(counts), ""
    yield "the same without a table", files, False, 0, lines(counts, False), ""
    apart = {"r.0.0.mca": flat(blocks, ((0, 0),)), "r.-1.2.mca": written_regions.region_bytes({(-32, 64): chunk(-32, 64, {}, (), {})})}
    first = [text for (x, _, _), text in blocks.items() if x < 16]
    yield "chunks of two regions", apart, True, 0, lines(world(first, 2)), ""
    yield "an empty folder", {}, True, 0, [], "in has no region files\n"
    yield "regions without chunks", {"r.0.0.mca": b"", "r.1.0.mca": bytes(8192), "other.txt": b"x"}, True, 0, [], ""


def forms():
    """Palettes with entries that are there twice, unused, out of order, or of another form than they are listed in."""
    entries = [entry("minecraft:air", a="b"), entry("minecraft:water", level="15", b="c"), entry("minecraft:water"),
               entry("mod:x", z="1", a="2"), entry("mod:unused"), entry("mod:x", a="2", z="1")]
    indices = [0] * 4000 + [1] * 40 + [2] * 30 + [3] * 20 + [5] * 6
    counts = {AIR: 23 * PLACES + 4000, "minecraft:water[level=8]": 40, "minecraft:water[level=0]": 30, "mod:x[a=2,z=1]": 26}
    files = {"r.0.0.mca": written_regions.region_bytes({(0, 0): chunk_of_sections(0, 0, [section_of_entries(3, entries, indices)])})}
    yield "forms of states", files, True, 0, lines(counts), ""
    unseen = [section_tags(y, {place: "mod:x" for place in range(PLACES)}) for y in (-5, -4, 19, 20)]
    files = {"r.0.0.mca": written_regions.region_bytes({(0, 0): chunk_of_sections(0, 0, unseen)})}
    yield "sections out of the height", files, True, 0, lines({AIR: 22 * PLACES, "mod:x": 2 * PLACES}), ""


def damaged():
    """Chunks that are not full, chunks with a fault, and files that are cut short."""
    good, kept = chunk(1, 0, {}, (), {}), make_samples.unfinished_tags(3, 0)
    strange = compound(xPos=Tag(INT, 2), zPos=Tag(INT, 0), Status=Tag(TEXT, "full"), sections=Tag(BYTES, b""))
    data = bytearray(written_regions.region_bytes({(0, 0): good, (1, 0): good, (2, 0): strange, (3, 0): kept}))
    files = {"r.0.0.mca": bytes(data)}
    # the chunk at (0, 0) says that it is (1, 0), and the one at (2, 0) has no sections
    yield "chunks with faults", files, True, 1, lines(world((), 1)), left_out(2)
    files["r.1.0.mca"] = b"short"
    yield "a file that is cut short", files, True, 1, lines(world((), 1)), left_out(3)
    offset = struct.unpack_from(">I", data)[0] >> 8
    data[4096 * offset + 4] = 2
    yield "a chunk of another compression", {"r.0.0.mca": bytes(data)}, True, 1, lines(world((), 1)), left_out(2)


def many():
    """More states than one table of the program's has, though no chunk has so many."""
    names = ["m:%04x" % number for number in range(0, 3 * SECTIONS * 1000)]
    chunks, counts = {}, collections.Counter()
    for x in range(3):
        sections = []
        for part in range(SECTIONS):
            own = names[(x * SECTIONS + part) * 1000:][:1000]
            cells = [own[place % 1000] for place in range(PLACES)]
            counts.update(cells)
            palette = [entry(name) for name in own]
            longs = written_regions.pack([place % 1000 for place in range(PLACES)], 10)
            tags = {"palette": Tag(LIST, (written_regions.COMPOUND, palette)), "data": Tag(written_regions.LONGS, longs)}
            sections.append({"Y": Tag(BYTE, part - 4), "block_states": Tag(written_regions.COMPOUND, tags)})
        chunks[x, 0] = chunk_of_sections(x, 0, sections)
    yield "72,000 states", {"r.0.0.mca": written_regions.region_bytes(chunks)}, True, 0, lines(counts), ""


# ---------------------------------------------------------------- asking


def ask(program, files, has_table):
    with tempfile.TemporaryDirectory() as work:
        os.mkdir(os.path.join(work, "in"))
        for name, content in [("table", table().encode()), *(("in/" + name, content) for name, content in files.items())]:
            with open(os.path.join(work, name), "wb") as file:
                file.write(content)
        words = [program, "states", "--in", "in"] + ["--table", "table"] * has_table
        done = subprocess.run(words, cwd=work, capture_output=True, text=True)
        return done.returncode, done.stdout.splitlines(), "".join(done.stderr.splitlines(True)[:1])


def main():
    program = os.path.abspath(sys.argv[1])
    asked = wrong = 0
    for examples in (plain, forms, damaged, many):
        for name, files, has_table, status, expected, errors in examples():
            asked += 1
            found = ask(program, files, has_table)
            if found != (status, expected, errors):
                wrong += 1
                print("%s: expected %.300r, found %.300r" % (name, (status, expected, errors), found))
    print("%d worlds listed, %d wrong" % (asked, wrong))
    sys.exit(wrong > 0)


if __name__ == "__main__":
    main()
