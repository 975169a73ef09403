"""What calls of anvilwater-world refuse or pass over, for check_world.py: wrong paths, states that are not known, bad chunks, edits outside; and
the way back."""
import json
import os
import shutil
import zlib

import flat_runs
from check_ends import ENDED, after_call, ends_at, forked, has_journal, region_of, traced
from flat_runs import edit
from kept_worlds import full, payload, small_world, stored_chunks_of, unfinished, write_world
from stored_chunks import GZIP, ZLIB, gzipped, write
from world_calls import RECORD, call, contents, others, refused, shots
from written_regions import COMPOUND, INT, INTS, Tag, compound, compounds, named


def stored(x, z, **given):
    return ZLIB, zlib.compress(full(x, z, **given))


# ---------------------------------------------------------------- wrong paths


def entities(x, z):
    """A chunk of a folder of entities."""
    return ZLIB, zlib.compress(named("", compound(DataVersion=Tag(INT, 3700), Position=Tag(INTS, [x, z]), Entities=compounds([]))))


def points(_, __):
    """A chunk of a folder of points of interest."""
    return ZLIB, zlib.compress(named("", compound(DataVersion=Tag(INT, 3700), Sections=Tag(COMPOUND, {}))))


def wrong_paths(work, _):
    """Folders without region files, those that have some beside or below, and files of other things with the names of regions."""
    saves, world = os.path.join(work, "saves"), os.path.join(work, "saves", "world")
    write_world(world, small_world())
    for name, chunk in (("entities", entities), ("poi", points), ("other", entities)):
        os.makedirs(os.path.join(work, name))
        write_world(os.path.join(work, name, "made"), {(0, 0): {(0, 0): chunk(0, 0)}})
        os.unlink(os.path.join(work, name, "made", "region", "r.5.5.mca"))
        shutil.move(os.path.join(work, name, "made", "region"), os.path.join(world, name))
        shutil.rmtree(os.path.join(work, name))
    os.makedirs(os.path.join(world, "data"))
    os.makedirs(os.path.join(world, "DIM1", "region"))
    empty = os.path.join(work, "empty", "deep", "deeper", "deepest")
    os.makedirs(empty)
    was, beside = shots(world), "; region files are in " + region_of(world)
    no_world = "%s is no world, which has a folder region, and no folder of region files r.X.Z.mca%s"
    lines = {saves: no_world % (saves, beside), os.path.join(world, "data"): no_world % (os.path.join(world, "data"), beside),
             empty: no_world % (empty, ""), os.path.join(world, "DIM1"): "%s has no region files r.X.Z.mca%s" % (
                 os.path.join(world, "DIM1", "region"), beside)}
    for name, what in (("entities", "entities"), ("poi", "points of interest"), ("other", "entities")):
        lines[os.path.join(world, name)] = "%s is a folder of %s, which has no blocks%s" % (os.path.join(world, name), what, beside)
    for path, line in lines.items():
        for verb in ((), ("check",), ("light",), ("undo",)):
            yield (*verb, path), refused(line), call(*verb, path)[::2]
    yield "a dimension", refused("%s has no region files of the dimension nether%s" % (world, beside)), \
        call("check", world, "--dimension", "nether")[::2]
    yield "nothing is another", was, shots(world)


# ---------------------------------------------------------------- states of edits


def unknown_states(work, _):
    """States that neither the table nor the game's blocks of the world's version have: each is named with the nearest, and nothing is run."""
    world, table, path = (os.path.join(work, name) for name in ("world", "table", "edits"))
    write_world(world, small_world())
    write(work, "table", flat_runs.TABLE.encode() + b'[[block]]\nname = "mod:lamp"\nopen = false\nfloor = true\nopacity = 0\nemission = 9\n')
    wrong = [("minecraft:glowstonee", "minecraft:glowstonee is not known, and the nearest is minecraft:glowstone"),
             ("minecraft:oak_slab[type=botom]", "minecraft:oak_slab[type=botom]: botom is no value of type, and the nearest is bottom"),
             ("minecraft:torch[lit=true]", "minecraft:torch[lit=true]: minecraft:torch has no lit"),
             ("minecraft:furnace[facng=north]", "minecraft:furnace[facng=north]: minecraft:furnace has no facng, and the nearest is facing"),
             ("minecraft:candle[candles=9]", "minecraft:candle[candles=9]: 9 is no value of candles, which has 1, 2, 3, 4"),
             ("mod:lamb", "mod:lamb is not known, and the nearest is mod:lamp")]
    known = ["mod:lamp[any=thing]", "minecraft:oak_slab[type=bottom]", "minecraft:oak_slab", "minecraft:water[level=0]", "minecraft:air",
             "minecraft:note_block[note=3]", "minecraft:redstone_wall_torch[facing=north,lit=false]"]
    write(work, "edits", ("# some\n" + "".join(edit(1, 0, 0, 0, state) for state, _ in wrong) + "1 2 3\r\n" +
                          "".join(edit(1, 0, 0, 0, state) for state in known)).encode())
    was, words = shots(world), ("--edits", path, "--ticks", "1", "--table", table)
    end = "anvilwater-world: 6 of 13 edits have states that are not known, and the game would make others of them; --allow-unknown sets them; " \
        "nothing is done"
    for verb in ((), ("run",)):
        yield verb, (1, [*("anvilwater-world: %s, line %d: %s" % (path, number, line) for number, (_, line) in enumerate(wrong, 2)), end]), \
            call(*verb, world, *words)[::2]
    yield "nothing is another", was, shots(world)
    write(work, "edits", "".join(edit(1, 0, 0, 0, "minecraft:stoen%d" % number) for number in range(25)).encode())
    status, _, lines = call("run", world, *words)
    yield "many", (1, 21, True), (status, len(lines), "25 of 25 edits have states that are not known, the first 20 of which are named" in lines[-1])
    write_world(os.path.join(work, "old"), {(0, 0): {(0, 0): (ZLIB, zlib.compress(named("", compound(DataVersion=Tag(INT, 2860)))))}})
    write(work, "edits", edit(1, 0, 0, 0, "minecraft:cherry_planks").encode())
    yield "a block of a later version", 1, call("run", os.path.join(work, "old"), "--edits", path, "--ticks", "1")[0]
    yield "and where none is said", 0, call("run", world, *words, "--skip-outside")[0]


# ---------------------------------------------------------------- what is bad


def bad_world(world):
    """Two chunks that stand_in.py refuses, one that is damaged, a file that is cut short, and one of which a chunk is behind its end."""
    first = {(0, 0): b"chunk", (1, 0): b"bad one", (3, 1): b"cut"}
    first = {at: (ZLIB, zlib.compress(data)[:-5 if data == b"cut" else None]) for at, data in first.items()}
    write_world(world, {(0, 0): first, (0, 1): {(0, 32): (GZIP, gzipped(b"bad two"))}, (1, 1): {(32, 32): (ZLIB, zlib.compress(b"more"))},
                        (2, 2): {(64, 64): (ZLIB, zlib.compress(b"lost"))}})
    write(world, "region/r.7.0.mca", b"bytes")
    path = os.path.join(world, "region", "r.2.2.mca")
    os.truncate(path, os.path.getsize(path) - 4096)


SHORT, LOST = "r.7.0.mca: its 5 bytes are less than a header", "r.2.2.mca: chunk 64 64 can't be brought back, its sectors are not in the file"
CUT, BAD = "r.0.0.mca 3 1: its zlib stream is cut short", ("r.0.0.mca 1 0", "r.0.1.mca 0 32")
NO_NBT, STAYS = " fault 10: BadNbt: its bytes are no NBT document", "; it stays as it was, not lit"


def bad_chunks(work, _):
    """All that is bad is named at once, and left as it is where the call says so; all else is done."""
    world = os.path.join(work, "world")
    bad_world(world)
    was, begins = shots(world), "anvilwater-world: "
    both = [os.path.join(region_of(world), line) for line in (SHORT, LOST)]
    end = begins + "2 region files can't be taken there and back; --skip-bad leaves them as they are; nothing is done"
    yield "files", (1, [*both, end]), call("light", world)[::2]
    skips, skipped = ("--skip", "r.7.0.mca", "--skip", "r.2.2.mca"), [begins + name + " is left as it is" for name in ("r.7.0.mca", "r.2.2.mca")]
    named_chunks = [os.path.join(region_of(world), name) + NO_NBT for name in BAD]
    end = begins + "2 chunks have a fault; --skip-bad leaves them as they are; nothing is done"
    for memory in ((), ("--memory", "1")):
        yield ("chunks", *memory), (1, [*skipped, CUT + STAYS, "fault 10: BadNbt", *named_chunks, end]), call("light", world, *skips, *memory)[::2]
    yield "nothing is another", was, shots(world)
    yield "no such file", refused("r.9.9.mca is no region file of %s; nothing is done" % region_of(world)), call(world, "--skip", "r.9.9.mca")[::2]
    want = {**{at: b"%s+" % data for at, data in {(0, 0): b"chunk", (32, 32): b"more"}.items()}, (1, 0): b"bad one", (0, 32): b"bad two"}
    for number, memory in enumerate(((), ("--memory", "1"))):
        copy = shutil.copytree(world, os.path.join(work, "copy%d" % number))
        told = [SHORT + STAYS, LOST + STAYS, CUT + STAYS, *(name + NO_NBT + STAYS for name in BAD)]
        status, _, lines = call("light", copy, "--skip-bad", *memory)
        yield ("left as they are", *memory), (4, sorted(told)), (status, sorted(lines))
        found = {at: chunk for place in ((0, 0), (0, 1), (1, 1)) for at, chunk in stored_chunks_of(region_of(copy), *place).items()}
        yield "chunks that are done", want, {at: payload(found[at]) for at in want}
        yield "one that is damaged", zlib.compress(b"cut")[:-5], found[3, 1][1]
        yield "files that are bad", [was["region/" + name][0] for name in ("r.7.0.mca", "r.2.2.mca")], \
            [contents(region_of(copy))[name] for name in ("r.7.0.mca", "r.2.2.mca")]
    objects = [json.loads(line) for line in call("light", world, "--json", *skips)[1]]
    yield "objects", ["folder", "bad", "bad", "bad", "error"], [one["kind"] for one in objects]
    yield "one of them", {"kind": "bad", "path": os.path.join(region_of(world), "r.0.1.mca"), "chunk": [0, 32], "fault": 10, "name": "BadNbt",
                          "cause": "its bytes are no NBT document", "found": None}, objects[3]


def too_large(work, _):
    """Chunks that light makes too large end a call, or stay as they are."""
    world = os.path.join(work, "world")
    write_world(world, {(-1, 0): {(-1, 3): (ZLIB, zlib.compress(b"large")), (-2, 0): (ZLIB, zlib.compress(b"chunk")),
                                  (-7, 1): (ZLIB, zlib.compress(b"large too"))}})
    was = shots(world)
    yield "refused", (1, ["fault 24: ChunkTooLarge -7 1"]), call("light", world)[::2]
    yield "nothing is another", was, shots(world)
    told = ["r.-1.0.mca %s fault 24: ChunkTooLarge: light makes it larger than a region holds; it stays as it was, not lit" % at
            for at in ("-7 1", "-1 3")]
    yield "left as they are", (4, told), call("light", world, "--skip-bad")[::2]
    found = {at: payload(chunk) for at, chunk in stored_chunks_of(region_of(world), -1, 0).items()}
    yield "each chunk", {(-1, 3): b"large", (-2, 0): b"chunk+", (-7, 1): b"large too"}, found


def edits_outside(work, _):
    """Edits where no chunk is loaded are named, or left out; and edits of standard input, behind a byte-order mark."""
    world, program = os.path.join(work, "world"), os.path.join(work, "program")
    write_world(world, {(0, 0): {(0, 0): stored(0, 0), (1, 0): (ZLIB, zlib.compress(unfinished(1, 0)))}})
    write(work, "program", b'#!/bin/sh\n[ "$1" = run ] || exit 0\ncp "$9" "$0.edits"\n[ "$3" = "$5" ] || cp "$3"/* "$5"\necho chunks 1 turns 0\n')
    os.chmod(program, 0o755)
    write(work, "table", flat_runs.TABLE.encode())
    places = [(8, 70, 8), (15, -64, 0), (16, 70, 0), (-1, 70, 0), (600, 70, 0), (0, 320, 0), (0, -65, 0), (0, 319, 15)]
    lines = [edit(1, *at, "minecraft:stone") for at in places]
    write(work, "edits", "".join(lines).encode())
    words = (world, "--ticks", "1", "--table", os.path.join(work, "table"), "--edits")
    path, was = os.path.join(work, "edits"), shots(world)
    told = ["anvilwater-world: %s, line %d: %d %d %d is in no chunk that is loaded, or out of the height" % (path, number, *places[number - 1])
            for number in range(3, 8)]
    yield "refused", (1, [*told, "anvilwater-world: 5 of 8 edits are outside; --skip-outside leaves them out; nothing is done"]), \
        call("run", *words, path, program=program)[::2]
    yield "nothing is another", was, shots(world)
    yield "left out", (0, [*told, "anvilwater-world: 5 of 8 edits are left out"]), call("run", *words, path, "--skip-outside", program=program)[::2]
    want = "".join(line if number in (0, 1, 7) else "#\n" for number, line in enumerate(lines))
    yield "those that are set", want, open(program + ".edits").read()
    for mark in ("", "\ufeff"):
        end, start = os.pipe()
        os.write(start, (mark + lines[0]).encode())
        os.close(start)
        yield "standard input", 0, call("run", *words, "-", program=program, stdin=end)[0]
        os.close(end)
        yield "its edits", lines[0], open(program + ".edits").read()
    write(work, "one", lines[0].encode())
    for name in ("-", "/dev/stdin", os.path.join(work, "one")):
        with open(os.path.join(work, "one"), "rb") as file:
            yield "a file by " + name, 0, call("run", *words, name, program=program, stdin=file)[0]
        yield "its edits", lines[0], open(program + ".edits").read()


# ---------------------------------------------------------------- the way back


def undone(work, _):
    """The old files come back, and the new ones by a second call. Where a file changed since nothing is done."""
    world = os.path.join(work, "world")
    write_world(world, small_world())
    old = contents(region_of(world))
    yield "nothing to undo", refused("there is no folder %s.before-*; --from names the folder of old files; nothing is done" % region_of(world)), \
        call("undo", world)[::2]
    call("light", world)
    new, first = contents(region_of(world)), [name for name in os.listdir(world) if name.startswith("region.before-")]
    status, out, err = call("undo", world)
    kept = os.path.join(world, first[0])
    yield "undo", (0, ["folder " + region_of(world), "brought back from " + kept, "replaced 4 added 1 removed 1"], []), (status, out[:3], err)
    yield "the old files", old, contents(region_of(world))
    yield "what else there is", ["level.dat", "session.lock"], others(world)
    yield "undo of that", (0, new), (call("undo", world)[0], contents(region_of(world)))
    yield "the first one is named", (0, old), (call("undo", world, "--from", kept)[0], contents(region_of(world)))
    call("undo", world)
    write(region_of(world), "r.0.1.mca", new["r.0.1.mca"])
    was = shots(world)
    yield "one that changed", refused("r.0.1.mca changed since %s was kept, as by the game; nothing is done" % kept), \
        call("undo", world, "--from", kept)[::2]
    yield "nothing is another", was, shots(world)
    os.rename(os.path.join(kept, "r.0.0.mca"), os.path.join(work, "r.0.0.mca"))
    yield "one that is lost", refused("r.0.0.mca is not in %s any more; nothing is done" % kept), call("undo", world, "--from", kept)[::2]
    os.unlink(os.path.join(kept, RECORD))
    yield "without a record", refused("%s has no record of what took its files' places, so move them by hand; nothing is done" % kept), \
        call("undo", world, "--from", kept)[::2]
    write(kept, RECORD, json.dumps({"replaced": {"../level.dat": [7, 0]}, "added": {}, "removed": []}).encode())
    yield "one that somebody else made", refused("%s is no record of this command; nothing is done" % os.path.join(kept, RECORD)), \
        call("undo", world, "--from", kept)[::2]


def undone_in_parts(work, _):
    """Calls that undo and end before changes of the file system: each file is the old one or the new one, and the next call finishes it."""
    first, log = os.path.join(work, "first"), os.path.join(work, "log")
    write_world(first, small_world())
    old = contents(region_of(first))
    call("light", first)
    new = contents(region_of(first))
    tried = shutil.copytree(first, os.path.join(work, "tried"))
    with open(log, "w") as file:
        forked(tried, work, lambda: traced(file), verb=["undo"])
    count = len(open(log).read().splitlines())
    for number in [*range(1, count, 3), count]:
        world = shutil.copytree(first, os.path.join(work, "world%d" % number))
        status, _ = forked(world, work, lambda: ends_at(number), verb=["undo"])
        state, begun = after_call(new, old, world), has_journal(world)
        yield "after %d changes" % number, (ENDED, True), (status, state in ("old", "new") or state == "some" and begun)
        if state != "new" or begun:
            yield "then another call", (0, old), (forked(world, work, lambda: None, verb=["undo"])[0], contents(region_of(world)))
        else:
            yield "then nothing is left to do", (0, old), (call("check", world)[0], contents(region_of(world)))
        yield "what else there is", (["level.dat", "session.lock"], 2), (others(world), len([name for name in os.listdir(world) if ".before-" in name]))
        shutil.rmtree(world)
