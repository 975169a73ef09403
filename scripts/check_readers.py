"""What anvilwater-world reads of worlds as the game keeps them, for check_world.py: check, states, block and map; dimensions, and help."""
import fcntl
import json
import os
import shutil
import struct
import subprocess
import sys
import zlib

import flat_runs
from check_ends import begun_world, region_of
from check_verbs import stored
from kept_worlds import game_world, small_world, write_world
from stored_chunks import write
from world_calls import TOP, backup, call, contents, in_use, refused, shots
from world_folders import upwards
from world_words import VERBS, parser_of, parser_without_verb

# ---------------------------------------------------------------- what is read


def read(work, program):
    """check, states and block of a world of all compressions, in which two chunks can't be read, and one is of another place."""
    world, table = os.path.join(work, "world"), os.path.join(work, "table")
    chunks = game_world()
    chunks[0, 0][5, 0] = stored(6, 0)
    write_world(world, chunks)
    write(work, "table", flat_runs.TABLE.encode())
    was, words = shots(world), ("--table", table)
    large, place = "r.0.0.mca 4 0: its plain bytes are more than 1044475", \
        "r.0.0.mca 5 0 fault 13: WrongPlace: its own coordinates are not those of its place, it says 6 0"
    cut = "r.0.0.mca 3 1: its zlib stream is cut short"
    yield "check", (4, [large, place, cut, "5 files, 14 chunks, 3 findings"], []), call("check", world, *words, program=program)
    objects = [json.loads(line) for line in call("check", world, "--json", *words, program=program)[1]]
    yield "its objects", [{"kind": "folder", "folder": region_of(world)}, {"kind": "result", "files": 5, "chunks": 14, "findings": 3}], \
        [objects[0], objects[-1]]
    yield "one of a chunk", {"kind": "bad", "path": os.path.join(region_of(world), "r.0.0.mca"), "chunk": [5, 0], "fault": 13, "name": "WrongPlace",
                             "cause": "its own coordinates are not those of its place", "found": [6, 0]}, objects[2]
    told = [line + "; it is left out" for line in (large, place, cut)]
    # Eight loaded chunks of 24 sections: 256 blocks of stone in each, and one of water in one of them.
    lines = ["784383 minecraft:air open=true floor=false opacity=0 emission=0 wet=false",
             "2048 minecraft:stone open=false floor=true opacity=15 emission=0 wet=false",
             "1 minecraft:water[level=0] open=false floor=false opacity=1 emission=0 wet=false"]
    yield "states", (4, lines, told), call("states", world, *words, program=program)
    objects = [json.loads(line) for line in call("states", world, "--json", *words, program=program)[1]]
    yield "an object of them", {"kind": "state", "blocks": 2048, "state": "minecraft:stone", "row": {
        "open": False, "floor": True, "opacity": 15, "emission": 0, "wet": False}}, objects[-3]
    yield "the last one", {"kind": "result", "files": 5, "chunks": 14, "left_out": 3, "states": 3, "states_without_row": 0, "blocks": 786432}, objects[-1]
    blocks = {(8, 63, 8): "minecraft:stone", (-32, 64, -1): "minecraft:air", (8, 64, 520): "minecraft:water[level=0]"}
    for at, line in (*blocks.items(), ((8, 320, 8), ""), ((9999, 0, -9999), ""), ((56, 63, 24), told[2]), ((88, 63, 8), told[1]), ((40, 0, 24), "")):
        want = (0, [line], []) if at in blocks else (4 if line else 0, ["unloaded"], [line] if line else [])
        yield at, want, call("block", world, *map(str, at), *words, program=program)
    yield "nothing is another", was, shots(world)
    yield from kept_from(world, program)
    yield from read_alone(world, program, words)
    yield from without_a_row(os.path.join(work, "mods"), program)
    yield from in_between(os.path.join(work, "between"), work)


def kept_from(world, program):
    """A world that the game has open."""
    session = os.path.join(world, "session.lock")
    with open(session, "r+b") as file:
        fcntl.lockf(file, fcntl.LOCK_EX)
        line = "%s is locked: the game has the world open, or another program works on it; nothing is done" % session
        for verb in ("check", "states", "undo", "light"):
            yield verb + " while the game has it", in_use(line), call(verb, world, program=program)[::2]


def read_alone(world, program, words):
    """A user who may not write there."""
    # Where others may not come to this command there is nothing to be seen.
    if os.geteuid() != 0 or not all(os.stat(folder).st_mode & 0o005 == 0o005 for folder in upwards(TOP)):
        return

    def other():
        os.setgroups([])
        os.setgid(4321)
        os.setuid(4321)
    os.chmod(os.path.dirname(world), 0o755)
    program = shutil.copy(program, os.path.join(os.path.dirname(world), "program"))
    yield "another user", (0, ["minecraft:stone"], []), call("block", world, "8", "63", "8", *words, program=program, preexec_fn=other)


def without_a_row(world, program):
    """A block that the table of the world's version does not know is named, with a row for it."""
    write_world(world, {(0, 0): {(0, 0): stored(0, 0, blocks={(8, 70, 8): "mod:lamp[lit=true]", (9, 70, 8): "mod:lamp"})}})
    was = shots(world)
    lines = ["1 blocks are mod:lamp, which has no row", "1 blocks are mod:lamp[lit=true], which has no row",
             "rows for them, which stop all light until they are changed, are", None,
             "2 states of the world have no row in tables/blocks.toml; name a copy of it that has rows for them by --table; nothing is done"]
    want = ['  {name = "mod:lamp", open = false, floor = true, opacity = 15, emission = 0},' if line is None else "anvilwater-world: " + line
            for line in lines]
    status, _, told = call("light", world, program=program)
    yield "no row", (1, want), (status, told[-len(want):])
    yield "nothing is another", was, shots(world)


def in_between(name, work):
    """What a call left behind that was interrupted is finished before a world is read."""
    world, _ = begun_world(work, os.path.basename(name), lambda line: line.startswith("replace ") and line.endswith(" region/r.0.1.mca"))
    status, _, lines = call("check", world)
    yield "a call that was interrupted", (0, "finished a call that was interrupted; nothing else was done"), (status, lines[0])
    yield "is finished", {"r.0.1.mca"} < {*backup(world)}, True


def flat_picture(path):
    """The rows of a picture, each with the number of its filter."""
    with open(path, "rb") as file:
        data = file.read()
    at, stream = 8, b""
    while at < len(data):
        size, kind = struct.unpack_from(">I4s", data, at)
        if kind == b"IHDR":
            head = data[at + 8:at + 8 + size]
        stream += data[at + 8:at + 8 + size] if kind == b"IDAT" else b""
        at += 12 + size
    return head, zlib.decompress(stream), len(data)


def drawn(work, program):
    """The picture of a world is that which the program draws of plain copies, with hills at the edges of regions, and smaller."""
    world, plain, out = (os.path.join(work, name) for name in ("world", "plain", "out.png"))
    hills = {(8, 64 + z % 3, 512 * z + side): "minecraft:stone" for z in (-1, 0, 1) for side in (0, -1)}
    places = {(0, 0): [(0, 0), (0, 31)], (0, -1): [(0, -1), (0, -32)], (0, 1): [(0, 32)], (2, 0): [(64, 0)]}
    write_world(world, {place: {at: stored(*at, blocks=hills) for at in chunks} for place, chunks in places.items()})
    os.mkdir(plain)
    subprocess.run([sys.executable, os.path.join(TOP, "scripts", "worlds.py"), "plain", region_of(world), plain], check=True, stdout=subprocess.DEVNULL)
    os.unlink(os.path.join(plain, "r.5.5.mca"))
    os.unlink(os.path.join(region_of(world), "r.5.5.mca"))
    was = shots(world)
    for more in ((), ("--light",)):
        subprocess.run([program, "map", "--in", plain, "--out", os.path.join(work, "want.png"), *more], check=True)
        yield ("map", *more), (0, [], []), call("map", world, "--out", out, *more, program=program)
        want, got = (flat_picture(os.path.join(work, name)) for name in ("want.png", "out.png"))
        yield ("its pixels", *more), (want[0], True), (got[0], want[1] == got[1])
        yield "a small file", True, got[2] < want[2] // 50
    tiles = os.path.join(work, "tiles")
    yield "tiles", (0, [], []), call("map", world, "--tiles", tiles, "--light", program=program)
    yield "its files", ["index.html", "r.0.-1.png", "r.0.0.png", "r.0.1.png", "r.2.0.png"], sorted(os.listdir(tiles))
    yield "what the page shows", True, "const regions = [[0, -1], [0, 0], [2, 0], [0, 1]];" in open(os.path.join(tiles, "index.html")).read()
    # The picture is 3 regions wide and 3 high, so (2, 0) is the last one of its second row of regions.
    wide = 3 * 2048 + 1
    part = b"".join(b"\0" + got[1][z * wide + 1 + 2 * 2048:][:2048] for z in range(512, 1024))
    yield "one of them", True, flat_picture(os.path.join(tiles, "r.2.0.png"))[1] == part
    yield "a folder that is there", refused(tiles + " is no place for a new folder; nothing is done"), call("map", world, "--tiles", tiles)[::2]
    yield "nothing is another", was, shots(world)
    path = os.path.join(region_of(world), "r.9.9.mca")
    yield "a region's file is no picture", refused(path + " is no place for a picture; nothing is done"), call("map", world, "--out", path)[::2]


# ---------------------------------------------------------------- dimensions and help


def dimensions(work, _):
    """A world's dimensions, each by its name, and all."""
    world = os.path.join(work, "world")
    write_world(world, small_world())
    names = {"overworld": "", "nether": "DIM-1", "end": "dimensions/minecraft/the_end", "more": "dimensions/pack/deep/er"}
    folders = {name: os.path.join(world, path, "region") for name, path in names.items()}
    for name, folder in folders.items():
        if name != "overworld":
            shutil.copytree(region_of(world), folder)
    was = contents(region_of(world))
    for name in ("overworld", "nether", "end"):
        yield name, (0, ["folder " + folders[name], "chunks 5 turns 0", "nothing changed"], []), call("light", world, "--dimension", name, what="same")
    status, lines, _ = call("light", world, "--dimension", "all")
    yield "all", (0, ["folder " + folder for folder in folders.values()]), (status, [line for line in lines if line.startswith("folder ")])
    yield "all are lit", [True] * 4, [was != contents(folder) for folder in folders.values()]
    yield "and brought back", (0, [was] * 4), (call("undo", world, "--dimension", "all")[0], [contents(folder) for folder in folders.values()])
    status, lines, _ = call("check", world, "--dimension", "all")
    yield "checked", (0, [line for folder in folders.values() for line in ("folder " + folder, "5 files, 8 chunks, 0 findings")]), (status, lines)
    server = os.path.join(work, "server")
    shutil.copytree(region_of(world), os.path.join(server, "region"))
    shutil.copytree(region_of(world), os.path.join(server + "_nether", "DIM-1", "region"))
    yield "a server's", refused("%s has no region files of the dimension nether; region files are in %s/region, %s_nether/DIM-1/region" % (
        server, server, server)), call("check", server, "--dimension", "nether")[::2]
    with open(os.path.join(world, "session.lock"), "r+b") as file:
        fcntl.lockf(file, fcntl.LOCK_EX)
        yield "in use", (5, []), call("light", world, "--dimension", "all")[:2]
    for words, line in (((("light", world, "--dimension", "all", "--backup", "x")), "--backup names one folder, and --dimension all needs one for each"),
                        (("map", world), "one of --out and --tiles is to be given"),
                        (("map", world, "--dimension", "all", "--out", "x"), "a map is of one dimension, which --dimension is to name"),
                        (("light", world, "--dimension", "moon"), "argument --dimension: 'moon' is none of overworld, nether, end, all"),
                        (("block", world, "1", "2"), "the following arguments are required: Z"),
                        (("block", world, "1", "2", "x"), "argument Z: 'x' is no number of 32 bits"),
                        (("light", world, "--ticks", "1"), "unrecognized arguments: --ticks 1")):
        status, out, err = call(*words)
        yield words, (2, [], "anvilwater-world %s: error: %s" % (words[0], line)), (status, out, err[-1])
    line = "anvilwater-world: error: chek is no verb, and there is no such world; verbs are light, run, undo, check, states, map, block"
    yield "no verb", (2, line), (lambda found: (found[0], found[2][-1]))(call("chek", world))


def helps(*_):
    """The help of each verb is one screen, and has an example; and each word is in the manual page."""
    with open(os.path.join(TOP, "docs", "anvilwater-world.1"), encoding="ascii") as file:
        page = file.read().replace("\\-", "-")
    for verb in (None, *VERBS):
        parser = parser_of(verb) if verb else parser_without_verb()
        found = [word for action in parser._actions for word in action.option_strings if word.startswith("--") and word != "--help"]
        yield "manual page: %s" % verb, [], [word for word in found if " %s" % word not in page and "\n.B %s\n" % word not in page]
    for verb in VERBS:
        status, lines, _ = call(verb, "--help", "--table", "x")
        yield verb, (0, True, True), (status, len(lines) <= 24 and max(map(len, lines)) <= 80,
                                      lines[-2].startswith("Example: anvilwater-world %s " % verb))
