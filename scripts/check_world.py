#!/usr/bin/env python3
"""Runs anvilwater-world over worlds as the game keeps them, and compares what is there afterwards with what is to be there.

    scripts/check_world.py PROGRAM

PROGRAM runs a world of all compressions, whose chunks are compared tag by tag by a reader that shares nothing with worlds.py. Then
worlds, words and files are given that are refused; a call meets another, the game's lock, signals, and other programs that write; and
calls end before changes of the file system and are made again, with stand_in.py in the program's place. Where Python has no
module lz4 (Debian: python3-lz4) no chunk is LZ4.
"""
import contextlib
import functools
import glob
import multiprocessing
import os
import resource
import shutil
import signal
import subprocess
import sys
import tempfile
import zlib

sys.dont_write_bytecode = True
import check_ends
import check_hindrances
import check_others
import check_pieces
import check_readers
import check_verbs
import flat_runs
import kept_worlds
import worlds
from check_packed import difference
from flat_runs import WATER, edit
from kept_worlds import HAS_LZ4, LOADED, SPRING, Document, game_world, lit, payload, small_world, stamps_of, stored_chunks_of, write_world
from stored_chunks import LZ4, RAW, STAMPS, ZLIB, write
from world_calls import COMMAND, STAND_IN, backup, begun, call, contents, left, others, refused, shots

# ---------------------------------------------------------------- a whole run

EDITS = edit(1, 8, 70, 8, "minecraft:glowstone") + edit(1, -8, 64, -8, WATER)
TOLD = ["r.0.0.mca 4 0: its plain bytes are more than 1044475; it stays as it was, not lit",
        "r.0.0.mca 3 1: its zlib stream is cut short; it stays as it was, not lit"]
TOUCHED = ["c.2.0.mcc", "r.-1.-1.mca", "r.0.0.mca", "r.0.1.mca"]


def expected_blocks(before):
    """The blocks of all loaded chunks after EDITS and 6 ticks."""
    found = {at: state for document in before.values() for at, state in document.blocks.items()}
    found[8, 70, 8] = "minecraft:glowstone"
    for x, y, z in ((-8, 64, -8), SPRING):
        found |= {side: "minecraft:water[level=1]" for side in ((x - 1, y, z), (x + 1, y, z), (x, y, z - 1), (x, y, z + 1))}
        found[x, y, z] = "minecraft:water[level=0]"
    return found


def expected_entries(chunk):
    """The water entries of a chunk: where a source was turned, it and its sides are due 5 ticks later."""
    for (x, y, z), left in (((-8, 64, -8), 5), (SPRING, 2)):
        if (x >> 4, z >> 4) == chunk:
            return sorted((*at, left) for at in ((x, y, z), (x - 1, y, z), (x + 1, y, z), (x, y, z - 1), (x, y, z + 1)))
    return []


def expected_kinds():
    """The compressions that the chunks of the world have afterwards: what fits into a region needs no file of its own."""
    kinds = {at: chunk[0] for region in game_world().values() for at, chunk in region.items()}
    return {**kinds, (2, 0): ZLIB}


def whole(work, program):
    """The world after EDITS and 6 ticks, chunk by chunk, and after a run that changes nothing."""
    world, old = os.path.join(work, "world"), game_world()
    write_world(world, old)
    write(work, "edits", EDITS.encode())
    write(work, "table", flat_runs.TABLE.encode())
    words = world, "--table", os.path.join(work, "table")
    region, was = os.path.join(world, "region"), shots(world)
    own(world)
    files = contents(region)
    status, out, err = call(*words, "--edits", os.path.join(work, "edits"), "--ticks", "6", program=program)
    yield "told", (4, ["folder " + region, "chunks 8 turns 2", "replaced 3 added 0 removed 1"], TOLD), (status, out[:-1], err)
    yield "files", sorted({*files} - {"c.2.0.mcc"}), sorted(os.listdir(region))
    yield "the old files", {name: files[name] for name in TOUCHED}, backup(world)
    yield "where they are", out[-1:], ["before " + path for path in glob.glob(os.path.join(world, "region.before-*"))]
    yield "what else there is", ["level.dat", "session.lock"], others(world)
    yield "owners and modes", {owned()}, {owned(os.path.join(region, name)) for name in os.listdir(region)}
    now = {"region/" + name: shot for name, shot in shots(region).items()}
    yield "regions that are left alone", [was[name][0:5:4] for name in ("region/r.2.-3.mca", "region/c.70.-93.mcc", "region/r.5.5.mca")], \
        [now[name][0:5:4] for name in ("region/r.2.-3.mca", "region/c.70.-93.mcc", "region/r.5.5.mca")]
    yield from compared(region, old)
    was = shots(world)
    yield "once more", (4, ["folder " + region, "chunks 8 turns 0", "nothing changed"], TOLD), call(*words, program=program)
    yield "nothing is another", was, shots(world)


def own(world):
    """Gives the region files an owner, where that is permitted, and a mode."""
    for path in glob.glob(os.path.join(world, "region", "*")):
        os.chmod(path, 0o640)
        if os.geteuid() == 0:
            os.chown(path, 1234, 2345)


def owned(path=None):
    if path is None:
        return (1234, 2345, 0o640) if os.geteuid() == 0 else (os.geteuid(), os.getegid(), 0o640)
    status = os.stat(path)
    return status.st_uid, status.st_gid, status.st_mode & 0o777


def compared(region, old):
    """Each chunk of the folder, and each timestamp, with what it was and is to be."""
    before = {at: chunk for chunks in old.values() for at, chunk in chunks.items()}
    after = {at: chunk for place in old for at, chunk in stored_chunks_of(region, *place).items()}
    yield "chunks", sorted(before), sorted(after)
    yield "compressions", expected_kinds(), {at: chunk[0] for at, chunk in after.items()}
    yield "timestamps", {STAMPS}, {stamps_of(region, *place) for place in old}
    rest = {at: chunk for at, chunk in before.items() if at not in LOADED}
    yield "chunks that are not loaded", rest, {at: after[at] for at in rest}
    before = {at: Document(payload(before[at])) for at in LOADED}
    after = {at: Document(payload(after[at])) for at in LOADED}
    blocks = expected_blocks(before)
    yield "blocks", blocks, {at: state for document in after.values() for at, state in document.blocks.items()}
    light = lit((8, 70, 8), blocks)
    yield "light", light, {at: level for document in after.values() for at, level in document.light.items()}
    for at in sorted(LOADED):
        yield "entries of %d %d" % at, expected_entries(at), sorted(after[at].entries)
        yield "tags of %d %d" % at, (before[at].order, before[at].tags), (after[at].order, after[at].tags)
        yield "sections of %d %d" % at, {y: before[at].sections.get(y, {}) for y in kept_worlds.SECTIONS}, after[at].sections


# ---------------------------------------------------------------- what is refused


def words(work, _):
    """Words that are refused, help, and how far a call is."""
    world = os.path.join(work, "world")
    write_world(world, small_world())
    for given, line in (((), "the following arguments are required: WORLD"), ((world, "more"), "unrecognized arguments: more"),
                        ((world, "--ticks", "-1"), "argument --ticks: '-1' is no number from 0 to 1000000"),
                        ((world, "--ticks", "1000001"), "argument --ticks: '1000001' is no number from 0 to 1000000"),
                        ((world, "--workers", "9"), "argument --workers: '9' is no number from 1 to 8"),
                        ((world, "--edits", world), "--edits needs --ticks N, since each edit is set in one of the run's ticks")):
        status, out, err = call(*given)
        yield given, (2, [], "usage: anvilwater-world", "anvilwater-world: error: " + line), (status, out, err[0][:23], err[-1])
    yield "help", (0, "usage: anvilwater-world"), (lambda found: (found[0], found[1][0][:23]))(call("--help"))
    steps = ["%s, step %d of 3: %d of 5 files" % (name, step, done) for name, step in (("plain", 1), ("packed", 3)) for done in range(1, 6)]
    told = call(world, "--progress", what="same")[2]
    yield "progress", steps, [line.partition(", about ")[0] for line in told if "files, about " in line]
    yield "a terminal", True, all(step in on_terminal(world) for step in steps)


def folders(work, program):
    """Folders that are a world, a dimension or neither, files that are not there, and a program that refuses."""
    world = os.path.join(work, "world")
    write_world(world, small_world())
    shutil.copytree(os.path.join(world, "region"), os.path.join(world, "DIM-1", "region"))
    was, region, edits = shots(world), os.path.join(world, "region"), os.path.join(work, "edits")
    write(work, "edits", b"1 2 3\n")
    for where in (region, os.path.join(world, "DIM-1")):
        taken = region if where == region else os.path.join(where, "region")
        yield where, (0, ["folder " + taken, "chunks 5 turns 0", "nothing changed"], []), call(where, what="same")
    missing = os.path.join(work, "missing")
    no_world = "%s is no world, which has a folder region, and no folder of region files r.X.Z.mca"
    below = "; region files are in %s/world/DIM-1/region, %s/world/region" % (work, work)
    for given, line in (((missing,), missing + ": No such file or directory"), ((work,), no_world % work + below),
                        ((edits,), edits + ": Not a directory"),
                        ((world, "--edits", missing, "--ticks", "1"), missing + ": No such file or directory"),
                        ((world, "--table", missing), missing + ": No such file or directory"),
                        ((world, "--backup", region), region + " is there already, and --backup is to name a new folder; nothing is done"),
                        ((world, "--backup", missing + "/old"), missing + ": No such file or directory")):
        yield given, refused(line), call(*given)[::2]
    yield "no program", refused(missing + ": No such file or directory"), call(world, program=missing)[::2]
    valid = os.path.join(work, "valid")
    write_world(valid, game_world())
    yield "a fault", (1, [*TOLD, "fault 20: BadEdit 1"]), \
        call(valid, "--edits", "/dev/stdin", "--ticks", "1", program=program, stdin=piped("1 2 3\n"))[::2]
    form = "  a line is TICK X Y Z STATE with single spaces, as `1 8 75 8 minecraft:water[level=0]`"
    told = call(valid, "--edits", edits, "--ticks", "1", "--explain", program=program)[2]
    yield "a fault that is explained", (["fault 20: BadEdit 1", form], True), ([told[-3], told[-1]], told[-2].endswith(" %s, line 1: 1 2 3" % edits))
    yield "a table", (1, ["fault 19: BadTable"]), call(world, "--table", edits, program=program)[::2]
    yield "another status", (7, ["fault 99: StandIn"]), call(world, what="refuse")[::2]
    yield "a program that dies", refused("the program was ended by signal 9; nothing is done"), call(world, what="die")[::2]
    yield "nothing is another", was, shots(world)
    shutil.copy(os.path.join(region, "r.0.0.mca"), world)
    yield "both", refused("%s has region files and a folder region; name the one that is meant" % world), call(world)[::2]


def piped(text):
    """A pipe that has a text."""
    end, start = os.pipe()
    os.write(start, text.encode())
    os.close(start)
    return end


def on_terminal(world):
    """What a call tells where standard error is a terminal."""
    master, slave = os.openpty()
    process = begun(world, what="same", stderr=slave)
    os.close(slave)
    found = b""
    with contextlib.suppress(OSError):
        while piece := os.read(master, 4096):
            found += piece
    os.close(master)
    process.communicate()
    return found.decode()


def hostile(work, program):
    """Files that a call refuses, and what it does where a device fails: the world is as it was."""
    link, is_link = lambda path: os.symlink("r.0.0.mca", path), "%s is a symbolic link, in whose place a file would come"
    odd = [("r.7.0.mca", link, is_link % "r.7.0.mca"), ("c.1.1.mcc", link, is_link % "c.1.1.mcc"),
           ("r.7.0.mca", os.mkfifo, "r.7.0.mca is no file"), ("r.7.0.mca", os.mkdir, "r.7.0.mca is no file"),
           ("r.7.0.mca", lambda path: write(*os.path.split(path), b"bytes"), "r.7.0.mca: its 5 bytes are less than a header"),
           ("r.0.0.mca", lambda path: os.truncate(path, os.path.getsize(path) - 4096),
            "r.0.0.mca: chunk 0 0 can't be brought back, its sectors are not in the file")]
    for number, (name, make, line) in enumerate(odd):
        world = os.path.join(work, "world%d" % number)
        write_world(world, small_world())
        make(os.path.join(world, "region", name))
        was = shots(world)
        yield line, left(line), call(world)[::2]
        yield "nothing is another", was, shots(world)
    world = os.path.join(work, "world")
    write_world(world, small_world())
    was = shots(world)
    line = "r.0.0.mca: File too large; nothing is written for it"
    module = os.path.join(work, "module")
    os.mkdir(module)
    write(module, "lz4.py", b"raise ImportError")
    lz4 = os.path.join(work, "lz4")
    write_world(lz4, {(0, 0): {(0, 0): (LZ4, RAW)}})
    yield from oversized(os.path.join(work, "oversized"))
    yield "no module", left("r.0.0.mca: LZ4 needs the module lz4 for %s (Debian: python3-lz4)" % sys.executable), \
        call(lz4, paths=[module])[::2]
    small = lambda: resource.setrlimit(resource.RLIMIT_FSIZE, (1 << 20, 1 << 20))
    yield "a device that fails", refused(line), call(world, preexec_fn=small)[::2]
    yield "nothing is another", was, shots(world)
    if os.path.exists("/dev/full"):
        with open("/dev/full", "wb") as full:
            done = subprocess.run([COMMAND, world, "--program", STAND_IN], stdout=full, stderr=subprocess.PIPE, text=True, timeout=60)
        yield "no output", refused("standard output: No space left on device"), (done.returncode, done.stderr.splitlines())
        yield "nothing is another", was, shots(world)
    words = ["sh", "-c", 'exec "$@" <&- >&- 2>&-', "sh", COMMAND, world, "--program", STAND_IN, "--progress"]
    yield "closed streams", 0, subprocess.run(words, env={**os.environ, "STAND_IN": "same"}, timeout=60).returncode
    yield "nothing is another", was, shots(world)


def oversized(world):
    """A chunk whose bytes go on behind its 255 sectors, as some servers wrote them."""
    write_world(world, {(0, 0): {(0, 0): (ZLIB, zlib.compress(b"chunk")), (1, 0): (ZLIB, bytes(1 << 20))}})
    with open(os.path.join(world, "region", "r.0.0.mca"), "r+b") as file:
        file.seek(7)
        file.write(b"\xff")
    was = shots(world)
    yield "more than 255 sectors", left("r.0.0.mca: chunk 1 0 can't be brought back, it has more than 255 sectors"), call(world)[::2]
    yield "nothing is another", was, shots(world)


OF_OTHERS = (check_others.journals_of_others, check_others.by_links, check_others.taken_away, check_others.attributes, check_others.one_backup,
             check_others.killed, check_others.fixed, check_others.limits, check_others.no_locks, check_others.hung_up, check_others.heights_of_tables,
             check_others.tables)
# Those that take long come first.
EXAMPLES = (check_ends.ends, check_verbs.undone_in_parts, whole, words, folders, hostile, check_hindrances.locks, check_hindrances.kept_from_it,
            check_hindrances.signals, check_hindrances.changed_by_others, check_hindrances.behind_the_journal, check_hindrances.devices, *OF_OTHERS,
            check_ends.syncs, check_ends.names_lost, check_ends.going_back, check_pieces.same_light, check_pieces.sizes, check_pieces.beside,
            check_pieces.refusals, check_pieces.memory, check_verbs.wrong_paths, check_verbs.unknown_states, check_verbs.bad_chunks,
            check_verbs.too_large, check_verbs.edits_outside, check_verbs.undone, check_readers.read, check_readers.drawn, check_readers.dimensions,
            check_readers.helps)


def found_of(examples, program):
    """How many examples were asked, and a line for each that is wrong."""
    # What a shell runs in the background has INT ignored, and so would the calls.
    signal.signal(signal.SIGINT, signal.default_int_handler)
    asked, lines = 0, []
    with tempfile.TemporaryDirectory() as work:
        for what, want, got in examples(os.path.realpath(work), program):
            asked += 1
            if want != got:
                lines.append("%s, %s: %s" % (examples.__name__, what, difference(want, got)))
    return asked, lines


def main():
    if len(sys.argv) != 2:
        sys.exit(__doc__)
    program, asked, wrong = os.path.abspath(sys.argv[1]), 0, 0
    # Calls mostly wait for the device, so that some side by side take less.
    with multiprocessing.get_context("fork").Pool(max(2, worlds.processors()), maxtasksperchild=1) as pool:
        for count, lines in pool.imap_unordered(functools.partial(found_of, program=program), EXAMPLES):
            asked, wrong = asked + count, wrong + len(lines)
            for line in lines:
                print(line)
    print("%d asked of worlds in place%s, %d wrong" % (asked, "" if HAS_LZ4 else ", without LZ4", wrong))
    sys.exit(1 if wrong else 0)


if __name__ == "__main__":
    main()
