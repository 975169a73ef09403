#!/usr/bin/env python3
"""Counts the steps and the memory of the built program over inputs at two sizes, the second twice the first.

    bench/growth.py PROGRAM         PROGRAM as crates/av_main/out/av_main

Steps are instructions, counted by valgrind, so they are the same each time. Of each input it prints both counts, less those of the
same words over a folder with nothing in it, the power of the size with which they grow, and the same of the most memory.
"""
import math
import os
import re
import struct
import subprocess
import sys
import tempfile

TOP = os.path.dirname(os.path.dirname(os.path.abspath(__file__)))
sys.dont_write_bytecode = True
sys.path.insert(0, os.path.join(TOP, "scripts"))
import hostile_files as files

TABLE = os.path.join(TOP, "tables/blocks.toml")
STONE = "minecraft:stone"


def run(ticks, workers=1):
    return ["run", "--in", "in", "--out", "out", "--table", TABLE, "--edits", "edits", "--ticks", str(ticks), "--workers", str(workers)]


CHECK = ["check", "--table", TABLE, "--in", "in"]


def air(x, z):
    return files.chunk(x, z, [])


def one_region(data):
    return {"r.0.0.mca": data}


def world(count):
    """A region of so many chunks of air."""
    return files.region({(place % 32, place // 32): air(place % 32, place // 32) for place in range(count)})


def many_files(count):
    """Files of a chunk each."""
    return {"r.%d.0.mca" % x: files.region({(0, 0): air(32 * x, 0)}) for x in range(count)}


def same_sectors(count):
    """So many places that name one payload, which is kept since it is not full."""
    payload = b"\x0a\0\0" + files.tag(8, b"Status", files.text(b"empty")) + files.tag(7, b"pad", struct.pack(">i", 60_000) + bytes(60_000)) + b"\0"
    one = files.region({(0, 0): payload})
    return one_region(one[:4] * count + bytes(4096 - 4 * count) + one[4096:])


def entries(count, due):
    return one_region(files.entries_in_chunks(files.spread(files.blocks_of(0, 0), count), due))


def timed(entries):
    return one_region(files.entries_at(entries))


def apart(count):
    """So many chunks with an entry each, one due in each tick."""
    positions = [(16 * (place % 32) + 8, 64, 16 * (place // 32) + 8) for place in range(count)]
    return one_region(files.entries_in_chunks(positions, lambda number: 1 + number))


def edits(count, tick):
    """So many edits at blocks of one chunk."""
    return "".join("%d %d %d %d %s\n" % (tick(number), *at, STONE) for number, at in enumerate(files.spread(files.blocks_of(0, 0), count)))


def names(count):
    return one_region(files.states_in_one_chunk(files.chosen_names(count)))


def cases():
    """What grows, two sizes, and what makes the files, the text of edits and the words of a size."""
    one_chunk = one_region(world(1))
    yield "chunks of air, no tick", 128, lambda n: (one_region(world(n)), "", run(0))
    yield "chunks of air, checked", 128, lambda n: (one_region(world(n)), "", CHECK)
    yield "files of one chunk, no tick", 128, lambda n: (many_files(n), "", run(0))
    yield "files of one chunk, checked", 128, lambda n: (many_files(n), "", CHECK)
    yield "places that name the same sectors", 256, lambda n: (same_sectors(n), "", run(0))
    yield "names of one hash", 2000, lambda n: (names(n), "", run(0))
    yield "entries that are not due, one tick", 2000, lambda n: (entries(n, lambda number: 100), "", run(1))
    yield "entries that are due at once", 2000, lambda n: (entries(n, lambda number: 1), "", run(1))
    yield "entries, one due in each of as many ticks", 1000, lambda n: (entries(n, lambda number: 1 + number), "", run(n))
    yield "chunks, an entry of one due in each tick", 128, lambda n: (apart(n), "", run(n))
    far = (0, 0), (28, 31)
    four = *far, (0, 31), (28, 0)
    yield "entries by turns in two chunks, four workers", 2000, lambda n: (timed(files.taking_turns(far, n)), "", run(1, 4))
    yield "entries, 20 by turns in four chunks, four workers", 8000, lambda n: (timed(files.taking_turns(four, n, 20)), "", run(1, 4))
    yield "entries at drawn times in nine chunks, four workers", 300, lambda n: (timed(files.random_times(files.square(3), n)), "", run(1, 4))
    yield "edits of one tick", 2000, lambda n: (one_chunk, edits(n, lambda number: 1), run(1))
    yield "edits, one in each of as many ticks", 2000, lambda n: (one_chunk, edits(n, lambda number: 1 + number), run(n))
    yield "ticks in which nothing is to be done", 20000, lambda n: (one_chunk, "", run(n))


def steps(program, given, text, words):
    """The instructions of the program over some files, and the most memory that it has alone, in bytes."""
    with tempfile.TemporaryDirectory() as work:
        for folder in ("in", "out"):
            os.mkdir(os.path.join(work, folder))
        for name, data in given.items():
            with open(os.path.join(work, "in", name), "wb") as file:
                file.write(data)
        with open(os.path.join(work, "edits"), "w") as file:
            file.write(text)
        count = ["valgrind", "--tool=callgrind", "--callgrind-out-file=/dev/null", program]
        told = subprocess.run([*count, *words], cwd=work, capture_output=True, text=True)
        if told.returncode:
            sys.exit("%s: %s" % (" ".join(words), told.stderr[-300:]))
        process = subprocess.Popen([program, *words], cwd=work, stdout=subprocess.DEVNULL)
        _, _, usage = os.wait4(process.pid, 0)
        return int(re.search(r"Collected : (\d+)", told.stderr)[1]), 1024 * usage.ru_maxrss


def power(one, two):
    return "%5.2f" % math.log2(two / one) if one > 0 and two > 0 else "    -"


def main():
    program = os.path.abspath(sys.argv[1])
    empty = {words[0]: steps(program, {}, "", words) for words in (CHECK, run(0))}
    for name, size, make in cases():
        counts = []
        for count in (size, 2 * size):
            given, text, words = make(count)
            counts.append([found - base for found, base in zip(steps(program, given, text, words), empty[words[0]])])
        (one, low), (two, high) = counts
        print("%-52s %6d %6d  steps %12d %12d  power %s  memory %6.1f %6.1f MB  power %s" % (
            name, size, 2 * size, one, two, power(one, two), low / 1e6, high / 1e6, power(low, high)), flush=True)


if __name__ == "__main__":
    main()
