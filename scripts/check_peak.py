#!/usr/bin/env python3
"""Runs a region of 64 places that name one payload, whose document takes some sixty times its bytes, and looks at how much memory
the program has at its peak: payloads that are read ahead of their places are few. And ticks of lakes on one worker and on eight: eight
take little more memory.

    scripts/check_peak.py PROGRAM BENCH     as crates/av_main/out/av_main and crates/av_bench/out/av_bench

The payload is one List of Lists of 65 Bytes, and a status that is not full: so each place of it is kept as it is, and no chunk is
loaded. Behind a first chunk of more states than each table begins with, some payloads are read together. Where the location of the
first place is refused, nothing behind it is read.
"""
import os
import struct
import subprocess
import sys
import tempfile

sys.dont_write_bytecode = True
import written_regions
from flat_runs import chunk, said

MOST = 100 * 10**6
# How many times the memory of one worker eight may take, and how often each is asked: the median counts.
MOST_OF_ONE, TIMES = 1.1, 3
SIZE = 253_849
TABLE = "version = 1\n"


def list_of_lists(count):
    """The bytes of a root of a status and so many Lists of 65 Bytes."""
    bytes_of_65 = b"\x01" + struct.pack(">i", 65) + bytes(65)
    status = b"\x08\0\x06Status\0\x05empty"
    return b"\x0a\0\0" + status + b"\x09\0\x01l\x09" + struct.pack(">i", count) + bytes_of_65 * count + b"\0"


def many_states():
    """The bytes of a loaded chunk that has twelve states beside air and stone."""
    wool = {(x, 70, 0): "minecraft:wool_%d" % x for x in range(12)}
    return written_regions.named("", chunk(0, 0, wool, (), {}))


def record(payload):
    """A payload in its sectors, and how many they are."""
    data = struct.pack(">IB", len(payload) + 1, 3) + payload
    sectors = -(-len(data) // 4096)
    return data + bytes(4096 * sectors - len(data)), sectors


def region(payload, first=None, chunk_0=b""):
    """A region that has a payload at the indices 0 to 63, but for the first location or chunk where one is given."""
    data, sectors = record(payload)
    locations = [2 << 8 | sectors] * 64 + [0] * 960
    if chunk_0:
        more, count = record(chunk_0)
        locations[0] = 2 + sectors << 8 | count
        data += more
    if first is not None:
        locations[0] = first
    return struct.pack(">1024I", *locations) + bytes(4096) + data


def ask(program, work, data):
    """What a run of a region answers, and its peak of memory in bytes."""
    for folder in ("in", "out"):
        os.makedirs(os.path.join(work, folder), exist_ok=True)
    for name, content in (("in/r.0.0.mca", data), ("table", TABLE.encode()), ("edits", b"")):
        with open(os.path.join(work, name), "wb") as file:
            file.write(content)
    words = [program, "run", "--in", "in", "--out", "out", "--table", "table", "--edits", "edits", "--ticks", "0", "--workers", "1"]
    process = subprocess.Popen(words, cwd=work, stdout=subprocess.PIPE, stderr=subprocess.PIPE, text=True)
    told = process.stdout.read().strip(), said(process.stderr.read())
    _, status, usage = os.wait4(process.pid, 0)
    return (*told, os.waitstatus_to_exitcode(status)), 1024 * usage.ru_maxrss


def lakes_peak(bench, workers):
    """The peak of memory of ticks in which 200 lakes of 15 by 15 sources spread, in bytes, and whether they ended well."""
    peaks = []
    for _ in range(TIMES):
        process = subprocess.Popen([bench, "tick", "15", "100", str(workers)], stdout=subprocess.DEVNULL)
        _, status, usage = os.wait4(process.pid, 0)
        peaks.append((status != 0, 1024 * usage.ru_maxrss))
    return sorted(peaks)[TIMES // 2]


def main():
    program, bench = map(os.path.abspath, sys.argv[1:])
    payload = list_of_lists((SIZE - 29) // 70)
    # A location within the header is refused. It is that of the first place, or none is.
    cases = (("all places", region(payload), ("chunks 0 turns 0", "", 0)),
             ("behind a chunk of many states", region(payload, chunk_0=many_states()), ("chunks 1 turns 0", "", 0)),
             ("a first place that is refused", region(payload, 1 << 8 | 1), ("", "fault 05: BadLocation", 1)))
    wrong = 0
    with tempfile.TemporaryDirectory() as work:
        for name, data, answer in cases:
            told, peak = ask(program, work, data)
            if told != answer or peak > MOST:
                wrong += 1
                print("%s: %s, %d MB at the peak" % (name, told, peak // 10**6))
    (one_failed, one), (eight_failed, eight) = lakes_peak(bench, 1), lakes_peak(bench, 8)
    if one_failed or eight_failed or eight > MOST_OF_ONE * one:
        wrong += 1
        print("lakes: %d MB at the peak with one worker, %d MB with eight" % (one // 10**6, eight // 10**6))
    print("%d asked of peaks, %d wrong" % (len(cases) + 1, wrong))
    sys.exit(wrong > 0)


if __name__ == "__main__":
    main()
