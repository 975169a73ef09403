#!/usr/bin/env python3
"""Compares the peak of memory of one run of `relight` with that of several, one after the other, in one process.

    bench/peaks.py TOP..     TOP is the folder of a checkout whose workload program was built (rt run in its crate)

A line for each checkout: the peaks of one, eight and sixteen runs, and the last two over the first.
"""
import os
import subprocess
import sys


def peak(top, count):
    """The peak of memory, in bytes, of a process that runs `relight` so often, with seeds from 1 on."""
    program = os.path.join(top, "crates/av_workloads/out/av_workloads")
    words = " + ".join("relight %d 32" % seed for seed in range(1, count + 1)).split()
    process = subprocess.Popen([program, *words], stdout=subprocess.DEVNULL)
    _, status, usage = os.wait4(process.pid, 0)
    if status != 0:
        sys.exit("%s %s: status %d" % (program, " ".join(words), os.waitstatus_to_exitcode(status)))
    return 1024 * usage.ru_maxrss


def main():
    if len(sys.argv) < 2:
        sys.exit(__doc__)
    for top in sys.argv[1:]:
        one, eight, sixteen = (peak(top, count) for count in (1, 8, 16))
        print("%s: %d, %d and %d MB, ratios %.2f and %.2f" % (
            top, one // 10**6, eight // 10**6, sixteen // 10**6, eight / one, sixteen / one), flush=True)


if __name__ == "__main__":
    main()
