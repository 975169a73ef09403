#!/usr/bin/env python3
"""Runs two commands by turns, compares what they print, and prints the best of their times and their ratio.

    bench/measure.py NAME TIMES RATTLE_COMMAND -- PLAIN_COMMAND
"""
import os
import subprocess
import sys


def run(command):
    """The output, the time in user mode, the whole time's processor seconds, and the most memory in MB."""
    process = subprocess.Popen(command, stdout=subprocess.PIPE)
    output = process.stdout.read()
    _, status, usage = os.wait4(process.pid, 0)
    if status != 0:
        sys.exit("%s: status %d" % (" ".join(command), os.waitstatus_to_exitcode(status)))
    return output, usage.ru_utime, usage.ru_utime + usage.ru_stime, usage.ru_maxrss / 1024


def main():
    name, times = sys.argv[1], int(sys.argv[2])
    words = sys.argv[3:]
    middle = words.index("--")
    commands = words[:middle], words[middle + 1:]
    best = [(float("inf"), float("inf"), float("inf"))] * 2
    outputs = [None] * 2
    for _ in range(times):
        for which, command in enumerate(commands):
            output, *figures = run(command)
            outputs[which] = output
            best[which] = tuple(map(min, best[which], figures))
    same = outputs[0] == outputs[1]
    (user, total, memory), (plain_user, plain_total, plain_memory) = best
    print("%-8s  proved %.3f s user, %.3f s all, %.0f MB; plain %.3f s user, %.3f s all, %.0f MB; ratio %.2f user, %.2f all, %.2f memory; %s"
          % (name, user, total, memory, plain_user, plain_total, plain_memory,
             user / max(plain_user, 0.001), total / max(plain_total, 0.001), memory / plain_memory, "same answer" if same else "OTHER ANSWER"))
    if not same:
        sys.exit(1)


if __name__ == "__main__":
    main()
