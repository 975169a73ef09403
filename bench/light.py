#!/usr/bin/env python3
"""Times light alone, by the programs' own clocks: each reads a region and lights it once, as a run does.

    bench/light.py PROVED PLAIN REGION DARK_REGION TABLE TIMES ROUNDS

Both programs take `time FILE TABLE TIMES`, and say how long the quickest of TIMES lightings took. All are asked by turns in each of ROUNDS; the
best of all counts, beside it the median of the rounds' ratios. The dark region is lit TIMES times in a process, so that its memory comes
from the system only once. The last line says what the machine has for four threads: how long a lighting on one thread takes while three
others do the same, on a processor each, and so the least ratio that can be had.
"""
import os
import statistics
import subprocess
import sys


def begin(command):
    return subprocess.Popen(command, stdout=subprocess.PIPE, text=True)


def end(process):
    """The answer, the seconds of the quickest lighting, and the program's time in user mode."""
    answer, _, micros = process.stdout.read().rpartition(" us ")
    _, status, usage = os.wait4(process.pid, 0)
    if status != 0:
        sys.exit("%s: status %d" % (" ".join(process.args), os.waitstatus_to_exitcode(status)))
    return answer, int(micros) / 1e6, usage.ru_utime


def four_at_once(command):
    """The seconds of the quickest lighting of each of four programs, one on each of four processors, on the average."""
    processes = [begin(["taskset", "-c", str(processor), *command]) for processor in range(4)]
    return statistics.mean(end(process)[1] for process in processes)


def main():
    proved, plain, region, dark, table, times, rounds = sys.argv[1:]
    one = ["taskset", "-c", "0"]
    commands = {
        "proved": [*one, proved, "time", region, table, "1"],
        "plain": [*one, plain, "time", region, table, "1"],
        "all": [proved, "time", region, table, "1"],
        "dark": [*one, proved, "time", dark, table, times],
        "dark read": [*one, proved, "time", dark, table, "0"],
    }
    figures = {name: [] for name in commands}
    answers = {}
    four = []
    for _ in range(int(rounds)):
        for name, command in commands.items():
            answers[name], *figure = end(begin(command))
            figures[name].append(figure)
        four.append(four_at_once(commands["all"]))
    best = {name: min(figure[0] for figure in of) for name, of in figures.items()}
    reading = min(figure[1] for figure in figures["dark read"])
    same = answers["proved"] == answers["plain"] == answers["all"]

    def ratios(name, other):
        each = [a[0] / b[0] for a, b in zip(figures[name], figures[other])]
        return "%.4f s, %.4f s, ratio %.2f (median %.2f)" % (best[name], best[other], best[name] / best[other], statistics.median(each))

    print("light     one thread: proved and plain %s; %s" % (ratios("proved", "plain"), "same answer" if same else "OTHER ANSWER"))
    print("light     all processors and one thread: %s" % ratios("all", "proved"))
    print("light     of a region with no emitters: %.4f s, its reading %.4f s, ratio %.3f" % (best["dark"], reading, best["dark"] / reading))
    bound = [beside / alone[0] / 4 for beside, alone in zip(four, figures["proved"])]
    print("light     on each of four processors at once: %.4f s, so four threads can do no better than %.2f (median %.2f)"
          % (min(four), min(four) / best["proved"] / 4, statistics.median(bound)))
    if not same:
        sys.exit(1)


if __name__ == "__main__":
    main()
