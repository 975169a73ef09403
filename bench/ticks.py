#!/usr/bin/env python3
"""Times ticks alone, but for a flood's by the programs' own clocks: what comes before them, as the reading of a region, is not counted. All
programs are asked by turns, after a rest each, and each best of several counts: of those in which the host of a virtual machine took no
processor away (Linux counts that time as stolen), or of all where there is none.

    bench/ticks.py TIMES                        100 ticks of a region in which 200 lakes spread at once: by the tick of one thread,
                                                and by the crew with some numbers of workers. First each lake is a source, then it
                                                is 5 by 5 sources, and then 15 by 15
    bench/ticks.py TIMES flood                  200 ticks of a region into which 50,000 edits pour water: whole runs with some numbers of
                                                workers, each less the best run of one tick, over those with one worker; the
                                                best of all, whether time was stolen or not
    bench/ticks.py TIMES REGION EDITS PLAIN     20 ticks of a region with edits: by the plain program, by the tick of one thread, and by
                                                the crew with one worker
"""
import os
import subprocess
import sys
import time

TOP = os.path.dirname(os.path.dirname(os.path.abspath(__file__)))
PROGRAM = os.path.join(TOP, "crates/av_bench/out/av_bench")
WORKLOADS = os.path.join(TOP, "crates/av_workloads/out/av_workloads")
TABLE = os.path.join(TOP, "tables/blocks.toml")

# Seconds before each program: a host that shares its processors out often lets one that rested have more of them.
REST = 0.5

# With how many workers ticks are timed, and how many ticks of a flood.
WORKERS = (1, 2, 4, 8)
FLOOD_TICKS = 200


def stolen():
    """The ticks of a clock in which a processor of this machine was ready to run and the host didn't let it."""
    with open("/proc/stat") as file:
        return int(file.readline().split()[8])


def finished(command):
    """What a program prints, and what it used."""
    process = subprocess.Popen(command, stdout=subprocess.PIPE, text=True)
    text = process.stdout.read()
    _, status, usage = os.wait4(process.pid, 0)
    if status != 0:
        sys.exit("%s: status %d" % (" ".join(command), os.waitstatus_to_exitcode(status)))
    return text, usage


def run(command):
    """The number of turns, whether time was stolen, and the seconds of the ticks, the processor seconds and the most memory in MB of the
    whole program."""
    time.sleep(REST)
    before = stolen()
    text, usage = finished(command)
    words = text.split()
    return words[1], stolen() > before, int(words[3]) / 1e6, usage.ru_utime + usage.ru_stime, usage.ru_maxrss / 1024


def at_once(command, count):
    """The seconds of the slowest of so many programs that run at once: those of one alone where the machine has as many processors."""
    time.sleep(REST)
    processes = [subprocess.Popen(command, stdout=subprocess.PIPE, text=True) for _ in range(count)]
    return max(int(process.communicate()[0].split()[3]) / 1e6 for process in processes)


def lakes(width):
    """Of so many sources along x and as many along z."""
    command = [PROGRAM, "tick", str(width), "100"]
    commands = {"one thread": [*command, "0"]}
    for workers in WORKERS:
        commands["%d workers" % workers] = [*command, str(workers)]
    return commands


def region(path, edits, plain):
    return {
        "plain": [plain, "ticks", path, TABLE, edits, "20"],
        "one thread": [PROGRAM, "run", path, TABLE, edits, "20", "0"],
        "1 worker": [PROGRAM, "run", path, TABLE, edits, "20", "1"],
    }


def measure(commands, times):
    """Prints ratios to the first command's time, and answers whether all had the same turns."""
    whole = {name: [] for name in commands}
    disturbed = {name: [] for name in commands}
    turns = set()
    for _ in range(times):
        for name, command in commands.items():
            turned, was_stolen, *figures = run(command)
            turns.add(turned)
            (disturbed if was_stolen else whole)[name].append(figures)
    best = {name: tuple(map(min, zip(*(whole[name] or disturbed[name])))) for name in commands}
    first = next(iter(best.values()))[0]
    for name, (seconds, all_seconds, memory) in best.items():
        print("%-10s  ticks %.4f s, ratio %.2f; program %.2f s of processors, %.0f MB; %d of %d times undisturbed" % (
            name, seconds, seconds / first, all_seconds, memory, len(whole[name]), times))
    crowded = min(at_once(next(iter(commands.values())), 4) for _ in range(times))
    print("the machine: four of the first at once take %.2f times as long as one alone" % (crowded / first))
    print("turns %s" % ", ".join(sorted(turns)))
    return len(turns) == 1


def flooded(ticks, workers):
    """What a run of a flood prints, its seconds, and the most memory in MB."""
    time.sleep(REST)
    began = time.monotonic()
    line, usage = finished([WORKLOADS, "flood", "1", "32", "50000", str(ticks), str(workers)])
    return line, time.monotonic() - began, usage.ru_maxrss / 1024


def measure_flood(times):
    """Prints ratios of a flood's ticks to those with one worker, and answers whether all runs left the same."""
    lines, seconds, memory = set(), {}, {}
    for _ in range(times):
        for case in ((1, 1), *((FLOOD_TICKS, workers) for workers in WORKERS)):
            line, whole, most = flooded(*case)
            seconds.setdefault(case, []).append(whole)
            memory[case] = max(memory.get(case, 0), most)
            if case[0] == FLOOD_TICKS:
                lines.add(line)
    start = min(seconds[1, 1])
    alone = min(seconds[FLOOD_TICKS, 1]) - start
    print("a run of one tick: %.2f s" % start)
    for workers in WORKERS:
        case = FLOOD_TICKS, workers
        ticks = min(seconds[case]) - start
        print("%d workers  run %.2f s, ticks %.2f s, ratio %.2f; %.0f MB" % (workers, start + ticks, ticks, ticks / alone, memory[case]))
    return len(lines) == 1


def main(times, given):
    if given == ["flood"]:
        return measure_flood(times)
    if given:
        return measure(region(*given), times)
    are_same = []
    for width in (1, 5, 15):
        print("lakes of %d by %d sources" % (width, width))
        are_same.append(measure(lakes(width), times))
    return all(are_same)


if __name__ == "__main__":
    sys.exit(not main(int(sys.argv[1]), sys.argv[2:]))
