#!/usr/bin/env python3
"""Refuses each growth of small runs in turn, the first, the second and so on until a run ends with none refused: each run
answers want of memory, or exactly what it answers when nothing is refused. Want of memory for the path of a file or a folder counts
as a call of the system that failed; all files are then written or none, once the next command has looked at the folder. Where memory is
refused in a tick, the world then answers 26 to each call.

Of a run of many chunks, whose threads read chunks ahead and give memory back, and of one with a tick of many entries, which threads turn
in groups, each start of a thread is refused in turn, and one growth of so many. With each worker more one thread more is started for that
tick, up to its number of groups.

    scripts/check_memory.py PROGRAM BENCH   as crates/av_main/out/av_main and crates/av_bench/out/av_bench

A growth is a call of malloc or realloc, or the start of a thread. They are refused by refuse.c, which the C compiler makes a
library of; where there is no such compiler nothing is asked.
"""
import os
import shutil
import subprocess
import sys
import tempfile
from concurrent.futures import ThreadPoolExecutor

sys.dont_write_bytecode = True
from flat_runs import TABLE, WATER, edit, flat, many_chunks, said
from preloads import built_library

# A run of many chunks has some ten thousand growths, and one of many entries twice as many: so many from one that is refused to the next.
CHUNKS_STEP = 499
ENTRIES_STEP = 29

# The faults of a run in which a growth was refused: that of a path is one of its file or of the folder, which is called OUT here.
REFUSALS = ["fault 01: OutOfMemory", "fault 25: Device r.0.0.mca", "fault 25: Device OUT"]

# What BENCH answers where no growth is refused, where one is in a tick, and where one is before or after the ticks.
TOLD = ("turns 2; 8 71 8 due 11 number 9; 8 72 8 due 11 number 1; 8 39 8 due 11 number 9; 8 40 8 due 11 number 1", "", 0)
BROKEN = ("fault 1; apply 26, tick 26, crew 26, carve 26, light 26, save 26", "", 0)
ENDED = [("", "Error: fault 01: OutOfMemory", 1), ("", "Error: out of memory", 1)]


def answer_of(library, call, words, folder, refuse="REFUSE"):
    """What these words answer where this growth is refused, and whether there was one to refuse."""
    told, tell = os.pipe()
    done = subprocess.run(words, cwd=folder, capture_output=True, text=True, pass_fds=(tell,),
                          env={"LD_PRELOAD": library, refuse: str(call), "REFUSED_TO": str(tell)})
    os.close(tell)
    refused = os.read(told, 1) != b""
    os.close(told)
    return (done.stdout.strip(), said(done.stderr), done.returncode), refused


class Run:
    """A run of a flat world, whose growths can be refused, or the starts of its threads alone."""

    def __init__(self, program, library, work, data, edits, workers, table=TABLE, refuse="REFUSE"):
        self.program, self.library, self.work, self.workers, self.refuse = program, library, work, workers, refuse
        os.mkdir(work)
        os.mkdir(os.path.join(work, "in"))
        for name, content in (("in/r.0.0.mca", data), ("table", table.encode()), ("edits", edits.encode())):
            with open(os.path.join(work, name), "wb") as file:
                file.write(content)

    def ask(self, call):
        """What is answered and written where this growth is refused, and whether there was one to refuse."""
        out = os.path.join(self.work, "out%d" % call)
        os.mkdir(out)
        words = [self.program, "run", "--in", "in", "--out", out, "--table", "table", "--edits", "edits", "--ticks", "6",
                 "--workers", str(self.workers)]
        (line, fault, status), refused = answer_of(self.library, call, words, self.work, self.refuse)
        if any(name.startswith(".") for name in os.listdir(out)):
            # What was cut off is finished or taken away by the next command.
            subprocess.run([self.program, "check", "--in", out], capture_output=True, check=True)
        files = {name: open(os.path.join(out, name), "rb").read() for name in os.listdir(out)}
        shutil.rmtree(out)
        return ((line, fault.replace(out, "OUT"), status), files), refused


class Ticks:
    """Ticks of a flat world, whose growths can be refused, on so many workers, or by the tick of one thread for 0."""

    def __init__(self, bench, library, work, workers):
        self.bench, self.library, self.work, self.workers = bench, library, work, workers

    def ask(self, call):
        return answer_of(self.library, call, [self.bench, "refuse", str(self.workers)], self.work)


def answers(case, step=1):
    """Each answer until nothing was left to refuse, where every step-th is refused in turn."""
    with ThreadPoolExecutor(os.cpu_count()) as pool:
        first = 1
        while True:
            last = first + 64 * step
            for answer, refused in pool.map(case.ask, range(first, last, step)):
                if not refused:
                    return
                yield answer
            first = last


def is_refusal(answer, whole):
    """Whether a run that was refused a growth answers that, and leaves all files or none: all where it told the counts."""
    (line, fault, status), files = answer
    return fault in REFUSALS and status == 1 and (line, files) in (("", {}), ("", whole[1]), (whole[0][0], whole[1]))


def check_run(name, line, case, step=1):
    """How many growths of a run were refused, and how many of the answers are wrong. With none refused it answers the line."""
    whole, _ = case.ask(0)
    asked = wrong = 0
    for answer in answers(case, step):
        asked += 1
        if answer != whole and not is_refusal(answer, whole):
            wrong += 1
            growth = 1 + step * (asked - 1)
            print("growth %d of a run with %s: %s and the files %s" % (growth, name, answer[0], list(answer[1])))
    if whole[0] != (line, "", 0) or list(whole[1]) != ["r.0.0.mca"] or asked == 0:
        wrong += 1
        print("a run with %s: %s and the files %s, and %d growths refused" % (name, whole[0], list(whole[1]), asked))
    return asked, wrong


def check_ticks(name, case):
    """How many growths of ticks were refused, and how many of the answers are wrong."""
    asked = wrong = broken = 0
    for answer in answers(case):
        asked += 1
        broken += answer == BROKEN
        if answer not in (TOLD, BROKEN, *ENDED):
            wrong += 1
            print("growth %d of ticks with %s: %s" % (asked, name, answer))
    whole, _ = case.ask(0)
    if whole != TOLD or broken == 0:
        wrong += 1
        print("ticks with %s: %s, and %d broke the world" % (name, whole, broken))
    return asked, wrong


def main():
    program, bench = map(os.path.abspath, sys.argv[1:])
    counts = []
    with tempfile.TemporaryDirectory() as work:
        library = built_library("refuse", work)
        if library is None:
            print("0 asked of refused growths: there is no C compiler")
            return
        source = edit(1, 8, 64, 8, WATER)
        one_chunk = edit(1, 8, 72, 8, WATER) + edit(1, 8, 40, 8, WATER)
        # entries of two lakes, in two sections of a chunk
        lakes = "".join(edit(1, x, y, z, WATER) for x in range(5, 11) for y in (72, 40) for z in range(6, 9))
        for name, line, data, edits, workers in (
                ("one worker", "chunks 1 turns 1", flat(), source, 1),
                ("two workers", "chunks 2 turns 2", flat(chunks=((0, 0), (1, 0))), source + edit(1, 24, 64, 8, WATER), 2),
                ("two parts of one chunk", "chunks 1 turns 2", flat(), one_chunk, 2),
                ("two parts of many entries", "chunks 1 turns 36", flat(), lakes, 2)):
            folder = os.path.join(work, name.replace(" ", "_"))
            counts.append(check_run(name, line, Run(program, library, folder, data, edits, workers)))
        world = many_chunks()
        # three groups, of which the first two share chunks, so that two thirds of all turns at most wait for each other
        apart = flat(chunks=((3, 0), (4, 0), (9, 0)))
        rain = "".join(edit(1, x, 72, z, WATER) for x in (*range(56, 72), *range(146, 158)) for z in range(1, 15))
        for name, line, data, edits, table, refuse, step in (
                ("many chunks", "chunks 128 turns 64", world.data, world.edits, world.table, "REFUSE", CHUNKS_STEP),
                ("many chunks and threads", "chunks 128 turns 64", world.data, world.edits, world.table, "REFUSE_START", 1),
                ("many entries", "chunks 3 turns 392", apart, rain, TABLE, "REFUSE", ENTRIES_STEP)):
            folder = os.path.join(work, name.replace(" ", "_"))
            counts.append(check_run(name, line, Run(program, library, folder, data, edits, 2, table, refuse), step))
        starts = []
        for workers in (1, 2, 3, 4):
            folder = os.path.join(work, "starts_%d" % workers)
            case = Run(program, library, folder, apart, rain, workers, TABLE, "REFUSE_START")
            counts.append(check_run("many entries and %d workers" % workers, "chunks 3 turns 392", case))
            starts.append(counts[-1][0])
        if starts != [starts[0], starts[0] + 1, starts[0] + 2, starts[0] + 2]:
            # one question more, answered wrong
            counts.append((1, 1))
            print("threads that are started for three groups by 1 to 4 workers: %s" % starts)
        for name, workers in (("one thread", 0), ("one worker", 1), ("two workers", 2)):
            counts.append(check_ticks(name, Ticks(bench, library, work, workers)))
    asked, wrong = map(sum, zip(*counts))
    print("%d asked of refused growths, %d wrong" % (asked, wrong))
    sys.exit(wrong > 0)


if __name__ == "__main__":
    main()
