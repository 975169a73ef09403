#!/usr/bin/env python3
"""Times the built program over files whose keys were chosen to be looked up slowly, and over ordinary files of the same size; and over
files whose ticks can be shared out badly, with some numbers of workers.

    bench/hostile.py PROGRAM [TIMES]    PROGRAM as crates/av_main/out/av_main; each is asked TIMES times, 5 by default, by turns, and
                                        the best counts

It ends with status 1 where a chosen file takes three times as long as the ordinary one, or where one of 1 MB takes a second, or where
several workers take 1.2 times as long as one, or 1.2 times its time of processors on a file that is shared out badly (1.3 on a flood).
Each run also compares what the two print.
"""
import os
import subprocess
import sys
import tempfile
import time

TOP = os.path.dirname(os.path.dirname(os.path.abspath(__file__)))
sys.dont_write_bytecode = True
sys.path.insert(0, os.path.join(TOP, "scripts"))
import hostile_files as files

TABLE = os.path.join(TOP, "tables/blocks.toml")
RATIO, SECONDS, MEGABYTE = 3.0, 1.0, 1_100_000
WORKERS = (1, 2, 4, 8)
SHARED = 1.2
BUCKETS = 1 << 15

CHECK = ["check", "--table", TABLE, "--in", "in"]


def run(ticks, workers=1):
    """The words of a run without edits."""
    return ["run", "--in", "in", "--out", "out", "--table", TABLE, "--edits", "edits", "--ticks", str(ticks), "--workers", str(workers)]


def in_turn(number):
    """Times from 1 to 20."""
    return 1 + number % 20


def cases():
    """A name, the words that are timed, and the maker of the ordinary and of the chosen file."""
    both = files.ordinary_names, files.chosen_names
    for words in (CHECK, run(0)):
        yield "36,855 names in one chunk", words, *(lambda names=names: files.states_in_one_chunk(names(36_855)) for names in both)
        yield "24,000 names in one chunk", words, *(lambda names=names: files.states_in_one_chunk(names(24_000)) for names in both)
        yield "one of 1,014 names 24,000 times in 31 chunks", words, *(
            lambda names=names: files.last_state_again(names(1_014), 32, 24_000) for names in both)
        yield "480 names of 65,004 bytes in 32 chunks", words, *(
            lambda first=first: files.names_by_chunks(files.long_names(480, first), 15) for first in (True, False))
    yield "15,000 ticks in one chunk", run(20), *(
        lambda chosen=chosen: files.entries_in_chunks(chosen(files.blocks_of(0, 0)), in_turn)
        for chosen in (lambda keys: files.spread(keys, 15_000), lambda keys: files.crowded(keys, 15_000, BUCKETS)))
    yield "80,000 ticks in 16 chunks", run(20), *(
        lambda chosen=chosen: files.entries_in_chunks([at for x in range(16) for at in chosen(files.blocks_of(x, 0))], in_turn)
        for chosen in (lambda keys: files.spread(keys, 5_000), lambda keys: files.crowded(keys, 5_000, BUCKETS)))
    yield "6,000 sections of a plan", run(1, 4), *(
        lambda chosen=chosen: files.entries_in_sections(chosen(files.sections_of(32)), 32)
        for chosen in (lambda keys: files.spread(keys, 6_000), lambda keys: files.crowded(keys, 6_000, BUCKETS)))


def shared():
    """A name, the ticks of a run, the maker of a file and of its edits, and how many times one worker's time of processors may be taken."""
    far = (0, 0), (28, 31)
    four = *far, (0, 31), (28, 0)
    yield "30,000 times by turns in two chunks", 1, lambda: (files.entries_at(files.taking_turns(far, 30_000)), ""), SHARED
    yield "72,000 times by turns at two places", 1, lambda: (files.entries_at(files.taking_turns(far, 72_000)), ""), SHARED
    yield "72,000 times, 20 by turns at four places", 1, lambda: (files.entries_at(files.taking_turns(four, 72_000, 20)), ""), SHARED
    yield "72,000 drawn times in nine chunks", 1, lambda: (files.entries_at(files.random_times(files.square(3), 8_000)), ""), SHARED
    for in_one in (200, 400, 800):
        yield "%d drawn times in each of 1,024 chunks" % in_one, 1, (
            lambda in_one=in_one: (files.entries_at(files.random_times(files.square(32), in_one)), "")), SHARED
    yield "a flood over one chunk", 1_000, lambda: (files.stone_floor(5), files.flood(2, 2, 1_000, 1_000)), 1.3


def ask(program, work, words):
    """What the program answers, the seconds that it took, and its seconds of processors."""
    start = time.perf_counter()
    process = subprocess.Popen([program, *words], cwd=work, stdout=subprocess.PIPE, stderr=subprocess.STDOUT, text=True)
    text = process.stdout.read()
    _, status, usage = os.wait4(process.pid, 0)
    return (status, text), time.perf_counter() - start, usage.ru_utime + usage.ru_stime


def folder(work, name, data, edits=""):
    """A folder with the region of some bytes, and a text of edits."""
    path = os.path.join(work, name)
    for part in ("in", "out"):
        os.makedirs(os.path.join(path, part), exist_ok=True)
    with open(os.path.join(path, "in/r.0.0.mca"), "wb") as file:
        file.write(data)
    with open(os.path.join(path, "edits"), "w") as file:
        file.write(edits)
    return path


def measure(program, times, name, words, makers):
    """Prints a row, and answers whether it is as it should be."""
    with tempfile.TemporaryDirectory() as work:
        data = [make() for make in makers]
        folders = [folder(work, label, content) for label, content in zip(("ordinary", "chosen"), data)]
        best, answers = [float("inf")] * 2, set()
        for _ in range(times):
            for index, path in enumerate(folders):
                answer, seconds, _ = ask(program, path, words)
                answers.add(answer)
                best[index] = min(best[index], seconds)
    ratio = best[1] / best[0]
    is_good = ratio < RATIO and (len(data[1]) > MEGABYTE or best[1] < SECONDS) and len(answers) == 1
    print("%-46s %-5s %5.1f MB  %.3f s  %.3f s  ratio %.2f%s" % (
        name, words[0], len(data[1]) / 1e6, *best, ratio, "" if is_good else "  TOO SLOW" if len(answers) == 1 else "  OTHER ANSWERS"), flush=True)
    return is_good


def measure_workers(program, times, name, ticks, make, most):
    """Prints a row, and answers whether several workers take as little as they should, and answer the same."""
    with tempfile.TemporaryDirectory() as work:
        data, edits = make()
        path = folder(work, "shared", data, edits)
        best, answers = {workers: [float("inf")] * 2 for workers in WORKERS}, set()
        for _ in range(times):
            for workers in WORKERS:
                answer, *taken = ask(program, path, run(ticks, workers))
                answers.add(answer)
                best[workers] = list(map(min, best[workers], taken))
    ratios = [[taken / one for taken, one in zip(best[workers], best[1])] for workers in WORKERS[1:]]
    is_good = all(passed <= SHARED and used <= most for passed, used in ratios) and len(answers) == 1
    print("%-46s %5.1f MB  %.3f s, %.3f of processors; with 2, 4, 8 workers %s of it%s" % (
        name, len(data) / 1e6, *best[1], ", ".join("%.2f, %.2f" % tuple(ratio) for ratio in ratios),
        "" if is_good else "  TOO SLOW" if len(answers) == 1 else "  OTHER ANSWERS"), flush=True)
    return is_good


def main():
    program = os.path.abspath(sys.argv[1])
    times = int(sys.argv[2]) if len(sys.argv) > 2 else 5
    are_good = [measure(program, times, name, words, makers) for name, words, *makers in cases()]
    are_good += [measure_workers(program, times, *case) for case in shared()]
    sys.exit(not all(are_good))


if __name__ == "__main__":
    main()
