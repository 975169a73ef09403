#!/usr/bin/env python3
"""Proves all that a crate stands on, side by side, and then the crate.

    scripts/prove.py NAME [--jobs N] [-- COMMAND ..]

Each job is an `rt lib`, in a copy of the tree of its own, since two of them in one tree wait for each other where they stand on the
same crates. What a job has built goes to the tree itself, and from there to the copies that need it, so that no crate is proved twice.
A crate is begun when those that it stands on are proved, first the one that most is left to prove above. For that one two processors are
kept, where there are four or more and memory for it, and it is proved by two processes where it has many functions, since each reads all that
stands below. The crates beside it have one each, or two where processors would have nothing to do. COMMAND is run in the crate's own folder
when all are proved; without one, `rt check`.

Lines on standard error say which crates are being proved, how many are done and about how long it will still take, the last one with its
command. Status: that of the command; 1 where a check failed before, which then tells what it printed; 2 where other words are needed.
"""
import argparse
import concurrent.futures
import contextlib
import functools
import os
import pathlib
import re
import shutil
import signal
import subprocess
import sys
import tempfile
import threading
import time

TOP = pathlib.Path(__file__).resolve().parent.parent
# There is one job for each processor, and each is given 3 GB, of which it wants some 2.
MEMORY_OF_A_JOB = 3 << 30
# The folder of a crate's library in what was built of it.
LIBRARY = "rlib"
# What the kit says where a check begins with what another kept.
KEPT_WORK = "begins with what a check kept"
# How many seconds the proof of each crate took once: where that was committed, and on this machine, which counts where it is known. And about how
# many that of one which is not listed takes, by its functions.
SECONDS = TOP / "scripts/proof_seconds.txt"
SECONDS_HERE = pathlib.Path(os.environ.get("XDG_CACHE_HOME") or pathlib.Path.home() / ".cache") / "anvilwater/proof_seconds.txt"
SECONDS_OF_A_CRATE = 20
SECONDS_OF_A_FUNCTION = 2
# So many functions are worth a second process.
MANY_FUNCTIONS = 30
# With so many jobs two are kept for the crate that most waits for: with fewer, they are all needed for the crates beside it.
MANY_JOBS = 4


def crates():
    """What each crate of the tree stands on, of the tree's own."""
    below = {}
    for line in (TOP / "crates.txt").read_text().splitlines():
        head, colon, names = line.split("#")[0].partition(":")
        if colon:
            below[head.split()[0]] = names.split()
    return {name: [other for other in names if other in below] for name, names in below.items()}


def closure(name, below):
    """A crate and all that it stands on."""
    found = set()
    left = [name]
    while left:
        crate = left.pop()
        if crate not in found:
            found.add(crate)
            left += below[crate]
    return found


def functions(name):
    """How many functions a crate has."""
    return sum(len(re.findall(r"\bfn ", file.read_text())) for file in (TOP / "crates" / name / "src").rglob("*.rt"))


def seconds_in(file):
    """The seconds that a file has for crates, or none where it can't be read."""
    try:
        lines = [line.split() for line in file.read_text().splitlines() if not line.startswith("#")]
        return {name: int(seconds) for name, seconds in lines}
    except (OSError, ValueError):
        return {}


def note_time(name, seconds):
    """Keeps on this machine what the proof of a crate took from nothing. Where that can't be kept, it is only not known."""
    known = {**seconds_in(SECONDS_HERE), name: max(1, round(seconds))}
    try:
        SECONDS_HERE.parent.mkdir(parents=True, exist_ok=True)
        with tempfile.NamedTemporaryFile("w", dir=SECONDS_HERE.parent, delete=False) as file:
            file.writelines("%s %d\n" % line for line in sorted(known.items()))
        os.replace(file.name, SECONDS_HERE)
    except OSError:
        pass


def sizes(names):
    """About how many seconds the check of each crate takes."""
    measured = {**seconds_in(SECONDS), **seconds_in(SECONDS_HERE)}
    return {name: measured.get(name, SECONDS_OF_A_CRATE + SECONDS_OF_A_FUNCTION * functions(name)) for name in names}


def heights(names, below, size):
    """What is to be proved from each crate up to the last, along the longest way."""
    above = {name: [other for other in names if name in below[other]] for name in names}
    known = {}

    def height(name):
        if name not in known:
            known[name] = size[name] + max(map(height, above[name]), default=0)
        return known[name]

    return {name: height(name) for name in names}


class Failed(Exception):
    """A check that ended otherwise than by a proof: its crate, and what it printed."""


def link(source, target):
    """Gives a file a second name, or copies it where that can't be."""
    try:
        os.link(source, target, follow_symlinks=False)
    except OSError:
        shutil.copy2(source, target, follow_symlinks=False)


def built(tree, name):
    """The folder of what was built of a crate."""
    return tree / "crates" / name / "out"


def hand_on(source, target, copy):
    """Hands on what was built of a crate, or its library alone, to another tree, where it is there."""
    if source.is_dir():
        shutil.rmtree(target, ignore_errors=True)
        shutil.copytree(source, target, symlinks=True, copy_function=copy)


class Trees:
    """Copies of the tree, each for one job at a time."""

    def __init__(self, folder, below, count):
        self.below = below
        self.free = []
        self.running = set()
        self.lock = threading.Lock()
        for number in range(count):
            tree = pathlib.Path(folder) / str(number)
            shutil.copytree(TOP / "crates", tree / "crates", ignore=shutil.ignore_patterns("out", "must-fail"))
            for name in ("crates.txt", "HANDLES"):
                shutil.copy(TOP / name, tree / name)
            self.free.append(tree)

    @contextlib.contextmanager
    def borrowed(self):
        """Gives a copy that is free."""
        with self.lock:
            tree = self.free.pop()
        try:
            yield tree
        finally:
            with self.lock:
                self.free.append(tree)

    def prepare(self, tree, name):
        """Hands a copy the libraries below a crate, which are only read, and what an earlier call has kept of the crate itself."""
        for other in closure(name, self.below) - {name}:
            if not (built(tree, other) / LIBRARY).exists():
                hand_on(built(TOP, other) / LIBRARY, built(tree, other) / LIBRARY, link)
        hand_on(built(TOP, name), built(tree, name), shutil.copy2)

    def run(self, words, folder):
        """Runs a command of the kit, and answers its status and what it printed."""
        started = subprocess.Popen(
            words, cwd=folder, stdin=subprocess.DEVNULL, stdout=subprocess.PIPE, stderr=subprocess.STDOUT, start_new_session=True)
        with self.lock:
            self.running.add(started)
        printed = started.communicate()[0]
        with self.lock:
            self.running.discard(started)
        return started.returncode, printed.decode(errors="replace")

    def check(self, name, processes):
        """Proves a crate in a copy that is free, by so many processes, and builds its library. Answers its name, and the seconds of a processor that
        this took, where nothing was kept of it."""
        with self.borrowed() as tree:
            self.prepare(tree, name)
            is_new = not built(tree, name).exists()
            begun = time.monotonic()
            status, printed = self.run(["rt", "lib", "--jobs", str(processes)], tree / "crates" / name)
            seconds = processes * (time.monotonic() - begun)
            hand_on(built(tree, name), built(TOP, name), link)
        if status != 0:
            raise Failed(name, printed)
        return name, seconds if is_new and KEPT_WORK not in printed else None

    def stop(self):
        """Ends the checks that are under way."""
        with self.lock:
            for started in self.running:
                os.killpg(started.pid, signal.SIGTERM)


def minutes(seconds):
    """A time for a reader."""
    count = round(seconds / 60)
    return "less than a minute" if seconds < 60 else "about a minute" if count == 1 else "about %d minutes" % count


def say(done, size, height, jobs, running, begun):
    """Tells how far the proofs are, and about how long they will still take: as long as the work that is left on all processors or on the longest
    way, whichever is more, by the time of the work that is done. Of the crates under way half is taken to be done."""
    proved = sum(size[name] for name in done) + sum(size[name] for name in running) / 2
    left = ""
    if done:
        way = max(height[name] - (size[name] / 2 if name in running else 0) for name in size if name not in done)
        rest = max((sum(size.values()) - proved) / jobs, way)
        left = ", %s left" % minutes(rest * (time.monotonic() - begun) * jobs / proved)
    print("%d of %d crates are proved%s; proving %s" % (len(done), len(size), left, ", ".join(sorted(running))), file=sys.stderr, flush=True)


def jobs_by_memory():
    """How many jobs the memory is enough for."""
    return os.sysconf("SC_PAGE_SIZE") * os.sysconf("SC_PHYS_PAGES") // MEMORY_OF_A_JOB


def shares(ready, idle, urgent, most):
    """Which crates begin, and how many of the idle processors each has: up to `most` for the urgent one, and for others where some are left."""
    given = {}
    for name in ready:
        spare = idle - sum(given.values())
        if spare == 0:
            break
        given[name] = min(spare, most) if name == urgent or len(ready) == len(given) + 1 else 1
    return given


def prove(top, below, jobs, last):
    """Proves what a crate stands on, each crate after those that it stands on itself, and then answers the last step."""
    size = sizes(closure(top, below))
    height = heights(size.keys(), below, size)
    names = size.keys() - {top}
    done, running, begun = set(), {}, time.monotonic()
    most = 2 if MANY_JOBS <= jobs < jobs_by_memory() else 1
    with tempfile.TemporaryDirectory(prefix="anvilwater-") as folder, concurrent.futures.ThreadPoolExecutor(jobs) as pool:
        trees = Trees(folder, below, jobs)
        try:
            while len(done) < len(names):
                held = {name: share for name, share in running.values()}
                ready = sorted((name for name in names - done - set(held) if done.issuperset(below[name])), key=height.get, reverse=True)
                urgent = max(names - done, key=height.get)
                for name, share in shares(ready, jobs - sum(held.values()), urgent, most).items():
                    processes = share if functions(name) >= MANY_FUNCTIONS else 1
                    running[pool.submit(trees.check, name, processes)] = name, share
                say(done, size, height, jobs, [name for name, _ in running.values()], begun)
                for ended in concurrent.futures.wait(running, return_when=concurrent.futures.FIRST_COMPLETED).done:
                    del running[ended]
                    name, seconds = ended.result()
                    done.add(name)
                    if seconds:
                        note_time(name, seconds)
        except BaseException:
            trees.stop()
            raise
        say(done, size, height, jobs, [top], begun)
        return last()


def split_at(words, mark):
    """The words before a mark, and those behind it."""
    where = words.index(mark) if mark in words else len(words)
    return words[:where], words[where + 1:]


def jobs_here():
    """As many jobs as there are processors, where the memory is enough for them."""
    return max(1, min(len(os.sched_getaffinity(0)), jobs_by_memory()))


def main():
    below = crates()
    words = argparse.ArgumentParser(
        description=__doc__.split("\n")[0], usage="%(prog)s NAME [--jobs N] [-- COMMAND ..]",
        epilog="COMMAND is run last, in the crate's folder; without one, rt check.")
    words.add_argument("name", choices=below, metavar="NAME", help="a crate of crates.txt")
    words.add_argument("--jobs", type=int, default=jobs_here(), help="how many checks at once; %(default)s here")
    given, last = split_at(sys.argv[1:], "--")
    asked = words.parse_args(given)
    command = functools.partial(subprocess.call, last or ["rt", "check"], cwd=TOP / "crates" / asked.name, stdin=subprocess.DEVNULL)
    signal.signal(signal.SIGTERM, signal.default_int_handler)
    try:
        return prove(asked.name, below, max(1, asked.jobs), command)
    except Failed as failed:
        name, printed = failed.args
        print(printed, end="", file=sys.stderr)
        print("the proof of %s failed" % name, file=sys.stderr)
        return 1
    except KeyboardInterrupt:
        return 130


if __name__ == "__main__":
    sys.exit(main())
