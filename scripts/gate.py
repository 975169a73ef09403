#!/usr/bin/env python3
"""The merge gate: every proof, test and program, every must-fail edit, and every script.

    scripts/gate.py [--whole]

First `rt ci` goes over a copy of the tree without the must-fail edits: each proof from nothing, the tests, and the programs as two compilers build them.
Then scripts/edits.py tries the edits, many by one check. With --whole `rt ci` goes over the tree as it is instead, and tries each edit by a check of its
own. Last the scripts ask the built programs, side by side; each prints what it has to say when it ends, and those that failed are named.

The last line counts what passed: proofs with tests and programs as `rt ci` counts them, edits, and scripts. Status: 0 where all passed, else 1.
"""
import argparse
import concurrent.futures
import os
import pathlib
import re
import shutil
import subprocess
import sys
import tempfile
import time

sys.dont_write_bytecode = True
import prove

TOP = prove.TOP
PROGRAM, BENCH = "crates/av_main/out/av_main", "crates/av_bench/out/av_bench"
# The scripts, with the programs that they ask; long ones stand first.
SCRIPTS = [
    ["check_world.py", PROGRAM],
    ["check_edits.py"],
    ["check_cut_off.py", PROGRAM],
    ["check_workers.py", PROGRAM],
    ["check_packed.py"],
    ["check_tables.py", PROGRAM],
    ["check_devices.py", PROGRAM],
    ["check_memory.py", PROGRAM, BENCH],
    ["check_words.sh", PROGRAM],
    ["check_worlds.py", PROGRAM],
    ["check_peak.py", PROGRAM, BENCH],
    ["check_map.py", PROGRAM],
    ["check_kept.py", PROGRAM],
    ["check_folders.py", PROGRAM],
    ["check_run.sh", PROGRAM],
    ["check_samples.sh", PROGRAM],
    ["check_hostile.py", PROGRAM],
    ["check_states.py", PROGRAM],
    ["check_documents.py", BENCH],
    ["check_rewrite.py", BENCH],
    ["check_build.sh"],
    ["make_tables.py", "--check"],
    ["ship_table.py", "--check"],
]
COUNTS = re.compile(r"(\d+) passed, (\d+) failed")
EDIT_COUNTS = re.compile(r"(\d+) edits: (\d+) refused")


def shown(words, folder):
    """Runs a command, whose output goes on to this one's. Answers its status and what it printed."""
    printed = []
    with subprocess.Popen(words, cwd=folder, stdin=subprocess.DEVNULL, stdout=subprocess.PIPE, text=True, errors="replace") as started:
        for line in started.stdout:
            sys.stdout.write(line)
            sys.stdout.flush()
            printed.append(line)
    return started.returncode, "".join(printed)


def tree_without_edits(folder):
    """Copies the tree without its must-fail edits. Programs run as another user there."""
    os.chmod(folder, 0o755)
    tree = pathlib.Path(folder) / "tree"
    shutil.copytree(TOP, tree, symlinks=True, ignore=shutil.ignore_patterns(".git", "out", "must-fail", "__pycache__"))
    return tree


def counted(step, status, counts, begun):
    """What a step passed and failed, which it tells: one failure at least where its status says so."""
    passed, failed = counts
    failed = max(failed, status != 0)
    print("gate: %s: %d passed, %d failed, %d s" % (step, passed, failed, time.monotonic() - begun), flush=True)
    return passed, failed


def proofs(tree):
    """Runs `rt ci` in a tree."""
    begun = time.monotonic()
    status, printed = shown(["rt", "ci"], tree)
    found = COUNTS.findall(printed)
    return counted("rt ci", status, map(int, found[-1]) if found else (0, 1), begun)


def edits():
    """Tries the must-fail edits."""
    begun = time.monotonic()
    status, printed = shown([TOP / "scripts/edits.py"], TOP)
    found = EDIT_COUNTS.findall(printed)
    tried, refused = map(int, found[-1]) if found else (1, 0)
    return counted("edits", status, (refused, tried - refused), begun)


def ask(tree, words):
    """Runs a script, and prints what it has to say when it ends. Answers whether it passed."""
    begun = time.monotonic()
    given = [str(tree / word) if word in (PROGRAM, BENCH) else word for word in words[1:]]
    ran = subprocess.run(
        [TOP / "scripts" / words[0], *given], cwd=TOP, stdin=subprocess.DEVNULL, stdout=subprocess.PIPE, stderr=subprocess.STDOUT, text=True,
        errors="replace")
    how = "passed" if ran.returncode == 0 else "FAILED with status %d" % ran.returncode
    print("%sgate: %s %s, %d s" % (ran.stdout, words[0], how, time.monotonic() - begun), flush=True)
    return ran.returncode == 0


def scripts(tree):
    """Runs all scripts, side by side, and names those that failed."""
    begun = time.monotonic()
    with concurrent.futures.ThreadPoolExecutor(prove.jobs_here()) as pool:
        passed = list(pool.map(lambda words: ask(tree, words), SCRIPTS))
    failed = [words[0] for words, is_good in zip(SCRIPTS, passed) if not is_good]
    if failed:
        print("gate: FAILED: %s" % " ".join(failed))
    return counted("scripts", bool(failed), (len(SCRIPTS) - len(failed), len(failed)), begun)


def main():
    words = argparse.ArgumentParser(description=__doc__.split("\n")[0])
    words.add_argument("--whole", action="store_true", help="rt ci over the tree as it is, which tries each edit by a check of its own")
    asked = words.parse_args()
    with tempfile.TemporaryDirectory(prefix="anvilwater-") as folder:
        tree = TOP if asked.whole else tree_without_edits(folder)
        counts = [proofs(tree)]
        if not asked.whole:
            counts.append(edits())
        counts.append(scripts(tree))
    passed, failed = map(sum, zip(*counts))
    print("%d passed, %d failed" % (passed, failed))
    return 1 if failed else 0


if __name__ == "__main__":
    sys.exit(main())
