#!/usr/bin/env python3
"""Tries the must-fail edits, many by one check: each has to be refused.

    scripts/edits.py [NAME ..] [--anew] [--jobs N]

Edits of one crate that each change a function of their own are laid over one another in a copy of the tree, and one `rt check` goes through these
functions; where one calls another that was refused, it is tried again without that. An edit counts as refused only if one of its own functions was refused at a goal of its own: not where that calls one which is not proved,
and not where a proof file only misses a name. One harmless edit stands in each batch and has to be proved, so that a batch that can't be read is seen.
Whatever else came of an edit, it is tried alone by `rt must-fail`, and so is one that changes what is in no body of src/.

What was refused is kept on this machine, by the checksums of all that its check read. Where only bodies of functions changed since in crates below,
an edit is left, but for a tenth of them, drawn by the commit's name. --anew forgets what was kept.

A line tells what came of each edit, and the last one counts them. Status: 0 where all were refused, 1 where one was not, can't be read or could not be
tried, 2 where other words are needed.
"""
import argparse
import concurrent.futures
import dataclasses
import re
import shutil
import signal
import subprocess
import sys
import tempfile

sys.dont_write_bytecode = True
import kept_edits
import laid_edits
import prove
from laid_edits import Edit, Unreadable

TOP = prove.TOP
# Of what an earlier run knew: that it was refused over the same files, or over the same but for bodies of functions below.
KEPT = " (kept)"
LEFT = " (left)"


@dataclasses.dataclass
class Result:
    """What came of an edit: whether it was refused, whether alone, whether elsewhere than in a function of its own, and what is said of it."""

    edit: Edit
    refused: bool
    said: str
    alone: bool = False
    elsewhere: bool = False
    earlier: str = ""


def read_all(names):
    """The edits of crates, by crate. One that can't be applied has no functions, and the kit says why."""
    found = {}
    for name in names:
        folder = TOP / "crates" / name
        for path in sorted((folder / "must-fail").glob("*.edit")):
            try:
                edit = laid_edits.read_edit(folder, path)
            except Unreadable:
                edit = Edit(name, path.name, (), frozenset())
            found.setdefault(name, []).append(edit)
    return found


class Trial:
    """Edits that are tried in copies of the tree."""

    def __init__(self, trees, say):
        self.trees, self.say = trees, say

    def check(self, crate, batch):
        """What one check prints of a crate with a batch of edits."""
        only = [word for name in sorted({laid_edits.HARMLESS}.union(*(edit.own for edit in batch))) for word in ("--only", name)]
        with self.trees.borrowed() as tree:
            folder = tree / "crates" / crate
            self.trees.prepare(tree, crate)
            laid = laid_edits.lay(folder, batch)
            try:
                words = ["rt", "check", "--jobs", "1", "--allow-holes"]
                printed = self.trees.run([*words, *only], folder)[1]
                if re.search(r"error: `\w+` has no function", printed):
                    printed = self.trees.run(words, folder)[1]
            finally:
                for file in laid:
                    shutil.copy(TOP / "crates" / crate / file, folder / file)
                shutil.rmtree(prove.built(tree, crate), ignore_errors=True)
        return printed

    def batch(self, crate, edits):
        """Tries a batch, and answers the edits that are hidden by others, and those that are to be tried alone. One that can't be read is tried in
        halves."""
        printed = self.check(crate, edits)
        if not laid_edits.was_read(crate, printed):
            half = len(edits) // 2
            parts = [self.batch(crate, some) for some in (edits[:half], edits[half:])] if half else [([], edits)]
            return sum((part[0] for part in parts), []), sum((part[1] for part in parts), [])
        hidden, single = [], []
        for edit in edits:
            goals = {name: laid_edits.goal_of(crate, name, printed) for name in sorted(edit.own)}
            at = next(("%s at %s" % it for it in goals.items() if it[1]), None)
            if at:
                self.say(Result(edit, True, at))
            else:
                (hidden if laid_edits.is_hidden(crate, edit, printed) else single).append(edit)
        return hidden, single

    def crate(self, crate, edits):
        """Tries the edits of a crate: batch after batch, each as large as can be, and then alone what is left."""
        left, single = [edit for edit in edits if edit.own], [edit for edit in edits if not edit.own]
        while left:
            batch, later = laid_edits.next_batch(left)
            hidden, alone = self.batch(crate, batch)
            if len(hidden) == len(batch):
                hidden, alone = [], batch
            left, single = hidden + later, single + alone
        if single:
            self.alone(crate, single)
        return crate

    def alone(self, crate, edits):
        """Tries edits alone, by the kit's own command."""
        with self.trees.borrowed() as tree:
            folder = tree / "crates" / crate / "must-fail"
            self.trees.prepare(tree, crate)
            folder.mkdir()
            try:
                for edit in edits:
                    shutil.copy(TOP / "crates" / crate / "must-fail" / edit.name, folder)
                printed = self.trees.run(["rt", "must-fail", crate], tree)[1]
            finally:
                shutil.rmtree(folder)
                shutil.rmtree(prove.built(tree, crate), ignore_errors=True)
        for edit in edits:
            found = re.search(r"must-fail %s: (.*)" % re.escape(edit.label()), printed)
            said = found.group(1) if found else "NOT TRIED: %s" % " ".join(printed.split())[-200:]
            refused = said.startswith("refused")
            self.say(Result(edit, refused, said, alone=True, elsewhere=refused and not laid_edits.is_at_own(TOP / "crates" / crate, edit, said)))


class Plan:
    """What is to be done, and in which order: libraries first, from the one that most is left to prove above, and then edits, of large crates
    first."""

    def __init__(self, edits, below):
        self.below, self.edits = below, dict(edits)
        # What is kept of a crate itself spares its batches the proofs of what their functions call.
        self.libraries = set().union(*(prove.closure(crate, below) - ({crate} if len(some) == 1 else set()) for crate, some in edits.items()))
        every = self.libraries | set(edits)
        self.size = prove.sizes(every)
        self.height = prove.heights(every, below, self.size)
        self.built, self.begun = set(), set()

    def next_library(self):
        """A crate whose library can be built, or None."""
        ready = [name for name in self.libraries - self.begun if self.built.issuperset(self.below[name])]
        name = max(ready, key=self.height.get, default=None)
        self.begun.add(name)
        return name

    def next_edits(self):
        """A crate whose edits can be tried, with these, or None."""
        for crate in sorted(self.edits, key=self.size.get, reverse=True):
            if prove.closure(crate, self.below) & self.libraries <= self.built:
                return crate, self.edits.pop(crate)
        return None


def try_all(edits, below, jobs, say):
    """Tries edits, by so many jobs. Raises prove.Failed where a crate itself is not proved."""
    plan = Plan(edits, below)
    running = set()
    with tempfile.TemporaryDirectory(prefix="anvilwater-") as folder, concurrent.futures.ThreadPoolExecutor(jobs) as pool:
        trees = prove.Trees(folder, below, jobs)
        trial = Trial(trees, say)
        try:
            while True:
                while len(running) < jobs and (name := plan.next_library()):
                    running.add(pool.submit(lambda name: plan.built.add(trees.check(name, 1)[0]), name))
                while len(running) < jobs and (task := plan.next_edits()):
                    running.add(pool.submit(trial.crate, *task))
                if not running:
                    return
                ended, running = concurrent.futures.wait(running, return_when=concurrent.futures.FIRST_COMPLETED)
                for one in ended:
                    one.result()
        except BaseException:
            trees.stop()
            raise


class Report:
    """What came of each edit, told as it comes."""

    def __init__(self, kept):
        self.kept, self.results = kept, []

    def say(self, result):
        self.results.append(result)
        label = result.edit.label()
        if not result.earlier and result.refused:
            self.kept.keep(result.edit.crate, result.edit.name, {"said": result.said, "alone": result.alone, "elsewhere": result.elsewhere})
        how = "refused" if result.refused else "NOT REFUSED"
        where = " alone, elsewhere than in its own function" if result.elsewhere else " alone" if result.alone else ""
        print("%s: %s%s%s: %s" % (label, how, where, result.earlier, result.said), flush=True)

    def count(self, **wanted):
        return sum(all(getattr(result, name) == value for name, value in wanted.items()) for result in self.results)

    def tell(self):
        """Prints the counts, and answers whether all were refused."""
        refused = [result for result in self.results if result.refused]
        print("%d edits: %d refused, %d of them alone and %d elsewhere than in their own function; %d kept from earlier runs, %d left since only bodies "
              "below changed; %d not refused" % (
                  len(self.results), len(refused), self.count(refused=True, alone=True), self.count(elsewhere=True), self.count(earlier=KEPT),
                  self.count(earlier=LEFT), len(self.results) - len(refused)))
        return len(refused) == len(self.results)


def told_earlier(edits, kept, commit, report):
    """Tells of the edits of which an earlier run knows, and answers the others."""
    others = {}
    for crate, some in edits.items():
        for edit in some:
            whole = kept.known(crate, edit.name)
            bodies = whole or kept.known(crate, edit.name, without_bodies=True)
            if whole or bodies and not kept_edits.is_drawn(commit, edit.label()):
                report.say(Result(edit, True, **bodies, earlier=KEPT if whole else LEFT))
            else:
                others.setdefault(crate, []).append(edit)
    return others


def commit_here():
    """The name of the commit that stands here, or nothing."""
    return subprocess.run(["git", "rev-parse", "HEAD"], cwd=TOP, capture_output=True, text=True, stdin=subprocess.DEVNULL).stdout.strip()


def main():
    below = prove.crates()
    words = argparse.ArgumentParser(description=__doc__.split("\n")[0], usage="%(prog)s [NAME ..] [--anew] [--jobs N]")
    words.add_argument("names", nargs="*", metavar="NAME", help="crates of crates.txt; without one all")
    words.add_argument("--anew", action="store_true", help="forget what was refused earlier")
    words.add_argument("--jobs", type=int, default=prove.jobs_here(), help="how many checks at once; %(default)s here")
    asked = words.parse_args()
    unknown = [name for name in asked.names if name not in below]
    if unknown:
        words.error("%s is no crate of crates.txt" % unknown[0])
    signal.signal(signal.SIGTERM, signal.default_int_handler)
    edits = read_all(asked.names or sorted(below))
    kept = kept_edits.Kept(TOP, lambda name: prove.closure(name, below) - {name}, below)
    report = Report(kept)
    others = edits if asked.anew else told_earlier(edits, kept, commit_here(), report)
    try:
        try_all(others, below, max(1, asked.jobs), report.say)
    except prove.Failed as failed:
        name, printed = failed.args
        print(printed, end="")
        print("%s is not proved, so edits were not tried" % name)
        return 1
    except KeyboardInterrupt:
        return 130
    return 0 if report.tell() else 1


if __name__ == "__main__":
    sys.exit(main())
