#!/usr/bin/env python3
"""Cuts runs of a small world in place off, and looks at what the next commands make of what is left.

    scripts/check_cut_off.py PROGRAM           as crates/av_main/out/av_main

A run is ended before and behind each call that changes its folder, by KILL or TERM, and the power fails behind each, so that bytes that were
not synced are lost: the next command leaves all old files or all new ones and nothing else, with their owners and rights, and the same run
again never takes the same ticks twice. The commands that finish such a run, or take away what it left, are cut off too. Then each of these
calls fails, it alone or all behind it too. The calls are stopped by halt.c, which the C compiler makes a library of; where there is no such
compiler nothing is asked.
"""
import dataclasses
import enum
import errno
import os
import signal
import sys
import tempfile
from concurrent.futures import ThreadPoolExecutor

sys.dont_write_bytecode = True
from cut_offs import (CHANGED, FINISHED, FOREIGN, GO, JOURNAL, LEFT_ALONE, NOTHING_ELSE, PLACES, REGIONS, STAND, TAKEN_AWAY, TOLD, TRIAL, Answer,
                      World, contents, differing, is_left, journal_of, part, report, shots)

RIGHTS = "chown", "lchown", "fchown", "fchownat", "chmod", "fchmod", "fchmodat"
WRITES = "open", "write", "pwrite", "pwrite64", "writev", "truncate", "truncate64", "ftruncate", "ftruncate64"


class Phase(enum.Enum):
    """How far a run is: its journal is not there yet, it stands, or it went again."""
    BEGUN, STANDS, DONE = range(3)

    def after(self, calls):
        """How far a run is that was here, after these calls."""
        if GO in calls:
            return Phase.DONE
        return Phase.STANDS if STAND in calls else self


# ---------------------------------------------------------------- a run that nothing stops


def at_rest(path):
    found = os.stat(path)
    return found.st_ino, found.st_mtime_ns


def whole(world):
    """A run in place, and the calls that it makes."""
    yield "its line", Answer(0, TOLD, []), world.first
    yield "what it changes", CHANGED, differing(world.old, world.new)
    yield "what a second one changes", CHANGED, differing(world.new, world.twice)
    for files in (world.new, world.twice):
        yield "owners and rights", {name: file.rights() for name, file in world.old.items()}, {name: file.rights() for name, file in files.items()}
    folder = world.laid(world.old)
    path = os.path.join(folder, LEFT_ALONE)
    before = at_rest(path)
    _, calls = world.halted(world.words(folder), folder)
    yield "a file that keeps its bytes", before, at_rest(path)
    yield "calls that name it", [], [call for call in calls if LEFT_ALONE in call]
    idle = world.laid(world.old)
    answer, few = world.halted([world.program, "run", "--in", idle, "--out", idle, "--table", world.path("table"), "--ticks", "0"], idle)
    yield "a run that changes nothing", Answer(0, "chunks 4 turns 0", []), answer
    yield "calls of a run that changes nothing", [], [call for call in few if TRIAL not in call]
    once = [STAND, *PLACES, GO]
    yield "how often each of %s is called" % once, [1] * len(once), list(map(calls.count, once))
    if {*once} <= {*calls}:
        yield from order(calls)


def order(calls):
    """The order of a run's calls."""
    stand, gone, places = calls.index(STAND), calls.index(GO), list(map(calls.index, PLACES))
    made = {name: [n for n, call in enumerate(calls) if call.split()[1:] == [part(name)] and not call.startswith("unlink")] for name in CHANGED}
    yield "files take their places while the journal stands", [stand, *sorted(places), gone], sorted([stand, *places, gone])
    syncs = [n for n, call in enumerate(calls) if call == "fsync ."]
    for what, first, last in (("the new files and the journal", max(map(max, made.values())), stand),
                              ("the journal and the first that takes its place", stand, min(places)),
                              ("the last that takes its place and the journal's end", max(places), gone),
                              ("the journal's end and that of the run", gone, len(calls))):
        yield "the folder is synced between " + what, True, any(first < sync < last for sync in syncs)
    for name in CHANGED:
        kinds = [calls[n].split()[0] for n in made[name]]
        rights, written = ([n for n, kind in enumerate(kinds) if kind in names] for names in (RIGHTS, WRITES[1:]))
        yield "%s has its owner and rights before it has bytes" % name, True, 0 < len(rights) and max(rights) < min(written)


UNSYNCED = "%s: the run is done; after a power cut the next command may finish it once more: Input/output error (os error 5)"


def late(world):
    """A journal that has its name, though the call that gave it failed, is done with by the next command. A run whose journal is gone is done."""
    folder = world.laid(world.old)
    _, calls = world.halted(world.words(folder), folder)
    folder = world.laid(world.old)
    answer, _ = world.halted(world.words(folder), folder, calls.index(STAND) + 1, "late", errno.EIO)
    yield "a journal that is named, and an error", Answer(1, "", ["fault 25: Device " + folder]), answer
    yield "the next command", Answer(0, "", [FINISHED % (folder, len(CHANGED))]), world.check(folder)
    yield "files after it", [], differing(world.new, shots(folder))
    for name, when in (("a sync that fails behind the journal", "before"), ("one that is done and fails", "late")):
        folder = world.laid(world.old)
        answer, _ = world.halted(world.words(folder), folder, len(calls), when, errno.EIO)
        yield name, Answer(0, TOLD, [UNSYNCED % folder]), answer
        yield "files after " + name, [], differing(world.new, shots(folder))


# ---------------------------------------------------------------- what is left, and the next command


def told(folder, phase, found):
    """What the next command says of what it finds in a folder."""
    stands = phase is Phase.STANDS
    left = sum(is_left(name) for name in found if not stands or name not in map(part, CHANGED))
    return [FINISHED % (folder, len(CHANGED))] * stands + [TAKEN_AWAY % (folder, left)] * (left > 0)


def states_of(world, phase, found):
    """Each region is the old or the new one: all are old before the journal stands, and new once it went."""
    allowed = {Phase.BEGUN: [world.old], Phase.STANDS: [world.old, world.new], Phase.DONE: [world.new]}[phase]
    yield "regions", [], [name for name in REGIONS if found.get(name) not in [files[name] for files in allowed]]
    lines = {JOURNAL: sorted(journal_of(CHANGED, world.old).splitlines())} if phase is Phase.STANDS else {}
    yield "the journal", lines, {name: sorted(found[name].content.splitlines()) for name in found if name == JOURNAL}


def next_commands(world, phase, found):
    """What `check` and the same run again make of a folder."""
    folder = world.laid(found)
    yield "check", Answer(0, "", told(folder, phase, found)), world.check(folder)
    yield "files after check", [], differing(world.old if phase is Phase.BEGUN else world.new, shots(folder))
    folder = world.laid(found)
    lines = told(folder, phase, found)
    answer, files = {Phase.BEGUN: (Answer(0, TOLD, lines), world.new), Phase.STANDS: (Answer(0, "", [*lines, NOTHING_ELSE]), world.new),
                     Phase.DONE: (world.second, world.twice)}[phase]
    yield "the run again", answer, world.run(folder)
    yield "files after it", [], differing(files, shots(folder))
    if phase is Phase.STANDS:
        folder = world.laid(found)
        yield "the run with --again", Answer(0, world.second.line, told(folder, phase, found)), world.run(folder, "--again")
        yield "files after that", [], differing(world.twice, shots(folder))


def unsynced(calls):
    """The names of the files whose bytes these calls did not bring to the device."""
    names = set()
    for kind, first, *second in map(str.split, calls):
        if kind in WRITES:
            names.add(first)
        if kind == "rename" and first in names:
            names.update(second)
        if kind in ("rename", "unlink", "fsync", "fdatasync"):
            names.discard(first)
    return names


# ---------------------------------------------------------------- commands that are stopped


class Stopped:
    """A command over a folder of these files, in which a run is so far, and the calls by which the command changes it."""

    def __init__(self, world, name, words, files, phase=Phase.BEGUN):
        self.world, self.name, self.words, self.files, self.phase = world, name, words, files, phase
        folder, _, self.calls = self.stopped(0)
        self.goal = contents(shots(folder))

    def stopped(self, call, when="before", **how):
        folder = self.world.laid(self.files)
        return folder, *self.world.halted(self.words(folder), folder, call, when, **how)

    def examples(self):
        """Functions that answer the examples of a call each."""
        for call in range(1, len(self.calls) + 1):
            for when in ("before", "after"):
                yield self.named("killed %s" % when, call, self.killed, when)
            yield self.named("power lost after", call, self.power_lost)
            for error, when in ((errno.ENOSPC, "before"), (errno.EIO, "before"), (errno.EIO, "on"), (errno.EROFS, "on")):
                yield self.named("%s %s" % (os.strerror(error), "from" if when == "on" else "at"), call, self.failed, when, error)

    def named(self, how, call, examples, *more):
        what = "%s, %s call %d, %s" % (self.name, how, call, self.calls[call - 1])
        return lambda: [("%s: %s" % (what, name), want, got) for name, want, got in examples(call, *more)]

    def killed(self, call, when):
        sent = signal.SIGTERM if call % 2 == 0 else signal.SIGKILL
        folder, answer, calls = self.stopped(call, when, sent=sent)
        yield "its end", (-sent, self.calls[:call]), (answer.status, calls)
        found = shots(folder)
        done = calls if when == "after" else calls[:-1]
        phase = self.phase.after(done)
        if self.name == "run" and not {*PLACES} <= {*done}:
            yield "what it says before all files have their places", "", answer.line
        if phase is Phase.DONE:
            has_said = Answer(-sent, TOLD, []) if self.phase is Phase.BEGUN else Answer(-sent, "", told(folder, self.phase, self.files))
            yield "what it has said", has_said, answer._replace(errors=answer.errors[:1])
        yield from states_of(self.world, phase, found)
        yield from next_commands(self.world, phase, found)

    def power_lost(self, call):
        folder, _, calls = self.stopped(call, "after")
        found, lost = shots(folder), unsynced(calls)
        phase = self.phase.after(calls)
        folder = self.world.laid({name: dataclasses.replace(file, content=b"") if name in lost else file for name, file in found.items()})
        yield "check", Answer(0, "", told(folder, phase, found)), self.world.check(folder)
        yield "files after it", [], differing(self.world.old if phase is Phase.BEGUN else self.world.new, shots(folder))

    def failed(self, call, when, error):
        """A command of which a call fails says so, or does all that it was to do. What the next one leaves is all old or all new."""
        folder, answer, _ = self.stopped(call, when, error=error)
        found, old, new = contents(shots(folder)), contents(self.world.old), contents(self.world.new)
        yield "its answer", True, self.is_answer(folder, answer)
        if self.name == "run" and answer.status == 1 and not {*PLACES} <= {*self.calls[:call - 1]}:
            yield "what it says where not all files have their places", "", answer.line
        if self.phase is Phase.BEGUN and self.calls[call - 1] == GO:
            yield "its answer where the journal stays", Answer(1, TOLD, ["fault 25: Device " + folder]), answer
        if answer.status == 0:
            yield "regions", [], differing(self.goal, found, REGIONS)
        elif JOURNAL not in found:
            yield "regions that are all old or all new", True, [] in (differing(old, found, REGIONS), differing(new, found, REGIONS))
            if when == "before" and not self.calls[call - 1].startswith("unlink"):
                yield "what is left", [], list(filter(is_left, found))
        is_new = JOURNAL in found or differing(new, found, REGIONS) == []
        yield "check", 0, self.world.check(folder).status
        yield "files after it", [], differing(new if is_new else old, contents(shots(folder)))

    def is_answer(self, folder, answer):
        """Is it a refusal that names a file or the folder, as where the journal can't be removed once all was told, or no refusal?"""
        named = ["fault 25: Device " + name for name in (folder, JOURNAL, *CHANGED)]
        return answer.status == 0 or answer.status == 1 and answer.line in ("", TOLD) and answer.errors[-1:] in [[line] for line in named]


def commands(world):
    """A run in place, and the commands that come upon one that was cut off."""
    run = Stopped(world, "run", world.words, world.old)
    yield run
    if STAND in run.calls:
        stand = run.calls.index(STAND) + 1
        stands, left = (shots(run.stopped(stand, when)[0]) for when in ("after", "before"))
        yield Stopped(world, "check of a run with a journal", world.check_words, stands, Phase.STANDS)
        yield Stopped(world, "run after a run with a journal", world.words, stands, Phase.STANDS)
        yield Stopped(world, "check of a run without one", world.check_words, {**left, TRIAL: world.old[next(iter(FOREIGN))]})


def main():
    if len(sys.argv) != 2:
        sys.exit(__doc__)
    with tempfile.TemporaryDirectory() as work, ThreadPoolExecutor(os.cpu_count()) as pool:
        world = World(os.path.abspath(sys.argv[1]), work)
        if world.library is None:
            print("0 asked of runs that are cut off: there is no C compiler")
            return
        examples = [("a run: " + name, want, got) for check in (whole, late) for name, want, got in check(world)]
        for command in commands(world):
            for found in pool.map(lambda ask: ask(), command.examples()):
                examples += found
    report("runs that are cut off", examples)


if __name__ == "__main__":
    main()
