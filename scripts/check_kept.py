#!/usr/bin/env python3
"""Asks the built program whether it replaces what another program wrote.

    scripts/check_kept.py PROGRAM           as crates/av_main/out/av_main

A file that was written, came or went since the journal of a run that was cut off was written is not replaced by the next command, nor is one
that was while a run went on: the file's size and time tell. All that is there stays as it is. So it does where a new file was taken away, where
the game opens the world meanwhile, and where nothing can be locked. Runs are stopped by halt.c, where there is a C compiler.
"""
import dataclasses
import errno
import fcntl
import itertools
import os
import subprocess
import sys
import tempfile

sys.dont_write_bytecode = True
from cut_offs import (CHANGED, EDITS, FINISHED, JOURNAL, NEW_JOURNAL, PLACES, STAND, TAKEN_AWAY, TOLD, Answer, World, contents, differing,
                      journal_of, laid, part, refused, report, said, shots, with_journal)

# More than a pipe holds: once it is written, the text is being read, and the output folder was looked at before.
COMMENT = "# " + "x" * (1 << 18) + "\n"
MEANWHILE = "it was changed by another program while the run went on"


def files_of(files):
    """The bytes of files that are laid."""
    return {name: file if isinstance(file, bytes) else file.content for name, file in files.items()}


def written_since(world):
    """Where a file that is to be replaced was written since the journal was, nothing is done. It can then be kept."""
    first, last = CHANGED[0], CHANGED[-1]
    old, new = world.old[first], with_journal(world)
    gone = {name: file for name, file in new.items() if name != first}
    came = with_journal(world, journal_of(CHANGED, {name: file for name, file in world.old.items() if name != first}))
    for what, files in (("a longer file", {**new, first: dataclasses.replace(old, content=old.content + b"more")}),
                        ("a later file", {**new, first: dataclasses.replace(old, time=old.time + 1)}),
                        ("an earlier file", {**new, first: dataclasses.replace(old, time=old.time - 10 ** 9)}),
                        ("the last one", {**new, last: dataclasses.replace(world.old[last], time=0)}),
                        ("a file that is gone", gone), ("a file that came", came)):
        for words in (world.check_words, world.words):
            folder = world.laid(files)
            yield what, refused(folder), world.ask(words(folder))
            yield "files beside %s" % what, [], differing(files_of(files), contents(shots(folder)))
    folder = world.laid({**new, first: dataclasses.replace(old, time=old.time + 1)})
    line = "  %s: %s was written since; to keep it, remove this journal" % (os.path.join(folder, JOURNAL), first)
    yield "why", (1, [*refused(folder).errors, line]), world.ask([*world.check_words(folder), "--explain"])[::2]
    os.unlink(os.path.join(folder, JOURNAL))
    yield "once the journal is removed", Answer(0, "", [TAKEN_AWAY % (folder, 3)]), world.check(folder)
    yield "the files then", [], differing(world.old, shots(folder))
    placed = {**new, first: dataclasses.replace(world.new[first], time=1)}
    del placed[part(first)]
    folder = world.laid(placed)
    yield "a file that has its place", Answer(0, "", [FINISHED % (folder, 3)]), world.check(folder)
    yield "files beside one that has its place", [], differing(world.new, shots(folder))


def later(path):
    """Another time, and no other byte."""
    found = os.stat(path)
    os.utime(path, ns=(found.st_atime_ns, found.st_mtime_ns + 1))


def longer(path):
    with open(path, "ab") as file:
        file.write(b"more")


def come(path):
    with open(path, "wb") as file:
        file.write(b"of another program")


def run_beside(world, source, folder, change):
    """What a run answers that writes to a folder, in which this is changed while its edits are read."""
    words = [*world.words(folder, "--explain", source=source)]
    words[words.index("--edits") + 1] = "-"
    with subprocess.Popen(words, stdin=subprocess.PIPE, stdout=subprocess.PIPE, stderr=subprocess.PIPE, text=True, env={}) as run:
        run.stdin.write(COMMENT)
        run.stdin.flush()
        change()
        out, err = run.communicate(EDITS, timeout=60)
    return Answer(run.returncode, out.strip(), said(err).splitlines())


def changed_meanwhile(world):
    """A file that was changed while a run went on stays, and so do all others."""
    name, other = CHANGED[1], "level.dat"
    for what, change in (("a later file", later), ("a longer file", longer), ("a file that is gone", os.unlink)):
        folder, source = world.laid(world.old), world.laid(world.old)
        path = os.path.join(folder, name)
        told = Answer(1, "", [*refused(folder).errors, "  %s: %s" % (path, MEANWHILE)])
        kept = {}

        def changed():
            change(path)
            kept.update(shots(folder))
        yield "a run beside which there is %s" % what, told, run_beside(world, source, folder, changed)
        yield "files beside %s" % what, [], differing(kept, shots(folder))
    folder = world.laid({})
    path = os.path.join(folder, name)
    told = Answer(1, "", [*refused(folder).errors, "  %s: %s" % (path, MEANWHILE)])
    yield "a run beside which a file came", told, run_beside(world, world.laid(world.old), folder, lambda: come(path))
    yield "files beside it", {name: b"of another program"}, contents(shots(folder))
    # What the run does not replace may change.
    folder = world.laid({**world.old, other: b""})
    yield "a run beside which others change", Answer(0, world.first.line, []), run_beside(
        world, world.laid(world.old), folder, lambda: [longer(os.path.join(folder, other)), come(os.path.join(folder, "r.50.50.mca"))])
    yield "the files then", [], differing(contents(world.new), contents(shots(folder)), CHANGED)


def lost(world):
    """A new file that is lost behind the journal, while its old one stays: nothing is done, until the journal is removed."""
    first = CHANGED[0]
    files = {name: file for name, file in with_journal(world).items() if name != part(first)}
    line = "  %s: the new file of %s is lost; to go on, remove this journal"
    folder = world.laid(files)
    answer = Answer(1, "", [*refused(folder).errors, line % (os.path.join(folder, JOURNAL), first)])
    for words in (world.check_words(folder), world.words(folder)):
        yield "a new file that is lost", answer, world.ask([*words, "--explain"])
        yield "files beside a lost one", [], differing(files_of(files), contents(shots(folder)))
    os.unlink(os.path.join(folder, JOURNAL))
    yield "once the journal is removed", Answer(0, "", [TAKEN_AWAY % (folder, 2)]), world.check(folder)
    # One that took its place may be taken away since.
    folder = world.laid({name: file for name, file in files.items() if name != first})
    yield "a file that is gone with its new one", Answer(0, "", [FINISHED % (folder, 3)]), world.check(folder)


def taken_away(world):
    """A new file that another program takes away while the others are written: all old files stay."""
    folder = world.laid(world.old)
    calls = world.halted(world.words(folder), folder)[1]
    for gone, written in ((CHANGED[0], CHANGED[1]), (CHANGED[1], CHANGED[2])):
        begun = 1 + next(number for number, call in enumerate(calls) if part(written) in call.split())
        folder = world.laid(world.old)
        told = "  %s: another program took away the new file of %s" % (os.path.join(folder, JOURNAL), gone)
        answer = world.stopped(world.words(folder, "--explain"), folder, begun, lambda: os.unlink(os.path.join(folder, part(gone))))
        yield "a new file that is gone", Answer(1, "", [*refused(folder).errors, told]), answer
        yield "the files then", [], differing(world.old, shots(folder))


def named(calls):
    """The numbers of a run's calls that give names, in their order: that of the journal, the sync behind it, and those of the files."""
    stand = calls.index(STAND) + 1
    return stand, calls.index("fsync .", stand) + 1, sorted(calls.index(place) + 1 for place in PLACES)


def before_the_first(world):
    """What changes until the folder is synced behind the journal's name gives the run up: the journal goes again, and all old files stay."""
    folder = world.laid(world.old)
    calls = world.halted(world.words(folder), folder)[1]
    stand, synced, _ = named(calls)
    for call, what in itertools.product((stand, synced), ("one new file", "all new files", "old files", "all that is the run's")):
        folder = world.laid(world.old)

        def change():
            for name in CHANGED[1:2] if what == "one new file" else CHANGED:
                path = os.path.join(folder, name)
                longer(path) if what == "old files" else os.unlink(os.path.join(folder, part(name)))
            if what == "all that is the run's":
                os.unlink(os.path.join(folder, JOURNAL if call == synced else NEW_JOURNAL))
        answer = world.stopped(world.words(folder), folder, call, change)
        yield "%s before %s" % (what, calls[call - 1]), refused(folder), answer
        more = b"more" if what == "old files" else b""
        kept = {name: file.content + (more if name in CHANGED else b"") for name, file in world.old.items()}
        yield "files after %s before %s" % (what, calls[call - 1]), [], differing(kept, contents(shots(folder)))


def behind_the_first(world):
    """What changes when files have taken their places already is not replaced, and each command refuses, until the journal is removed."""
    folder = world.laid(world.old)
    calls = world.halted(world.words(folder), folder)[1]
    _, _, places = named(calls)
    names = [calls[place - 1].split()[2] for place in places]
    for at, change in itertools.product((0, 1), (longer, os.unlink)):
        folder = world.laid(world.old)
        path = os.path.join(folder, names[at + 1] if change is longer else part(names[at + 1]))
        answer = world.stopped(world.words(folder, "--explain"), folder, places[at], lambda: change(path))
        told = "%s was written since; to keep it" if change is longer else "the new file of %s is lost; to go on"
        line = "  %s: %s, remove this journal" % (os.path.join(folder, JOURNAL), told % names[at + 1])
        yield "%s changes before %s" % (names[at + 1], calls[places[at] - 1]), Answer(1, "", [*refused(folder).errors, line]), answer
        found = shots(folder)
        yield "files that have their places", [], differing(world.new, found, names[:at + 1])
        old = {**contents(world.old), names[at + 1]: world.old[names[at + 1]].content + (b"more" if change is longer else b"")}
        yield "files that have not", [], differing(old, contents(found), names[at + 1:])
        for words in (world.check_words(folder), world.words(folder)):
            yield "the next command", Answer(1, "", [*refused(folder).errors, line]), world.ask([*words, "--explain"])
        yield "files after it", [], differing(found, shots(folder))


def opened_meanwhile(world):
    """A world that the game opens while a run goes on keeps its files, unless that is to be no matter."""
    if not os.path.exists("/proc/locks"):
        return
    folder = world.laid(world.old)
    synced = named(world.halted(world.words(folder), folder)[1])[1]
    for number, more in enumerate(([], ["--in-use"])):
        folder = laid(os.path.join(world.path("world%d" % number), "region"), world.old)
        with open(os.path.join(os.path.dirname(folder), "session.lock"), "wb") as session:
            answer = world.stopped(world.words(folder, "--explain", *more), folder, synced, lambda: fcntl.lockf(session, fcntl.LOCK_EX))
        line = "  %s: process %d has the world open: stop the game, or call again with --in-use" % (os.path.join(folder, ""), os.getpid())
        yield "a game that opens the world", Answer(0, TOLD, []) if more else Answer(1, "", [*refused(folder).errors, line]), answer
        yield "files of its world", [], differing(world.new if more else world.old, shots(folder))


def made_alone(world):
    """A new file nobody else can open until it has the old one's rights."""
    folder = world.laid(world.old)
    calls = world.halted(world.words(folder), folder)[1]
    for name in CHANGED:
        folder, modes = world.laid(world.old), []
        made = 1 + next(number for number, call in enumerate(calls) if call == "open " + part(name))
        path = os.path.join(folder, part(name))
        answer = world.stopped(world.words(folder), folder, made + 1, lambda: modes.append(os.stat(path).st_mode & 0o777))
        yield "a run", Answer(0, TOLD, []), answer
        yield "the rights of a new file that is made", [0o600], modes


def without_locks(world):
    """Where a folder can't be locked nothing that a run left is done with or taken away."""
    left = {**world.old, part(CHANGED[0]): world.new[CHANGED[0]]}
    why = "the folder can't be locked: No locks available (os error 37)"
    for files in (left, with_journal(world)):
        folder = world.laid(files)
        was, stays = shots(folder), Answer(0, "", ["%s: files that a run left behind stay: %s" % (folder, why)])
        line = "  %s: %s" % (os.path.join(folder, JOURNAL), why)
        want = Answer(1, "", [*refused(folder).errors, line]) if JOURNAL in files else stays
        yield "check without locks", want, world.unlocked([*world.check_words(folder), "--explain"], folder)
        yield "a run without locks", refused(folder), world.unlocked(world.words(folder), folder)
        yield "files after that", [], differing(was, shots(folder))
    folder = world.laid(world.old)
    stand = named(world.halted(world.words(folder), folder)[1])[0]
    folder = world.laid(world.old)
    asked = []
    answer = world.stopped(world.words(folder), folder, stand, lambda: asked.append(world.unlocked(world.check_words(folder), folder)), errno.ENOLCK)
    yield "a run beside check, without locks", Answer(0, TOLD, []), answer
    yield "check beside it", [Answer(0, "", ["%s: files that a run left behind stay: %s" % (folder, why)])], asked
    yield "files after both", [], differing(world.new, shots(folder))


def main():
    if len(sys.argv) != 2:
        sys.exit(__doc__)
    with tempfile.TemporaryDirectory() as work:
        world = World(os.path.abspath(sys.argv[1]), work)
        checks = [written_since, lost, changed_meanwhile]
        if world.library is not None:
            checks += [taken_away, before_the_first, behind_the_first, opened_meanwhile, made_alone, without_locks]
        examples = [example for check in checks for example in check(world)]
    report("files that another program wrote", examples)


if __name__ == "__main__":
    main()
