#!/usr/bin/env python3
"""Asks the built program of folders in which a run was cut off, of those that a call holds, and of devices that are full or read-only.

    scripts/check_devices.py PROGRAM           as crates/av_main/out/av_main

Each command that reads or writes a folder finishes the run that its journal tells of, or takes away what one left, unless another call
is at it; journals of another form, and links, are refused or leave alone what they lead to, and a file that can't take its place is named.
Two calls meet at steps of a run, where there is a C compiler for halt.c. A device of each size from full to large enough is tried, and one
that is read-only, where this may mount some; and files of other owners where it runs as root.
"""
import contextlib
import dataclasses
import errno
import itertools
import os
import shutil
import signal
import subprocess
import sys
import tempfile

sys.dont_write_bytecode = True
import holding
from cut_offs import (CHANGED, FINISHED, HEAD, JOURNAL, NEW_JOURNAL, NOTHING_ELSE, REGIONS, TAKEN_AWAY, TOLD, TRIAL, Answer, World, contents,
                      differing, journal_of, laid, mark, part, refused, report, shots, with_journal)

COLOURS = os.path.join(os.path.dirname(os.path.dirname(os.path.abspath(__file__))), "tables", "colours.toml")
PAGE = 4096


def without_journal(world):
    """The files of a world in which a run was cut off before it had a journal."""
    return {**world.old, **{part(name): b"cut" for name in CHANGED}, NEW_JOURNAL: HEAD, TRIAL: b""}


# ---------------------------------------------------------------- what a run left


def commands(world):
    """Each command that looks at a folder finds what a run left there, before it does anything else."""
    water, block = "minecraft:water[level=0]", "minecraft:air"
    program, table, other = world.program, world.path("table"), world.laid({})
    for files, line, seen, left in ((with_journal(world), FINISHED, world.new, 3), (without_journal(world), TAKEN_AWAY, world.old, 5)):
        folder = world.laid(files)
        yield "states", (0, [line % (folder, left)]), world.ask([program, "states", "--in", folder, "--table", table])[::2]
        yield "files after states", [], differing(seen, shots(folder))
        folder = world.laid(files)
        words = [program, "map", "--in", folder, "--out", os.path.join(other, "map.png"), "--colours", COLOURS]
        yield "map", (0, [line % (folder, left)]), world.ask(words)[::2]
        yield "files after map", [], differing(seen, shots(folder))
        folder = world.laid(files)
        found = water if seen is world.new else block
        words = [program, "block", os.path.join(folder, "r.0.0.mca"), "8", "64", "8"]
        yield "block", Answer(0, found, [line % (os.path.join(folder, ""), left)]), world.ask(words)
        yield "files after block", [], differing(seen, shots(folder))
        folder = world.laid(files)
        yield "block of a name alone", found, world.ask([program, "block", "r.0.0.mca", "8", "64", "8"], cwd=folder).line
        yield "files after that", [], differing(seen, shots(folder))
        folder, out = world.laid(files), world.laid({})
        answer, written = (world.second, world.twice) if seen is world.new else (world.first, world.new)
        yield "a run from it", answer._replace(errors=[line % (folder, left)]), world.ask(world.words(out, source=folder))
        yield "files after a run from it", [], differing(seen, shots(folder))
        yield "what that run writes", [], differing(contents(written), contents(shots(out)), REGIONS)
        folder = world.laid(files)
        told = "".join("%s: 1 chunks would change\n" % name for name in sorted(CHANGED)) + answer.line
        yield "a dry run, which goes on", Answer(0, told, [line % (folder, left)]), world.run(folder, "--dry-run")
        yield "files after a dry run", [], differing(seen, shots(folder))
    folder = world.laid(with_journal(world))
    yield "a run into it", Answer(0, "", [FINISHED % (folder, 3), NOTHING_ELSE]), world.ask(world.words(folder, source=world.laid(world.twice)))
    yield "files after a run into it", [], differing(world.new, shots(folder))
    fresh = {name: file for name, file in with_journal(world, journal_of(CHANGED, {})).items() if name not in world.old}
    folder = world.laid(fresh)
    yield "check of a folder without old files", Answer(0, "", [FINISHED % (folder, 3)]), world.check(folder)
    yield "its files", [], differing({name: world.new[name] for name in CHANGED}, shots(folder))


def journals(world):
    """Journals of another form are refused, and nothing is touched."""
    names = "level.dat", "../r.0.0.mca", "./r.0.0.mca", part("r.0.0.mca"), "r.00.0.mca", "r.0.0.mca ", "r.0.0.mca\r", "", "\udcff"
    one = b"r.0.0.mca\n\n" + mark(world.old["r.0.0.mca"])
    forms = [b"", b"\n", HEAD[:-1], HEAD + b"r.0.0.mca", HEAD + b"r.0.0.mca\n", HEAD + b"r.0.0.mca\n\n", (HEAD + one)[:-1], HEAD + one + b"-\n", one,
             b"anvilwater journal 1\nr.0.0.mca\n", b"anvilwater journal 3\n" + one, (HEAD + one).replace(b"\n", b"\r\n"),
             *(HEAD + b"r.-1.0.mca\n" + name.encode(errors="surrogateescape") + b"\n\n-\n-\n" for name in names)]
    for form in forms:
        for words in (world.check_words, world.words):
            folder = world.laid(with_journal(world, form))
            was = shots(folder)
            yield "a journal %s" % form, refused(folder), world.ask(words(folder))
            yield "files beside %s" % form, [], differing(was, shots(folder))


def links(world):
    """What links lead to is left alone, and a link or no file in the place of the journal is refused."""
    other = world.laid({"valid": journal_of(["r.0.0.mca"], world.old), "foreign": b"of somebody else"})
    was = shots(other)
    makers = [("a link to %s" % name, lambda path, name=name: os.symlink(os.path.join(other, name), path)) for name in (*was, "nothing")]
    for (what, make), words in itertools.product([*makers, ("a folder", os.mkdir), ("a pipe", os.mkfifo)], (world.check_words, world.words)):
        folder = world.laid(with_journal(world))
        os.unlink(os.path.join(folder, JOURNAL))
        make(os.path.join(folder, JOURNAL))
        before = shots(folder)
        yield "%s as the journal" % what, refused(folder), world.ask(words(folder))
        yield "files beside %s" % what, [], differing(before, shots(folder))
    left = {name: os.path.join(other, "foreign") for name in (part("r.0.0.mca"), NEW_JOURNAL, TRIAL)}
    folder = world.laid({**world.old, **left})
    yield "links that are taken away", Answer(0, "", [TAKEN_AWAY % (folder, 3)]), world.check(folder)
    yield "files after that", [], differing(world.old, shots(folder))
    folder = world.laid({**world.old, **left})
    yield "a run over links", Answer(0, TOLD, [TAKEN_AWAY % (folder, 3)]), world.run(folder)
    yield "files after it", [], differing(world.new, shots(folder))
    yield "what links lead to", [], differing(was, shots(other))
    folder, link = world.laid(with_journal(world)), os.path.join(other, "folder")
    os.symlink(folder, link)
    yield "a link to a folder", Answer(0, "", [FINISHED % (link, 3), NOTHING_ELSE]), world.run(link)
    yield "files of that folder", [], differing(world.new, shots(folder))
    yield "a run by the link", world.second, world.run(link)
    yield "the link", (folder, []), (os.readlink(link), differing(world.twice, shots(folder)))


# ---------------------------------------------------------------- others


def held(world):
    """What lies in a folder that another process holds is read as it is."""
    for files in (with_journal(world), without_journal(world)):
        folder = world.laid(files)
        was = shots(folder)
        with holding.held(folder):
            yield "check of a folder that is held", Answer(0, "", []), world.check(folder)
            yield "run", refused(folder), world.run(folder)
            yield "its files", [], differing(was, shots(folder))
        yield "check once it is free", 1, len(world.check(folder).errors)


@contextlib.contextmanager
def stopped(world, words, folder, call):
    """A command that is stopped, until it goes on, behind this call that changes the folder. Its answer is put into a list."""
    environment = {"LD_PRELOAD": world.library, "HALT_FOLDER": folder, "HALT": str(call), "HALT_WHEN": "after",
                   "HALT_SIGNAL": str(int(signal.SIGSTOP))}
    process = subprocess.Popen(words(folder), stdout=subprocess.PIPE, stderr=subprocess.PIPE, text=True, env=environment)
    ended = []
    try:
        os.waitid(os.P_PID, process.pid, os.WSTOPPED | os.WEXITED | os.WNOWAIT)
        yield ended
    finally:
        process.send_signal(signal.SIGCONT)
        out, err = process.communicate(timeout=120)
        ended.append(Answer(process.returncode, out.strip(), err.splitlines()))


def two_at_once(world):
    """While a command is at a folder a run is refused and `check` reads what is there. The command then goes on as if it were alone."""
    if world.library is None:
        return
    for name, words, files, lines in (("run", world.words, world.old, []), ("check", world.check_words, with_journal(world), [FINISHED]),
                                      ("check", world.check_words, without_journal(world), [TAKEN_AWAY])):
        folder = world.laid(files)
        alone, calls = world.halted(words(folder), folder)
        goal = shots(folder)
        for call in range(1, len(calls) + 1, 1 if name == "check" else 3):
            what = "%s that stands behind its call %d, %s" % (name, call, calls[call - 1])
            second = world.laid(files)
            with stopped(world, words, second, call) as ended:
                was = shots(second)
                yield "check beside a " + what, Answer(0, "", []), world.check(second)
                yield "a run beside a " + what, Answer(1, "", ["fault 25: Device " + second]), world.run(second)
                yield "files beside a " + what, [], differing(was, shots(second))
            yield what, [alone._replace(errors=[line.replace(folder, second) for line in alone.errors])], ended
            yield "files after a " + what, [], differing(goal, shots(second))


def owners(world):
    """A user who may write to a folder, but gives files to nobody else, keeps their rights. Files that he may not replace stay, until one
    who may finishes the run."""
    if os.geteuid() != 0:
        return
    user, program = {"user": 4321, "group": 4321, "extra_groups": []}, world.path("program")
    shutil.copy(world.program, program)
    os.chmod(world.work, 0o755)
    for mode in (0o777, 0o1777):
        folder = world.laid({name: dataclasses.replace(file, mode=file.mode | 0o004) for name, file in world.old.items()})
        os.chmod(folder, mode)
        was = shots(folder)
        answer = world.ask([program, *world.words(folder)[1:]], **user)
        if mode == 0o777:
            yield "a run of another user", Answer(0, TOLD, []), answer
            wanted = {name: dataclasses.replace(world.new[name], mode=was[name].mode, user=4321, group=4321) for name in CHANGED}
            yield "the files that he wrote", [], differing({**was, **wanted}, shots(folder))
        else:
            yield "a run of one who may replace no file", (1, ""), answer[:2]
            yield "the next command", 0, world.check(folder).status
            found = contents(shots(folder))
            yield "files after it", True, [] in (differing(contents(files), found) for files in (world.old, world.new))


def unmoved(world):
    """A file that can't take its place is named by the run, and so it is by the command that can't finish the run either."""
    if world.library is None:
        return
    name = CHANGED[1]
    place = "rename %s %s" % (part(name), name)
    folder = world.laid(world.old)
    _, calls = world.halted(world.words(folder), folder)
    folder = world.laid(world.old)
    why = "  %s: Operation not permitted (os error 1)" % os.path.join(folder, name)
    run, _ = world.halted(world.words(folder, "--explain"), folder, calls.index(place) + 1, error=errno.EPERM)
    yield "a run whose file can't take its place", (1, "", [why]), (run.status, run.line, [line for line in run.errors if line.startswith("  /")])
    words = [*world.check_words(folder), "--explain"]
    copy = world.laid(shots(folder))
    _, calls = world.halted(world.check_words(copy), copy)
    check, _ = world.halted(words, folder, calls.index(place) + 1, error=errno.EPERM)
    yield "the next command", (1, "", [why]), (check.status, check.line, [line for line in check.errors if line.startswith("  /")])
    yield "the command behind it", (0, [FINISHED % (folder, 3)]), (lambda answer: (answer.status, answer.errors))(world.check(folder))
    yield "files after that", [], differing(world.new, shots(folder))


# ---------------------------------------------------------------- devices


@contextlib.contextmanager
def mounted(folder, *words):
    subprocess.run(["mount", *words, folder], check=True)
    try:
        yield folder
    finally:
        subprocess.run(["umount", folder], check=True)


@contextlib.contextmanager
def read_only(folder, may_mount):
    """A folder that takes no file: of a device that is read-only, or one without the rights for it."""
    if may_mount:
        with mounted(folder, "--bind", folder):
            subprocess.run(["mount", "-o", "remount,bind,ro", folder], check=True)
            yield
    else:
        os.chmod(folder, 0o555)
        yield
        os.chmod(folder, 0o755)


def full(world):
    """A device that has room for some of the new files refuses a run and keeps the old ones; with room for all it is whole."""
    pages = lambda files: sum(-(-len(file.content) // PAGE) for file in files)
    held, needed = pages(world.old.values()), pages(world.new[name] for name in CHANGED) + 1
    for more in range(needed + 2):
        folder = world.laid({})
        with mounted(folder, "-t", "tmpfs", "-o", "size=%d" % (PAGE * (held + more)), "none"):
            laid(folder, world.old)
            answer, what = world.run(folder), "a device with %d of %d free sectors" % (more, needed)
            if more >= needed:
                yield what, Answer(0, TOLD, []), answer
            else:
                yield what, True, answer in [Answer(1, "", ["fault 25: Device " + name]) for name in (folder, JOURNAL, *CHANGED)]
            yield "files of " + what, [], differing(world.new if more >= needed else world.old, shots(folder))


def closed(world, may_mount):
    """What is on a device that is read-only stays, and a run that is half done isn't read there."""
    for name, files, status in (("a world", world.old, (0,)), ("a run with a journal", with_journal(world), (1,)),
                                ("a run without one", without_journal(world), (0, 1))):
        folder = world.laid(files)
        was = shots(folder)
        with read_only(folder, may_mount):
            yield "run over %s, read-only" % name, (1, ""), world.run(folder)[:2]
            answer = world.check(folder)
            yield "check of %s, read-only" % name, True, answer.status in status
            yield "files of %s, read-only" % name, [], differing(was, shots(folder))
        yield "check of %s once it takes files" % name, 0, world.check(folder).status
        yield "files of %s after that" % name, [], differing(world.new if JOURNAL in files else world.old, shots(folder))
    folder, out = world.laid(world.old), world.laid({})
    with read_only(folder, may_mount):
        yield "a run from a device that is read-only", Answer(0, TOLD, []), world.ask(world.words(out, source=folder))
    yield "what it writes", [], differing(contents(world.new), contents(shots(out)), REGIONS)


def no_output(world):
    """A run whose line can't be written says so, and leaves no half of its files. The next one tells of it, and runs no tick again."""
    folder = world.laid(world.old)
    with open("/dev/full", "w") as device:
        done = subprocess.run(world.words(folder), stdin=subprocess.DEVNULL, stdout=device, stderr=subprocess.PIPE, text=True, env={})
    yield "no output", (1, ["standard output: No space left on device (os error 28)"]), (done.returncode, done.stderr.splitlines())
    yield "files after that", [], differing(contents(world.new), contents(shots(folder)), REGIONS)
    yield "a run after that", Answer(0, "", [FINISHED % (folder, 3), NOTHING_ELSE]), world.run(folder)
    yield "its files", [], differing(world.new, shots(folder))


def has_own_mounts():
    """Has this process mounts of its own? It is begun anew with them where that is permitted."""
    if sys.argv[2:] == ["--own-mounts"]:
        return True
    unshare = shutil.which("unshare")
    tried = [unshare, "--mount", "mount", "-t", "tmpfs", "none", tempfile.gettempdir()]
    if os.geteuid() == 0 and unshare and subprocess.run(tried, stderr=subprocess.DEVNULL).returncode == 0:
        os.execv(unshare, ["unshare", "--mount", sys.executable, os.path.abspath(__file__), sys.argv[1], "--own-mounts"])
    return False


def main():
    if len(sys.argv) not in (2, 3):
        sys.exit(__doc__)
    may_mount = has_own_mounts()
    checks = [commands, journals, links, held, two_at_once, unmoved, owners]
    if may_mount:
        checks.append(full)
    if may_mount or os.geteuid() != 0:
        checks.append(lambda world: closed(world, may_mount))
    else:
        print("full and read-only devices are not tried: nothing can be mounted here")
    if os.path.exists("/dev/full"):
        checks.append(no_output)
    with tempfile.TemporaryDirectory() as work:
        world = World(os.path.abspath(sys.argv[1]), work)
        examples = [example for check in checks for example in check(world)]
    report("devices and of what runs leave there", examples)


if __name__ == "__main__":
    main()
