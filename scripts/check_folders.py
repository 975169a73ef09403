#!/usr/bin/env python3
"""Asks the built program to write to folders that are held, linked, of another owner, or left by a call that was killed.

    scripts/check_folders.py PROGRAM           as crates/av_main/out/av_main

What is written is compared with what a call writes to a folder of its own. Owners are tried where this runs as root.
"""
import contextlib
import fcntl
import os
import pathlib
import shutil
import signal
import subprocess
import sys
import tempfile
import time

sys.dont_write_bytecode = True
from holding import held

TOP = pathlib.Path(__file__).resolve().parent.parent
NAMES = ["r.-1.-1.mca", "r.0.0.mca"]
wrong = []
asked = 0


def expect(what, want, got):
    global asked
    asked += 1
    if want != got:
        wrong.append(what)
        print("%s: %r, and not %r" % (what, got, want))


def words(program, source, target, *more):
    return [program, "run", "--in", str(source), "--out", str(target), "--table", str(TOP / "tables/blocks.toml"),
            "--edits", str(TOP / "samples/edits.txt"), "--ticks", "20", "--workers", "2", *more]


def run(program, source, target, *more):
    """The status of a run, and its lines on standard error."""
    done = subprocess.run(words(program, source, target, *more), stdin=subprocess.DEVNULL, capture_output=True, text=True)
    return done.returncode, [line for line in done.stderr.splitlines() if "no row in the table" not in line]


def contents(folder):
    """The names of a folder, and the bytes of those that are files."""
    return {name.name: name.read_bytes() for name in sorted(folder.iterdir()) if name.is_file()}


def regions(folder):
    """A folder with the sample regions."""
    folder.mkdir()
    for name in NAMES:
        shutil.copy(TOP / "samples" / name, folder / name)
    return folder


def check_held(program, work, want):
    """A folder that another process holds is refused, and nothing is written to it; then it is not."""
    folder = regions(work / "held")
    before = contents(folder)
    with held(folder):
        expect("a folder that is held", (1, ["fault 25: Device %s" % folder]), run(program, folder, folder))
        status, lines = run(program, folder, folder, "--explain")
        process = "  %s: process %d works on it: wait until it has ended" % (folder, os.getpid())
        expect("the process that holds it", (1, ["fault 25: Device %s" % folder, process]), (status, lines))
        expect("a dry run, which holds none", 0, run(program, folder, folder, "--dry-run")[0])
        expect("its files", before, contents(folder))
    expect("the folder once it is free", (0, []), run(program, folder, folder))
    expect("what is written then", want, contents(folder))


@contextlib.contextmanager
def locked(path, lock):
    """A file that this process locks, as the game does by lockf."""
    with open(path, "wb") as file:
        lock(file, fcntl.LOCK_EX)
        yield


def check_session(program, work, want):
    """A world that the game has open is refused, by its own region files and by those of a dimension, which may lie deep in it, unless
    that is to be no matter."""
    world = pathlib.Path(os.path.realpath(work)) / "world"
    deep = world / "dimensions" / "pack" / "name"
    for dimension in (world / "DIM-1", deep):
        dimension.mkdir(parents=True)
    session = world / "session.lock"
    folders = [regions(folder / "region") for folder in (world, world / "DIM-1", deep)]
    session.write_bytes(b"")
    before = contents(folders[0])
    for folder in folders:
        for lock in (fcntl.lockf, fcntl.flock):
            if not os.path.exists("/proc/locks"):
                continue
            with locked(session, lock):
                refused = "fault 25: Device %s" % session
                expect("a world that is open", (1, [refused]), run(program, TOP / "samples", folder))
                process = "  %s: process %d has the world open: stop the game, or call again with --in-use" % (session, os.getpid())
                expect("who has it open", (1, [refused, process]), run(program, TOP / "missing", folder, "--explain"))
                expect("its files", before, contents(folder))
        expect("a world that nobody has open", (0, []), run(program, TOP / "samples", folder))
        expect("what is written to it", want, contents(folder))
    with locked(session, fcntl.lockf):
        expect("a world that is open, in use", (0, []), run(program, TOP / "samples", folders[0], "--in-use"))
        (work / "beside").mkdir()
        expect("a folder beside the world", (0, []), run(program, TOP / "samples", work / "beside"))
        expect("a folder that is only looked at", 0, run(program, TOP / "samples", folders[0], "--dry-run")[0])
    other = world / "other.lock"
    with locked(other, fcntl.lockf):
        expect("another file that is locked", (0, []), run(program, TOP / "samples", folders[0]))


def check_linked_world(program, work, want):
    """A world that the game has open is seen too where its folder of regions is a link to another place."""
    world = work / "linked_world"
    world.mkdir()
    (work / "disk").mkdir()
    folder = world / "region"
    folder.symlink_to(regions(work / "disk" / "region"))
    session = world / "session.lock"
    before = contents(folder)
    if os.path.exists("/proc/locks"):
        with locked(session, fcntl.lockf):
            expect("an open world by a link", (1, ["fault 25: Device %s" % session]), run(program, TOP / "samples", folder))
            expect("its files", before, contents(folder))
    beside = work / "beside_linked_world"
    beside.mkdir()
    with locked(session, fcntl.lockf):
        call = words(program, TOP / "samples", "../beside_linked_world")
        done = subprocess.run(call, stdin=subprocess.DEVNULL, capture_output=True, cwd=world)
        expect("a folder beside the world, from in it", 0, done.returncode)
    expect("the same that nobody has open", (0, []), run(program, TOP / "samples", folder))
    expect("what is written to it", want, contents(folder))


def journal_of(folder):
    """The journal of a run whose new files are to take the places of these."""
    marks = [(folder / name).stat() for name in NAMES]
    lines = ["anvilwater journal 2", *NAMES, "", *("%d %d %d" % (mark.st_size, *divmod(mark.st_mtime_ns, 10 ** 9)) for mark in marks)]
    return "".join(line + "\n" for line in lines)


def check_waiting(program, work, want):
    """Where new files are to take their places in a world that the game has open, each command waits for the game."""
    folder = work / "waiting" / "region"
    folder.parent.mkdir()
    regions(folder)
    for name in NAMES:
        (folder / (".anvilwater-" + name)).write_bytes(want[name])
    journal, text = folder / ".anvilwater-journal", journal_of(folder)
    journal.write_text(text)
    before = contents(folder)
    session = folder.parent / "session.lock"
    check = [program, "check", "--in", str(folder), "--explain"]
    if os.path.exists("/proc/locks"):
        with locked(session, fcntl.lockf):
            done = subprocess.run(check, stdin=subprocess.DEVNULL, capture_output=True, text=True)
            help = "process %d has the world open: stop the game: a run is to be finished first" % os.getpid()
            lines = ["fault 25: Device %s" % folder, "  %s: %s" % (session, help)]
            expect("a journal in an open world", (1, lines), (done.returncode, done.stderr.splitlines()))
            expect("its files", before, contents(folder))
    done = subprocess.run(check, stdin=subprocess.DEVNULL, capture_output=True, text=True)
    line = "%s: a run that was cut off is finished: 2 files took their places" % folder
    expect("the same once it is closed", (0, [line]), (done.returncode, [line for line in done.stderr.splitlines() if "findings" not in line]))
    expect("its files then", want, contents(folder))
    journal.write_text(text)
    with locked(session, fcntl.lockf):
        done = subprocess.run(check, stdin=subprocess.DEVNULL, capture_output=True, text=True)
    expect("a journal whose files have their places", (0, True), (done.returncode, done.stderr.startswith(line + "\n")))


def check_links(program, work, want):
    """A region that is a link is refused; what it leads to stays. A link under the name of a new file is not followed."""
    folder = work / "linked"
    folder.mkdir()
    other = work / "other"
    other.write_bytes(b"of somebody else")
    (folder / "r.0.0.mca").symlink_to(other)
    status, lines = run(program, TOP / "samples", folder)
    expect("a region that is a link", (1, ["fault 25: Device r.0.0.mca"]), (status, lines))
    expect("the link", True, (folder / "r.0.0.mca").is_symlink())
    expect("what it leads to", b"of somebody else", other.read_bytes())
    (folder / "r.0.0.mca").unlink()
    (folder / ".anvilwater-r.0.0.mca").symlink_to(other)
    left = "%s: 1 files that a run left behind when it was cut off are taken away" % folder
    expect("a link under the name of a new file", (0, [left]), run(program, TOP / "samples", folder))
    expect("what is written beside it", want, contents(folder))
    expect("what it led to", b"of somebody else", other.read_bytes())


def check_others(program, work, want):
    """A folder in the place of a region's file is refused, and stays."""
    folder = work / "foldered"
    (folder / "r.0.0.mca").mkdir(parents=True)
    status, lines = run(program, TOP / "samples", folder)
    expect("a folder in the place of a file", (1, ["fault 25: Device r.0.0.mca"]), (status, lines))
    expect("the folder", True, (folder / "r.0.0.mca").is_dir())


def check_owners(program, work, want):
    """A file keeps its rights, and as root its owner."""
    folder = regions(work / "owned")
    file = folder / "r.0.0.mca"
    file.chmod(0o640)
    if os.geteuid() == 0:
        os.chown(file, 1234, 2345)
    before = file.stat()
    expect("a file of another owner", (0, []), run(program, folder, folder))
    after = file.stat()
    expect("owner and rights", (before.st_uid, before.st_gid, before.st_mode), (after.st_uid, after.st_gid, after.st_mode))
    expect("what is written to it", want, contents(folder))


def check_groups(program, work, want):
    """Where a user can't give a file its old owner, it gets its old group, if the user is in that."""
    if os.geteuid() != 0:
        return
    user, group, own = 4321, 2345, work / "grouped"
    own.mkdir()
    table, edits = (shutil.copy(TOP / file, own) for file in ("tables/blocks.toml", "samples/edits.txt"))
    copied = shutil.copy(program, own)
    folder = regions(own / "region")
    for name in NAMES:
        (folder / name).chmod(0o660)
        os.chown(folder / name, 0, group)
    os.chown(folder, user, user)
    work.chmod(0o755)
    call = [copied, "run", "--in", str(folder), "--out", str(folder), "--table", table, "--edits", edits, "--ticks", "20"]
    done = subprocess.run(call, stdin=subprocess.DEVNULL, capture_output=True, user=user, group=user, extra_groups=[group], cwd="/")
    expect("a file of another's, by a user of its group", 0, done.returncode)
    found = (folder / "r.0.0.mca").stat()
    expect("its owner, group and rights", (user, group, 0o660), (found.st_uid, found.st_gid, found.st_mode & 0o777))
    expect("what is written to it", want, contents(folder))


def check_killed(program, work, want):
    """Wherever a call is killed, each region's file is the old or the new one, and the next call leaves the new ones and nothing else."""
    old = contents(regions(work / "old"))
    for turn in range(12):
        folder = regions(work / ("killed_%d" % turn))
        process = subprocess.Popen(words(program, TOP / "samples", folder), stdout=subprocess.DEVNULL, stderr=subprocess.DEVNULL)
        time.sleep(0.004 * turn)
        process.send_signal(signal.SIGKILL)
        process.wait()
        found = contents(folder)
        expect("files after a kill", [True] * 2, [found[name] in (old[name], want[name]) for name in NAMES])
        expect("the next call", 0, run(program, TOP / "samples", folder)[0])
        expect("what it writes", want, {name: file for name, file in contents(folder).items() if name != ".anvilwater-trial"})


def main():
    if len(sys.argv) != 2:
        sys.exit(__doc__)
    program = os.path.abspath(sys.argv[1])
    with tempfile.TemporaryDirectory() as name:
        work = pathlib.Path(name)
        own = work / "own"
        own.mkdir()
        expect("a run", (0, []), run(program, TOP / "samples", own))
        want = contents(own)
        expect("its files", NAMES, sorted(want))
        for check in (check_held, check_session, check_linked_world, check_waiting, check_links, check_others, check_owners, check_groups, check_killed):
            check(program, work, want)
    print("folders: %d asked, %d wrong" % (asked, len(wrong)))
    sys.exit(1 if wrong else 0)


if __name__ == "__main__":
    main()
