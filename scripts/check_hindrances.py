"""What stands in the way of calls of anvilwater-world, for check_world.py: others, signals, changes of others, and devices."""
import contextlib
import errno
import fcntl
import glob
import itertools
import os
import shutil
import signal
import subprocess
import time

import world_places
from check_ends import OLD, begun_world, ends_at, forked, has_journal, region_of, traced
from holding import held
from kept_worlds import small_world, write_world
from stored_chunks import write
from world_calls import GUARD, backup, begun, call, contents, ended, in_use, others, refused, shots


def waited(path):
    """Waits until a file is there."""
    for _ in range(600):
        if os.path.exists(path):
            return True
        time.sleep(0.05)
    return False


# ---------------------------------------------------------------- others and signals


def is_locked(path):
    with open(path, "r+b") as file:
        try:
            fcntl.lockf(file, fcntl.LOCK_EX | fcntl.LOCK_NB)
        except BlockingIOError:
            return True
    return False


def locks(work, _):
    """The game's lock, and a second call."""
    world, marker = os.path.join(work, "world"), os.path.join(work, "marker")
    write_world(world, small_world())
    os.makedirs(os.path.join(world, "DIM1"))
    os.symlink(region_of(world), os.path.join(world, "DIM1", "region"))
    deep = shutil.copytree(region_of(world), os.path.join(world, "dimensions", "pack", "a", "b", "c", "d", "region"))
    session, was = os.path.join(world, "session.lock"), shots(world)
    held = "%s is locked: the game has the world open, or another program works on it; nothing is done" % session
    with open(session, "r+b") as file:
        fcntl.lockf(file, fcntl.LOCK_EX)
        for where in (world, region_of(world), os.path.join(world, "DIM1"), deep, os.path.dirname(deep)):
            yield "the game has it open: " + where, in_use(held), call(where)[::2]
    first = begun(world, what="wait " + marker)
    yield "a call works", True, waited(marker)
    yield "the game can't open it", True, is_locked(session)
    twice = "process %d works on %s already; nothing is done" % (first.pid, region_of(world))
    yield "two at once", in_use(twice), call(world)[::2]
    first.terminate()
    yield "the first ends", (143, ["anvilwater-world: interrupted"]), ended(first)[::2]
    yield "nothing is another", was, shots(world)
    os.unlink(session)
    os.unlink(marker)
    first = begun(world, what="wait " + marker)
    yield "without session.lock it works", True, waited(marker)
    yield "and makes one meanwhile", True, is_locked(session)
    first.terminate()
    ended(first)
    yield "which then goes", {name: shot for name, shot in was.items() if name != "session.lock"}, shots(world)
    write(world, ".anvilwater-region.lock", b"1\n")
    yield "a lock that was left behind", 0, call(world)[0]
    yield "goes too", ["DIM1", "dimensions", "level.dat"], others(world)
    yield from runs_of_the_program(os.path.join(work, "bare"))
    yield "a session.lock that goes as it is opened", True, is_made_anew(world)


def runs_of_the_program(world):
    """A run of the program in the folder itself, which holds it, and one that was cut off, in a folder that is of no world."""
    write_world(world, small_world())
    for name in ("level.dat", "session.lock"):
        os.unlink(os.path.join(world, name))
    was = shots(world)
    with held(region_of(world)):
        yield "a run of the program", in_use("another program works on %s; nothing is done" % region_of(world)), call(world)[::2]
    yield "nothing is another", was, shots(world)
    write(region_of(world), ".anvilwater-journal", b"anvilwater journal 2\nr.0.1.mca\n\n-\n")
    was, line = shots(world), "a run of the program was cut off and left %s/.anvilwater-journal, and `anvilwater check --in %s` finishes it; nothing is done"
    yield "one that was cut off", refused(line % (region_of(world), region_of(world))), call(world)[::2]
    yield "nothing is another", was, shots(world)


def kept_from_it(work, program):
    """The program refuses a folder in which a call ended while files took their places, and the next call finishes that."""
    world, folder = begun_world(work, "world", lambda line: line.startswith("replace ") and line.endswith(" region/r.0.0.mca"))
    region, out = region_of(world), os.path.join(work, "out")
    os.mkdir(out)
    was = shots(world)
    for words in (("check", "--in", region), *(("run", "--in", region, "--out", folder, "--ticks", "0") for folder in (region, out))):
        done = subprocess.run([program, *words, "--explain"], capture_output=True, text=True, timeout=60)
        yield words, (1, True), (done.returncode, "it is no journal of this program" in done.stderr)
        yield "nothing is another", was, shots(world)
    done = call(world)
    yield "it is finished", (0, "finished a call that was interrupted; nothing else was done"), (done[0], done[1][1])
    yield "and nothing keeps the program from it", False, os.path.exists(os.path.join(region, GUARD))


def is_made_anew(world):
    """Whether a world is held by a session.lock that is there where another call takes its own away between opening and lock."""
    lock, first, second = fcntl.lockf, contextlib.ExitStack(), contextlib.ExitStack()
    world_places.hold_session(world, first)

    def late(*given):
        first.close()
        return lock(*given)
    fcntl.lockf = late
    try:
        world_places.hold_session(world, second)
    finally:
        fcntl.lockf = lock
    with second:
        return os.path.exists(os.path.join(world, "session.lock"))


def signals(work, _):
    """Signals while the program runs: it ends too, and the world is as it was."""
    world, marker = os.path.join(work, "world"), os.path.join(work, "marker")
    write_world(world, small_world())
    was = shots(world)
    for number in (signal.SIGINT, signal.SIGTERM, signal.SIGHUP):
        first = begun(world, what="wait " + marker)
        waited(marker)
        os.unlink(marker)
        first.send_signal(number)
        yield number, (128 + number, ["folder " + region_of(world)], ["anvilwater-world: interrupted"]), ended(first)
        yield "nothing is another", was, shots(world)
    for tenths in range(2, 12, 2):
        first = begun(world, what="same")
        time.sleep(tenths / 10)
        first.terminate()
        yield "after %d tenths" % tenths, True, ended(first)[0] in (0, 143, -signal.SIGTERM)
        yield "nothing is another", was, shots(world)
    first = begun(world, what="wait " + marker)
    waited(marker)
    first.kill()
    ended(first)
    found = [name for name in os.listdir(world) if name.startswith(".anvilwater-")]
    yield "what a killed call leaves", 2, len(found)
    status, out, err = call(world, what="same")
    yield "is taken away", (0, "nothing changed", 1, True), (status, out[-1], len(err), err[0].endswith(".work, which a call that was "
                                                                                                  "interrupted left behind, is taken away"))
    yield "and nothing is another", was, shots(world)


# ---------------------------------------------------------------- other programs and devices


def writing(world, name, data):
    """A call while which another program writes a file."""
    marker = os.path.join(world, "marker")
    first = begun(world, what="pause " + marker)
    waited(marker)
    os.unlink(marker)
    write(region_of(world), name, data)
    return ended(first)[::2]


def changed_by_others(work, _):
    """Other programs that write while a call works, or after it was killed."""
    for number, (name, line) in enumerate((("r.-1.0.mca", "r.-1.0.mca was changed by another program while the world was worked on; nothing is done"),
                                           ("c.2.0.mcc", "c.2.0.mcc came while the world was worked on; nothing is done"))):
        world = os.path.join(work, "world%d" % number)
        write_world(world, small_world())
        data = open(os.path.join(region_of(world), "r.0.1.mca"), "rb").read()
        want = {**contents(region_of(world)), name: data}
        yield line, refused(line), writing(world, name, data)
        yield "nothing else is another", (want, []), (contents(region_of(world)), backup(world))
    world, first = os.path.join(work, "first"), os.path.join(work, "world")
    write_world(first, small_world())
    write_world(world, small_world())
    number = next(number for number in itertools.count(1) if forked(first, work, lambda: ends_at(number, ["replace"])) and has_journal(first))
    forked(world, work, lambda: ends_at(number + 2, ["replace"]))
    write(region_of(world), "r.0.1.mca", b"what the game wrote")
    os.unlink(os.path.join(world, ".anvilwater-region.lock"))
    was = shots(world)
    found = call(world)
    yield "the game wrote what was to be replaced", (1, 1), (found[0], len(found[2]))
    begins = "anvilwater-world: r.0.1.mca was changed since it began to be replaced; nothing is done. To go on with the files as they are, move "
    yield "and is told", begins, found[2][0][:len(begins)]
    yield "nothing is another", was, shots(world)


def behind_the_journal(work, _):
    """Other programs that write, or take the game's lock away, when the journal has its name and no file has its place: all is as it was."""
    def then(function):
        rename = os.rename

        def renaming(*given):
            rename(*given)
            if given[1].endswith("/journal"):
                function()
        os.rename = renaming
    held = "anvilwater-world: %s was taken away while the world was worked on, and the game may have it open; nothing is done"
    changed = "anvilwater-world: r.0.1.mca was changed by another program before it was replaced; nothing is done"
    for name in ("changed", "held"):
        world = os.path.join(work, name)
        write_world(world, small_world())
        old, path, session = contents(region_of(world)), os.path.join(region_of(world), "r.0.1.mca"), os.path.join(world, "session.lock")

        def other():
            if name == "changed":
                with open(path, "ab") as file:
                    file.write(bytes(4096))
            else:
                os.unlink(session)
                write(world, "session.lock", b"of the game")
        status, lines = forked(world, work, lambda: then(other))
        yield name, (1, changed if name == "changed" else held % session), (status, lines[-1])
        want = {**old, "r.0.1.mca": old["r.0.1.mca"] + bytes(4096)} if name == "changed" else old
        yield "nothing else is another", (want, ["level.dat", "session.lock"], []), (contents(region_of(world)), others(world), backup(world))
        yield "then all is done", (0, 1), (call(world)[0], len(glob.glob(os.path.join(world, "region.before-*"))))


def always(answer):
    """A function that answers this, or fails by it."""
    def answering(*_, **__):
        if isinstance(answer, Exception):
            raise answer
        return answer
    return answering


def devices(work, _):
    """File systems without room or without links, owners that can't be given, and old files that are kept on another file system."""
    worlds = [os.path.join(work, "world%d" % number) for number in range(10)]
    for world in worlds:
        write_world(world, small_world())
    old, was = contents(region_of(worlds[0])), shots(worlds[0])
    kept = {name: old[name] for name in OLD}
    room = os.statvfs_result((4096, 4096, 1 << 20, 1000, 10, 0, 0, 0, 0, 255))
    status, lines = forked(worlds[0], work, lambda: setattr(os, "statvfs", always(room)))
    line = "anvilwater-world: %s has room for 0 MiB, and about " % worlds[0]
    yield "no room", (1, line), (status, lines[-1][:len(line)])
    yield "nothing is another", was, shots(worlds[0])
    status, lines = forked(worlds[1], work, lambda: setattr(os, "link", always(PermissionError(errno.EPERM, "no links"))))
    yield "no links", (0, kept), (status, backup(worlds[1]))
    if os.geteuid() == 0:
        os.chown(os.path.join(region_of(worlds[2]), "r.0.1.mca"), 1234, 1234)
        status, lines = forked(worlds[2], work, lambda: setattr(os, "fchown", always(PermissionError(errno.EPERM, "no owners"))))
        yield "no owners", (0, "anvilwater-world: the owners of 1 files could not be kept"), (status, lines[-1])
        os.chown(os.path.join(region_of(worlds[5]), "r.0.1.mca"), 1234, 1234)
        status, lines = forked(worlds[5], work, lambda: setattr(os, "fchown", groups_alone(os.fchown)))
        yield "groups alone", (0, 1234), (status, os.stat(os.path.join(region_of(worlds[5]), "r.0.1.mca")).st_gid)
    yield from undelivered(worlds[3], work, kept)
    yield from elsewhere(worlds[4], work, kept)
    yield from unreplaced(worlds[6:8], work)
    yield from in_sticky_folders(worlds[8:], work)


def groups_alone(fchown):
    def given(descriptor, user, group):
        if user != -1:
            raise PermissionError(errno.EPERM, "no owners")
        fchown(descriptor, user, group)
    return given


def unreplaced(worlds, work):
    """Folders in which no file can take its place: a call says so before its work, and leaves no journal."""
    mounted = "%s is where a file system is mounted, so that nothing of it is beside the folder" % region_of(worlds[0])
    closed = "%s: its files can't be replaced by this user; nothing is done" % region_of(worlds[1])
    far = always(OSError(errno.EXDEV, "Invalid cross-device link"))
    for world, name, answer, line in ((worlds[0], "link", far, mounted), (worlds[1], "access", lambda path, mode: path != region_of(worlds[1]), closed)):
        was = shots(world)
        yield line, (1, "anvilwater-world: " + line), (lambda found: (found[0], found[1][-1]))(forked(world, work, lambda: setattr(os, name, answer)))
        yield "nothing is another", was, shots(world)


def in_sticky_folders(worlds, work):
    """Folders in which only a file's owner may replace it: whose files are another user's, and this user's own."""
    user = 4321
    if os.geteuid() != 0:
        return
    for world in worlds:
        os.chmod(region_of(world), 0o1777)
    for file in os.scandir(region_of(worlds[1])):
        os.chown(file.path, user, user)
    was = shots(worlds[0])
    answers = [forked(world, work, lambda: setattr(os, "geteuid", always(user))) for world in worlds]
    line = "anvilwater-world: %s: its files can't be replaced by this user; nothing is done" % region_of(worlds[0])
    yield "files of another user", (1, line), (answers[0][0], answers[0][1][-1])
    yield "nothing is another", was, shots(worlds[0])
    yield "files of this user", 0, answers[1][0]


def undelivered(world, work, kept):
    """The folder for the old files can't be made, and then can."""
    rename = os.rename
    full = always(OSError(errno.ENOSPC, "No space left on device"))
    status, lines = forked(world, work, lambda: setattr(os, "rename", lambda *names: (full if names[0].endswith("/old") else rename)(*names)))
    line = "No space left on device; the new files are in their places, and the old ones are in %s/.anvilwater-region." % world
    yield "no room for the old files", (1, line, "call again, which finishes what was begun"), \
        (status, lines[-1].split(": ")[-1][:len(line)], lines[-1].split("; ")[-1])
    status, out, _ = call(world)
    told = ["folder " + region_of(world), "finished a call that was interrupted; nothing else was done", "replaced 4 added 1 removed 1"]
    yield "then there is", (0, told, kept), (status, out[:3], backup(world))


def elsewhere(world, work, kept):
    memory = "/dev/shm"
    if not os.path.isdir(memory) or os.stat(memory).st_dev == os.stat(world).st_dev or not os.access(memory, os.W_OK):
        return
    target, path = os.path.join(memory, "anvilwater-%d" % os.getpid()), os.path.join(work, "log")
    try:
        with open(path, "w") as log:
            status, lines = forked(world, work, lambda: traced(log), "--backup", target)
        yield "kept elsewhere", (0, "before " + target), (status, lines[-1])
        yield "the old files", kept, contents(target)
        lines = open(path).read().splitlines()
        made, gone = (next(at for at, line in enumerate(lines) if line.startswith(kind) and line.endswith(end))
                      for kind, end in (("mkdir ", os.path.basename(target)), ("rename ", ".work/old.copied")))
        yield "its folder is synced before they go", True, "fsync dev/shm" in lines[made:gone]
    finally:
        shutil.rmtree(target, ignore_errors=True)
