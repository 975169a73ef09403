"""Calls of anvilwater-world that end before changes of the file system, and those behind them, for check_world.py."""
import itertools
import os
import shutil
import sys
import threading

import world_verbs
from kept_worlds import payload, small_world, stored_chunks_of, write_world
from world_calls import GUARD, STAND_IN, backup, call, contents, others

ENDED, FAILED = 99, 98
CHANGES = "rename", "replace", "link", "unlink", "mkdir", "rmdir", "fsync", "fchmod", "fchown"


def region_of(world):
    return os.path.join(world, "region")


OLD = "c.1.0.mcc", "c.3.0.mcc", "r.-1.0.mca", "r.0.0.mca", "r.0.1.mca"


def ends_at(number, names=CHANGES):
    """Has this process end before its n-th change of the file system, or where there is no such one, at its own end."""
    count, lock = itertools.count(1), threading.Lock()

    def counted(function):
        def counting(*given, **named):
            with lock:
                if next(count) == number:
                    os._exit(ENDED)
            return function(*given, **named)
        return counting
    for name in names:
        setattr(os, name, counted(getattr(os, name)))


def forked(world, work, patch, *words, verb=()):
    """The status of a call in this process's image, in which something was replaced before, and its lines."""
    output = os.path.join(work, "output")
    sys.stdout.flush()
    child = os.fork()
    if child == 0:
        try:
            descriptor = os.open(output, os.O_WRONLY | os.O_CREAT | os.O_TRUNC)
            for stream in (1, 2):
                os.dup2(descriptor, stream)
            patch()
            os._exit(world_verbs.main([*verb, world, "--program", STAND_IN, *words]))
        finally:
            os._exit(FAILED)
    status = os.waitstatus_to_exitcode(os.waitpid(child, 0)[1])
    return status, open(output).read().splitlines()


def has_journal(world):
    folders = [name for name in os.listdir(world) if name.startswith(".anvilwater-region.") and name.endswith(".work")]
    return any(os.path.exists(os.path.join(world, name, "journal")) for name in folders)


def traced(log):
    """Has this process write down its changes of the file system, in order, with the last two parts of each path."""
    def short(path):
        path = os.readlink("/proc/self/fd/%d" % path) if isinstance(path, int) else os.fspath(path)
        return os.sep.join(path.split(os.sep)[-2:])

    def tracing(name, function):
        def traced(*given, **named):
            paths = given[:2] if name in ("rename", "replace", "link") else given[:1]
            log.write(" ".join([name, *map(short, paths)]) + "\n")
            log.flush()
            return function(*given, **named)
        return traced
    for name in CHANGES:
        setattr(os, name, tracing(name, getattr(os, name)))


NEW = ["c.1.0.mcc", "c.2.0.mcc", "r.-1.0.mca", "r.0.0.mca", "r.0.1.mca"]


def logged(world, work):
    """The status of a call, and its changes of the file system."""
    path = os.path.join(work, "log")
    with open(path, "w") as log:
        status = forked(world, work, lambda: traced(log))[0]
    return status, open(path).read().splitlines()


def places_taken(lines):
    """Which of the changes give a new file its place, and the name of the working folder."""
    taken = [number for number, line in enumerate(lines) if line.startswith("replace ") and " region/" in line]
    return taken, lines[taken[0]].split()[1].split("/")[0]


def syncs(work, _):
    """What is synced before the journal has its name, before the first file takes its place, and before the journal goes."""
    world = os.path.join(work, "world")
    write_world(world, small_world())
    status, lines = logged(world, work)
    yield "a call", 0, status
    taken, folder = places_taken(lines)
    yield "files that no region names yet come first", NEW, [lines[number].split("/")[-1] for number in taken]
    parent, names = "fsync %s/world" % os.path.basename(work), ["fsync packed/" + name for name in NEW]
    folders = ["fsync %s/old" % folder, "fsync %s/packed" % folder, "fsync world/" + folder, parent]
    guard = lines.index("rename %s/guard region/%s" % (folder, GUARD))
    journal = lines.index("rename %s/journal.part %s/journal" % (folder, folder))
    yield "the program is kept from the folder before", "fsync world/region", lines[guard:journal][1]
    files = [line for line in lines[:journal] if line in names]
    yield "each new file", names, sorted(set(files), key=names.index)
    last = max(number for number, line in enumerate(lines[:journal]) if line in names)
    order = ["fsync %s/journal.part" % folder, *folders]
    yield "then all names", order, [line for line in lines[last:journal] if line in order][-5:]
    yield "and that of the journal", folders, [line for line in lines[journal:taken[0]] if line in folders]
    after = [line for line in lines[taken[-1] + 1:] if not line.startswith("fchmod ")]
    yield "what no region names goes, and all that changed is synced", \
        ["unlink region/c.3.0.mcc", "fsync world/region", "fsync %s/packed" % folder, "fsync world/" + folder], after[:4]
    ends = [line.split()[0] for line in after[4:] if line.endswith(("/journal", "/" + GUARD)) or line.startswith(("rename ", "fsync "))]
    yield "the journal goes last, behind what keeps the program from the folder", ["rename", "fsync", "fsync", "unlink", "fsync", "unlink", "fsync"], ends


def begun_world(work, name, ending):
    """A world in which a call ended before this change of the file system, given by how it is told, and its working folder."""
    world = os.path.join(work, name)
    write_world(world, small_world())
    tried = shutil.copytree(world, os.path.join(work, name + "-tried"))
    lines = logged(tried, work)[1]
    forked(world, work, lambda: ends_at(1 + next(number for number, line in enumerate(lines) if ending(line))))
    return world, next(os.path.join(world, found) for found in os.listdir(world) if found.endswith(".work"))


def names_lost(work, _):
    """Calls that end where files take their places, on file systems that have then kept some names and lost others, and the calls after them."""
    old = {}

    def finished(what, world):
        status, lines = forked(world, work, lambda: None)
        return what, (0, "finished a call that was interrupted; nothing else was done", contents(region_of(world + "-tried")), old), \
            (status, lines[1] if len(lines) > 1 else lines, contents(region_of(world)), backup(world))

    def to(name):
        return lambda line: line.startswith("replace ") and line.endswith(" region/" + name)
    world, folder = begun_world(work, "none", to(NEW[0]))
    old = {name: contents(region_of(world))[name] for name in OLD}
    shutil.rmtree(os.path.join(folder, "old"))
    yield finished("no name of an old file", world)
    world, folder = begun_world(work, "one", to("r.0.1.mca"))
    os.unlink(os.path.join(folder, "old", "r.0.1.mca"))
    yield finished("not that of the last one", world)
    for what, half in (("both names of a rename", os.path.join("packed", "")), ("the old name of its place", os.path.join("old", ""))):
        world, folder = begun_world(work, half[:-1], to("r.0.1.mca"))
        place, kept = os.path.join(region_of(world), "r.0.0.mca"), os.path.join(folder, half, "r.0.0.mca")
        if half == "packed/" and not os.path.lexists(kept):
            os.link(place, kept)
        if half == "old/":
            os.unlink(place)
            os.link(kept, place)
        yield finished(what, world)
    world, folder = begun_world(work, "second", to("r.0.1.mca"))
    yield "a second name of a new file", True, os.path.samefile(os.path.join(folder, "packed", "r.0.1.mca"), os.path.join(folder, "next"))
    os.unlink(os.path.join(region_of(world), GUARD))
    yield finished("and nothing that keeps the program from the folder", world)
    world, folder = begun_world(work, "again", to("r.0.0.mca"))
    status, lines = logged(world, work)
    taken = places_taken(lines)[0][0]
    yield "the journal's name before a file takes its place", (0, True), \
        (status, {"fsync again/" + os.path.basename(folder), "fsync %s/again" % os.path.basename(work)} <= {*lines[:taken]})


def going_back(work, _):
    """The old files are moved back."""
    world = os.path.join(work, "world")
    write_world(world, small_world())
    old = contents(region_of(world))
    call(world, "--backup", os.path.join(work, "old"))
    for name in os.listdir(os.path.join(work, "old")):
        os.replace(os.path.join(work, "old", name), os.path.join(region_of(world), name))
    yield "back", old, {name: data for name, data in contents(region_of(world)).items() if name in old}
    yield "its chunks", small_world(), {place: stored_chunks_of(region_of(world), *place) for place in small_world()}


def after_call(old, new, world):
    """Whether each file is whole, the old one or the new one, and which they are."""
    found = contents(region_of(world))
    found.pop(GUARD, None)
    names = {*old, *new, *found}
    if any(found.get(name) not in (old.get(name), new.get(name)) for name in names):
        return "neither"
    return "old" if found == old else "new" if found == new else "some"


def ends(work, _):
    """Calls that end before changes of the file system, and the calls after them: before every fifth while copies are made, and before
    each one from then on."""
    world = os.path.join(work, "world")
    write_world(world, small_world())
    old = contents(region_of(world))
    lines = logged(world, work)[1]
    first = next(number for number, line in enumerate(lines) if line.startswith("mkdir ") and line.endswith("/old"))
    new, kept = contents(region_of(world)), {name: old[name] for name in OLD}
    yield "the old files", kept, backup(world)
    chunks = {at: payload(chunk) for place in small_world() for at, chunk in stored_chunks_of(region_of(world), *place).items()}
    places = (0, 0), (3, 0), (-1, 0), (0, 32), (4, 0)
    yield "each chunk once", [b"chunk+", b"small+", b"plain+", b"more+", b"keep"], [chunks[at] for at in places]
    seen = set()
    for number in [*range(1, first, 5), *range(first, len(lines) + 1)]:
        world = os.path.join(work, "world%d" % number)
        write_world(world, small_world())
        status, output = forked(world, work, lambda: ends_at(number))
        state, told = after_call(old, new, world), any(line.startswith("replaced ") for line in output)
        seen.add((state, has_journal(world), told))
        yield "after %d changes" % number, (ENDED, True), (status, state == "old" or told or has_journal(world))
        yield "then another call", (0, "new", kept, ["level.dat", "session.lock"]), \
            (called_again(world, work, told), after_call(old, new, world), backup(world), others(world))
        shutil.rmtree(world)
    yield "ends of each kind", {("old", False, False), ("old", True, False), ("some", True, False), ("new", True, False), ("new", True, True),
                                ("new", False, True)}, seen
    yield from ends_again(work, places_taken(lines)[0][2], (old, new, kept))


def called_again(world, work, told):
    """The status of a call after one that ended. One that told its results and has no journal is at its end: another would do more."""
    return call(world, what="same")[0] if told and not has_journal(world) else forked(world, work, lambda: None)[0]


def ends_again(work, number, files):
    """A call that ended after two files took their places, one that finishes it and ends before each of its changes, and a third."""
    begun_world, (old, new, kept) = os.path.join(work, "begun"), files
    write_world(begun_world, small_world())
    forked(begun_world, work, lambda: ends_at(number))
    yield "begun", ("some", True), (after_call(old, new, begun_world), has_journal(begun_world))
    for count in itertools.count(1):
        world = shutil.copytree(begun_world, os.path.join(work, "again%d" % count))
        status, output = forked(world, work, lambda: ends_at(count))
        if status != ENDED:
            break
        told = any(line.startswith("finished ") for line in output)
        yield "a third call after %d changes" % count, (0, "new", kept, ["level.dat", "session.lock"]), \
            (called_again(world, work, told), after_call(old, new, world), backup(world), others(world))
        shutil.rmtree(world)
    yield "a second call that doesn't end", (0, True), (status, count > 15)
