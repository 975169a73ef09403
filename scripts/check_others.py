"""What others do to worlds that anvilwater-world works on, and what is found before the work, for check_world.py."""
import fcntl
import json
import os
import shutil
import signal
import struct
import subprocess
import time
import zlib

from check_ends import OLD, forked, region_of
from check_hindrances import always, waited
from kept_worlds import small_world, write_world
from stored_chunks import ZLIB, write
from world_calls import backup, begun, call, contents, ended, in_use, left, others, refused, shots
from written_regions import BYTE, BYTES, INT, Tag, compound, compounds, named


def journals_of_others(work, _):
    """A working folder that came with a world: its old files go nowhere but beside the region files."""
    world, elsewhere = os.path.join(work, "saves", "world"), os.path.join(work, "autostart")
    for number, named in enumerate(("../../autostart", elsewhere)):
        write_world(world, small_world())
        folder = os.path.join(world, ".anvilwater-region.0123456789abcdef.work")
        os.makedirs(os.path.join(folder, "packed"))
        os.mkdir(os.path.join(folder, "old"))
        write(folder, "old/evil", b"evil")
        write(folder, "journal", json.dumps({"form": 1, "backup": named, "new": [], "gone": []}).encode())
        call(world)
        yield named, (False, {"evil": b"evil"}), (os.path.lexists(elsewhere), backup(world))
        shutil.rmtree(world)
        shutil.rmtree(elsewhere, ignore_errors=True)


def by_links(work, _):
    """A dimension that is reached by two links, and one that has a session.lock of its own, of a world that the game has open."""
    world, disk = os.path.join(work, "world"), os.path.join(work, "disk")
    write_world(world, small_world())
    os.makedirs(os.path.join(world, "DIM-1"))
    shutil.copytree(region_of(world), disk)
    os.symlink(disk, os.path.join(world, "DIM-1", "region"))
    os.symlink(os.path.join("world", "DIM-1"), os.path.join(work, "nether"))
    shutil.copytree(region_of(world), os.path.join(world, "DIM1", "region"))
    write(world, "DIM1/session.lock", b"")
    session = os.path.join(world, "session.lock")
    held = "%s is locked: the game has the world open, or another program works on it; nothing is done" % session
    with open(session, "r+b") as file:
        fcntl.lockf(file, fcntl.LOCK_EX)
        for where in (os.path.join(work, "nether"), os.path.join(world, "DIM1"), os.path.join(world, "DIM1", "region")):
            yield where, in_use(held), call(where)[::2]


def taken_away(work, _):
    """A session.lock that a script takes away while a call works, whereupon the game starts."""
    for number, had in enumerate((True, False)):
        world, marker = os.path.join(work, "world%d" % number), os.path.join(work, "marker")
        write_world(world, small_world())
        session, old = os.path.join(world, "session.lock"), contents(region_of(world))
        if not had:
            os.unlink(session)
        first = begun(world, what="pause " + marker)
        waited(marker)
        os.unlink(session)
        write(world, "session.lock", b"of the game")
        os.unlink(marker)
        line = "%s was taken away while the world was worked on, and the game may have it open; nothing is done" % session
        yield "a new one", refused(line), ended(first)[::2]
        yield "stays, and so does the world", (old, ["level.dat", "session.lock"]), (contents(region_of(world)), others(world))
    world = os.path.join(work, "world")
    write_world(world, small_world())
    first = begun(world, what="pause " + marker)
    waited(marker)
    os.unlink(os.path.join(world, ".anvilwater-region.lock"))
    os.unlink(marker)
    yield "this command's own", (0, []), ended(first)[::2]


def attributes(work, _):
    """A list of access, here of the user 1234, and another attribute."""
    world, none = os.path.join(work, "world"), 0xFFFFFFFF
    write_world(world, small_world())
    path = os.path.join(region_of(world), "r.0.0.mca")
    entries = (1, 6, none), (2, 6, 1234), (4, 0, none), (16, 6, none), (32, 0, none)
    given = {"user.note": b"note", "system.posix_acl_access": struct.pack("<I", 2) + b"".join(struct.pack("<HHI", *entry) for entry in entries)}
    try:
        for name, value in given.items():
            os.setxattr(path, name, value)
    except OSError:
        return
    call(world)
    yield "attributes", given, {name: os.getxattr(path, name) for name in os.listxattr(path) if name in given}


def one_backup(work, _):
    """Two calls at once that keep the old files in one folder of another file system."""
    memory = "/dev/shm"
    if not os.path.isdir(memory) or os.stat(memory).st_dev == os.stat(work).st_dev:
        return
    target = os.path.join(memory, "anvilwater-%d" % os.getpid())
    worlds, markers = ([os.path.join(work, name + letter) for letter in "ab"] for name in ("world", "marker"))
    for world in worlds:
        write_world(world, small_world())
    old = {name: contents(region_of(worlds[0]))[name] for name in OLD}
    write_world(os.path.join(work, "other"), {(0, 0): {(0, 0): (ZLIB, zlib.compress(b"of b"))}})
    os.replace(os.path.join(work, "other", "region", "r.0.0.mca"), os.path.join(worlds[1], "region", "r.0.0.mca"))
    try:
        calls = [begun(world, "--backup", target, what="pause " + marker) for world, marker in zip(worlds, markers)]
        found = []
        for marker in markers:
            waited(marker)
        for first, marker in zip(calls, markers):
            os.unlink(marker)
            found.append(ended(first)[0])
        yield "the first has it", ([0, 1], old), (found, contents(target))
        shutil.rmtree(target)
        yield "then the other", 0, call(worlds[1])[0]
    finally:
        shutil.rmtree(target, ignore_errors=True)


def killed(work, _):
    """A call that is killed ends its program, which here would work for a minute."""
    world, path = os.path.join(work, "world"), os.path.join(work, "program")
    write_world(world, small_world())
    write(work, "program", b'#!/bin/sh\n[ "$3" = "$5" ] && exec echo chunks 0 turns 0\necho $$ > "$0.pid"\nexec sleep 60\n')
    os.chmod(path, 0o755)
    first = begun(world, program=path)
    waited(path + ".pid")
    time.sleep(0.2)
    first.kill()
    first.stdout.close(), first.stderr.close()
    first.wait()
    time.sleep(0.5)
    number = int(open(path + ".pid").read())
    try:
        state = next(line.split()[1] for line in open("/proc/%d/status" % number) if line.startswith("State"))
    except FileNotFoundError:
        state = "Z"
    if state != "Z":
        os.kill(number, signal.SIGTERM)
    yield "its program", "Z", state


def fixed(work, _):
    """A file with the attribute i."""
    world = os.path.join(work, "world")
    write_world(world, small_world())
    path = os.path.join(region_of(world), "r.0.1.mca")
    if os.geteuid() != 0 or shutil.which("chattr") is None or subprocess.run(["chattr", "+i", path], stderr=subprocess.DEVNULL).returncode:
        return
    was = shots(world)
    line = "r.0.1.mca can't be replaced, since it has the attribute i or a (chattr)"
    yield line, left(line), call(world)[::2]
    yield "nothing is another", was, shots(world)
    subprocess.run(["chattr", "-i", path], check=True)


def limits(work, _):
    """Regions as far out as the program goes, and one that is farther."""
    world = os.path.join(work, "world")
    write_world(world, small_world())
    write(world, "region/r.60001.0.mca", b"")
    write(world, "region/r.-60000.60000.mca", b"")
    yield "far", left("r.60001.0.mca is farther out than the program goes"), call(world)[::2]
    os.unlink(os.path.join(region_of(world), "r.60001.0.mca"))
    yield "as far as it goes", 0, call(world, what="same")[0]


def no_locks(work, _):
    """A file system without locks."""
    world = os.path.join(work, "world")
    write_world(world, small_world())
    line = "anvilwater-world: %s: No locks available; nothing is done" % os.path.join(world, ".anvilwater-region.lock")
    refusal = always(OSError(37, "No locks available"))
    yield "no locks", (1, [line]), forked(world, work, lambda: setattr(fcntl, "flock", refusal))
    yield "what else there is", ["level.dat", "session.lock"], others(world)


def hung_up(work, _):
    """A terminal that is closed under a call that does not heed HUP."""
    world, marker = os.path.join(work, "world"), os.path.join(work, "marker")
    write_world(world, small_world())
    master, slave = os.openpty()
    first = begun(world, what="pause " + marker, stderr=slave, preexec_fn=lambda: signal.signal(signal.SIGHUP, signal.SIG_IGN))
    os.close(slave)
    waited(marker)
    os.close(master)
    os.unlink(marker)
    yield "goes on", (0, 4), (ended_without_errors(first), len(first.told))


def ended_without_errors(process):
    process.told = process.communicate(timeout=120)[0].splitlines()
    return process.returncode


def heights_of_tables(work, _):
    """A world whose chunks begin at another section than the table."""
    world, table = os.path.join(work, "world"), os.path.join(work, "table")
    write_world(world, {(0, 0): {(0, 0): (ZLIB, zlib.compress(b"\x0a\0\0\x03\0\x04yPos\0\0\0\0\0"))}})
    was = shots(world)
    line = "the world's lowest section is 0, and the table's -4: name a table of its height by --table, which docs/FORMATS.md says how to make; " \
        "nothing is done"
    yield line, refused(line), call(world)[::2]
    yield "nothing is another", was, shots(world)
    write(work, "table", b"version = 3\nmin_section = 0\nsections = 16\n")
    yield "a table of its height", 0, call(world, "--table", table)[0]


def chunk_of(version, lowest, sections, **others):
    """A chunk of a version, with its lowest section and the numbers of those that it has."""
    return ZLIB, zlib.compress(named("", compound(DataVersion=Tag(INT, version), yPos=Tag(INT, lowest),
                                                  sections=compounds([{"Y": Tag(BYTE, number)} for number in sections]), **others)))


def tables(work, _):
    """Without --table the table is that of the newest version that chunks have, with the height of their dimension, and has all blocks."""
    program = os.path.join(work, "program")
    write(work, "program", b'#!/bin/sh\ncp "$7" "$0.table"\nfor word; do echo "$word"; done > "$0.words"\n[ "$3" = "$5" ] || cp "$3"/* "$5"\necho chunks 0 turns 0\n')
    os.chmod(program, 0o755)
    folder = os.path.join(os.path.dirname(os.path.dirname(os.path.abspath(__file__))), "tables")
    snow = b'  {name = "minecraft:powder_snow", open = false, floor = true, opacity = 15, emission = 0},\n'
    grass = b'  {name = "minecraft:grass", open = true, floor = false, opacity = 0, emission = 0},\n'

    def read(name):
        text = open(os.path.join(folder, name), "rb").read()
        return text.replace(b"\n]\n", b"\n" + (grass if b'"minecraft:short_grass"' in text else b"") + snow + b"]\n")

    heights = b"min_section = -4\nsections = 24\n", b"min_section = 0\nsections = 16\n"
    overworld, low = range(-5, 21), range(-1, 17)
    for what, chunks, name, low_world in (
            ("1.18", [(2860, -4, overworld)], "java-1.18.toml", False), ("1.18.2", [(2975, -4, overworld)], "java-1.18.toml", False),
            ("before 1.19", [(3104, -4, overworld)], "java-1.18.toml", False), ("1.19", [(3105, -4, overworld)], "java-1.19.toml", False),
            ("1.19.4", [(3337, -4, overworld)], "java-1.19.toml", False), ("1.20", [(3463, -4, overworld)], "java-1.20.toml", False),
            ("before 1.18", [(2859, -4, overworld)], "java-1.18.toml", False), ("1.20.2", [(3578, -4, overworld)], "java-1.20.toml", False),
            ("1.20.3", [(3698, -4, overworld)], "java-1.20.3.toml", False), ("1.20.6", [(3839, -4, overworld)], "java-1.20.3.toml", False),
            ("1.21", [(3953, -4, overworld)], "java-1.21.toml", False), ("one behind", [(9999, -4, overworld)], "java-1.21.toml", False),
            ("old and new", [(2975, -4, overworld), (3700, -4, overworld)], "java-1.20.3.toml", False),
            ("the Nether", [(3700, 0, low)], "java-1.20.3.toml", True)):
        world = os.path.join(work, what)
        write_world(world, {(0, 0): {(x, 0): chunk_of(*chunk) for x, chunk in enumerate(chunks)}})
        found = call(world, program=program)
        yield what, (0, "table %s (another by --table, which need not have all blocks)" % name), (found[0], found[1][1])
        yield "the table of " + what, read(name).replace(*heights) if low_world else read(name), open(program + ".table", "rb").read()
        yield "the words of " + what, "--strict\n", open(program + ".words").readlines()[-1]
    yield "a table that is named", 0, call(world, "--table", program + ".table", program=program)[0]
    yield "its words", False, "--strict\n" in open(program + ".words").readlines()
    by = "name a table of its height by --table, which docs/FORMATS.md says how to make; nothing is done"
    low_line = "the world's lowest section is -8, and the table's -4: " + by
    high_line = "the world has the section %d, which is above the game's own height: " + by
    for what, chunks, line in (("a low world", [(3700, -8, range(-8, 4))], low_line), ("a high Nether", [(3700, 0, range(18))], high_line % 17),
                               ("a high world", [(3700, -4, range(-4, 22))], high_line % 21),
                               ("two heights", [(3700, -4, range(4)), (3700, -8, range(4))], low_line)):
        world = os.path.join(work, what)
        write_world(world, {(0, 0): {(x, 0): chunk_of(*chunk) for x, chunk in enumerate(chunks)}})
        yield what, refused(line), call(world, program=program)[::2]
    for lowest in -4, -8:
        write(work, "lowest", b"version = 3\nmin_section = %d\nsections = 28\n" % lowest)
        yield "two heights and a table of one", 0, call(os.path.join(work, "two heights"), "--table", os.path.join(work, "lowest"), program=program)[0]
    world = os.path.join(work, "an array")
    write_world(world, {(0, 0): {(0, 0): chunk_of(3700, 0, range(16), data=Tag(BYTES, b"\1\0\1Y\x50\x99"))}})
    yield "bytes of an array that are as a section's", 0, call(world, program=program)[0]
