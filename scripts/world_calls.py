"""Calls of anvilwater-world for check_world.py, and what they leave."""
import glob
import os
import stat
import subprocess

TOP = os.path.dirname(os.path.dirname(os.path.abspath(__file__)))
GUARD, RECORD = ".anvilwater-journal", ".anvilwater-record"
COMMAND, STAND_IN = os.path.join(TOP, "anvilwater-world"), os.path.join(TOP, "scripts", "stand_in.py")


def begun(*words, program=STAND_IN, what="count", paths=(), **options):
    """A call that is running. `what` is what stand_in.py does, and `paths` have modules that come before others."""
    options = {"stdout": subprocess.PIPE, "stderr": subprocess.PIPE, **options}
    environment = {**os.environ, "STAND_IN": what, "PYTHONPATH": os.pathsep.join([*paths, os.environ.get("PYTHONPATH", "")])}
    return subprocess.Popen([COMMAND, *words, "--program", program], text=True, env=environment, **options)


def ended(process):
    """The status of a call, and the lines on its two streams."""
    out, err = process.communicate(timeout=120)
    return process.returncode, out.splitlines(), err.splitlines()


def call(*words, **options):
    return ended(begun(*words, **options))


def refused(line):
    """The status of a call that ends with this line, and the lines of errors."""
    return 1, ["anvilwater-world: " + line]


def in_use(line):
    """The same of a world that another has."""
    return 5, ["anvilwater-world: " + line]


def left(line):
    """The same of a file by which a call ends that would leave it with another word."""
    return refused(line + "; --skip-bad leaves it as it is; nothing is done")


def shots(folder):
    """All that is in a folder: each file with its bytes, mode, owner and time, and each other thing with its kind."""
    found = {}
    for top, folders, files in os.walk(folder):
        for name in folders + files:
            path = os.path.join(top, name)
            status = os.lstat(path)
            content = open(path, "rb").read() if stat.S_ISREG(status.st_mode) else None
            time = status.st_mtime_ns if content is not None else 0
            found[os.path.relpath(path, folder)] = content, status.st_mode, status.st_uid, status.st_gid, time
    return found


def contents(folder):
    """The files of a folder, but for the record that old files have."""
    return {name: open(os.path.join(folder, name), "rb").read() for name in os.listdir(folder) if name != RECORD}


def backup(world):
    """The files of the folder that is named by date and time, where there is one, or what folders there are."""
    found = glob.glob(os.path.join(world, "region.before-*"))
    return contents(found[0]) if len(found) == 1 else found


def others(world):
    """What a world has besides its region files and their backups, and what keeps the program from these."""
    found = [name for name in os.listdir(world) if name != "region" and not name.startswith("region.before-")]
    return sorted(found + [name for name in os.listdir(os.path.join(world, "region")) if name == GUARD])
