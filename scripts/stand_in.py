#!/usr/bin/env python3
"""Stands in for the program in check_world.py, where it is to be seen how often it ran, or is to take long, or refuses.

`check` finds a fault in each chunk that begins with `bad`, and a run refuses these, and one that begins with `large` as too large. STAND_IN says
what it does with region files: `count`, as without it, adds a byte to each chunk but those that begin with `keep`; one that begins with `grow`
becomes one that needs a file of its own, and one that is as large as chunks can be is turned round. `same` changes nothing, `refuse` has a fault
and status 7, `die` ends by a signal, `pause PATH` makes a file and goes on when that is gone, and `wait PATH` makes one and never goes on. What
is imported late takes longer than all else where there are no files.
"""
import os
import signal
import sys
import time

sys.dont_write_bytecode = True


def counted(payload):
    from stored_chunks import MOST, NOISE
    if payload.startswith(b"keep"):
        return payload
    if payload.startswith(b"grow"):
        return NOISE
    return payload[::-1] if len(payload) == MOST else payload + b"+"


def wait(path, always):
    """Waits until the file is gone, or who called this program is."""
    caller = os.getppid()
    open(path, "x").close()
    while os.getppid() == caller and (always or os.path.exists(path)):
        time.sleep(0.02)
    time.sleep(0.2)


def copy_region(source, target, name, made):
    from stored_chunks import PLAIN, read_plain, write_region
    if os.path.getsize(os.path.join(source, name)) == 0:
        open(os.path.join(target, name), "x").close()
        return
    x, z = map(int, name.split(".")[1:3])
    chunks, stamps = read_plain(source, x, z)
    write_region(target, x, z, {index: (PLAIN, made(payload)) for index, payload in chunks.items()}, stamps)


def faults(folder):
    """The lines of `check`."""
    from stored_chunks import read_plain
    lines = []
    for name in sorted(os.listdir(folder)):
        x, z = map(int, name.split(".")[1:3])
        chunks = read_plain(folder, x, z)[0] if os.path.getsize(os.path.join(folder, name)) else {}
        lines += ["%s %d %d fault 10: BadNbt" % (name, 32 * x + index % 32, 32 * z + index // 32) for index, payload in sorted(chunks.items())
                  if payload.startswith(b"bad")]
    return lines


def refuse_large(folder, name):
    from stored_chunks import read_plain
    x, z = map(int, name.split(".")[1:3])
    for index, payload in read_plain(folder, x, z)[0].items() if os.path.getsize(os.path.join(folder, name)) else ():
        if payload.startswith(b"large"):
            sys.stderr.write("fault 24: ChunkTooLarge %d %d\n" % (32 * x + index % 32, 32 * z + index // 32))
            sys.exit(1)


def main():
    if sys.argv[1] in ("--version", "states"):
        return
    words = dict(zip(sys.argv[2::2], sys.argv[3::2]))
    # A call whose folders are one only tries the program.
    names = [] if words["--in"] == words.get("--out") else os.listdir(words["--in"])
    if sys.argv[1] == "check":
        lines = faults(words["--in"])
        print("".join(line + "\n" for line in lines), end="")
        sys.exit(1 if lines else 0)
    what, _, path = os.environ.get("STAND_IN", "count").partition(" ")
    if names and what == "refuse":
        sys.stderr.write("fault 99: StandIn\n")
        sys.exit(7)
    if names and what == "die":
        os.kill(os.getpid(), signal.SIGKILL)
    if names and what in ("wait", "pause"):
        wait(path, what == "wait")
    if names and faults(words["--in"]):
        sys.stderr.write("fault 10: BadNbt\n")
        sys.exit(1)
    for name in names:
        refuse_large(words["--in"], name)
    for name in names:
        copy_region(words["--in"], words["--out"], name, (lambda payload: payload) if what == "same" else counted)
    print("chunks %d turns 0" % len(names))


if __name__ == "__main__":
    main()
