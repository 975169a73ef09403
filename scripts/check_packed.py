#!/usr/bin/env python3
"""Makes worlds of all compressions, takes them there and back by worlds.py, and compares each chunk and timestamp with what it was.

    scripts/check_packed.py

Then it gives worlds.py damaged files of each kind, words and devices that fail. What is stored is read by this script, and plain
files by the reader of check_rewrite.py; both share nothing with worlds.py. Where Python has no module lz4 (Debian: python3-lz4),
nothing is asked of LZ4 but that its want is told.
"""
import functools
import importlib.util
import os
import resource
import struct
import subprocess
import sys
import tempfile
import zlib

sys.dont_write_bytecode = True
from stored_chunks import (CHUNK, COPIES, EXTERNAL, GZIP, LZ4, LZ4_END, MOST, NOISE, OTHER, PLAIN, RAW, SHORT, SHORTENED, STAMPS, TALL, WATER,
                           ZLIB, bomb, external_name, gzipped, lz4_block, payloads, read_plain, read_region, write, write_region)

WORLDS = os.path.join(os.path.dirname(os.path.abspath(__file__)), "worlds.py")
HAS_LZ4 = importlib.util.find_spec("lz4") is not None

# ---------------------------------------------------------------- runs


def worlds(*words, paths=(), **options):
    """The status of a call, and the lines on its two streams. `paths` have modules that come before others."""
    modules = os.pathsep.join([*paths, os.environ.get("PYTHONPATH", "")])
    done = subprocess.run([sys.executable, WORLDS, *words], capture_output=True, text=True, timeout=60,
                          env={**os.environ, "PYTHONPATH": modules}, **options)
    return done.returncode, done.stdout.splitlines(), done.stderr.splitlines()


def folders(work, *names):
    """New folders."""
    paths = [os.path.join(work, name) for name in names]
    for path in paths:
        os.mkdir(path)
    return paths


# ---------------------------------------------------------------- there and back


@functools.lru_cache(maxsize=None)
def world():
    """The chunks of four regions. Of the last not all can be given to the program."""
    lz4 = {7: (LZ4, RAW), 8: (LZ4, SHORTENED), 9: (EXTERNAL + LZ4, SHORTENED)} if HAS_LZ4 else {}
    first = {0: (GZIP, gzipped(CHUNK)), 1: (ZLIB, zlib.compress(CHUNK, 9)), 5: (PLAIN, OTHER), **lz4,
             33: (ZLIB, zlib.compress(OTHER, 1)), 40: (EXTERNAL + GZIP, gzipped(OTHER)), 41: (EXTERNAL + PLAIN, SHORT),
             60: (ZLIB, zlib.compress(CHUNK, 3)), 61: (EXTERNAL + ZLIB, zlib.compress(OTHER, 3)),
             100: (EXTERNAL + ZLIB, zlib.compress(NOISE)), 1023: (EXTERNAL + ZLIB, zlib.compress(CHUNK))}
    second = {31: (ZLIB, zlib.compress(SHORT, 1)), 32: (GZIP, gzipped(SHORT)), 992: (ZLIB, zlib.compress(b"") + b"more")}
    last = {5: (PLAIN, NOISE), 101: (ZLIB, zlib.compress(bytes(MOST + 1))), 102: (ZLIB, zlib.compress(bytes(MOST))), 103: (ZLIB, bomb()),
            104: (EXTERNAL + PLAIN, bytes(MOST + 1)), 105: (EXTERNAL + GZIP, gzipped(NOISE + b"!"))}
    return {(0, 0): first, (-1, -1): second, (0, 1): {**first, 0: (PLAIN, b"")}, (2, -3): last}


LARGE = ["r.2.-3.mca %d -93: its plain bytes are more than 1044475; it is left out" % x for x in (69, 71, 72, 73)]


def write_world(folder):
    for at, chunks in world().items():
        write_region(folder, *at, chunks)
    for name, data in (("r.5.5.mca", b""), ("README", b"no region"), ("r.00.1.mca", b"no region"), ("c.99.99.mcc", b"no chunk's")):
        write(folder, name, data)


def region_names(chunks_of):
    """The files of a folder of these regions and of r.5.5.mca."""
    names = ["r.%d.%d.mca" % at for at in chunks_of] + ["r.5.5.mca"]
    return sorted(names + [external_name(*at, index) for at, chunks in chunks_of.items()
                           for index, (kind, _) in chunks.items() if kind >= EXTERNAL])


def unchanged(work):
    source, plain, back, other = folders(work, "world", "plain", "back", "other")
    write_world(source)
    total = sum(map(len, world().values()))
    yield "made plain", (0, ["regions 5 chunks %d left out 4" % (total - 4)], LARGE), worlds("plain", source, plain)
    yield "plain files", sorted(["r.%d.%d.mca" % at for at in world()] + ["r.5.5.mca"]), sorted(os.listdir(plain))
    for at, chunks in world().items():
        small = {index: chunk for index, chunk in chunks.items() if at != (2, -3) or index not in (101, 103, 104, 105)}
        yield "plain chunks of %d %d" % at, (payloads(small), STAMPS), read_plain(plain, *at)
    yield "packed", (0, ["regions 5 chunks %d kept %d" % (total, total)], []), worlds("packed", plain, back, "--like", source)
    yield "packed files", region_names(world()), sorted(os.listdir(back))
    for at, chunks in world().items():
        yield "chunks of %d %d" % at, (chunks, STAMPS), read_region(back, *at)
    yield "packed by zlib", (0, ["regions 5 chunks %d kept 0" % (total - 4)], []), worlds("packed", plain, other)
    for at, chunks in list(world().items())[:3]:
        found, stamps = read_region(other, *at)
        yield "chunks of %d %d by zlib" % at, (payloads(chunks), {ZLIB}, STAMPS), \
            (payloads(found), {kind % EXTERNAL for kind, _ in found.values()}, stamps)
    yield "files of no bytes", [0, 0, 0], [os.path.getsize(os.path.join(folder, "r.5.5.mca")) for folder in (plain, back, other)]


# ---------------------------------------------------------------- changes


def full_stream():
    """The longest start of the noise that zlib makes no longer than 255 sectors hold."""
    size = 2 * MOST - len(zlib.compress(NOISE))
    while len(zlib.compress(NOISE[:size])) > MOST:
        size -= 1
    return NOISE[:size]


def changes():
    """New payloads of the region 0 0, and the compression that each then has. Those from NOISE are too long for 255 sectors."""
    full = full_stream()
    more = NOISE[:len(full) + 1]
    lz4 = {7: (LZ4, TALL), 8: (LZ4, SHORT), 9: (LZ4, SHORT)} if HAS_LZ4 else {}
    return {0: (GZIP, OTHER), 1: (ZLIB, full), 5: (PLAIN, NOISE), 33: (EXTERNAL + ZLIB, more), 40: (EXTERNAL + GZIP, NOISE), **lz4,
            41: (PLAIN, CHUNK), 100: (ZLIB, SHORT), 1023: (ZLIB, CHUNK[:-1]), 700: (ZLIB, b"new"), 701: (EXTERNAL + ZLIB, NOISE)}


def changed(work):
    source, plain, back = folders(work, "world", "plain", "back")
    write_world(source)
    write(source, "c.30.30.mcc", b"no chunk's")
    os.chmod(os.path.join(source, "r.0.0.mca"), 0o640)
    worlds("plain", source, plain)
    before, found = world()[0, 0], read_plain(plain, 0, 0)[0]
    new = {**{index: (PLAIN, payload) for index, payload in found.items()},
           **{index: (PLAIN, payload) for index, (_, payload) in changes().items()}}
    later = tuple(stamp + 1 for stamp in STAMPS)
    del new[60]
    write_region(plain, 0, 0, new, later)
    for where in (back, source):
        yield "changed", (0, []), worlds("packed", plain, where, "--like", source)[::2]
        chunks, stamps = read_region(where, 0, 0)
        want = {index: payload for index, (_, payload) in changes().items()}
        yield "timestamps", later, stamps
        yield "changed payloads", want, {index: payload for index, payload in payloads(chunks).items() if index in want}
        yield "changed compressions", {index: kind for index, (kind, _) in changes().items()}, \
            {index: kind for index, (kind, _) in chunks.items() if index in want}
        yield "other chunks", {index: chunk for index, chunk in before.items() if index not in want}, \
            {index: chunk for index, chunk in chunks.items() if index not in want}
        names = region_names({**world(), (0, 0): chunks})
        names += ["README", "c.99.99.mcc", "r.00.1.mca"] if where == source else []
        yield "files", sorted(names), sorted(os.listdir(where))
        yield "a file that had no bytes", 0, os.path.getsize(os.path.join(where, "r.5.5.mca"))
        yield "the mode that a file had", where == source, os.stat(os.path.join(where, "r.0.0.mca")).st_mode & 0o777 == 0o640


# ---------------------------------------------------------------- damage


def with_record(folder, x, record, location=None, chunk=(ZLIB, zlib.compress(CHUNK))):
    """A region with a chunk at index 1, and at index 0 this record, in the last sector but one or at a location that is given."""
    write_region(folder, x, 0, {0: (PLAIN, b"?" * 4000), 1: chunk})
    with open(os.path.join(folder, "r.%d.0.mca" % x), "r+b") as file:
        start = 4096 * int.from_bytes(file.read(3), "big")
        file.seek(start)
        file.write(record)
        file.seek(0)
        file.write(struct.pack(">I", start // 4096 << 8 | 1 if location is None else location))
        file.seek(0, os.SEEK_END)
        file.write(bytes(4096))


def record(kind, data, length=None):
    return struct.pack(">IB", len(data) + 1 if length is None else length, kind) + data


def damaged_records():
    """Records that can't be read, why, and whether their bytes can be brought back."""
    whole, other = zlib.compress(CHUNK), gzipped(CHUNK)
    return [
        (record(ZLIB, whole[:-5]), "its zlib stream is cut short"),
        (record(ZLIB, whole[:-1] + bytes([whole[-1] ^ 1])), "its zlib stream is damaged: incorrect data check"),
        (record(ZLIB, b"\0" + whole[1:]), "its zlib stream is damaged: incorrect header check"),
        (record(GZIP, other[:-9]), "its GZip stream is cut short"),
        (record(GZIP, other[:-8] + bytes(4) + other[-4:]), "its GZip stream is damaged: incorrect data check"),
        (record(GZIP, other[:-4] + bytes(4)), "its GZip stream is damaged: incorrect length check"),
        (record(GZIP, 2 * gzipped(SHORT)), "bytes follow its GZip stream, which may be another"),
        (record(9, b"data"), "its compression 9 is not known"),
        (record(0, b"data"), "its compression 0 is not known"),
        (record(PLAIN, b"data", 0), "its 0 bytes are none or more than its sectors hold"),
        (record(PLAIN, b"data", 4093), "its 4093 bytes are none or more than its sectors hold"),
        (record(EXTERNAL + ZLIB, b""), "c.%d.0.mcc: No such file or directory"),
        (record(PLAIN, b"data", 1_000_000), "its 1000000 bytes pass the file's end"),
    ]


def damaged_lz4():
    """The same of LZ4."""
    damaged = "its LZ4 stream is damaged: "
    return [
        (record(LZ4, RAW[:-1]), "its LZ4 stream is cut short"),
        (record(LZ4, RAW[:100]), "its LZ4 stream is cut short"),
        (record(LZ4, b"L" + RAW), damaged + "what begins a block is wrong"),
        (record(LZ4, lz4_block(0x10, SHORT, SHORT, 0xDB951D9) + LZ4_END), damaged + "incorrect data check"),
        (record(LZ4, lz4_block(0x20, COPIES, SHORT) + LZ4_END), damaged + "a block is of another size"),
        (record(LZ4, lz4_block(0x20, COPIES[:-1], WATER) + LZ4_END), damaged + "a block is wrong"),
        (record(LZ4, struct.pack("<8sBIII", b"LZ4Block", 0x26, 10, 0xFFFFFFFF, 0)), "its plain bytes are more than 1044475"),
        (record(LZ4, lz4_block(0x20, b"\xff" + COPIES, WATER) + LZ4_END), damaged + "a block is wrong"),
        (record(LZ4, lz4_block(0x30, SHORT, SHORT) + LZ4_END), damaged + "a block is of another size"),
        (record(LZ4, RAW[:-1] + b"\1"), damaged + "what begins a block is wrong"),
    ] if HAS_LZ4 else []


def damaged_chunks(work):
    """Damaged chunks that are left out, and come back as they were stored, beside a chunk that is changed."""
    source, plain, back = folders(work, "world", "plain", "back")
    records = damaged_records() + damaged_lz4()
    for x, (content, _) in enumerate(records):
        with_record(source, x, content)
    lines = ["r.%d.0.mca %d 0: %s; it is left out" % (x, 32 * x, why % (32 * x) if "%" in why else why)
             for x, (_, why) in enumerate(records)]
    yield "left out", (1, ["regions %d chunks %d left out %d" % (3 * (len(records),))], lines), worlds("plain", source, plain)
    for x in range(len(records)):
        yield "the chunk beside it", {1: CHUNK}, read_plain(plain, x, 0)[0]
        write_region(plain, x, 0, {1: (PLAIN, OTHER)})
    missing = "r.11.0.mca 352 0: c.352.0.mcc: No such file or directory; it stays as it is stored"
    yield "brought back", (1, [missing]), worlds("packed", plain, back, "--like", source)[::2]
    for x, (content, why) in enumerate(records):
        with open(os.path.join(back, "r.%d.0.mca" % x), "rb") as file:
            found = file.read()
        places = struct.unpack_from(">2I", found)
        yield why, ((0x201, 0x301), content), (places, found[8192:8192 + len(content)])
        length, kind = struct.unpack_from(">IB", found, 12288)
        yield "the changed chunk beside it", (ZLIB, OTHER), (kind, zlib.decompress(found[12293:12292 + length]))


def locations(work):
    """Locations of chunks that can't be brought back, and two chunks in one sector, which the format allows."""
    source, plain, back = folders(work, "world", "plain", "back")
    header, nothing = ("its location %s is in the header or of no sectors" % text for text in ("00000101", "00000200"))
    wrong = [(0x101, header), (0x200, nothing), (0xFFFF01, "it begins behind the file's end"), (0x5FF, "its 1000000 bytes pass the file's end")]
    for x, (location, _) in enumerate(wrong):
        with_record(source, x, record(PLAIN, b"", 1_000_000), location)
    with_record(source, 4, record(PLAIN, b""), 0x301)
    lines = ["r.%d.0.mca %d 0: %s; it is left out" % (x, 32 * x, why) for x, (_, why) in enumerate(wrong)]
    yield "left out", (1, lines), worlds("plain", source, plain)[::2]
    yield "two chunks in one sector", {0: CHUNK, 1: CHUNK}, read_plain(plain, 4, 0)[0]
    write(back, "r.0.0.mca", b"what was there")
    lines = ["r.%d.0.mca: chunk %d 0 can't be brought back, its sectors are not in the file; nothing is written for it" % (x, 32 * x)
             for x in range(4)]
    yield "refused", (1, ["regions 1 chunks 2 kept 2"], lines), worlds("packed", plain, back, "--like", source)
    yield "and apart", {index: (ZLIB, zlib.compress(CHUNK)) for index in (0, 1)}, read_region(back, 4, 0)[0]
    yield "what was there stays", (b"what was there", ["r.0.0.mca", "r.4.0.mca"]), \
        (open(os.path.join(back, "r.0.0.mca"), "rb").read(), sorted(os.listdir(back)))
    write(plain, "r.4.0.mca", open(os.path.join(source, "r.0.0.mca"), "rb").read())
    line = "r.4.0.mca: chunk 128 0: %s; nothing is written for it" % header
    yield "a damaged plain chunk", (1, [line]), worlds("packed", plain, back)[::2]


def odd_files(work):
    source, plain, back, like = folders(work, "world", "plain", "back", "like")
    write(source, "r.0.0.mca", b"bytes")
    os.symlink("nowhere", os.path.join(source, "r.1.0.mca"))
    os.mkdir(os.path.join(source, "r.9.9.mca"))
    os.mkfifo(os.path.join(source, "r.3.0.mca"))
    write_region(source, 8, 0, {0: (PLAIN, CHUNK), 1: (EXTERNAL + 9, b"data")})
    for x in (4, 5, 6, 7):
        write_region(source, x, 0, {0: (PLAIN, CHUNK), 1: (EXTERNAL + ZLIB, zlib.compress(CHUNK))})
    for x, make in ((5, os.mkfifo), (6, os.mkdir), (7, lambda path: os.symlink("nowhere", path))):
        os.unlink(os.path.join(source, external_name(x, 0, 1)))
        make(os.path.join(source, external_name(x, 0, 1)))
    files = [("r.0.0.mca", "its 5 bytes are less than a header"), ("r.1.0.mca", "No such file or directory"), ("r.3.0.mca", "Not a file")]
    lines = ["%s: %s; nothing is written for it" % file for file in files]
    lines += ["r.%d.0.mca %d 0: c.%d.0.mcc: %s; it is left out" % (x, 32 * x + 1, 32 * x + 1, why)
              for x, why in ((5, "Not a file"), (6, "Is a directory"), (7, "No such file or directory"))]
    lines.append("r.8.0.mca 257 0: its compression 9 is not known; it is left out")
    lines.append("r.9.9.mca: Is a directory; nothing is written for it")
    yield "odd files", (1, ["regions 5 chunks 6 left out 4"], lines), worlds("plain", source, plain)
    yield "none of them is plain", ["r.%d.0.mca" % x for x in (4, 5, 6, 7, 8)], sorted(os.listdir(plain))
    lines = ["r.%d.0.mca: it is in %s alone; nothing is written for it" % (x, source) for x in (0, 1, 3)]
    lines += ["r.%d.0.mca: c.%d.0.mcc: %s; nothing is written for it" % (x, 32 * x + 1, why) for x, why in ((5, "Not a file"), (6, "Is a directory"))]
    lines += ["r.7.0.mca 225 0: c.225.0.mcc: No such file or directory; it stays as it is stored"]
    lines += ["r.9.9.mca: it is in %s alone; nothing is written for it" % source]
    yield "and they stay", (1, ["regions 3 chunks 6 kept 6"], lines), worlds("packed", plain, back, "--like", source)
    yield "files", ["c.129.0.mcc", "c.257.0.mcc", "r.4.0.mca", "r.7.0.mca", "r.8.0.mca"], sorted(os.listdir(back))
    yield "an unknown compression", (EXTERNAL + 9, b"data"), read_region(back, 8, 0)[0][1]
    write(like, "r.4.0.mca", b"bytes")
    line = "r.4.0.mca: its file in %s: its 5 bytes are less than a header; nothing is written for it" % like
    yield "a damaged file as it was before", (1, [line]), worlds("packed", plain, back, "--like", like)[::2]


def without_lz4(work):
    source, plain, module = folders(work, "world", "plain", "module")
    write(module, "lz4.py", b"raise ImportError")
    write_region(source, 0, 0, {0: (ZLIB, zlib.compress(CHUNK)), 7: (LZ4, RAW)})
    write_region(source, 1, 0, {0: (ZLIB, zlib.compress(CHUNK))})
    line = "r.0.0.mca: LZ4 needs the module lz4 for %s (Debian: python3-lz4); nothing is written for it" % sys.executable
    yield "no module", (1, ["regions 1 chunks 1 left out 0"], [line]), worlds("plain", source, plain, paths=[module])
    yield "its files", ["r.1.0.mca"], os.listdir(plain)


# ---------------------------------------------------------------- words and devices


def small_files():
    """Files of more than 4,096 bytes can't be written."""
    resource.setrlimit(resource.RLIMIT_FSIZE, (4096, 4096))


def words(work):
    source, plain = folders(work, "world", "plain")
    write_region(source, 0, 0, {0: (ZLIB, zlib.compress(CHUNK))})
    write_region(source, 1, 0, {})
    same, missing = os.path.join(source, "..", "world"), os.path.join(work, "missing")
    for given, line in (((), "the following arguments are required: way, IN, OUT"), (("plain", source), "the following arguments are required: OUT"),
                        (("plain", source, same), "IN and OUT are one folder"), (("packed", source, source), "IN and OUT are one folder"),
                        (("plain", source, plain, "--like", source), "--like goes with packed"),
                        (("plain", source, plain, "more"), "unrecognized arguments: more")):
        yield given, (2, [], ["worlds.py: error: " + line]), worlds(*given)
    yield "another way", 2, worlds("unpacked", source, plain)[0]
    for given in (("plain", missing, plain), ("plain", source, missing), ("packed", source, plain, "--like", missing)):
        yield given, (1, [], ["worlds.py: %s: No such file or directory" % missing]), worlds(*given)
    yield "nothing was written", [], os.listdir(plain)
    yield "no regions", (0, ["regions 0 chunks 0 left out 0"], []), worlds("plain", plain, source)
    yield "progress", (0, ["1 of 2 files", "2 of 2 files"]), worlds("plain", source, plain, "--progress")[::2]
    write(plain, "r.0.0.mca", b"what was there")
    line = "r.%d.0.mca: File too large; nothing is written for it"
    yield "a device that fails", (1, [line % 0, line % 1]), worlds("plain", source, plain, preexec_fn=small_files)[::2]
    yield "leaves what was there", (14, ["r.0.0.mca", "r.1.0.mca"]), (os.path.getsize(os.path.join(plain, "r.0.0.mca")), sorted(os.listdir(plain)))
    os.unlink(os.path.join(plain, "r.0.0.mca"))
    os.mkdir(os.path.join(plain, "r.0.0.mca"))
    yield "a folder in its place", (1, ["r.0.0.mca: Is a directory; nothing is written for it"]), worlds("plain", source, plain)[::2]
    yield "leaves nothing behind", ["r.0.0.mca", "r.1.0.mca"], sorted(os.listdir(plain))
    write_region(source, 1, 0, {5: (PLAIN, NOISE), 6: (PLAIN, NOISE)})
    os.mkdir(os.path.join(plain, "c.38.0.mcc"))
    yield "nor does one beside a region", (1, ["r.%d.0.mca: Is a directory; nothing is written for it" % x for x in (0, 1)]), \
        worlds("packed", source, plain)[::2]
    yield "and nothing else", ["c.38.0.mcc", "r.0.0.mca", "r.1.0.mca"], sorted(os.listdir(plain))


def difference(want, got):
    """What differs first, within lists and dictionaries."""
    if isinstance(want, dict) and isinstance(got, dict):
        key = next(key for key in [*want, *got] if want.get(key) != got.get(key))
        return "at %s %s" % (key, difference(want.get(key), got.get(key)))
    if isinstance(want, (list, tuple)) and isinstance(got, (list, tuple)) and len(want) == len(got):
        return difference(*next(pair for pair in zip(want, got) if pair[0] != pair[1]))
    return "expected %.300r, found %.300r" % (want, got)


def main():
    if len(sys.argv) != 1:
        sys.exit(__doc__)
    asked = wrong = 0
    for examples in (unchanged, changed, damaged_chunks, locations, odd_files, without_lz4, words):
        with tempfile.TemporaryDirectory() as work:
            for what, want, got in examples(work):
                asked += 1
                if want != got:
                    wrong += 1
                    print("%s, %s: %s" % (examples.__name__, what, difference(want, got)))
    most = resource.getrusage(resource.RUSAGE_CHILDREN).ru_maxrss >> 10
    asked += 1
    if most > 200:
        wrong += 1
        print("%d MiB of memory were used" % most)
    print("%d asked of packed worlds, %d wrong" % (asked, wrong))
    sys.exit(1 if wrong else 0)


if __name__ == "__main__":
    main()
