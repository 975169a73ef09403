#!/usr/bin/env python3
"""Checks what the measuring program writes of the sample region samples/r.0.0.mca, against docs/FORMATS.md.

    scripts/check_rewrite.py PROGRAM        as crates/av_bench/out/av_bench

`PROGRAM rewrite IN OUT` reads every chunk and writes it back, dark, with no tick run and with no block table, so
that nothing is soaked. Each chunk of the sample is decoded here and put into the form in which it is to be written;
what the program wrote, decoded, has to be that. Then the program's file, read and written again, has to stay the
same byte for byte. `PROGRAM recode IN OUT` has to leave the tags of each chunk and each timestamp as they are. The reader is this script's own: it shares nothing with the program or with make_samples.py.
"""
import os
import struct
import subprocess
import sys
import tempfile

SAMPLE = os.path.join(os.path.dirname(os.path.dirname(os.path.abspath(__file__))), "samples", "r.0.0.mca")
INT, BYTES, TEXT, LIST, COMPOUND, LONGS = 3, 7, 8, 9, 10, 12
FIXED = {1: ">b", 2: ">h", INT: ">i", 4: ">q", 5: ">4s", 6: ">8s"}
ARRAYS = {BYTES: "B", 11: "i", LONGS: "Q"}
HEIGHT = range(-4, 20)
WATER, FLOWING, AIR = (TEXT, b"minecraft:water"), (TEXT, b"minecraft:flowing_water"), (TEXT, b"minecraft:air")


class Reader:
    """Reads bytes from the front. A tag is (number, value); a list's value is (element number, values), a compound's
    the pairs (name, tag) in their order."""

    def __init__(self, data):
        self.data, self.at = data, 0

    def take(self, form):
        self.at += struct.calcsize(form)
        return struct.unpack_from(form, self.data, self.at - struct.calcsize(form))

    def text(self):
        return self.take(">%ds" % self.take(">H"))[0]

    def value(self, number):
        if number in FIXED:
            return self.take(FIXED[number])[0]
        if number in ARRAYS:
            return self.take(">%d%s" % (*self.take(">i"), ARRAYS[number]))
        if number == TEXT:
            return self.text()
        if number == LIST:
            element, length = self.take(">bi")
            return element, [self.value(element) for _ in range(length)]
        if number == COMPOUND:
            tags = []
            while (inner := self.take(">b")[0]) != 0:
                tags.append((self.text(), (inner, self.value(inner))))
            return tags
        raise ValueError("a tag of number %d" % number)


def document(payload):
    """The root's name and tags."""
    reader = Reader(payload)
    number, name = reader.take(">b")[0], reader.text()
    tags = reader.value(number)
    if number != COMPOUND or reader.at != len(payload):
        raise ValueError("a root that is no compound, or bytes behind it")
    return name, tags


def region(path):
    """The payloads and the timestamps of a file."""
    with open(path, "rb") as file:
        return region_of(file.read())


def region_of(data):
    """The payloads, None where there is no chunk, and the timestamps."""
    payloads = []
    for location in struct.unpack_from(">1024I", data):
        if location == 0:
            payloads.append(None)
            continue
        length, kind = struct.unpack_from(">IB", data, 4096 * (location >> 8))
        start = 4096 * (location >> 8) + 5
        if kind != 3 or length + 4 > 4096 * (location & 255) or start + length - 1 > len(data):
            raise ValueError("a chunk of type %d and length %d at location %08x" % (kind, length, location))
        payloads.append(data[start:start + length - 1])
    return payloads, struct.unpack_from(">1024I", data, 4096)


def state(entry):
    """A palette entry as it is to be written."""
    tags = dict(entry)
    name, properties = tags[b"Name"], sorted(tags.get(b"Properties", (COMPOUND, []))[1])
    if name == WATER:
        level = min(int(dict(properties).get(b"level", (TEXT, b"0"))[1]), 8)
        properties = [(b"level", (TEXT, b"%d" % level))]
    if name == AIR or not properties:
        return ((b"Name", name),)
    return (b"Name", name), (b"Properties", (COMPOUND, tuple(properties)))


SOURCE = state([(b"Name", WATER)])


def index_bits(palette):
    return max(4, (len(palette) - 1).bit_length())


def cells(section):
    """The states at the 4,096 places of a section."""
    tags = dict(dict(section).get(b"block_states", (COMPOUND, []))[1])
    palette = [state(entry) for entry in tags[b"palette"][1][1]] if tags else [state([(b"Name", AIR)])]
    longs = tags.get(b"data", (LONGS, ()))[1]
    if not longs:
        return palette * 4096
    bits = index_bits(palette)
    indices = [long >> bits * step & (1 << bits) - 1 for long in longs for step in range(64 // bits)]
    return [palette[index] for index in indices[:4096]]


def replaced(tags, new):
    """The tags with the new ones where they stood, or last."""
    return [(name, new.get(name, tag)) for name, tag in tags] + [pair for pair in new.items() if pair[0] not in dict(tags)]


def section_written(section):
    states = cells(section)
    palette = list(dict.fromkeys(states))
    tags = [(b"palette", (LIST, (COMPOUND, palette)))]
    if len(palette) > 1:
        bits, numbers = index_bits(palette), {entry: index for index, entry in enumerate(palette)}
        rows = [states[start:start + 64 // bits] for start in range(0, 4096, 64 // bits)]
        longs = tuple(sum(numbers[entry] << bits * step for step, entry in enumerate(row)) for row in rows)
        tags.append((b"data", (LONGS, longs)))
    old = dict(section).get(b"block_states", (COMPOUND, []))[1]
    tags += [pair for pair in old if pair[0] not in (b"palette", b"data")]
    return replaced(section, {b"block_states": (COMPOUND, tags), b"BlockLight": (BYTES, (0,) * 2048)})


def ticks_written(entries, sections):
    foreign, water = [], {}
    for entry in entries:
        tags = dict(entry)
        numbers = [(name, tags.get(name, (0, 0))) for name in (b"x", b"y", b"z", b"t", b"p")]
        if tags[b"i"] not in (WATER, FLOWING) or len(tags) != 6 or any(tag[0] != INT for _, tag in numbers):
            foreign.append(entry)
            continue
        x, y, z = (tag[1] for _, tag in numbers[:3])
        cell = cells(sections.get(y >> 4, []))[256 * (y & 15) + 16 * (z & 15) + (x & 15)]
        water.setdefault((x, y, z), [(b"i", WATER if cell == SOURCE else FLOWING), *numbers])
    return foreign + list(water.values())


def chunk_written(tags):
    """The root's tags of a full chunk as they are to be written."""
    sections = {dict(section)[b"Y"][1]: section for section in dict(tags)[b"sections"][1][1]}
    ticks = ticks_written(dict(tags).get(b"fluid_ticks", (LIST, (0, [])))[1][1], sections)
    for y in HEIGHT:
        sections[y] = section_written(sections.get(y, [(b"Y", (1, y))]))
    return replaced(tags, {b"sections": (LIST, (COMPOUND, [sections[y] for y in sorted(sections)])),
                           b"fluid_ticks": (LIST, (COMPOUND, ticks))})


def shape(number, value):
    """What has to be equal before parts are compared: of a compound its names and numbers, of an array all."""
    if number == COMPOUND:
        return [(name, tag[0]) for name, tag in value]
    return [value[0], len(value[1])] if number == LIST else value


def differences(path, number, expected, found):
    """Lines that say where two values of a tag differ."""
    one, other = shape(number, expected), shape(number, found)
    if number in ARRAYS and one != other and len(one) == len(other):
        place = [a == b for a, b in zip(one, other)].index(False)
        return ["%s[%d]: expected %d, found %d" % (path, place, one[place], other[place])]
    if one != other:
        return ["%s: expected %.150r, found %.150r" % (path, one, other)]
    parts = []
    if number == COMPOUND:
        parts = [("%s.%s" % (path, name.decode()), *tag, other[1]) for (name, tag), (_, other) in zip(expected, found)]
    elif number == LIST:
        parts = [("%s[%d]" % (path, place), expected[0], *pair) for place, pair in enumerate(zip(expected[1], found[1]))]
    return [line for part in parts for line in differences(*part)]


def chunk_differences(path, expected, found):
    if expected is None or found is None:
        return [] if expected is found else [path + ": there on one side only"]
    name, tags = document(expected)
    if dict(tags)[b"Status"] not in ((TEXT, b"full"), (TEXT, b"minecraft:full")):
        return [] if expected == found else [path + ": not full, and not kept byte for byte"]
    found_name, found_tags = document(found)
    if name != found_name:
        return ["%s: the root's name: expected %r, found %r" % (path, name, found_name)]
    return differences(path, COMPOUND, chunk_written(tags), found_tags)


def check(program, once, twice):
    """Lines that say what is wrong."""
    subprocess.run([program, "rewrite", SAMPLE, once], check=True, stdout=subprocess.DEVNULL)
    (payloads, stamps), (written, written_stamps) = region(SAMPLE), region(once)
    for index in range(1024):
        if stamps[index] != written_stamps[index]:
            yield "timestamp %d: expected %d, found %d" % (index, stamps[index], written_stamps[index])
        yield from chunk_differences("chunk %d" % index, payloads[index], written[index])
    subprocess.run([program, "rewrite", once, twice], check=True, stdout=subprocess.DEVNULL)
    with open(once, "rb") as first, open(twice, "rb") as second:
        if first.read() != second.read():
            yield "read and written again, the written region is another"
    yield from recoded_differences(program, once)


def recoded_differences(program, path):
    """Lines that say what a region loses when its chunks are decoded and encoded again."""
    subprocess.run([program, "recode", SAMPLE, path], check=True, stdout=subprocess.DEVNULL)
    (payloads, stamps), (recoded, recoded_stamps) = region(SAMPLE), region(path)
    if stamps != recoded_stamps:
        yield "recoded: other timestamps"
    for index, (one, other) in enumerate(zip(payloads, recoded)):
        if (one and document(one)) != (other and document(other)):
            yield "recoded chunk %d: not the same tags" % index


def main():
    if len(sys.argv) != 2:
        sys.exit(__doc__)
    wrong = 0
    with tempfile.TemporaryDirectory() as work:
        try:
            for line in check(sys.argv[1], os.path.join(work, "once.mca"), os.path.join(work, "twice.mca")):
                wrong += 1
                print(line)
        except (OSError, ValueError, struct.error, subprocess.CalledProcessError) as error:
            sys.exit("check_rewrite.py: %s" % error)
    if wrong:
        sys.exit(1)
    print("%d chunks read and written back, as they were" % sum(payload is not None for payload in region(SAMPLE)[0]))


if __name__ == "__main__":
    main()
