"""Documents and region files of any tags, written (minecraft.wiki: NBT format, Region file format)."""
import struct

# ---------------------------------------------------------------- NBT

BYTE, SHORT, INT, LONG, FLOAT, DOUBLE, BYTES, TEXT, LIST, COMPOUND, INTS, LONGS = range(1, 13)


class Tag:
    """A tag with its number. A list's value is (element number, values), a compound's is a dict of
    tags in the order in which they are written."""

    def __init__(self, number, value):
        self.number = number
        self.value = value


def text_bytes(text):
    data = text.encode("utf-8")
    return struct.pack(">H", len(data)) + data


def payload(number, value):
    if number == BYTE:
        return struct.pack(">b", value)
    if number == SHORT:
        return struct.pack(">h", value)
    if number == INT:
        return struct.pack(">i", value)
    if number == LONG:
        return struct.pack(">q", value)
    if number == FLOAT:
        return struct.pack(">f", value)
    if number == DOUBLE:
        return struct.pack(">d", value)
    if number == BYTES:
        return struct.pack(">i", len(value)) + bytes(value)
    if number == TEXT:
        return text_bytes(value)
    if number == LIST:
        element, values = value
        return struct.pack(">bi", element, len(values)) + b"".join(payload(element, v) for v in values)
    if number == COMPOUND:
        return b"".join(named(name, tag) for name, tag in value.items()) + b"\0"
    if number == INTS:
        return struct.pack(">i%di" % len(value), len(value), *value)
    if number == LONGS:
        return struct.pack(">i%dQ" % len(value), len(value), *value)
    raise ValueError(number)


def named(name, tag):
    return struct.pack(">b", tag.number) + text_bytes(name) + payload(tag.number, tag.value)


def compound(**tags):
    return Tag(COMPOUND, tags)


def compounds(values):
    """A list of compounds, each given as a dict; an empty list has element number 0, as the game writes it."""
    return Tag(LIST, (COMPOUND if values else 0, values))


# ---------------------------------------------------------------- packing

def pack(values, bits):
    """Values in longs, from the low bits up, none across two longs."""
    per_long = 64 // bits
    longs = []
    for start in range(0, len(values), per_long):
        long = 0
        for value in reversed(values[start:start + per_long]):
            long = long << bits | value
        longs.append(long)
    return longs


# ---------------------------------------------------------------- region files

def region_bytes(chunks, gap=0):
    """A region file of {(chunk x, chunk z): root}, in the order given, `gap` free sectors before each but the first."""
    locations, stamps, body = bytearray(4096), bytearray(4096), bytearray()
    for number, ((x, z), root) in enumerate(chunks.items()):
        body += bytes(4096 * gap if number else 0)
        data = named("", root)
        sectors = (len(data) + 5 + 4095) // 4096
        index = x % 32 + 32 * (z % 32)
        locations[4 * index:4 * index + 4] = struct.pack(">I", (2 + len(body) // 4096) << 8 | sectors)
        stamps[4 * index:4 * index + 4] = struct.pack(">I", 1_650_000_000 + 60 * number)
        body += struct.pack(">IB", len(data) + 1, 3) + data + bytes(-(len(data) + 5) % 4096)
    return bytes(locations + stamps + body)
