"""Region files whose keys were chosen so that they share a hash, and ordinary ones of the same size.

The hash is that of the kit's maps, which has a fixed seed: it multiplies a name's bytes by eights and joins the halves of the product.
"""
import random
import struct

MULTIPLIER = 0x9E3779B97F4A7C15
SEED = 0x243F6A8885A308D3
MASK = (1 << 64) - 1
SECTOR = 4096
MOST_IN_PALETTE = 4096
MOST_ENTRIES = 15_000
HEADER = struct.Struct(">IB")

# The table's height: sections -4 to 19.
LEAST_SECTION, SECTIONS = -4, 24

# ---------------------------------------------------------------- hashes


def folded(one, other):
    product = one * other
    return product & MASK ^ product >> 64


def hash_of_numbers(numbers):
    """The hash of some numbers of 32 bits."""
    state = SEED
    for number in numbers:
        word = number & 0xFFFFFFFF
        state = folded(state ^ (word | word << 32), MULTIPLIER ^ 8)
    return state


def crowded(keys, count, buckets):
    """So many of some keys, all in the first of so many buckets of a map that goes by the lowest bits of a hash."""
    return sorted(keys, key=lambda key: hash_of_numbers(key) % buckets)[:count]


def spread(keys, count):
    """So many of some keys, evenly."""
    return [keys[index * len(keys) // count] for index in range(count)]


# ---------------------------------------------------------------- tags


def text(data):
    return struct.pack(">H", len(data)) + data


def tag(kind, name, data):
    return struct.pack(">b", kind) + text(name) + data


def list_of(kind, values):
    return struct.pack(">bi", kind, len(values)) + b"".join(values)


def longs(indices, bits):
    """Indices of so many bits each, packed."""
    in_a_long = 64 // bits
    words = [sum(index << bits * place for place, index in enumerate(indices[at:at + in_a_long]))
             for at in range(0, len(indices), in_a_long)]
    return struct.pack(">i%dQ" % len(words), len(words), *words)


def palette_entry(name):
    return tag(8, b"Name", text(name)) + b"\0"


def section(y, names, indices):
    """A section by its palette and the index of each of its places."""
    states = tag(9, b"palette", list_of(10, [palette_entry(name) for name in names]))
    if len(names) > 1:
        states += tag(12, b"data", longs(indices, max(4, (len(names) - 1).bit_length())))
    return tag(1, b"Y", struct.pack(">b", y)) + tag(10, b"block_states", states + b"\0") + b"\0"


def section_of_names(y, names):
    """A section in which each name has a block."""
    return section(y, names, [place % len(names) for place in range(4096)])


def entry(x, y, z, due):
    """A scheduled tick of water."""
    numbers = b"".join(tag(3, name, struct.pack(">i", value)) for name, value in zip((b"x", b"y", b"z", b"t", b"p"), (x, y, z, due, 0)))
    return tag(8, b"i", text(b"minecraft:water")) + numbers + b"\0"


def chunk(x, z, sections, entries=()):
    """The payload of a loaded chunk."""
    tags = tag(3, b"xPos", struct.pack(">i", x)) + tag(3, b"zPos", struct.pack(">i", z)) + tag(8, b"Status", text(b"full"))
    tags += tag(9, b"sections", list_of(10, sections)) + tag(9, b"fluid_ticks", list_of(10, entries))
    return b"\x0a\0\0" + tags + b"\0"


def region(payloads):
    """A region's file of the payloads of chunks, by their places."""
    locations, parts, at = [0] * 1024, [], 2
    for (x, z), payload in payloads.items():
        record = HEADER.pack(len(payload) + 1, 3) + payload
        sectors = -(-len(record) // SECTOR)
        locations[x % 32 + z % 32 * 32] = at << 8 | sectors
        parts.append(record + bytes(sectors * SECTOR - len(record)))
        at += sectors
    return struct.pack(">1024I", *locations) + bytes(SECTOR) + b"".join(parts)


# ---------------------------------------------------------------- keys


def chosen_names(count):
    """Names of 16 bytes with one hash: of their second half and the multiplier nothing is left to multiply by."""
    return [struct.pack("<Q", 0x6161616161616161 + number) + struct.pack("<Q", MULTIPLIER) for number in range(count)]


def ordinary_names(count):
    return [b"ordinary_%07d" % number for number in range(count)]


def long_names(count, differ_first):
    """Names of 65,004 bytes that differ in their last four, or in their first four."""
    names = [b"%04d" % number for number in range(count)]
    return [name + b"x" * 65_000 if differ_first else b"x" * 65_000 + name for name in names]


def blocks_of(x, z):
    """The places of blocks in a chunk."""
    return [(16 * x + place % 16, 16 * LEAST_SECTION + place // 256, 16 * z + place // 16 % 16) for place in range(SECTIONS * 4096)]


def sections_of(side):
    """The places of sections in a square of chunks."""
    return [(x, y, z) for z in range(side) for x in range(side) for y in range(LEAST_SECTION, LEAST_SECTION + SECTIONS)]


# ---------------------------------------------------------------- files


def states_in_one_chunk(names):
    """One chunk whose sections have these names, each a block at least."""
    parts = [names[at:at + MOST_IN_PALETTE - 1] for at in range(0, len(names), MOST_IN_PALETTE - 1)]
    return region({(0, 0): chunk(0, 0, [section_of_names(y, part) for y, part in enumerate(parts)])})


def last_state_again(names, chunks, times):
    """A chunk of all names, and chunks whose palettes have the last one so many times."""
    payloads = {(0, 0): chunk(0, 0, [section_of_names(0, names)])}
    full = [section(y, [names[-1]] * (MOST_IN_PALETTE - 96), [0] * 4096) for y in range(times // (MOST_IN_PALETTE - 96))]
    for number in range(1, chunks):
        x, z = number % 32, number // 32
        payloads[x, z] = chunk(x, z, full)
    return region(payloads)


def names_by_chunks(names, in_one):
    """Chunks with so many of the names each."""
    payloads = {}
    for number, at in enumerate(range(0, len(names), in_one)):
        x, z = number % 32, number // 32
        payloads[x, z] = chunk(x, z, [section_of_names(0, names[at:at + in_one])])
    return region(payloads)


def entries_in_chunks(positions, due, chunks=()):
    """Chunks of air, these at least, with an entry at each position, due in turn in some ticks."""
    by_chunk = {at: [] for at in chunks}
    for number, (x, y, z) in enumerate(positions):
        by_chunk.setdefault((x >> 4, z >> 4), []).append(entry(x, y, z, due(number)))
    return region({at: chunk(*at, [], entries) for at, entries in by_chunk.items()})


def entries_at(timed, chunks=()):
    """Chunks of air with an entry at each position, due at its time."""
    positions, times = zip(*timed)
    return entries_in_chunks(positions, lambda number: times[number], chunks)


def taking_turns(places, count, together=1):
    """So many positions and times, all overdue: the times rise, and the positions lie in some places by turns, so many together. A place
    is a chunk, and where that has as many as a file can hold, the chunks to its east."""
    taken = [iter([at for step in range(4) for at in blocks_of(x + step, z)[:MOST_ENTRIES]]) for x, z in places]
    return [(next(taken[number // together % len(places)]), number - count) for number in range(count)]


def random_times(chunks, in_one):
    """So many positions of each chunk, overdue by times that are drawn."""
    draw = random.Random("times")
    positions = [at for x, z in chunks for at in spread(blocks_of(x, z), in_one)]
    return [(at, -draw.randrange(1, 1 << 30)) for at in positions]


def square(side):
    return [(x, z) for z in range(side) for x in range(side)]


def stone_floor(side):
    """A square of chunks with stone from y 48 to 63, and air elsewhere."""
    return region({(x, z): chunk(x, z, [section(3, [b"minecraft:stone"], [])]) for x, z in square(side)})


def flood(x, z, ticks, in_each):
    """The text of edits that pour water over a chunk, and take it away, in every tenth tick."""
    draw, lines = random.Random("flood"), []
    for tick in range(1, ticks + 1, 10):
        for _ in range(in_each):
            at = 16 * x + draw.randrange(16), 64 + draw.randrange(4), 16 * z + draw.randrange(16)
            lines.append("%d %d %d %d %s\n" % (tick, *at, draw.choice(("minecraft:water[level=0]", "minecraft:air"))))
    return "".join(lines)


def entries_in_sections(sections, side):
    """A square of chunks of air with an entry in the middle of each of some sections, all due in the first tick."""
    chunks = [(x, z) for z in range(side) for x in range(side)]
    return entries_in_chunks([(16 * x + 8, 16 * y + 8, 16 * z + 8) for x, y, z in sections], lambda number: 1, chunks)
