"""A small terrain, as columns of block states, for samples and measures. All of it is a function of this file: there is no clock and no
outside randomness."""
import functools

from written_regions import BYTE, DOUBLE, FLOAT, INT, SHORT, TEXT, Tag, compound, compounds

MASK = (1 << 64) - 1

# ---------------------------------------------------------------- numbers that look random

class Dice:
    """A generator of its own (xorshift64*), so that the output depends on no library."""

    def __init__(self, *seed):
        self.state = 0x9E3779B97F4A7C15
        for part in seed:
            self.state = (self.state ^ (part & MASK)) * 0xBF58476D1CE4E5B9 & MASK
            self.state ^= self.state >> 29
        self.state |= 1

    def below(self, bound):
        x = self.state
        x ^= x >> 12
        x = (x ^ x << 25) & MASK
        self.state = x ^ x >> 27
        return ((self.state * 0x2545F4914F6CDD1D & MASK) >> 32) * bound >> 32

    def pick(self, values):
        return values[self.below(len(values))]


# ---------------------------------------------------------------- states

STATES = []
NUMBERS = {}


def state(name, **properties):
    """The number of a state; its properties keep the order given."""
    key = (name, tuple(properties.items()))
    if key not in NUMBERS:
        NUMBERS[key] = len(STATES)
        STATES.append(key)
    return NUMBERS[key]


def state_text(number):
    name, properties = STATES[number]
    if not properties:
        return "minecraft:" + name
    return "minecraft:%s[%s]" % (name, ",".join("%s=%s" % pair for pair in sorted(properties)))


AIR = state("air")
CAVE_AIR = state("cave_air")
STONE = state("stone")
DEEPSLATE = state("deepslate", axis="y")
BEDROCK = state("bedrock")
DIRT = state("dirt")
GRASS_BLOCK = state("grass_block", snowy="false")
SAND = state("sand")
GRAVEL = state("gravel")
TUFF = state("tuff")
WATER = [state("water", level=str(level)) for level in range(9)]
LAVA = state("lava", level="0")
LOG = state("oak_log", axis="y")
LEAVES = [state("oak_leaves", distance=str(distance), persistent="false") for distance in range(1, 5)]
PLANTS = [state("grass"), state("dandelion"), state("poppy")]
TORCH = state("torch")
CHEST = state("chest", waterlogged="false", type="single", facing="north")
BEEHIVE = state("bee_nest", honey_level="2", facing="south")
SLAB = state("oak_slab", waterlogged="true", type="bottom")
KELP = state("kelp_plant")
BLOBS_STONE = [state(name) for name in ("granite", "diorite", "andesite")] + [DIRT, GRAVEL]
BLOBS_DEEP = [TUFF, GRAVEL, TUFF]
ORES_STONE = [state(name) for name in ("coal_ore", "iron_ore", "copper_ore", "gold_ore", "lapis_ore", "emerald_ore")] \
    + [state("redstone_ore", lit="false")]
ORES_DEEP = [state("deepslate_" + name) for name in ("iron_ore", "gold_ore", "diamond_ore", "lapis_ore", "copper_ore")] \
    + [state("deepslate_redstone_ore", lit="false")]
ODDITIES = [state("cobweb"), state("rail", waterlogged="false", shape="north_south"), state("oak_planks"),
            state("oak_fence", west="false", waterlogged="false", south="true", north="true", east="false"),
            state("moss_block"), state("clay"), state("glow_lichen", west="false", waterlogged="false", up="true",
                                                      south="false", north="false", east="false", down="false"),
            state("smooth_basalt"), state("calcite"), state("amethyst_block"), state("spawner"), state("cobblestone"),
            state("mossy_cobblestone")]


# ---------------------------------------------------------------- terrain

SEA = 62
LOWEST = -64
SECTIONS = range(-4, 20)


@functools.cache
def lattice(seed, x, z):
    return Dice(seed, x, z).below(1 << 16)


def noise(seed, x, z, size):
    """Smooth whole numbers from 0 to 65,535 over the plane."""
    left, top = x // size, z // size
    across, down = x % size, z % size
    near = lattice(seed, left, top) * (size - across) + lattice(seed, left + 1, top) * across
    far = lattice(seed, left, top + 1) * (size - across) + lattice(seed, left + 1, top + 1) * across
    return (near * (size - down) + far * down) // (size * size)


def surface_at(x, z):
    """The y of the highest ground block."""
    return 50 + noise(1, x, z, 48) * 26 // 65536 + noise(2, x, z, 12) * 6 // 65536


class Chunk:
    """A column of cells, one bytearray of state numbers a section, at place 256*y + 16*z + x."""

    def __init__(self, x, z):
        self.x = x
        self.z = z
        self.dice = Dice(3, x, z)
        self.cells = {y: bytearray([AIR]) * 4096 for y in SECTIONS}
        self.surface = [surface_at(16 * x + place % 16, 16 * z + place // 16) for place in range(256)]
        self.fluid_ticks = []
        self.block_entities = []
        self.lights = []

    def get(self, x, y, z):
        return self.cells[y >> 4][256 * (y & 15) + 16 * z + x]

    def set(self, x, y, z, number):
        self.cells[y >> 4][256 * (y & 15) + 16 * z + x] = number

    def lay_ground(self):
        for y in (-4, -3, -2, -1):
            self.cells[y] = bytearray([DEEPSLATE]) * 4096
        lowest = min(self.surface)
        for y in range(0, lowest - 4):
            base = 256 * (y & 15)
            self.cells[y >> 4][base:base + 256] = bytes([STONE]) * 256
        for place, top in enumerate(self.surface):
            x, z = place % 16, place // 16
            for y in range(lowest - 4, top - 3):
                self.set(x, y, z, STONE)
            soil = DIRT if top >= SEA else self.dice.pick((SAND, SAND, GRAVEL))
            for y in range(top - 3, top):
                self.set(x, y, z, soil)
            self.set(x, top, z, GRASS_BLOCK if top >= SEA else soil)
            for y in range(top + 1, SEA + 1):
                self.set(x, y, z, WATER[0])

    def lay_bedrock(self):
        base = self.cells[-4]
        base[0:256] = bytes([BEDROCK]) * 256
        for layer in (1, 2, 3, 4):
            for place in range(256):
                if self.dice.below(5) >= layer:
                    base[256 * layer + place] = BEDROCK
        for place in range(256 * 8):
            if self.dice.below(16) < 8 - place // 256:
                self.cells[0][place] = DEEPSLATE

    def scatter(self):
        """Blobs and veins, at random places of the ground and in runs along x."""
        top = min(self.surface) - 6
        for y in range(-4, (top >> 4) + 1):
            cells = self.cells[y]
            blobs, ores = (BLOBS_DEEP, ORES_DEEP) if y < 0 else (BLOBS_STONE, ORES_STONE)
            ground = DEEPSLATE if y < 0 else STONE
            for _ in range(6 + self.dice.below(10)):
                self.blob(cells, ground, self.dice.pick(blobs), 3)
            for _ in range(self.dice.below(14)):
                self.blob(cells, ground, self.dice.pick(ores), 1)
            if self.dice.below(12) == 0:
                for number in ODDITIES:
                    cells[self.dice.below(4096)] = number

    def blob(self, cells, ground, number, size):
        at = self.dice.below(4096)
        for layer in range(size):
            for row in range(size):
                length = 1 + self.dice.below(size + 2)
                start = at + 256 * layer + 16 * row + self.dice.below(3)
                for place in range(start, min(start + length, 4096)):
                    if cells[place] == ground:
                        cells[place] = number

    def carve(self):
        """Hollows below the ground: cave air, and lava at the very bottom."""
        for _ in range(self.dice.below(6)):
            middle = (3 + self.dice.below(10), -56 + self.dice.below(96), 3 + self.dice.below(10))
            radius = 2 + self.dice.below(3)
            for x in range(max(0, middle[0] - radius), min(16, middle[0] + radius + 1)):
                for z in range(max(0, middle[2] - radius), min(16, middle[2] + radius + 1)):
                    for y in range(middle[1] - radius, middle[1] + radius + 1):
                        away = (x - middle[0]) ** 2 + 2 * (y - middle[1]) ** 2 + (z - middle[2]) ** 2
                        if away <= radius * radius and LOWEST + 5 < y < self.surface[16 * z + x] - 8:
                            self.set(x, y, z, LAVA if y < -54 else CAVE_AIR)

    def tick(self, x, y, z, fluid, time):
        self.fluid_ticks.append((fluid, 16 * self.x + x, y, 16 * self.z + z, time))

    def spring(self):
        """A source in a wall, water falling from it, and a little of it spread on the floor."""
        x, z = 2 + self.dice.below(12), 2 + self.dice.below(12)
        top = min(self.surface) - 10 - self.dice.below(20)
        bottom = top - 3 - self.dice.below(5)
        for y in range(bottom, top + 1):
            for dx, dz in ((0, 0), (1, 0), (0, 1), (-1, 0), (0, -1)):
                self.set(x + dx, y, z + dz, CAVE_AIR)
        for y in range(bottom, top):
            self.set(x, y, z, WATER[8])
        self.set(x, top, z, WATER[0])
        for step, (dx, dz) in enumerate(((1, 0), (0, 1), (-1, 0), (0, -1))):
            if self.dice.below(3) > 0:
                self.set(x + dx, bottom, z + dz, WATER[1 + step])
                self.tick(x + dx, bottom, z + dz, "minecraft:flowing_water", 1 + self.dice.below(5))
        self.tick(x, top, z, "minecraft:water", self.dice.below(5))

    def decorate(self):
        for _ in range(10 + self.dice.below(30)):
            x, z = self.dice.below(16), self.dice.below(16)
            y = self.surface[16 * z + x]
            if y >= SEA and self.get(x, y + 1, z) == AIR:
                self.set(x, y + 1, z, self.dice.pick(PLANTS))
            elif y < SEA - 2 and self.dice.below(3) == 0:
                for height in range(y + 1, SEA - self.dice.below(3)):
                    self.set(x, height, z, KELP)
        for _ in range(self.dice.below(4)):
            self.tree(2 + self.dice.below(12), 2 + self.dice.below(12))

    def tree(self, x, z):
        ground = self.surface[16 * z + x]
        if ground < SEA:
            return
        height = 4 + self.dice.below(3)
        for y in range(ground + height - 2, ground + height + 2):
            size = 2 if y < ground + height else 1
            for dx in range(-size, size + 1):
                for dz in range(-size, size + 1):
                    away = abs(dx) + abs(dz)
                    if 0 < away + (y > ground + height) < 4 and self.get(x + dx, y, z + dz) == AIR:
                        self.set(x + dx, y, z + dz, LEAVES[min(max(away, 1), 4) - 1])
        for y in range(ground + 1, ground + height + 1):
            self.set(x, y, z, LOG)
        self.set(x, ground, z, DIRT)

    def furnish(self):
        """What players and mobs leave: a chest, a nest, torches, a waterlogged slab."""
        y = max(self.surface) + 1
        for x, number in ((4, CHEST), (6, BEEHIVE), (8, TORCH), (10, SLAB)):
            self.set(x, y, 5, number)
        self.lights.append(((y >> 4), 256 * (y & 15) + 16 * 5 + 8))
        at = {"x": Tag(INT, 16 * self.x + 4), "y": Tag(INT, y), "z": Tag(INT, 16 * self.z + 5)}
        items = compounds([{"Slot": Tag(BYTE, slot), "id": Tag(TEXT, "minecraft:bread"), "Count": Tag(BYTE, 1 + slot)}
                           for slot in (0, 3, 26)])
        self.block_entities.append({"keepPacked": Tag(BYTE, 0), **at, "id": Tag(TEXT, "minecraft:chest"), "Items": items})
        bee = compound(id=Tag(TEXT, "minecraft:bee"), Health=Tag(FLOAT, 9.5), AngerTime=Tag(INT, 0), Air=Tag(SHORT, 300),
                       Attributes=compounds([{"Name": Tag(TEXT, "minecraft:generic.flying_speed"),
                                              "Base": Tag(DOUBLE, 0.6)}]),
                       HivePos=compound(X=Tag(INT, 16 * self.x + 6), Y=Tag(INT, y), Z=Tag(INT, 16 * self.z + 5)))
        at = {"x": Tag(INT, 16 * self.x + 6), "y": Tag(INT, y), "z": Tag(INT, 16 * self.z + 5)}
        self.block_entities.append({"keepPacked": Tag(BYTE, 0), **at, "id": Tag(TEXT, "minecraft:beehive"), "Bees": compounds(
            [{"MinOccupationTicks": Tag(INT, 600), "TicksInHive": Tag(INT, 41), "EntityData": bee}])})

    def light_up(self):
        """Torches on the ground, as a village has them."""
        for _ in range(2):
            x, z = 1 + self.dice.below(14), 1 + self.dice.below(14)
            y = max(self.surface[16 * z + x], SEA) + 1
            if self.get(x, y, z) == AIR:
                self.set(x, y, z, TORCH)
                self.lights.append((y >> 4, 256 * (y & 15) + 16 * z + x))

    def build(self, furnished):
        self.lay_ground()
        self.scatter()
        self.carve()
        self.lay_bedrock()
        self.decorate()
        if self.dice.below(4) == 0 or furnished:
            self.spring()
        if furnished:
            self.furnish()
            self.tick(1, -60, 1, "minecraft:lava", 12)
        return self
