#!/usr/bin/env python3
"""Reads each table of tables/ with the built program, and runs worlds in which each chunk has a block that a table has a row for.

    scripts/check_tables.py PROGRAM         as crates/av_main/out/av_main

The flat world has stone at y 63 and air elsewhere, and the blocks are 16 apart, so that none has light or water of another's chunk. What
is expected was written by hand and not by scripts/make_tables.py. A version at a line's end is the first whose table has the block.
"""
import os
import re
import subprocess
import sys
import tempfile

sys.dont_write_bytecode = True
from flat_runs import SIDES, WATER, Run, edit, flat

TOP = os.path.join(os.path.dirname(os.path.abspath(__file__)), os.pardir)
VERSIONS = ["1.18", "1.19", "1.20", "1.20.3", "1.21"]

# What a state gives.
LIGHTS = """
    torch 14
    wall_torch[facing=north] 14
    soul_torch 10
    redstone_torch[lit=true] 7
    redstone_torch[lit=false] 0
    redstone_wall_torch[facing=east,lit=true] 7
    lantern[hanging=false,waterlogged=false] 15
    soul_lantern[hanging=true,waterlogged=true] 10
    end_rod[facing=up] 14
    glowstone 15
    sea_lantern 15
    shroomlight 15
    jack_o_lantern[facing=north] 15
    beacon 15
    conduit[waterlogged=false] 15
    lava[level=0] 15
    lava_cauldron 15
    fire[age=0,east=false,north=false,south=false,up=false,west=false] 15
    soul_fire 10
    redstone_lamp[lit=true] 15
    redstone_lamp[lit=false] 0
    furnace[facing=north,lit=true] 13
    furnace[facing=north,lit=false] 0
    blast_furnace[facing=north,lit=true] 13
    smoker[facing=north,lit=true] 13
    campfire[facing=north,lit=true,signal_fire=false,waterlogged=false] 15
    campfire[facing=north,lit=false,signal_fire=false,waterlogged=true] 0
    soul_campfire[facing=north,lit=true,signal_fire=false,waterlogged=false] 10
    redstone_ore[lit=true] 9
    deepslate_redstone_ore[lit=true] 9
    candle[candles=1,lit=true,waterlogged=false] 3
    candle[candles=4,lit=false,waterlogged=false] 0
    red_candle[candles=4,lit=true,waterlogged=false] 12
    cyan_candle_cake[lit=true] 3
    sea_pickle[pickles=1,waterlogged=true] 6
    sea_pickle[pickles=4,waterlogged=true] 15
    sea_pickle[pickles=4,waterlogged=false] 0
    respawn_anchor[charges=0] 0
    respawn_anchor[charges=1] 3
    respawn_anchor[charges=2] 7
    respawn_anchor[charges=3] 11
    respawn_anchor[charges=4] 15
    cave_vines[age=3,berries=true] 14
    cave_vines_plant[berries=false] 0
    glow_lichen[down=false,east=false,north=false,south=false,up=true,waterlogged=false,west=false] 7
    glow_lichen[down=false,east=false,north=false,south=false,up=false,waterlogged=false,west=false] 0
    light[level=0,waterlogged=false] 0
    light[level=9,waterlogged=true] 9
    light[level=15,waterlogged=false] 15
    nether_portal[axis=x] 11
    end_portal 15
    end_portal_frame[eye=false,facing=north] 1
    enchanting_table 7
    ender_chest[facing=north,waterlogged=false] 7
    crying_obsidian 10
    magma_block 3
    brown_mushroom 1
    potted_brown_mushroom 0
    brewing_stand[has_bottle_0=false,has_bottle_1=false,has_bottle_2=false] 1
    amethyst_cluster[facing=up,waterlogged=false] 5
    large_amethyst_bud[facing=up,waterlogged=false] 4
    medium_amethyst_bud[facing=up,waterlogged=false] 2
    small_amethyst_bud[facing=up,waterlogged=false] 1
    sculk_sensor[power=0,sculk_sensor_phase=inactive,waterlogged=false] 1
    stone 0
    ochre_froglight[axis=y] 15 1.19
    pearlescent_froglight[axis=x] 15 1.19
    sculk_catalyst[bloom=false] 6 1.19
    calibrated_sculk_sensor[facing=north,power=0,sculk_sensor_phase=inactive,waterlogged=false] 1 1.20
    torchflower 0 1.20
    copper_bulb[lit=true,powered=false] 15 1.21
    copper_bulb[lit=false,powered=false] 0 1.21
    waxed_exposed_copper_bulb[lit=true,powered=true] 12 1.21
    weathered_copper_bulb[lit=true,powered=false] 8 1.21
    waxed_oxidized_copper_bulb[lit=true,powered=false] 4 1.21
    trial_spawner[ominous=false,trial_spawner_state=inactive] 0 1.21
    trial_spawner[ominous=false,trial_spawner_state=waiting_for_players] 4 1.21
    trial_spawner[ominous=true,trial_spawner_state=active] 8 1.21
    vault[facing=north,ominous=false,vault_state=inactive] 6 1.21
    vault[facing=north,ominous=false,vault_state=active] 12 1.21
"""

# What a state that gives no light has beside glowstone: 14, or 0 where it stops all light, as a block of a later version does.
BESIDE = """
    air 14
    water[level=0] 14
    stone 0
    dirt 0
    tinted_glass 0
    packed_ice 0
    oak_log[axis=y] 0
    oak_planks 0
    glass 14
    purple_stained_glass 14
    glass_pane[east=true,north=false,south=false,waterlogged=false,west=true] 14
    light_gray_stained_glass_pane[east=true,north=false,south=false,waterlogged=true,west=true] 14
    iron_bars[east=true,north=false,south=false,waterlogged=false,west=true] 14
    oak_slab[type=bottom,waterlogged=false] 14
    oak_slab[type=top,waterlogged=true] 14
    oak_slab[type=double,waterlogged=false] 0
    smooth_stone_slab[type=double,waterlogged=false] 0
    waxed_exposed_cut_copper_slab[type=bottom,waterlogged=false] 14
    deepslate_tile_stairs[facing=north,half=top,shape=straight,waterlogged=false] 14
    purpur_stairs[facing=north,half=bottom,shape=straight,waterlogged=true] 14
    mossy_cobblestone_wall[east=low,north=none,south=none,up=true,waterlogged=false,west=low] 14
    dark_oak_fence[east=true,north=false,south=false,waterlogged=false,west=true] 14
    warped_fence_gate[facing=north,in_wall=false,open=false,powered=false] 14
    iron_door[facing=north,half=lower,hinge=left,open=false,powered=false] 14
    crimson_trapdoor[facing=north,half=bottom,open=false,powered=false,waterlogged=false] 14
    jungle_leaves[distance=1,persistent=false] 14
    flowering_azalea_leaves[distance=1,persistent=false] 14
    red_carpet 14
    snow[layers=7] 14
    snow[layers=8] 0
    snow_block 0
    ice 14
    cobweb 14
    slime_block 14
    honey_block 14
    spawner 14
    oak_sign[rotation=0,waterlogged=false] 14
    white_bed[facing=north,occupied=false,part=foot] 14
    blue_wall_banner[facing=north] 14
    chest[facing=north,type=single,waterlogged=false] 14
    stone_button[face=floor,facing=north,powered=false] 14
    heavy_weighted_pressure_plate[power=0] 14
    rail[shape=north_south,waterlogged=false] 14
    chain[axis=y,waterlogged=false] 14
    wither_skeleton_skull[rotation=0] 14
    potted_cactus 14
    wheat[age=7] 14
    kelp_plant 14
    bubble_column[drag=true] 14
    farmland[moisture=7] 14
    dirt_path 14
    hopper[enabled=true,facing=down] 14
    piston[extended=true,facing=up] 14
    piston[extended=false,facing=up] 0
    bamboo[age=0,leaves=none,stage=0] 14
    green_shulker_box[facing=up] 14
    dead_horn_coral_fan[waterlogged=false] 14
    mangrove_roots[waterlogged=false] 14 1.19
    mud_brick_slab[type=bottom,waterlogged=false] 14 1.19
    mud 0 1.19
    sculk_vein[down=true,east=false,north=false,south=false,up=false,waterlogged=false,west=false] 14 1.19
    cherry_leaves[distance=1,persistent=false,waterlogged=false] 14 1.20
    bamboo_mosaic_stairs[facing=north,half=top,shape=straight,waterlogged=false] 14 1.20
    chiseled_bookshelf[facing=north] 0 1.20
    firefly_bush 0
    oak_wall_hanging_sign[facing=north,waterlogged=false] 14 1.20
    short_grass 14 1.20.3
    polished_tuff_wall[east=low,north=none,south=none,up=true,waterlogged=false,west=low] 14 1.21
    oxidized_copper_grate[waterlogged=false] 14 1.21
    heavy_core[waterlogged=false] 14 1.21
    crafter[crafting=false,orientation=north_up,triggered=false] 0 1.21
"""

# Whether water that is beside a state replaces it.
REPLACED = """
    torch yes
    red_carpet yes
    wheat[age=7] yes
    snow[layers=8] yes
    redstone_wire[east=none,north=none,power=0,south=none,west=none] yes
    cobweb yes
    bamboo_sapling[stage=0] yes
    flower_pot yes
    oak_sign[rotation=0,waterlogged=false] no
    oak_pressure_plate[powered=false] no
    rail[shape=north_south,waterlogged=false] no
    ladder[facing=north,waterlogged=false] no
    sugar_cane[age=0] no
    oak_slab[type=bottom,waterlogged=false] no
    iron_door[facing=north,half=lower,hinge=left,open=false,powered=false] no
    glass no
    frogspawn yes 1.19
    torchflower yes 1.20
    short_grass yes 1.20.3
"""

# Whether two sources make a third above a state.
FLOORS = """
    stone yes
    glass yes
    oak_fence[east=false,north=false,south=false,waterlogged=false,west=false] yes
    oak_slab[type=bottom,waterlogged=false] yes
    farmland[moisture=0] yes
    rail[shape=north_south,waterlogged=false] no
    lava[level=0] no
    sugar_cane[age=0] no
    mangrove_roots[waterlogged=false] yes 1.19
    copper_grate[waterlogged=false] yes 1.21
"""

# Whether a state that is set sends water to its sides, as a source does.
SOAKED = """
    oak_slab[type=bottom,waterlogged=true] yes
    oak_slab[type=bottom,waterlogged=false] no
    chest[facing=north,type=single,waterlogged=true] yes
    sea_pickle[pickles=2,waterlogged=true] yes
    kelp[age=0] yes
    tall_seagrass[half=lower] yes
    bubble_column[drag=false] yes
    glass no
    oak_leaves[distance=1,persistent=true,waterlogged=true] yes 1.19
"""

# Whether a state has a row.
COVERED = """
    stone yes
    grass_block[snowy=true] yes
    deepslate[axis=y] yes
    deepslate_diamond_ore yes
    infested_cracked_stone_bricks yes
    red_wool yes
    light_blue_glazed_terracotta[facing=east] yes
    stripped_warped_hyphae[axis=x] yes
    dead_fire_coral_block yes
    cut_red_sandstone yes
    waxed_oxidized_cut_copper yes
    soul_sand yes
    redstone_block yes
    command_block[conditional=false,facing=north] yes
    tinted_glass yes
    furnace[facing=north,lit=false] yes
    powder_snow no
    firefly_bush no
    mud yes 1.19
    mangrove_log[axis=y] yes 1.19
    reinforced_deepslate yes 1.19
    stripped_bamboo_block[axis=y] yes 1.20
    chiseled_bookshelf[facing=north] yes 1.20
    chiseled_tuff_bricks yes 1.21
    waxed_weathered_chiseled_copper yes 1.21
    crafter[crafting=false,orientation=north_up,triggered=false] yes 1.21
"""
# The same of states of versions after the one that is named.
NOT_COVERED = """
    mud no 1.18
    stripped_bamboo_block[axis=y] no 1.19
    grass no 1.20.3
    crafter[crafting=false,orientation=north_up,triggered=false] no 1.20
"""


def examples(text, version):
    """The states that a version has, with what is expected, each with the corner of its own chunk."""
    split = [line.split() for line in text.split("\n") if line.strip()]
    known = [words for words in split if len(words) < 3 or VERSIONS.index(words[2]) <= VERSIONS.index(version)]
    for index, (state, want, *_) in enumerate(known):
        yield "minecraft:" + state, want, (index % 32, index // 32)


def world(blocks, chunks):
    return flat(blocks, sorted(chunks))


def moved(chunk, x, y, z):
    return 16 * chunk[0] + x, y, 16 * chunk[1] + z


def light(run, version):
    """Both the light of a state and that of the air above it, which is less by one."""
    cases = list(examples(LIGHTS, version))
    lit = run(world({moved(chunk, 8, 70, 8): state for state, _, chunk in cases}, [chunk for *_, chunk in cases]))
    for state, want, chunk in cases:
        found = tuple(lit.light_at(*moved(chunk, 8, y, 8)) for y in (70, 71))
        yield state, (int(want), max(0, int(want) - 1)), found


def let_through(run, version):
    cases = list(examples(BESIDE, version))
    blocks = {moved(chunk, 8, 70, 8): state for state, _, chunk in cases}
    blocks |= {moved(chunk, 8, 69, 8): "minecraft:glowstone" for *_, chunk in cases}
    lit = run(world(blocks, [chunk for *_, chunk in cases]))
    for state, want, chunk in cases:
        yield state, int(want), lit.light_at(*moved(chunk, 8, 70, 8))


def replaced(run, version):
    """A source beside each state is turned once."""
    cases = list(examples(REPLACED, version))
    blocks = {moved(chunk, 9, 64, 8): state for state, _, chunk in cases}
    edits = "".join(edit(1, *moved(chunk, 8, 64, 8), WATER) for *_, chunk in cases)
    wet = run(world(blocks, [chunk for *_, chunk in cases]), edits, 6).wet()
    for state, want, chunk in cases:
        yield state, (want == "yes", True), (wet.get(moved(chunk, 9, 64, 8)) == 1, wet.get(moved(chunk, 7, 64, 8)) == 1)


def floors(run, version):
    """Above each state, between two sources, there is a third or water of level 1."""
    cases = list(examples(FLOORS, version))
    blocks = {moved(chunk, 8, 63, 8): state for state, _, chunk in cases}
    edits = "".join(edit(1, *moved(chunk, x, 64, 8), WATER) for *_, chunk in cases for x in (7, 9))
    wet = run(world(blocks, [chunk for *_, chunk in cases]), edits, 6).wet()
    for state, want, chunk in cases:
        yield state, 0 if want == "yes" else 1, wet.get(moved(chunk, 8, 64, 8))


def soaked(run, version):
    cases = list(examples(SOAKED, version))
    edits = "".join(edit(1, *moved(chunk, 8, 64, 8), state) for state, _, chunk in cases)
    wet = run(world({}, [chunk for *_, chunk in cases]), edits, 6).wet()
    for state, want, chunk in cases:
        yield state, [1 if want == "yes" else None] * 4, [wet.get(moved(chunk, *side)) for side in SIDES]


def covered(program, path, version):
    """Whether states have a row, as `states` lists them."""
    cases = list(examples(COVERED, version))
    cases += [("minecraft:" + words[0], words[1], (31, 31)) for words in map(str.split, NOT_COVERED.split("\n")) if words and words[2] == version]
    chunks = {state: (index % 32, index // 32) for index, (state, *_) in enumerate(cases)}
    blocks = {moved(chunk, 8, 70, 8): state for state, chunk in chunks.items()}
    with tempfile.TemporaryDirectory() as folder:
        with open(os.path.join(folder, "r.0.0.mca"), "wb") as file:
            file.write(world(blocks, chunks.values()))
        done = subprocess.run([program, "states", "--in", folder, "--table", path], capture_output=True, text=True)
    rows = {line.split()[1]: not line.endswith(" no row") for line in done.stdout.splitlines()}
    for state, want, _ in cases:
        yield state, want == "yes", rows.get(state)


def read_by(program, path):
    """What the program answers with a table, over a sample region and a folder."""
    samples = os.path.join(TOP, "samples")
    block = [program, "block", "--table", path, os.path.join(samples, "r.0.0.mca"), "4", "67", "15"]
    check = [program, "check", "--table", path, "--in", samples]
    done = (subprocess.run(words, capture_output=True, text=True) for words in (block, check))
    return [(one.returncode, one.stdout, one.stderr) for one in done]


def nether(text):
    """The table for the Nether and the End, made as docs/FORMATS.md says."""
    text, low = re.subn("(?m)^min_section = -4$", "min_section = 0", text)
    text, many = re.subn("(?m)^sections = 24$", "sections = 16", text)
    return text, (low, many)


def low_world(run, text):
    low, changed = nether(text)
    yield "one line each", (1, 1), changed
    lit = run(flat({(8, 64, 8): "minecraft:glowstone"}), table=low)
    yield "sections 0 to 15", list(range(16)), sorted(lit.sections((0, 0)))
    yield "their light", 14, lit.light_at(8, 65, 8)
    yield "y -1 is outside", "fault 22: EditOutside 1", run(flat(), edit(1, 8, -1, 8, "minecraft:stone"), 1, table=low).fault


def main():
    if len(sys.argv) != 2:
        sys.exit(__doc__)
    program, asked, wrong = os.path.abspath(sys.argv[1]), 0, 0

    def expect(version, what, want, got):
        nonlocal asked, wrong
        asked += 1
        if want != got:
            wrong += 1
            print("java-%s, %s: expected %r, found %r" % (version, what, want, got))

    for version in VERSIONS:
        path = os.path.join(TOP, "tables", "java-%s.toml" % version)
        text = open(path, encoding="utf-8").read()
        expect(version, "is read", [(0, "minecraft:stone\n", ""), (0, "", "")], read_by(program, path))

        def run(data, edits="", ticks=0, table=text):
            return Run(program, data, edits, ticks, workers=2, table=table)

        for kind in (light, let_through, replaced, floors, soaked):
            for state, want, got in kind(run, version):
                expect(version, "%s of %s" % (kind.__name__, state), want, got)
        for what, want, got in [*(("row of " + state, *rest) for state, *rest in covered(program, path, version)), *low_world(run, text)]:
            expect(version, what, want, got)
    print("%d asked of tables, %d wrong" % (asked, wrong))
    sys.exit(1 if wrong else 0)


if __name__ == "__main__":
    main()
