"""Which properties the game's blocks have, and their values, as far as they are known for sure: from memory, as the tables are.

A block that is not here is not judged. Those of all versions stand together. Names are words as in make_tables.py, whose families they have.
"""
import functools
import re

from make_tables import ORDER, SLABS, names

BOOL, SIDES, FACES = "true|false", "north|south|west|east", "north|south|west|east|up|down"


def to(last, first=0):
    return "|".join(map(str, range(first, last + 1)))


def each(keys, values):
    return " ".join("%s=%s" % (key, values) for key in keys.split("|"))


FACING, ANY_FACING, WET, POWERED, LIT = "facing=" + SIDES, "facing=" + FACES, "waterlogged=" + BOOL, "powered=" + BOOL, "lit=" + BOOL
OPEN, ROTATION, AXIS, AGE = "open=" + BOOL, "rotation=" + to(15), "axis=x|y|z", "age=%s"
FLAT, TALL = "half=top|bottom", "half=upper|lower"
RAILS = "north_south|east_west|ascending_east|ascending_west|ascending_north|ascending_south"

# Names, and the properties that these blocks have and no others.
KNOWN = [
    (SLABS, "type=top|bottom|double " + WET),
    ("WOOD_stairs STONE_stairs SMOOTH_stairs CUT_stairs", "%s %s %s shape=straight|inner_left|inner_right|outer_left|outer_right" % (FACING, FLAT, WET)),
    ("STONE_wall", "%s up=%s %s" % (each(SIDES, "none|low|tall"), BOOL, WET)),
    ("WOOD_fence nether_brick_fence iron_bars glass_pane COLOR_stained_glass_pane", each(SIDES, BOOL) + " " + WET),
    ("WOOD_fence_gate", "%s in_wall=%s %s %s" % (FACING, BOOL, OPEN, POWERED)),
    ("WOOD_door iron_door COPPER_door@1.21", "%s %s hinge=left|right %s %s" % (FACING, TALL, OPEN, POWERED)),
    ("WOOD_trapdoor iron_trapdoor COPPER_trapdoor@1.21", " ".join((FACING, FLAT, OPEN, POWERED, WET))),
    ("WOOD_button stone_button polished_blackstone_button lever", "face=floor|wall|ceiling %s %s" % (FACING, POWERED)),
    ("WOOD_pressure_plate stone_pressure_plate polished_blackstone_pressure_plate", POWERED),
    ("light_weighted_pressure_plate heavy_weighted_pressure_plate target", "power=" + to(15)),
    ("wall_torch soul_wall_torch carved_pumpkin jack_o_lantern anvil chipped_anvil damaged_anvil stonecutter loom attached_pumpkin_stem "
     "attached_melon_stem COLOR_glazed_terracotta COLOR_wall_banner", FACING),
    ("redstone_torch redstone_lamp redstone_ore deepslate_redstone_ore candle_cake COLOR_candle_cake", LIT),
    ("redstone_wall_torch furnace blast_furnace smoker", FACING + " " + LIT),
    ("lantern soul_lantern", "hanging=%s %s" % (BOOL, WET)),
    ("campfire soul_campfire", "%s %s signal_fire=%s %s" % (FACING, LIT, BOOL, WET)),
    ("candle COLOR_candle", "candles=%s %s %s" % (to(4, 1), LIT, WET)),
    ("sea_pickle", "pickles=%s %s" % (to(4, 1), WET)),
    ("glow_lichen sculk_vein@1.19", each(FACES, BOOL) + " " + WET),
    ("vine", each(SIDES, BOOL) + " up=" + BOOL),
    ("fire", "%s %s up=%s" % (AGE % to(15), each(SIDES, BOOL), BOOL)),
    ("brown_mushroom_block red_mushroom_block mushroom_stem chorus_plant", each(FACES, BOOL)),
    ("respawn_anchor", "charges=" + to(4)),
    ("light", "level=%s %s" % (to(15), WET)),
    ("lava", "level=" + to(15)),
    ("water_cauldron powder_snow_cauldron", "level=" + to(3, 1)),
    ("composter", "level=" + to(8)),
    ("LOG_log LOG_wood stripped_LOG_log stripped_LOG_wood NYLIUM_stem NYLIUM_hyphae stripped_NYLIUM_stem stripped_NYLIUM_hyphae basalt "
     "polished_basalt bone_block quartz_pillar purpur_pillar hay_block deepslate infested_deepslate bamboo_block@1.20 "
     "stripped_bamboo_block@1.20 ochre_froglight@1.19 verdant_froglight@1.19 pearlescent_froglight@1.19 muddy_mangrove_roots@1.19", AXIS),
    ("chain", AXIS + " " + WET),
    ("nether_portal", "axis=x|z"),
    ("LEAF_leaves", "distance=%s persistent=%s %s" % (to(7, 1), BOOL, WET)),
    ("snow", "layers=" + to(8, 1)),
    ("grass_block podzol mycelium", "snowy=" + BOOL),
    ("chest trapped_chest", "%s type=single|left|right %s" % (FACING, WET)),
    ("ender_chest ladder WOOD_wall_sign WOOD_wall_hanging_sign@1.20 big_dripleaf_stem CORAL_coral_wall_fan dead_CORAL_coral_wall_fan",
     FACING + " " + WET),
    ("small_dripleaf", " ".join((FACING, TALL, WET))),
    ("rail", "shape=%s|south_east|south_west|north_west|north_east %s" % (RAILS, WET)),
    ("powered_rail detector_rail activator_rail", "shape=%s %s %s" % (RAILS, POWERED, WET)),
    ("WOOD_sign", ROTATION + " " + WET),
    ("WOOD_hanging_sign@1.20", "attached=%s %s %s" % (BOOL, ROTATION, WET)),
    ("COLOR_banner", ROTATION),
    ("COLOR_bed", "%s occupied=%s part=head|foot" % (FACING, BOOL)),
    ("SKULL_skull HEAD_head", ROTATION + " " + POWERED),
    ("SKULL_wall_skull HEAD_wall_head", FACING + " " + POWERED),
    ("wheat carrots potatoes pumpkin_stem melon_stem", AGE % to(7)),
    ("beetroots nether_wart sweet_berry_bush frosted_ice", AGE % to(3)),
    ("cactus sugar_cane", AGE % to(15)),
    ("kelp weeping_vines twisting_vines", AGE % to(25)),
    ("chorus_flower", AGE % to(5)),
    ("cocoa", "%s %s" % (AGE % to(2), FACING)),
    ("cave_vines", "%s berries=%s" % (AGE % to(25), BOOL)),
    ("cave_vines_plant", "berries=" + BOOL),
    ("bamboo", "%s leaves=none|small|large stage=0|1" % (AGE % to(1))),
    ("TREE_sapling", "stage=0|1"),
    ("tall_grass large_fern sunflower lilac rose_bush peony tall_seagrass", TALL),
    ("farmland", "moisture=" + to(7)),
    ("hopper", "enabled=%s facing=%s|down" % (BOOL, SIDES)),
    ("piston sticky_piston", "extended=%s %s" % (BOOL, ANY_FACING)),
    ("dispenser dropper", "%s triggered=%s" % (ANY_FACING, BOOL)),
    ("observer", ANY_FACING + " " + POWERED),
    ("barrel", ANY_FACING + " " + OPEN),
    ("shulker_box COLOR_shulker_box end_rod", ANY_FACING),
    ("amethyst_cluster large_amethyst_bud medium_amethyst_bud small_amethyst_bud", ANY_FACING + " " + WET),
    ("lightning_rod", " ".join((ANY_FACING, POWERED, WET))),
    ("command_block chain_command_block repeating_command_block", "conditional=%s %s" % (BOOL, ANY_FACING)),
    ("repeater", "delay=%s %s locked=%s %s" % (to(4, 1), FACING, BOOL, POWERED)),
    ("comparator", "%s mode=compare|subtract %s" % (FACING, POWERED)),
    ("redstone_wire", "%s power=%s" % (each(SIDES, "none|side|up"), to(15))),
    ("tripwire_hook", "attached=%s %s %s" % (BOOL, FACING, POWERED)),
    ("daylight_detector", "inverted=%s power=%s" % (BOOL, to(15))),
    ("lectern", "%s has_book=%s %s" % (FACING, BOOL, POWERED)),
    ("bell", "attachment=floor|ceiling|single_wall|double_wall %s %s" % (FACING, POWERED)),
    ("grindstone", "face=floor|wall|ceiling " + FACING),
    ("end_portal_frame", "eye=%s %s" % (BOOL, FACING)),
    ("beehive bee_nest", "%s honey_level=%s" % (FACING, to(5))),
    ("cake", "bites=" + to(6)),
    ("tnt", "unstable=" + BOOL),
    ("jukebox", "has_record=" + BOOL),
    ("turtle_egg", "eggs=%s hatch=%s" % (to(4, 1), to(2))),
    ("scaffolding", "bottom=%s distance=%s %s" % (BOOL, to(7), WET)),
    ("pointed_dripstone", "thickness=tip_merge|tip|frustum|middle|base vertical_direction=up|down " + WET),
    ("COPPER_bulb@1.21", LIT + " " + POWERED),
    ("conduit CORAL_coral CORAL_coral_fan dead_CORAL_coral dead_CORAL_coral_fan hanging_roots mangrove_roots@1.19 barrier COPPER_grate@1.21 "
     "heavy_core@1.21", WET),
    ("torch soul_torch soul_fire glowstone sea_lantern shroomlight glass COLOR_stained_glass tinted_glass stone ROCK polished_ROCK dirt "
     "coarse_dirt rooted_dirt clay gravel sand red_sand SAND cobblestone mossy_cobblestone bedrock obsidian crying_obsidian stone_bricks bricks "
     "deepslate_bricks tuff calcite ice packed_ice blue_ice snow_block magma_block netherrack soul_sand soul_soil end_stone WOOD_planks COLOR_wool "
     "COLOR_concrete COLOR_concrete_powder COLOR_terracotta terracotta COLOR_carpet MINERAL_block ORE_ore bookshelf pumpkin melon sponge "
     "wet_sponge air cave_air void_air cobweb FLOWER beacon enchanting_table cauldron", ""),
]


@functools.lru_cache(maxsize=None)
def properties():
    """The properties of each block that is known: their values by their keys."""
    found = {}
    for text, given in KNOWN:
        values = {key: frozenset(rest.split("|")) for key, _, rest in (pair.partition("=") for pair in given.split())}
        for name in names(re.sub("@<?[0-9.]+", "", text), ORDER[-1]):
            found["minecraft:" + name] = values
    return found
