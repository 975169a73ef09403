#!/usr/bin/env python3
"""Writes the tables of the game's blocks, tables/java-VERSION.toml, from the figures below.
  scripts/make_tables.py            writes them
  scripts/make_tables.py --check    says whether tables/ holds what it would write

A word of the figures is a name, or one for each word of the family that it has in capitals. With @1.19 it is there since 1.19, and with
@<1.20.3 in the versions before 1.20.3.
"""
import os
import re
import sys
import typing

VERSIONS = {"1.18": "1.18 to 1.18.2", "1.19": "1.19 to 1.19.4", "1.20": "1.20 to 1.20.2", "1.20.3": "1.20.3 to 1.20.6",
            "1.21": "1.21 and 1.21.1"}
ORDER = list(VERSIONS)

HEAD = """\
# The blocks of Minecraft Java Edition %s. A row of more properties stands before
# the row for the other states of its block, and the first that fits counts. A state without a row is shut, a floor, stops all light and
# gives none. docs/FORMATS.md says what a row means, and where the game's light is another. scripts/make_tables.py writes this file.
# The figures are from memory: of minecraft.wiki as of 1.21 (Light, Opacity, Water, and the pages of the blocks), and of the game's own
# rules for these versions. Nothing was fetched, and no game was asked. Blocks of experiments that a world can turn on are not here.
version = 3
min_section = -4
sections = 24

block = [
"""

LEFT_OUT = """
# Left out, since their figures are not known for sure:
#   minecraft:powder_snow (whether it stops light, and whether water replaces it)
"""
LIKE_WATER = """\
# Copper grates that are waterlogged have opacity 1; whether the game has 0 is not known for sure. Block light is the same by both.
"""

# ---------------------------------------------------------------- families

FAMILIES = {
    "COLOR": "white orange magenta light_blue yellow lime pink gray light_gray cyan purple blue brown green red black",
    "WOOD": "oak spruce birch jungle acacia dark_oak crimson warped mangrove@1.19 cherry@1.20 bamboo@1.20",
    "TREE": "oak spruce birch jungle acacia dark_oak cherry@1.20",
    "LEAF": "oak spruce birch jungle acacia dark_oak azalea flowering_azalea mangrove@1.19 cherry@1.20",
    "COPPER": "copper exposed_copper weathered_copper oxidized_copper "
              "waxed_copper waxed_exposed_copper waxed_weathered_copper waxed_oxidized_copper",
    "CUT": "cut_copper exposed_cut_copper weathered_cut_copper oxidized_cut_copper "
           "waxed_cut_copper waxed_exposed_cut_copper waxed_weathered_cut_copper waxed_oxidized_cut_copper",
    # stones that have slabs, stairs and walls
    "STONE": "cobblestone mossy_cobblestone stone_brick mossy_stone_brick granite diorite andesite sandstone red_sandstone brick "
             "nether_brick red_nether_brick end_stone_brick prismarine blackstone polished_blackstone polished_blackstone_brick "
             "cobbled_deepslate polished_deepslate deepslate_brick deepslate_tile mud_brick@1.19 tuff@1.21 polished_tuff@1.21 "
             "tuff_brick@1.21",
    # stones, and one wood, that have slabs and stairs alone
    "SMOOTH": "stone polished_granite polished_diorite polished_andesite smooth_sandstone smooth_red_sandstone quartz smooth_quartz "
              "purpur prismarine_brick dark_prismarine bamboo_mosaic@1.20",
    "CORAL": "tube brain bubble fire horn",
    "LOG": "oak spruce birch jungle acacia dark_oak mangrove@1.19 cherry@1.20",
    "NYLIUM": "crimson warped",
    "ORE": "coal iron copper gold lapis diamond emerald",
    "RAW": "iron copper gold",
    "MINERAL": "coal iron gold lapis diamond emerald redstone netherite",
    "INFESTED": "stone cobblestone stone_bricks mossy_stone_bricks cracked_stone_bricks chiseled_stone_bricks deepslate",
    "SAND": "sandstone red_sandstone",
    "ROCK": "granite diorite andesite",
    "SKULL": "skeleton wither_skeleton",
    "HEAD": "zombie player creeper dragon piglin@1.20",
    "FLOWER": "dandelion poppy blue_orchid allium azure_bluet red_tulip orange_tulip white_tulip pink_tulip oxeye_daisy cornflower "
              "lily_of_the_valley wither_rose torchflower@1.20",
    "FUNGUS": "red_mushroom brown_mushroom crimson_fungus warped_fungus crimson_roots warped_roots",
}

SLABS = "WOOD_slab STONE_slab SMOOTH_slab CUT_slab smooth_stone_slab cut_sandstone_slab cut_red_sandstone_slab petrified_oak_slab"

# ---------------------------------------------------------------- kinds


class Kind(typing.NamedTuple):
    """What a row says of a block. One that can be waterlogged has the opacity of water then."""
    open: bool
    floor: bool
    opacity: int
    soaks: bool = False
    wet: bool = False


KINDS = [
    # plants and what else water washes away
    (Kind(True, False, 0), """
        TREE_sapling FLOWER FUNGUS fern dead_bush grass@<1.20.3 short_grass@1.20.3 tall_grass large_fern sunflower lilac rose_bush peony
        spore_blossom pink_petals@1.20 pitcher_plant@1.20 pitcher_crop@1.20 torchflower_crop@1.20 wheat carrots potatoes beetroots
        pumpkin_stem melon_stem attached_pumpkin_stem attached_melon_stem nether_wart nether_sprouts sweet_berry_bush cocoa vine cave_vines
        cave_vines_plant weeping_vines weeping_vines_plant twisting_vines twisting_vines_plant lily_pad frogspawn@1.19 azalea
        flowering_azalea chorus_plant moss_carpet COLOR_carpet snow fire soul_fire torch wall_torch soul_torch soul_wall_torch
        redstone_torch redstone_wall_torch end_rod redstone_wire repeater comparator lever tripwire tripwire_hook WOOD_button stone_button
        polished_blackstone_button SKULL_skull SKULL_wall_skull HEAD_head HEAD_wall_head flower_pot potted_TREE_sapling potted_FLOWER
        potted_FUNGUS potted_fern potted_dead_bush potted_cactus potted_bamboo potted_azalea_bush potted_flowering_azalea_bush
        potted_mangrove_propagule@1.19 cave_air void_air"""),
    (Kind(True, False, 1), "chorus_flower"),
    (Kind(True, True, 0), "bamboo_sapling"),
    (Kind(True, True, 1), "cobweb"),
    # no floor, and water does not replace them
    (Kind(False, False, 0), "sugar_cane nether_portal end_portal structure_void"),
    (Kind(False, False, 1), "lava end_gateway"),
    (Kind(False, False, 1, wet=True), "kelp kelp_plant seagrass tall_seagrass bubble_column"),
    (Kind(False, False, 0, soaks=True), """
        rail powered_rail detector_rail activator_rail ladder scaffolding candle COLOR_candle CORAL_coral CORAL_coral_fan
        CORAL_coral_wall_fan sea_pickle glow_lichen hanging_roots big_dripleaf big_dripleaf_stem small_dripleaf
        mangrove_propagule@1.19 light heavy_core@1.21"""),
    # floors that are not full
    (Kind(False, True, 0, soaks=True), SLABS + """
        WOOD_stairs STONE_stairs SMOOTH_stairs CUT_stairs STONE_wall WOOD_fence nether_brick_fence iron_bars glass_pane
        COLOR_stained_glass_pane WOOD_trapdoor iron_trapdoor COPPER_trapdoor@1.21 COPPER_grate@1.21 chest trapped_chest ender_chest
        WOOD_sign WOOD_wall_sign WOOD_hanging_sign@1.20 WOOD_wall_hanging_sign@1.20 lantern soul_lantern chain campfire soul_campfire
        conduit lightning_rod amethyst_cluster large_amethyst_bud medium_amethyst_bud small_amethyst_bud pointed_dripstone sculk_sensor
        calibrated_sculk_sensor@1.20 sculk_shrieker@1.19 sculk_vein@1.19 decorated_pot@1.20 barrier@1.20 dead_CORAL_coral
        dead_CORAL_coral_fan dead_CORAL_coral_wall_fan"""),
    (Kind(False, True, 0), """
        barrier@<1.20 glass COLOR_stained_glass WOOD_door iron_door COPPER_door@1.21 WOOD_fence_gate WOOD_pressure_plate
        stone_pressure_plate polished_blackstone_pressure_plate light_weighted_pressure_plate heavy_weighted_pressure_plate COLOR_bed
        COLOR_banner COLOR_wall_banner cake candle_cake COLOR_candle_cake anvil chipped_anvil damaged_anvil brewing_stand cauldron
        water_cauldron lava_cauldron powder_snow_cauldron hopper composter enchanting_table lectern grindstone stonecutter bell
        daylight_detector dragon_egg turtle_egg sniffer_egg@1.20 end_portal_frame farmland dirt_path cactus bamboo piston sticky_piston
        piston_head moving_piston"""),
    (Kind(False, True, 1), """
        LEAF_leaves mangrove_roots@1.19 ice frosted_ice slime_block honey_block spawner trial_spawner@1.21 vault@1.21 beacon shulker_box
        COLOR_shulker_box"""),
    # full and opaque, and some give light
    (Kind(False, True, 15), """
        glowstone sea_lantern shroomlight jack_o_lantern ochre_froglight@1.19 verdant_froglight@1.19 pearlescent_froglight@1.19
        redstone_lamp furnace blast_furnace smoker crying_obsidian respawn_anchor redstone_ore deepslate_redstone_ore
        sculk_catalyst@1.19 magma_block COPPER_bulb@1.21"""),
    # full, opaque and dark
    (Kind(False, True, 15), """
        stone ROCK polished_ROCK grass_block dirt coarse_dirt rooted_dirt podzol mycelium mud@1.19 packed_mud@1.19 muddy_mangrove_roots@1.19
        clay gravel sand red_sand suspicious_sand@1.20 suspicious_gravel@1.20 SAND chiseled_SAND cut_SAND smooth_SAND cobblestone
        mossy_cobblestone bedrock obsidian smooth_stone stone_bricks mossy_stone_bricks cracked_stone_bricks chiseled_stone_bricks
        infested_INFESTED bricks mud_bricks@1.19 deepslate cobbled_deepslate polished_deepslate chiseled_deepslate deepslate_bricks
        cracked_deepslate_bricks deepslate_tiles cracked_deepslate_tiles reinforced_deepslate@1.19 tuff polished_tuff@1.21
        chiseled_tuff@1.21 tuff_bricks@1.21 chiseled_tuff_bricks@1.21 calcite dripstone_block amethyst_block budding_amethyst
        moss_block snow_block packed_ice blue_ice tinted_glass sculk@1.19
        ORE_ore deepslate_ORE_ore nether_gold_ore nether_quartz_ore ancient_debris MINERAL_block raw_RAW_block
        copper_block waxed_copper_block exposed_copper weathered_copper oxidized_copper waxed_exposed_copper waxed_weathered_copper
        waxed_oxidized_copper CUT chiseled_copper@1.21 exposed_chiseled_copper@1.21 weathered_chiseled_copper@1.21
        oxidized_chiseled_copper@1.21 waxed_chiseled_copper@1.21 waxed_exposed_chiseled_copper@1.21 waxed_weathered_chiseled_copper@1.21
        waxed_oxidized_chiseled_copper@1.21
        WOOD_planks bamboo_mosaic@1.20 LOG_log LOG_wood stripped_LOG_log stripped_LOG_wood NYLIUM_stem NYLIUM_hyphae stripped_NYLIUM_stem
        stripped_NYLIUM_hyphae bamboo_block@1.20 stripped_bamboo_block@1.20 bookshelf chiseled_bookshelf@1.20
        COLOR_wool COLOR_terracotta terracotta COLOR_glazed_terracotta COLOR_concrete COLOR_concrete_powder
        netherrack soul_sand soul_soil basalt polished_basalt smooth_basalt blackstone gilded_blackstone polished_blackstone
        chiseled_polished_blackstone polished_blackstone_bricks cracked_polished_blackstone_bricks NYLIUM_nylium nether_wart_block
        warped_wart_block nether_bricks cracked_nether_bricks chiseled_nether_bricks red_nether_bricks quartz_block
        chiseled_quartz_block quartz_pillar quartz_bricks smooth_quartz bone_block lodestone
        end_stone end_stone_bricks purpur_block purpur_pillar prismarine prismarine_bricks dark_prismarine sponge wet_sponge
        CORAL_coral_block dead_CORAL_coral_block dried_kelp_block pumpkin carved_pumpkin melon hay_block honeycomb_block bee_nest
        beehive brown_mushroom_block red_mushroom_block mushroom_stem
        crafting_table smithing_table fletching_table cartography_table loom barrel jukebox note_block tnt target dispenser dropper
        observer crafter@1.21 command_block chain_command_block repeating_command_block structure_block jigsaw"""),
]

# States that stop all light, where the others of their blocks do not.
OPAQUE = [(SLABS, "type=double"), ("snow", "layers=8"), ("piston sticky_piston", "extended=false")]

# ---------------------------------------------------------------- light

FACES = "down up north south west east".split()

# What blocks give, or what their states do; their other states give none.
LIGHTS = [
    ("lava fire conduit beacon end_portal end_gateway lava_cauldron lantern glowstone sea_lantern shroomlight jack_o_lantern "
     "ochre_froglight verdant_froglight pearlescent_froglight", 15),
    ("torch wall_torch end_rod", 14),
    ("nether_portal", 11),
    ("soul_fire soul_torch soul_wall_torch soul_lantern crying_obsidian", 10),
    ("ender_chest enchanting_table", 7),
    ("sculk_catalyst", 6),
    ("amethyst_cluster", 5),
    ("large_amethyst_bud", 4),
    ("magma_block", 3),
    ("medium_amethyst_bud", 2),
    ("small_amethyst_bud brewing_stand brown_mushroom dragon_egg end_portal_frame sculk_sensor calibrated_sculk_sensor", 1),
    ("redstone_lamp campfire copper_bulb waxed_copper_bulb", {"lit=true": 15}),
    ("furnace blast_furnace smoker", {"lit=true": 13}),
    ("exposed_copper_bulb waxed_exposed_copper_bulb", {"lit=true": 12}),
    ("soul_campfire", {"lit=true": 10}),
    ("redstone_ore deepslate_redstone_ore", {"lit=true": 9}),
    ("weathered_copper_bulb waxed_weathered_copper_bulb", {"lit=true": 8}),
    ("redstone_torch redstone_wall_torch", {"lit=true": 7}),
    ("oxidized_copper_bulb waxed_oxidized_copper_bulb", {"lit=true": 4}),
    ("candle_cake COLOR_candle_cake", {"lit=true": 3}),
    ("candle COLOR_candle", {"candles=%d,lit=true" % n: 3 * n for n in range(1, 5)}),
    ("sea_pickle", {"pickles=%d,waterlogged=true" % n: 3 + 3 * n for n in range(1, 5)}),
    ("cave_vines cave_vines_plant", {"berries=true": 14}),
    ("glow_lichen", {"%s=true" % face: 7 for face in FACES}),
    ("respawn_anchor", {"charges=1": 3, "charges=2": 7, "charges=3": 11, "charges=4": 15}),
    ("light", {"level=%d" % n: n for n in range(1, 16)}),
    ("trial_spawner", {"trial_spawner_state=waiting_for_players": 4, "trial_spawner_state=active": 8,
                       "trial_spawner_state=waiting_for_reward_ejection": 8, "trial_spawner_state=ejecting_reward": 8}),
    ("vault", {"vault_state=inactive": 6, "vault_state=active": 12, "vault_state=unlocking": 12, "vault_state=ejecting": 12}),
]

# ---------------------------------------------------------------- rows


def words(text, version):
    """The words that a version has."""
    for word in text.split():
        name, _, bound = word.partition("@")
        if not bound or bound.startswith("<") != (ORDER.index(version) >= ORDER.index(bound.lstrip("<"))):
            yield name


def names(text, version):
    for word in words(text, version):
        family = re.search("[A-Z]+", word)
        for member in words(FAMILIES[family[0]], version) if family else [""]:
            yield word.replace(family[0], member) if family else word


def by_name(pairs, version):
    """What each name has. None may have two."""
    found = {}
    for text, value in pairs:
        for name in names(text, version):
            if name in found:
                sys.exit("%s is given twice" % name)
            found[name] = value
    return found


def properties_of(text):
    return dict(pair.split("=") for pair in text.split(",") if pair)


class Row(typing.NamedTuple):
    properties: dict
    opacity: int
    emission: int


def rows(kind, opaque, light):
    """The rows of a block. The first that fits a state counts."""
    if opaque is not None:
        yield Row(properties_of(opaque), 15, 0)
    cases = light if isinstance(light, dict) else {"": light}
    for text, emission in (cases if "" in cases else {**cases, "": 0}).items():
        properties = properties_of(text)
        if kind.soaks and "waterlogged" in properties:
            yield Row(properties, 1, emission)
        elif kind.soaks:
            yield Row({**properties, "waterlogged": "true"}, 1, emission)
            yield Row(properties, kind.opacity, emission)
        else:
            yield Row(properties, kind.opacity, emission)


def line(name, kind, row):
    """A row as TOML. Properties and wet stand only where they say something."""
    properties = ", ".join('%s = "%s"' % pair for pair in sorted(row.properties.items()))
    parts = ['name = "minecraft:%s"' % name, *(["properties = {%s}" % properties] if properties else []),
             *(["wet = true"] if kind.wet else []), "open = %s" % str(kind.open).lower(), "floor = %s" % str(kind.floor).lower(),
             "opacity = %d" % row.opacity, "emission = %d" % row.emission]
    return "  {%s},\n" % ", ".join(parts)


def table(version):
    kinds = by_name([(text, kind) for kind, text in KINDS], version)
    opaque, lights = by_name(OPAQUE, version), by_name(LIGHTS, version)
    if version == ORDER[-1] and not kinds.keys() >= {*opaque, *lights}:
        sys.exit("without a kind: %s" % ", ".join(sorted({*opaque, *lights} - kinds.keys())))
    lines = [line(name, kind, row) for name, kind in sorted(kinds.items())
             for row in rows(kind, opaque.get(name), lights.get(name, 0))]
    end = LEFT_OUT + (LIKE_WATER if "copper_grate" in kinds else "")
    return HEAD % VERSIONS[version] + "".join(lines) + "]\n" + end


def main():
    if sys.argv[1:] not in ([], ["--check"]):
        sys.exit(__doc__)
    folder = os.path.join(os.path.dirname(os.path.abspath(__file__)), os.pardir, "tables")
    made = {"java-%s.toml" % version: table(version).encode() for version in VERSIONS}
    if not sys.argv[1:]:
        for name, content in made.items():
            with open(os.path.join(folder, name), "wb") as file:
                file.write(content)
        return
    held = {name: open(os.path.join(folder, name), "rb").read() for name in os.listdir(folder) if name.startswith("java-")}
    wrong = sorted(name for name in {*made, *held} if made.get(name) != held.get(name))
    for name in wrong:
        print("tables/%s is not what scripts/make_tables.py writes" % name)
    print("%d tables, %d wrong" % (len(made), len(wrong)))
    sys.exit(1 if wrong else 0)


if __name__ == "__main__":
    main()
