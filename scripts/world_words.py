"""The words of anvilwater-world: a verb and what it is given, or none, which sets edits, runs ticks and lights."""
import argparse
import os
import re

import worlds
from world_folders import DIMENSIONS

TOP = os.path.dirname(os.path.dirname(os.path.abspath(__file__)))
# What a call without a verb is told of itself.
WHOLE = """Works on worlds of Minecraft as the game keeps them, in place.

    anvilwater-world light WORLD     lights it anew
    anvilwater-world run WORLD       sets edits and runs the ticks of water, and lights it
    anvilwater-world undo WORLD      brings the old files back
    anvilwater-world check WORLD     names what is wrong with its chunks
    anvilwater-world states WORLD    counts its blocks by their states
    anvilwater-world map WORLD       draws it from above
    anvilwater-world block WORLD X Y Z

VERB --help says more of each. Without a verb a call does what `run` does, without --edits and --ticks what `light` does; a world whose folder
has a verb's name is ./NAME.

WORLD is a world's folder or a dimension's (world, world/DIM-1), whose folder `region` is taken, or a folder of region files
r.X.Z.mca itself. Its chunks may have any compression. The game must not have the world open, and can't open it meanwhile.

The region files are made plain in a working folder beside them, the program sets the edits, runs the ticks and lights all chunks, and
what it wrote is packed as it was before. Then each file that changed takes the place of the old one by a rename; the old files come
to the folder of --backup, by default one beside the region files that is named with date and time. `undo` brings them back.

A world that is only lit, and that two thirds of the free memory don't hold, or that has more than 1,024 files, is lit in pieces, to the
same light; one in which edits are set or ticks run is refused where there is not half of the memory that it takes. --memory names how
much the program may take; one region it always takes.

A chunk that can't be read, or is too large for the program, is named, counts as not loaded, and stays as it was. One that can be read and is
none of this layout, and a file that can't be taken there and back, end the call, which names all of them, and the world is as it was; --skip-bad
leaves these as they are too. A call that was interrupted while files took their places is finished by the next one, which then does nothing
else, and keeps the old files beside the region files unless it names the same --backup.

""" + """Status 0: all was done; 1: nothing was, and a line says why; 2: other words are needed; 3: the program can't be built; 4: all was done,
but for chunks that stayed as they were, were left out or have a fault, and lines name them; 5: the game, or another call, has the world, and
the same call may do later; 128 and the signal's number after INT, TERM or HUP.
"""
STATUSES = "Status 0: done; 1: nothing done; 4: done but for what is named; 5: in use."


def number(least, most):
    def read(text):
        if not text.isdecimal() or not least <= int(text) <= most:
            raise argparse.ArgumentTypeError("%r is no number from %d to %d" % (text, least, most))
        return int(text)
    return read


def one_of(*names):
    def read(text):
        if text not in names:
            raise argparse.ArgumentTypeError("%r is none of %s" % (text, ", ".join(names)))
        return text
    return read


def coordinate(text):
    if not re.fullmatch("-?[0-9]{1,10}", text) or not -1 << 31 <= int(text) < 1 << 31:
        raise argparse.ArgumentTypeError("%r is no number of 32 bits" % text)
    return int(text)


# ---------------------------------------------------------------- each verb


class Verb:
    """What a verb does, in a line, an example, and what it adds of words."""

    def __init__(self, does, example, *parts):
        self.does, self.example, self.parts = does, example, parts


def any_call(parser):
    parser.add_argument("world", metavar="WORLD", help="folder of a world, a dimension or region files")
    parser.add_argument("--program", metavar="FILE", default=os.path.join(TOP, "anvilwater"), help=argparse.SUPPRESS)
    parser.add_argument("--progress", action="store_true", help="says how far it is")
    parser.add_argument("--explain", action="store_true", help="says where a fault of the program is")


def dimension(parser):
    parser.add_argument("--dimension", type=one_of(*DIMENSIONS, "all"), metavar="NAME", help="overworld, nether, end or all of a world")


def table(parser):
    parser.add_argument("--table", metavar="FILE", help="block table; else that of the game's version")


def changing(parser):
    parser.add_argument("--workers", metavar="N", type=number(1, 8), default=min(8, worlds.processors()),
                        help="threads, 1 to 8; else one for each processor")
    parser.add_argument("--memory", metavar="MIB", type=number(1, 1 << 24), help="memory that the program may take; else what is free")
    parser.add_argument("--backup", metavar="FOLDER", help="a new folder for the old files; else beside region")
    parser.add_argument("--skip", metavar="r.X.Z.mca", action="append", default=[], help="leaves this file as it is; may be repeated")
    parser.add_argument("--skip-bad", action="store_true", help="leaves bad chunks and files as they are")


def edits(parser):
    parser.add_argument("--edits", metavar="FILE", help="blocks to be set (docs/FORMATS.md); - is standard input")
    parser.add_argument("--ticks", metavar="N", type=number(0, 1_000_000), help="ticks to be run; 0 without --edits")
    parser.add_argument("--allow-unknown", action="store_true", help="sets states too that are not known")
    parser.add_argument("--skip-outside", action="store_true", help="leaves out edits where no chunk is loaded")


def as_json(parser):
    parser.add_argument("--json", action="store_true", help="an object a line (docs/FORMATS.md)")


def coordinates(parser):
    for name in "XYZ":
        parser.add_argument(name.lower(), metavar=name, type=coordinate, help="coordinate of the block")


def picture(parser):
    parser.add_argument("--out", metavar="FILE", help="the picture, a PNG file")
    parser.add_argument("--tiles", metavar="FOLDER", help="instead a new folder: a picture of each region, and a page")
    parser.add_argument("--light", action="store_true", help="block light over the highest blocks")
    parser.add_argument("--colours", metavar="FILE", help="table of colours (docs/FORMATS.md)")


def old_files(parser):
    parser.add_argument("--from", metavar="FOLDER", dest="old", help="folder of old files; else the newest beside region")


VERBS = {
    "light": Verb("Lights all chunks anew, and keeps the old files.", "light saves/world --dimension all", dimension, table, changing, as_json),
    "run": Verb("Sets edits, runs ticks of water and lights all chunks, and keeps the old files.", "run saves/world --edits edits.txt --ticks 20",
                edits, dimension, table, changing, as_json),
    "undo": Verb("Brings back the old files that light or run kept, where no file changed since.\nWhat they replace is kept in their stead, so that a "
                 "second undo does it again.", "undo saves/world", old_files, dimension),
    "check": Verb("Names each file and each chunk that is wrong, and why. Nothing is changed.", "check saves/world", dimension, table, as_json),
    "states": Verb("Counts the blocks of each state, and says which row of the table it gets.", "states saves/world", dimension, table, as_json),
    "map": Verb("Draws the world from above, a pixel for each column of blocks.", "map saves/world --out world.png",
                picture, dimension, table),
    "block": Verb("Prints the state of a block, or `unloaded`.", "block saves/world 8 -60 8", coordinates, dimension, table),
}


class Parser(argparse.ArgumentParser):
    def __init__(self, **given):
        width = lambda prog: argparse.RawDescriptionHelpFormatter(prog, max_help_position=22, width=80)
        super().__init__(allow_abbrev=False, formatter_class=width, add_help=False, **given)


def parser_of(name):
    verb = VERBS[name]
    parser = Parser(prog="anvilwater-world " + name, description=verb.does, epilog="Example: anvilwater-world %s\n%s" % (verb.example, STATUSES),
                    usage="anvilwater-world %s WORLD%s [OPTIONS]" % (name, " X Y Z" * (name == "block")))
    group = parser.add_argument_group("words")
    group.add_argument("-h", "--help", action="help", help=argparse.SUPPRESS)
    for part in (any_call, *verb.parts):
        part(group)
    return parser


def parser_without_verb():
    parser = argparse.ArgumentParser(prog="anvilwater-world", description=WHOLE, allow_abbrev=False,
                                     formatter_class=argparse.RawDescriptionHelpFormatter)
    for part in (any_call, edits, dimension, table, changing, as_json):
        part(parser)
    return parser


NOTHING_GIVEN = {"edits": None, "ticks": None, "backup": None, "skip": [], "skip_bad": False, "json": False, "dimension": None, "table": None,
                 "allow_unknown": False, "skip_outside": False, "memory": None, "workers": 1}


def words_read(given):
    """The words, with what the verb doesn't know as if it was not given."""
    verb = given[0] if given and given[0] in VERBS else None
    parser = parser_of(verb) if verb else parser_without_verb()
    if verb is None and len(given) > 1 and not given[0].startswith("-") and not given[1].startswith("-") and not os.path.lexists(given[0]):
        parser.error("%s is no verb, and there is no such world; verbs are %s" % (given[0], ", ".join(VERBS)))
    words = parser.parse_args(given[1:] if verb else given)
    for name, value in NOTHING_GIVEN.items():
        vars(words).setdefault(name, value)
    words.verb = verb or "run"
    if words.verb == "map" and (words.out is None) == (words.tiles is None):
        parser.error("one of --out and --tiles is to be given")
    if words.edits is not None and words.ticks is None:
        parser.error("--edits needs --ticks N, since each edit is set in one of the run's ticks")
    if words.backup is not None and words.dimension == "all":
        parser.error("--backup names one folder, and --dimension all needs one for each")
    if words.dimension == "all" and (words.edits is not None or words.verb in ("map", "block")):
        parser.error("%s of one dimension, which --dimension is to name" % ("edits are" if words.edits is not None else "a %s is" % words.verb))
    return words
