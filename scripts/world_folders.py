"""What the name of a world means: its folder of region files; and where such files are, in case that the named folder has none."""
import contextlib
import os
import pathlib
import typing

from chunk_data import Refused, Unread
from region_files import Region, opened, places
from world_faults import Problem

LEVEL, SESSION = "level.dat", "session.lock"
# Where the game keeps a world's dimensions, each in one of these folders.
DIMENSIONS = {"overworld": ("", "dimensions/minecraft/overworld"), "nether": ("DIM-1", "dimensions/minecraft/the_nether"),
              "end": ("DIM1", "dimensions/minecraft/the_end")}
# What some servers name the worlds of a world's Nether and End by.
BESIDE = "_nether", "_the_end"
# Folders that have files of a region's name without blocks, by their names.
OTHERS = {"entities": "entities", "poi": "points of interest"}
# How far below a folder region files are looked for, and in how many folders; and how many are named.
DEPTH, MOST_FOLDERS, NAMED = 5, 2000, 4


class World(typing.NamedTuple):
    """A folder of region files, by its real path, and the folders of the worlds that it may be of."""
    region: str
    tops: list

    @property
    def parent(self):
        return os.path.dirname(self.region)

    @property
    def name(self):
        return os.path.basename(self.region)

    @property
    def mark(self):
        """How the names of this command's own files begin, which are beside the folder."""
        return ".anvilwater-%s." % self.name

    def beside(self, ending):
        return os.path.join(self.parent, self.mark + ending)


# ---------------------------------------------------------------- names


def find_world(named):
    """What a name means: a world or a dimension, which has a folder region, or a folder of region files."""
    inner, has_files = os.path.join(named, "region"), bool(places(named))
    has_inner = os.path.isdir(inner)
    if has_inner and has_files:
        raise Problem("%s has region files and a folder region; name the one that is meant" % named)
    if has_inner and not places(inner):
        raise Problem("%s has no region files r.X.Z.mca%s" % (inner, elsewhere(named)))
    if not has_inner and not has_files:
        raise Problem("%s is no world, which has a folder region, and no folder of region files r.X.Z.mca%s" % (named, elsewhere(named)))
    region = os.path.realpath(inner if has_inner else named)
    if kind := others_in(region):
        raise Problem("%s is a folder of %s, which has no blocks%s" % (region, kind, elsewhere(region)))
    if os.path.ismount(region):
        raise Problem("%s is where a file system is mounted, so that nothing of it is beside the folder" % region)
    return World(region, tops([*ways(os.path.abspath(inner if has_inner else named)), region]))


def find_worlds(named, dimension):
    """The folders of a world's dimensions that are meant. Of all those are left out that have no region files."""
    if dimension is None:
        return [find_world(named)]
    os.listdir(named)
    wanted = DIMENSIONS if dimension == "all" else [dimension]
    paths = [os.path.join(named, folder) for name in wanted for folder in DIMENSIONS[name]]
    if dimension == "all":
        known = {os.path.join(named, folder) for folders in DIMENSIONS.values() for folder in folders}
        paths += [path for path in map(os.path.dirname, below(os.path.join(named, "dimensions"))) if path not in known]
    found = [path for path in paths if has_regions(os.path.join(path, "region"))]
    if not found:
        raise Problem("%s has no region files of %s%s" % (named, "any dimension" if dimension == "all" else "the dimension " + dimension,
                                                          elsewhere(named)))
    return [find_world(path) for path in found]


def has_regions(folder):
    with contextlib.suppress(OSError):
        return bool(places(folder))
    return False


def upwards(path):
    return [path, *map(str, pathlib.PurePath(path).parents)]


def ways(path):
    """A path, and each that it becomes as its links are followed."""
    found, waiting = [], [path]
    while waiting:
        path = waiting.pop()
        if path not in found:
            found.append(path)
            links = [folder for folder in upwards(path) if os.path.islink(folder)]
            waiting += [os.path.normpath(os.path.join(os.path.realpath(os.path.dirname(link)), os.readlink(link), os.path.relpath(path, link)))
                        for link in links]
    return found


def tops(paths):
    """The folders of worlds that these paths lie in: above each, the nearest that has a file of a world, and all that have both."""
    found = set()
    for path in paths:
        has = [[os.path.lexists(os.path.join(folder, name)) for name in (LEVEL, SESSION)] for folder in upwards(path)]
        nearest = next((number for number, files in enumerate(has) if any(files)), None)
        found |= {os.path.realpath(folder) for number, folder in enumerate(upwards(path)) if number == nearest or all(has[number])}
    return sorted(found)


# ---------------------------------------------------------------- wrong names


def others_in(folder):
    """What else than blocks the files of a folder have, by the first chunk that can be read, or where there is none by the folder's name."""
    for place in sorted(places(folder)):
        with contextlib.suppress(OSError, Refused), opened(os.path.join(folder, place.name)) as file:
            region = Region(folder, place, file)
            for index in filter(region.locations.__getitem__, range(1024)):
                with contextlib.suppress(Unread):
                    return kind_of(region.plain(index, *region.record(index)))
    return OTHERS.get(os.path.basename(folder))


def kind_of(payload):
    """What a chunk is of that has no blocks: an Int Array and a List by which those of entities are known, or a Compound."""
    if b"\x0b\x00\x08Position" in payload and b"\x09\x00\x08Entities" in payload and b"\x08\x00\x06Status" not in payload:
        return OTHERS["entities"]
    return OTHERS["poi"] if b"\x0a\x00\x08Sections" in payload and b"xPos" not in payload else None


def elsewhere(named):
    """Which folders have region files, below a folder and those of its dimensions that servers keep beside it, or else above it, as the end of a
    line."""
    path = os.path.abspath(named)
    found = below(named) + [one for ending in BESIDE for one in below(path + ending)]
    found = found or [one for one in (os.path.join(folder, "region") for folder in upwards(path)[1:4]) if has_regions(one)]
    if not found:
        return ""
    more = " and %d more" % (len(found) - NAMED) if len(found) > NAMED else ""
    return "; region files are in %s%s" % (", ".join(found[:NAMED]), more)


def below(named):
    """The folders below one that have region files with blocks, but for those of this command."""
    found, depth = [], named.rstrip(os.sep).count(os.sep)
    for number, (folder, names, _) in enumerate(os.walk(named)):
        if number == MOST_FOLDERS:
            break
        names[:] = sorted(name for name in names if ".before-" not in name and not name.startswith(".anvilwater-") and name not in OTHERS)
        if folder.count(os.sep) - depth >= DEPTH:
            names.clear()
        if folder != named and has_regions(folder) and not others_in(folder):
            found.append(folder)
    return found
