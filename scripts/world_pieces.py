"""The pieces in which a world is lit that memory does not hold whole.

Light goes 14 blocks at most. So what lights a region lies in it and in the chunks of others that touch it, and regions that are lit
beside these chunks alone get the light that they have in the whole world. Water goes further, so a run of ticks or edits has one piece.
"""
import contextlib
import itertools
import os
import pathlib
import typing

from region_files import Place
from world_faults import Problem
from world_places import MIB, Size

# About what a run without ticks takes: beside its regions, for each plain byte of them, and for each chunk, which is written with the light
# of 24 sections. It is somewhat more than was measured (docs/BENCHMARKS.md).
BESIDE, PER_BYTE, PER_CHUNK = 160 * MIB, 2.5, 130 * 1024
# What a system has free that does not say how much.
UNKNOWN = 1 << 62
# The files that the program takes, and so many regions that with the eight round each there are no more.
MOST_FILES, MOST_REGIONS = 1024, 100
# Which chunks of a region touch the one from which it is reached by this step along an axis.
TOUCHING = {-1: (31,), 0: range(32), 1: (0,)}


class Piece(typing.NamedTuple):
    """Regions, in order, the chunks of others that touch them, as indices by region, and the size of all."""
    own: list
    beside: dict
    size: Size


def divided(sizes, named, is_lit_alone):
    """The pieces of a world, by the sizes of its regions and the bytes of memory that the call names, or None. A world that is lit alone
    gets two thirds of the free memory, and a piece has one region at least."""
    memory = named or free_memory()
    whole = Piece(sorted(sizes), {}, total(sizes.values()))
    if not is_lit_alone:
        check_whole(whole, memory)
        return [whole]
    share = named or memory * 2 // 3
    if len(sizes) <= MOST_FILES and needed(whole.size) <= share:
        return [whole]
    return [piece_of(own, sizes) for own in groups(whole.own, sizes, share)]


def total(sizes):
    return Size(*map(sum, zip(Size(0, 0), *sizes)))


def needed(size):
    """About how much memory the program takes for regions of this size."""
    return BESIDE + int(PER_BYTE * size.plain) + PER_CHUNK * size.chunks


def check_whole(whole, memory):
    """Refuses a run of ticks or edits that has more files than the program takes, or for which there is not half the memory."""
    count, bytes_needed = len(whole.own), needed(whole.size)
    if count > MOST_FILES:
        raise Problem("there are %d region files, and the program takes %d where there are ticks or edits; nothing is done" % (count, MOST_FILES))
    if memory < bytes_needed // 2:
        raise Problem("there are %d MiB of memory, and about %d MiB are needed; --memory names more; nothing is done" % (
            memory // MIB, bytes_needed // MIB))


def groups(ordered, sizes, memory):
    """Regions in their order, as many at once as memory holds, and one at least."""
    found = []
    for place in ordered:
        if not found or len(found[-1]) == MOST_REGIONS or needed(piece_of([*found[-1], place], sizes).size) > memory:
            found.append([])
        found[-1].append(place)
    return found


def piece_of(own, sizes):
    beside = touching(own, sizes)
    return Piece(own, beside, total([*(sizes[place] for place in own), *(sizes[place].of(len(indices)) for place, indices in beside.items())]))


def touching(own, places):
    """The chunks of other regions that touch these."""
    found = {}
    for place, dz, dx in itertools.product(own, TOUCHING, TOUCHING):
        other = Place(place.z + dz, place.x + dx)
        if other in places and other not in own:
            found.setdefault(other, set()).update(32 * z + x for z in TOUCHING[dz] for x in TOUCHING[dx])
    return {place: sorted(indices) for place, indices in found.items()}


# ---------------------------------------------------------------- memory

# How a line of /proc/self/cgroup names the group that limits memory, where it is, and the files that tell what it has: the limit, what is
# used, and of that the pages of files, which can be given back. The second version has one tree for all, the first one for memory.
VERSIONS = (("", "", "memory.max", "memory.current", ("active_file", "inactive_file")),
            ("memory", "memory", "memory.limit_in_bytes", "memory.usage_in_bytes", ("total_active_file", "total_inactive_file")))


def free_memory(top="/"):
    """How many bytes the system says that it can give, or fewer where a control group, as of a container, has less left."""
    return min([available(top), *left_in_groups(top)])


def available(top):
    with contextlib.suppress(OSError, ValueError, KeyError):
        return 1024 * int(second_words(os.path.join(top, "proc/meminfo"))["MemAvailable:"])
    return UNKNOWN


def left_in_groups(top):
    """What each control group that this process is in has left, where it has a limit."""
    found = []
    with contextlib.suppress(OSError, ValueError):
        for line in pathlib.Path(top, "proc/self/cgroup").read_text(errors="surrogateescape").splitlines():
            _, controllers, name = line.split(":", 2)
            for controller, tree, *files in VERSIONS:
                if controller in controllers.split(","):
                    path = pathlib.PurePath(name.lstrip("/"))
                    found += [left_in(os.path.join(top, "sys/fs/cgroup", tree, group), *files) for group in (path, *path.parents)]
    return found


def left_in(group, limit, used, given_back):
    with contextlib.suppress(OSError, ValueError, KeyError):
        most, now = (int(pathlib.Path(group, name).read_text()) for name in (limit, used))
        pages = second_words(os.path.join(group, "memory.stat"))
        return most - now + sum(int(pages[name]) for name in given_back)
    return UNKNOWN


def second_words(path):
    """The second word of each line of a file, by the first."""
    with open(path, errors="surrogateescape") as file:
        return {words[0]: words[1] for words in map(str.split, file) if len(words) > 1}
