"""The steps of anvilwater-world over the regions of a piece: made plain, looked at, packed; and what is told of their chunks."""
import argparse
import contextlib
import os
import typing

import worlds
from region_files import Place, Region, opened
from world_faults import Problem
from world_program import Refused

# What `states` says of a state that the table doesn't know.
NO_ROW = "no row"
# The Ints of a chunk that are its coordinates.
COORDINATES = b"\x03\x00\x04xPos", b"\x03\x00\x04zPos"


class Bad(typing.NamedTuple):
    """What is wrong with a chunk, or where there is no index with a file: the fault's number or None, its name, and the cause; and of a chunk that
    says other coordinates than those of its place these."""
    place: Place
    index: typing.Optional[int]
    fault: typing.Optional[int]
    name: typing.Optional[str]
    cause: str
    found: typing.Optional[tuple] = None

    def text(self, ending="", folder=""):
        if self.index is None:
            cause = self.cause if self.cause.startswith(self.place.name) else "%s: %s" % (self.place.name, self.cause)
            return os.path.join(folder, cause) + ending
        fault = "" if self.fault is None else " fault %02d: %s" % (self.fault, self.name)
        where = "" if self.found is None else ", it says %d %d" % self.found
        return "%s %d %d%s: %s%s%s" % (os.path.join(folder, self.place.name), *self.place.chunk(self.index), fault, self.cause, where, ending)

    def fields(self, folder, kind):
        return {"kind": kind, "path": os.path.join(folder, self.place.name), "chunk": None if self.index is None else self.place.chunk(self.index),
                "fault": self.fault, "name": self.name, "cause": self.cause, "found": self.found}


def converted(words, found, progress, name):
    """The reports on files that are made plain or packed."""
    progress.begin(name, len(found))
    with contextlib.closing(worlds.reports(words, found)) as reports:
        for report in reports:
            yield report
    progress.end()


def plain_words(source, target, picked):
    return argparse.Namespace(way="plain", source=source, target=target, like=None, picked=picked)


def packed_words(source, target, like):
    return argparse.Namespace(way="packed", source=source, target=target, like=like, picked={})


def unread_of(report):
    """The chunks that are left out of a plain file."""
    return [Bad(report.place, index, None, None, str(why)) for index, why in report.unread]


def faults_of(program, folder):
    """The chunks of plain files that have a fault."""
    return [Bad(found.place, found.index, found.fault, found.name, found.cause, says(folder, found) if found.fault == 13 else None)
            for found in program.check(folder)]


def says(folder, finding):
    """The coordinates that a chunk itself says."""
    with opened(os.path.join(folder, finding.place.name)) as file:
        region = Region(folder, finding.place, file)
        payload = region.record(finding.index)[1]
    found = [payload.find(name) + len(name) for name in COORDINATES]
    return tuple(int.from_bytes(payload[at:at + 4], "big", signed=True) for at in found)


def states_of(program, folder):
    """How many blocks of plain files have each state, and its row of the table, or `no row`."""
    status, printed = program.called(["states", "--in", folder, "--table", program.table])
    if status > 0:
        raise Refused(status)
    for line in os.fsdecode(printed).splitlines():
        count, rest = line.split(" ", 1)
        state, *row = rest.rsplit(" ", 2) if rest.endswith(" " + NO_ROW) else rest.rsplit(" ", 5)
        yield int(count), state, " ".join(row)


def leave_out(folder, bad):
    """Takes chunks out of plain files, as if they were not there."""
    for chunk in bad:
        with open(os.path.join(folder, chunk.place.name), "r+b") as file:
            file.seek(4 * chunk.index)
            file.write(bytes(4))


def made(report):
    """Refuses a file that could not be made."""
    if not report.counts["regions"]:
        raise Problem(report.lines[-1])
    return report
