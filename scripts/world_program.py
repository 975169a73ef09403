"""The program, as anvilwater-world calls it."""
import contextlib
import ctypes
import filecmp
import os
import re
import signal
import subprocess
import typing

from region_files import Place
from stops import STOPS, heeded, held
from world_faults import Problem
from world_tables import SHORT, heights_of


class Refused(Exception):
    """The program refused, and said why."""


class TooLarge(Exception):
    """The program refused a chunk, by its coordinates, which light makes larger than a region holds."""


LIBRARY, DEATH_SIGNAL = ctypes.CDLL(None), 1
# A line of `check` of a chunk.
FINDING = re.compile(r"r\.(-?[0-9]+)\.(-?[0-9]+)\.mca (-?[0-9]+) (-?[0-9]+) fault ([0-9]+): (.*)")
TOO_LARGE = re.compile(rb"fault 24: ChunkTooLarge (-?[0-9]+) (-?[0-9]+)\n")
# What the faults of a chunk mean that can be read.
CAUSES = {10: "its bytes are no NBT document", 11: "it has the layout before 1.18", 12: "a tag that it needs is missing or of another kind",
          13: "its own coordinates are not those of its place", 14: "a section's palette is of another form",
          15: "a section's indices are too few, too many or not in the palette",
          16: "a fluid tick names no fluid, or is of water outside the chunk or the height", 17: "water has a level that is none",
          24: "light makes it larger than a region holds"}


class Finding(typing.NamedTuple):
    """A chunk with a fault of the program."""
    place: Place
    index: int
    fault: int
    name: str

    @property
    def cause(self):
        return CAUSES.get(self.fault, self.name)


def end_with_caller():
    """Has the system end the program where this command is killed, which then can't. Signals are heeded in it."""
    LIBRARY.prctl(DEATH_SIGNAL, signal.SIGTERM)
    signal.pthread_sigmask(signal.SIG_UNBLOCK, STOPS)


class Program:
    """The program, with the words of the call and what it reads of them, which is copied, since a pipe can be read once."""

    def __init__(self, words, work, table, edits=b""):
        self.path, self.workers = os.path.abspath(words.program), str(words.workers)
        self.table, self.edits, self.given = os.path.join(work, "table"), os.path.join(work, "edits"), words.edits
        self.heights, self.table_name = heights_of(table.text), table.name or SHORT
        self.strict, self.explain = ["--strict"] * table.is_strict, ["--explain"] * words.explain
        for path, text in ((self.table, table.text), (self.edits, edits)):
            with open(path, "xb") as file:
                file.write(text)

    def edits_given(self):
        """The file of edits, which is that of the user where it still has what was judged, so that a fault names it."""
        path = os.path.realpath(self.given or os.devnull)
        with contextlib.suppress(OSError):
            # What /dev/stdin leads to is of this process.
            if not path.startswith(("/dev/", "/proc/")) and os.path.isfile(path) and filecmp.cmp(path, self.edits, shallow=False):
                return path
        return self.edits

    def called(self, words, **streams):
        """The status of the program with these words, and what it prints on its streams. Where no stream is given its other lines go where those of
        this command go."""
        with held(), subprocess.Popen([self.path, *words], stdin=subprocess.DEVNULL, stdout=subprocess.PIPE, start_new_session=True,
                                      preexec_fn=end_with_caller, **streams) as process:
            try:
                with heeded():
                    printed, self.told = process.communicate()
            except BaseException:
                with contextlib.suppress(ProcessLookupError):
                    os.killpg(process.pid, signal.SIGTERM)
                raise
        if process.returncode < 0:
            raise Problem("the program was ended by signal %d; nothing is done" % -process.returncode)
        return process.returncode, printed

    def run(self, source, target, edits, ticks, **streams):
        """What a run prints. Of a chunk that becomes too large nothing is told where its other lines are taken."""
        # This command holds session.lock itself.
        status, printed = self.called(["run", "--in", source, "--out", target, "--table", self.table, "--edits", edits, "--ticks", str(ticks),
                                       "--workers", self.workers, "--in-use", *self.strict, *self.explain], **streams)
        if self.told and (found := TOO_LARGE.search(self.told)):
            raise TooLarge(int(found[1]), int(found[2]))
        if self.told:
            os.write(2, self.told)
        if status > 0:
            raise Refused(status)
        return os.fsdecode(printed.rstrip(b"\n"))

    def build(self):
        """Has it proved and built, where it is not."""
        status, _ = self.called(["--version"])
        if status > 0:
            raise Refused(status)

    def check(self, folder):
        """The chunks of plain files that have a fault."""
        status, printed = self.called(["check", "--in", folder, "--table", self.table])
        lines = os.fsdecode(printed).splitlines()
        found = [Finding(Place(int(line[2]), int(line[1])), int(line[3]) % 32 + 32 * (int(line[4]) % 32), int(line[5]), line[6])
                 for line in map(FINDING.fullmatch, lines) if line]
        if len(found) != len(lines) or status > 0 and not lines:
            raise Refused(status or 1)
        return found
