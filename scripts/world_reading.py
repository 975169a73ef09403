"""What is read of a world: check, states and block of anvilwater-world, each over plain copies that are made piece by piece beside the world."""
import collections
import contextlib
import os
import shutil
import tempfile

import world_tables
from region_files import Place, places
from world_exchange import Exchange, left_behind, working_folder
from world_faults import DONE, PARTLY, Stuck
from world_pieces import piece_of
from world_places import CLOSED, MIB, hold_reading, surveyed
from world_program import Program, Refused
from world_run import Call, check_free
from world_steps import NO_ROW, Bad, converted, faults_of, leave_out, plain_words, states_of, unread_of
from world_telling import Progress, Teller, note, say

# About how many plain bytes are looked at at once, though one region always is, and how many regions at most.
MOST_PLAIN, MOST_REGIONS = 256 * MIB, 64


class Aside(Teller):
    """Tells what is done beside the reading where its other lines go."""

    def tell(self, text, **fields):
        if text is not None:
            note(text)


class Reading:
    """A call that reads a folder of region files."""

    def __init__(self, words, world, teller):
        self.words, self.world, self.teller, self.progress = words, world, teller, Progress(words.progress)
        self.partly, self.counts = False, collections.Counter(files=0, chunks=0, findings=0)

    def run(self, stack):
        """Reads, with the game and calls that change files kept away as far as this user may, and answers the status."""
        self.finish_left(hold_reading(self.world, stack))
        is_one_of_many = self.words.dimension == "all"
        self.teller.tell("folder %s" % self.world.region if is_one_of_many else None, kind="folder", folder=self.world.region)
        survey = surveyed(self.world.region, self.wanted(), is_read_alone=True)
        with self.folder() as work:
            table = world_tables.of_call(self.words.table, survey.marks)
            self.program, self.plain = Program(self.words, work, table), os.path.join(work, "plain")
            self.program.build()
            self.read(survey, work)
        return PARTLY if self.partly else DONE

    def finish_left(self, locks):
        """Finishes what a call left behind that was interrupted, so that what is read is one world."""
        if locks is not None:
            Call(self.words, self.world, Aside(), locks).finish_left()
        elif any(os.path.lexists(Exchange(self.world, path).journal) for path in left_behind(self.world)):
            raise Stuck("a call that was interrupted is to be finished, by a user who may write to %s; nothing is done" % self.world.parent)

    def wanted(self):
        return places(self.world.region)

    @contextlib.contextmanager
    def folder(self):
        """A folder for the plain copies, beside the world where one can be made."""
        with contextlib.ExitStack() as stack:
            try:
                path = stack.enter_context(working_folder(self.world))
            except OSError as why:
                if why.errno not in CLOSED:
                    raise
                path = stack.enter_context(tempfile.TemporaryDirectory(prefix="anvilwater-"))
            yield path

    # ------------------------------------------------------------ pieces

    def pieces(self, survey):
        """Regions in order, as many at once as are looked at."""
        found = []
        for place in sorted(survey.sizes):
            last = found[-1] if found else []
            if not last or len(last) == MOST_REGIONS or sum(survey.sizes[one].plain for one in [*last, place]) > MOST_PLAIN:
                found.append([])
            found[-1].append(place)
        return [piece_of(own, {place: survey.sizes[place] for place in own}) for own in found]

    def picked(self, piece):
        """The chunks that are made plain, of regions of which not all are."""
        return piece.beside

    def made_plain(self, piece):
        """Makes a piece plain, without the chunks that can't be read or have a fault, and answers these and the files that can't be made."""
        check_free(os.path.dirname(self.plain), 2 * piece.size.plain)
        os.mkdir(self.plain)
        bad = []
        for report in converted(plain_words(self.world.region, self.plain, self.picked(piece)), {*piece.own, *piece.beside}, self.progress, "plain"):
            self.progress.step()
            bad += unread_of(report)
            if not report.counts["regions"]:
                bad.append(Bad(report.place, None, None, None, report.cause))
            elif report.place not in piece.beside:
                self.counts.update(files=1, chunks=report.counts["chunks"] + len(report.unread))
        faults = faults_of(self.program, self.plain)
        leave_out(self.plain, faults)
        return sorted((one for one in bad + faults if one.place not in piece.beside), key=lambda one: (one.place, one.index or 0))

    def tell_bad(self, bad, ending="; it is left out"):
        self.partly = True
        self.counts["findings"] += 1
        self.teller.complain(bad.text(ending), **bad.fields(self.world.region, "bad"))

    def read(self, survey, work):
        """Reads all pieces, and tells what there is."""
        for place, cause in sorted(survey.bad.items()):
            self.tell_bad(Bad(place, None, None, None, cause))
        for piece in self.pieces(survey):
            for bad in self.made_plain(piece):
                self.tell_bad(bad)
            self.read_piece(piece)
            shutil.rmtree(self.plain)
        self.tell_all()

    def read_piece(self, piece):
        """What is read of a piece that is plain."""

    def tell_all(self):
        """What is told at the end."""


class Check(Reading):
    """Names all that is wrong, as results."""

    def tell_bad(self, bad, ending=""):
        self.partly = True
        self.counts["findings"] += 1
        self.teller.tell(bad.text(), **bad.fields(self.world.region, "bad"))

    def tell_all(self):
        self.teller.tell("%(files)d files, %(chunks)d chunks, %(findings)d findings" % self.counts, kind="result", **self.counts)


# ---------------------------------------------------------------- states


class States(Reading):
    """Counts blocks by their states."""

    def __init__(self, words, world, teller):
        super().__init__(words, world, teller)
        self.blocks = collections.Counter()

    def read_piece(self, piece):
        for count, state, row in states_of(self.program, self.plain):
            self.blocks[state, row] += count

    def tell_all(self):
        lines = sorted(self.blocks.items(), key=lambda item: (-item[1], *order_of(item[0][0])))
        for (state, row), count in lines:
            known = None if row == NO_ROW else {key: int(value) if value.isdecimal() else value == "true"
                                                  for key, value in (pair.split("=") for pair in row.split())}
            self.teller.tell("%d %s %s" % (count, state, row), kind="state", blocks=count, state=state, row=known)
        if self.teller.as_json:
            missing = sum(row == NO_ROW for _, row in self.blocks)
            self.teller.tell(None, kind="result", files=self.counts["files"], chunks=self.counts["chunks"], left_out=self.counts["findings"],
                             states=len(lines), states_without_row=missing, blocks=sum(self.blocks.values()))


def order_of(state):
    """By what a state is in order: the bytes of its name, and of its properties, key and value by key and value."""
    name, _, rest = os.fsencode(state).partition(b"[")
    return name, [tuple(pair.partition(b"=")[::2]) for pair in rest[:-1].split(b",")] if rest else []


# ---------------------------------------------------------------- a block


class Block(Reading):
    """Prints the state of a block."""

    def __init__(self, words, world, teller):
        super().__init__(words, world, teller)
        self.place, self.index = Place(words.z >> 9, words.x >> 9), (words.x >> 4) % 32 + 32 * ((words.z >> 4) % 32)

    def wanted(self):
        return {self.place} & super().wanted()

    def picked(self, piece):
        return {self.place: [self.index]}

    def read(self, survey, work):
        if not survey.sizes and not survey.bad:
            say("unloaded")
        super().read(survey, work)

    def read_piece(self, piece):
        path = os.path.join(self.plain, self.place.name)
        words = [str(number) for number in (self.words.x, self.words.y, self.words.z)]
        status, printed = self.program.called(["block", "--table", self.program.table, *self.program.explain, "--", path, *words])
        if status > 0:
            raise Refused(status)
        say(os.fsdecode(printed.rstrip(b"\n")))
