"""Edits, ticks and light over a world in place: light and run of anvilwater-world, and each call without a verb."""
import contextlib
import os
import re
import shutil
import subprocess
import time

import world_edits
import world_pieces
import world_tables
from region_files import REGION_NAME, Place, places
from stops import ignore_stops, unstopped_behind
from world_exchange import Exchange, check_near, left_behind, unguard, working_folder
from world_faults import DONE, PARTLY, Problem
from world_places import MIB, check_folder, check_held, hold_region, hold_session, surveyed
from world_program import CAUSES, Program, Refused, TooLarge
from world_steps import NO_ROW, Bad, converted, faults_of, leave_out, made, packed_words, plain_words, states_of, unread_of
from world_telling import Progress, complain

STAYS = "; it stays as it was, not lit"


class Call:
    """A call of the command over a folder of region files."""

    def __init__(self, words, world, teller, locks=()):
        self.words, self.world, self.teller, self.progress = words, world, teller, Progress(words.progress)
        self.locks, self.partly, self.part = locks, False, ""

    def run(self, stack):
        """Does what the words say, under the locks, and answers the status."""
        hold_region(self.world, stack)
        self.locks = [hold_session(top, stack) for top in self.world.tops]
        self.teller.tell("folder %s" % self.world.region, kind="folder", folder=self.world.region)
        if not self.finish_left():
            self.work()
        return PARTLY if self.partly else DONE

    def finish_left(self):
        """Finishes exchanges that calls before left behind, and answers whether there were any. What else they left goes."""
        finished = False
        for path in left_behind(self.world):
            exchange = Exchange(self.world, path)
            if os.path.lexists(exchange.journal):
                ignore_stops()
                self.exchange(exchange, "finished a call that was interrupted; nothing else was done", finished=True)
                finished = True
            else:
                shutil.rmtree(path)
                complain("%s, which a call that was interrupted left behind, is taken away" % path)
        unguard(self.world.region)
        return finished

    def work(self):
        region, backup = self.world.region, self.backup()
        survey = surveyed(region, self.wanted())
        self.leave_files(survey)
        check_folder(region, survey.files)
        pieces = self.divided(survey)
        self.check_room(survey, pieces, backup)
        with working_folder(self.world) as work, unstopped_behind():
            check_near(self.world, work, next(iter(survey.files)))
            program, exchange = self.program(work, survey), Exchange(self.world, work)
            os.mkdir(exchange.packed)
            told, stored = self.work_pieces(program, pieces, work, exchange.packed)
            self.exchange_files(exchange, survey.files, exchange.changes(survey.files, stored), backup, told)

    def exchange_files(self, exchange, files, changes, backup, told):
        """Lets new files take the places of these, by the changes that are found, and tells of it."""
        content = exchange.prepare(files, *changes, backup)
        if content is None:
            self.teller.tell("%s\nnothing changed" % told, kind="result", finished=False, **counts_of(told), replaced=0, added=0, removed=0,
                             before=None)
            return
        ignore_stops()
        check_held(self.locks)
        exchange.write_journal(content)
        self.exchange(exchange, told, finished=False)
        if exchange.foreign:
            complain("the owners of %d files could not be kept" % exchange.foreign)

    # ------------------------------------------------------------ what is worked on

    def wanted(self):
        """The region files but for those that are to be skipped."""
        found = places(self.world.region)
        for name in self.words.skip:
            match = REGION_NAME.fullmatch(name)
            if match is None or Place(int(match[2]), int(match[1])) not in found:
                raise Problem("%s is no region file of %s; nothing is done" % (name, self.world.region))
            found.discard(Place(int(match[2]), int(match[1])))
            complain("%s is left as it is" % name)
            self.partly = True
        return found

    def leave_files(self, survey):
        """Refuses files that can't be taken there and back, and names all; or leaves them as they are."""
        for place, cause in sorted(survey.bad.items()) if self.words.skip_bad or len(survey.bad) > 1 else ():
            self.tell_bad(Bad(place, None, None, None, cause), STAYS if self.words.skip_bad else "")
        if survey.bad and not self.words.skip_bad:
            few = next(iter(survey.bad.values())) if len(survey.bad) == 1 else "%d region files can't be taken there and back" % len(survey.bad)
            raise Problem(few + "; --skip-bad leaves %s; nothing is done" % ("it as it is" if len(survey.bad) == 1 else "them as they are"))
        if not survey.sizes:
            raise Problem("%s has no other region files; nothing is done" % self.world.region)
        self.partly |= bool(survey.bad)

    def divided(self, survey):
        """The pieces in which the world is worked on."""
        is_lit_alone = not self.words.ticks and self.words.edits is None
        return world_pieces.divided(survey.sizes, self.words.memory and self.words.memory * MIB, is_lit_alone)

    def backup(self):
        """The folder for the old files, by its name beside the region files or by its path."""
        if self.words.backup is None:
            name = "%s.before-%s" % (self.world.name, time.strftime("%Y-%m-%d-%H%M%S"))
            while os.path.lexists(os.path.join(self.world.parent, name)):
                name += "-more"
            return name
        path = os.path.abspath(self.words.backup)
        if os.path.lexists(path):
            raise Problem("%s is there already, and --backup is to name a new folder; nothing is done" % path)
        os.stat(os.path.dirname(path))
        if not os.access(os.path.dirname(path), os.W_OK | os.X_OK):
            raise Problem("%s can't be made; nothing is done" % path)
        return path

    def check_room(self, survey, pieces, backup):
        """Refuses a file system that has not half the room that the work is likely to take."""
        parent, beside = self.world.parent, os.path.dirname(os.path.join(self.world.parent, backup))
        needed = {parent: 2 * max(piece.size.plain for piece in pieces) + survey.stored}
        if os.stat(parent).st_dev != os.stat(beside).st_dev:
            needed[beside] = survey.stored
        for folder, size in needed.items():
            check_free(folder, size)

    def program(self, work, survey):
        """The program with its table and edits. It is run over a file without chunks, so that it is built, and tells of a table that it refuses,
        before the work."""
        table = world_tables.of_call(self.words.table, survey.marks)
        if table.name:
            self.teller.tell("table %s (another by --table, which need not have all blocks)" % table.name, kind="table", table=table.name)
        program = Program(self.words, work, table, self.edits(table, survey))
        nothing = os.path.join(work, "nothing")
        os.mkdir(nothing)
        open(os.path.join(nothing, "r.0.0.mca"), "xb").close()
        program.run(nothing, nothing, os.devnull, 0)
        return program

    def edits(self, table, survey):
        """The text of the edits, whose states are known."""
        text = world_edits.text_of(self.words.edits)
        if not self.words.allow_unknown:
            world_edits.check_states([*world_edits.edits_of(text)], world_edits.Known(table, survey.marks), self.edits_name(), complain)
        return text

    def edits_name(self):
        return "standard input" if self.words.edits == "-" else self.words.edits

    # ------------------------------------------------------------ steps

    def work_pieces(self, program, pieces, work, packed):
        """Works on each piece, and answers what is told of all and the regions whose chunks are all as they were stored."""
        plain, out, stored = os.path.join(work, "plain"), os.path.join(work, "out"), []
        for number, piece in enumerate(pieces, 1):
            self.part = "piece %d of %d, " % (number, len(pieces)) if len(pieces) > 1 else ""
            self.make_plain(piece, plain)
            if self.words.skip_bad:
                self.leave_chunks(program, plain, piece)
            self.leave_edits(program, plain)
            try:
                printed = self.run_program(program, plain, out)
            except Refused:
                self.name_causes(program, plain, pieces[number - 1:])
                raise
            shutil.rmtree(plain)
            stored += self.pack(piece, out, packed)
            shutil.rmtree(out)
        if len(pieces) > 1:
            printed = "regions %d pieces %d" % (sum(len(piece.own) for piece in pieces), len(pieces))
        return printed, stored

    def make_plain(self, piece, plain, is_told=True):
        """Makes the files of a piece plain. A file that can't be made ends the call. Chunks that are left out are told where their region is one of the
        piece's own."""
        os.mkdir(plain)
        found = {*piece.own, *piece.beside}
        for report in converted(plain_words(self.world.region, plain, piece.beside), found, self.progress, self.part + "plain, step 1 of 3"):
            if report.place not in piece.beside and is_told:
                for bad in unread_of(made(report)):
                    self.tell_bad(bad, STAYS)
                    self.partly = True
            made(report)
            self.progress.step()

    def pack(self, piece, out, packed):
        """Packs the files of a piece, and answers the regions whose chunks are all as they were stored."""
        stored = []
        for report in converted(packed_words(out, packed, self.world.region), {*piece.own}, self.progress, self.part + "packed, step 3 of 3"):
            for line in made(report).lines:
                complain(line)
            self.partly |= report.wrong
            if report.counts["kept"] == report.counts["chunks"]:
                stored.append(report.place)
            self.progress.step()
        return stored

    def run_program(self, program, source, target):
        """Runs a piece. A chunk that light makes too large is left as it is, where the words say so, and the piece is run without it."""
        self.progress.begin("%srun, step 2 of 3" % self.part)
        streams = {"stderr": subprocess.PIPE} if self.words.skip_bad else {}
        while True:
            os.mkdir(target)
            try:
                printed = program.run(source, target, program.edits_given(), self.words.ticks or 0, **streams)
            except TooLarge as why:
                x, z = why.args
                bad = Bad(Place(z >> 5, x >> 5), x % 32 + 32 * (z % 32), 24, "ChunkTooLarge", CAUSES[24])
                leave_out(source, [bad])
                shutil.rmtree(target)
                self.tell_bad(bad, STAYS)
                self.partly = True
            else:
                self.progress.end()
                return printed

    # ------------------------------------------------------------ bad chunks, and edits outside

    def tell_bad(self, bad, ending=""):
        """Tells of a chunk or file that is left as it is, or else, by its path, why the call ends."""
        self.teller.complain(bad.text(ending, "" if ending else self.world.region), **bad.fields(self.world.region, "bad"))

    def leave_chunks(self, program, plain, piece):
        """Takes the chunks that have a fault out of a piece."""
        bad = faults_of(program, plain)
        leave_out(plain, bad)
        for chunk in bad:
            if chunk.place not in piece.beside:
                self.tell_bad(chunk, STAYS)
                self.partly = True

    def name_causes(self, program, plain, pieces):
        """Names all that the program can have refused a piece for, of which it names the first."""
        if program.strict and not faults_of(program, plain):
            self.name_states(program, plain)
        self.name_all(program, plain, pieces)

    def name_states(self, program, plain):
        """Names the states that the table of the game's version doesn't know, with rows for them."""
        found = [(count, state) for count, state, row in states_of(program, plain) if row == NO_ROW]
        for count, state in found[:world_edits.NAMED]:
            complain("%d blocks are %s, which has no row" % (count, state))
        if found:
            lines = [world_tables.row_for(name) for name in sorted({state.partition("[")[0] for _, state in found})]
            complain("rows for them, which stop all light until they are changed, are\n" + "\n".join(lines[:world_edits.NAMED]))
            raise Problem("%d states of the world have no row in tables/%s; name a copy of it that has rows for them by --table; nothing is done" % (
                len(found), program.table_name))

    def name_all(self, program, plain, pieces):
        """Names all chunks that have a fault, of this piece and of those that follow, where the program refused the first of them."""
        found = []
        for piece in pieces:
            if not os.path.exists(plain):
                self.make_plain(piece, plain, is_told=False)
            found += [bad for bad in faults_of(program, plain) if bad.place not in piece.beside]
            shutil.rmtree(plain)
        for bad in found:
            self.tell_bad(bad)
        if found:
            raise Problem("%d chunks have a fault; --skip-bad leaves them as they are; nothing is done" % len(found))

    def leave_edits(self, program, plain):
        """Refuses edits outside the chunks that are loaded, or leaves them out."""
        with open(program.edits, "rb") as file:
            text = file.read()
        edits = [*world_edits.edits_of(text)]
        found = world_edits.outside(edits, plain, program.heights)
        world_edits.check_places(found, len(edits), self.edits_name(), self.words.skip_outside, complain)
        if found:
            with open(program.edits, "wb") as file:
                file.write(world_edits.without(text, [edit.line for edit in found]))

    # ------------------------------------------------------------ the end

    def exchange(self, exchange, told, finished):
        """Lets the new files take their places. What is told is told before the journal goes: so a call that told nothing is finished by
        the next one, and no call does its work twice."""
        content = exchange.place(lambda: check_held(self.locks))
        target = exchange.deliver(content["backup"], self.words.backup and os.path.abspath(self.words.backup))
        exchange.clear()
        replaced = sum(before is not None for _, before in content["new"])
        added, removed = len(content["new"]) - replaced, len(content["gone"])
        self.teller.tell("%s\nreplaced %d added %d removed %d\nbefore %s" % (told, replaced, added, removed, target), kind="result", finished=finished,
                         **counts_of(told), replaced=replaced, added=added, removed=removed, before=target)
        if not os.path.lexists(target):
            complain("%s, which had the old files, is not there any more" % target)
        exchange.forget()


def counts_of(told):
    """The counts of a line, by the words before them."""
    return {name: int(count) for name, count in re.findall("([a-z]+) ([0-9]+)", told)}


def check_free(folder, size):
    """Refuses a file system that has not half of this room."""
    status = os.statvfs(folder)
    free = status.f_bavail * status.f_frsize
    if free < size // 2:
        raise Problem("%s has room for %d MiB, and about %d MiB are needed; nothing is done" % (folder, free // MIB, size // MIB))


def is_unfinished(world):
    """Whether the next call has something to finish."""
    with contextlib.suppress(OSError, Problem):
        return any(os.path.lexists(Exchange(world, path).journal) for path in left_behind(world))
    return False
