#!/usr/bin/env python3
"""Makes region files as the game keeps them into files that the program reads, and back.

    scripts/worlds.py plain IN OUT                      chunks of any compression become uncompressed ones
    scripts/worlds.py packed IN OUT [--like FOLDER]     chunks get the compression that they had in FOLDER, or else zlib

Each file r.X.Z.mca of the folder IN is written to the folder OUT, which is another one; a file c.X.Z.mcc beside it is read where a
chunk names it. The game must not have the world of either open, which is not looked at here. Timestamps stay, a file of no bytes stays
one, and a file that takes another's place gets its owner, where that may be given, and its mode. Chunks are written one behind the other from sector 2 on, and one
that 255 sectors don't hold goes to a file c.X.Z.mcc. Compressions are GZip, zlib, none and LZ4; the last needs the Python module
lz4 (Debian: python3-lz4).

`plain` leaves out each chunk that can't be read, and each of more than 1,044,475 plain bytes, which the program doesn't read either.
`packed` with --like, where FOLDER has the files as they were before `plain` (it may be OUT), brings each chunk that IN hasn't back
as it was stored there, and leaves to each that nothing changed the bytes that it was stored as. Without it OUT lacks what `plain`
left out. A file c.X.Z.mcc of a region that `packed` wrote goes from OUT where no chunk names it.

A line on standard error tells of each chunk that is left out, by its coordinates in the world, and of each file that is not made,
in whose place OUT keeps what it had. Each file is written under another name, .worlds-*.part, synced and then renamed. Status 0:
nothing was wrong, but chunks may have been left out for their size; 1: something could not be read or written; 2: other words are
needed. How many files are done is told on a terminal, and with --progress.
"""
import argparse
import collections
import concurrent.futures
import contextlib
import functools
import itertools
import os
import shutil
import sys
import time

sys.dont_write_bytecode = True
from chunk_data import MOST_BYTES, NAMES, PIECE, PLAIN, RECORD, ZLIB, Refused, TooLarge, Unread, compressed
from region_files import EXTERNAL, NO_CHUNKS, Fresh, Region, Stored, Writer, externals, opened, places
from stops import heeded, held

# zlib leaves the interpreter to others while it works, so that threads are enough. Some files at once hide how long syncing one takes,
# and some chunks in each job what handing it over takes.
FILES_AT_ONCE = 4
CHUNKS_AT_ONCE = 4
# In so many seconds it is looked again whether a file is done.
MOMENT = 0.002

# ---------------------------------------------------------------- chunks


def plain_chunk(region, _, index):
    """A chunk of a file that the program reads, or why it has none."""
    try:
        payload = region.plain(index, *region.record(index))
    except Unread as why:
        return why
    return Stored((RECORD.pack(len(payload) + 1, PLAIN), payload))


def packed_chunk(region, former, index):
    """A chunk of a file that the game reads. `former` is the file that the region's was made from."""
    if region.locations[index] == 0:
        return former.kept(index)
    try:
        payload = region.plain(index, *region.record(index))
    except Unread as why:
        raise Refused("chunk %d %d: %s" % (*region.place.chunk(index), why)) from why
    kind = ZLIB
    if former is not None and former.locations[index] != 0:
        with contextlib.suppress(Unread):
            before, data = former.record(index)
            kind = before % EXTERNAL if before % EXTERNAL in NAMES else ZLIB
            if former.plain(index, before, data) == payload:
                return former.kept(index)
    data = compressed(kind, payload)
    if len(data) > MOST_BYTES:
        return Stored((RECORD.pack(1, kind + EXTERNAL),), data)
    return Stored((RECORD.pack(len(data) + 1, kind), data))


# ---------------------------------------------------------------- files


class Report:
    """What is to be told of a region file."""

    def __init__(self, place):
        self.place, self.lines, self.counts, self.wrong = place, [], collections.Counter(), False
        # The indices of chunks that are left out, and why.
        self.unread = []
        # Why the file is not made.
        self.cause = None

    def file(self, why):
        self.lines.append("%s: %s" % (self.place.name, why))
        self.wrong = True

    def chunk(self, index, why, wrong=True):
        self.lines.append("%s %d %d: %s" % (self.place.name, *self.place.chunk(index), why))
        self.wrong |= wrong

    def left_out(self, index, why):
        """A chunk that is only too large is nothing wrong."""
        self.chunk(index, "%s; it is left out" % why, not isinstance(why, TooLarge))
        self.counts["left out"] += 1
        self.unread.append((index, why))


def cause(why):
    return getattr(why, "strerror", None) or str(why)


class Work:
    """What the words say is to be done with the region files of a folder: `task` makes each chunk, by the threads of `crew`. Of a region
    that is in `picked` only these chunks are made."""

    def __init__(self, words, crew):
        self.source, self.target, self.like, self.picked = words.source, words.target, words.like, words.picked
        self.task = {"plain": plain_chunk, "packed": packed_chunk}[words.way]
        self.crew, self.ahead = crew, processors() + 1
        self.in_place = self.like is not None and os.path.samefile(self.like, self.target)
        beside = externals(self.target)
        self.stale = beside if words.way == "packed" else {}

    def region(self, place):
        """Makes a region's file, and tells of it."""
        report, path = Report(place), os.path.join(self.source, place.name)
        try:
            if not os.path.lexists(path):
                raise Refused("it is in %s alone" % self.like)
            with contextlib.ExitStack() as stack:
                region = Region(self.source, place, stack.enter_context(opened(path)))
                self.write(region, self.former(place, stack), report)
        except (OSError, Refused) as why:
            report = Report(place)
            report.cause = cause(why)
            report.file("%s; nothing is written for it" % report.cause)
        return report

    def former(self, place, stack):
        """The region's file as it was before, where there is one."""
        path = os.path.join(self.like or "", place.name)
        if self.like is None or not os.path.lexists(path):
            return None
        try:
            return Region(self.like, place, stack.enter_context(opened(path)))
        except (OSError, Refused) as why:
            raise Refused("its file in %s: %s" % (self.like, cause(why))) from why

    def write(self, region, former, report):
        named = set()
        with Fresh(self.target) as fresh, contextlib.closing(self.chunks(region, former)) as chunks:
            with fresh.file(region.place.name) as file:
                writer = Writer(file)
                for index, chunk in chunks:
                    if isinstance(chunk, Unread):
                        report.left_out(index, chunk)
                        continue
                    writer.add(index, chunk.parts)
                    report.counts.update(chunks=1, kept=chunk.kept)
                    if chunk.external is not None and self.write_external(index, chunk.external, fresh, report):
                        named.add(region.place.external(index))
                if writer.locations != NO_CHUNKS or any(region.stamps) or not (region.empty or former and former.empty):
                    writer.finish(region.stamps)
            fresh.place()
        report.counts["regions"] = 1
        self.remove(self.stale.get(region.place, set()) - named, report)

    def write_external(self, index, external, fresh, report):
        """Writes the data of a chunk beside its region, and answers whether there are any."""
        name = report.place.external(index)
        if isinstance(external, bytes):
            with fresh.file(name) as file:
                file.write(external)
            return True
        try:
            data = opened(os.path.join(self.like, name))
        except FileNotFoundError as why:
            report.chunk(index, "%s: %s; it stays as it is stored" % (name, cause(why)))
            return False
        except OSError as why:
            raise Refused("%s: %s" % (name, cause(why))) from why
        with data, contextlib.nullcontext() if self.in_place else fresh.file(name) as file:
            if file is not None:
                shutil.copyfileobj(data, file, PIECE)
        return True

    def remove(self, names, report):
        """Removes files that no chunk of the new region names."""
        for name in sorted(names):
            try:
                os.unlink(os.path.join(self.target, name))
            except OSError as why:
                report.file("%s: %s; it is named by no chunk, and should go" % (name, cause(why)))

    def chunks(self, region, former):
        """The chunks that a region's file is to have, in order, with their indices. Some groups are made ahead."""
        all_indices = self.picked.get(region.place, range(1024))
        indices = [index for index in all_indices if region.locations[index] or former and former.locations[index]]
        groups = (indices[start:start + CHUNKS_AT_ONCE] for start in range(0, len(indices), CHUNKS_AT_ONCE))
        submit = functools.partial(self.crew.submit, self.group, region, former)
        made = collections.deque(map(submit, itertools.islice(groups, self.ahead)))
        try:
            while made:
                yield from made.popleft().result()
                made.extend(map(submit, itertools.islice(groups, 1)))
        finally:
            concurrent.futures.wait(made)

    def group(self, region, former, indices):
        return [(index, self.task(region, former, index)) for index in indices]


# ---------------------------------------------------------------- words


class Words(argparse.ArgumentParser):
    """Words are refused by one line."""

    def error(self, message):
        self.exit(2, "%s: error: %s\n" % (self.prog, message))


def words_read():
    parser = Words(prog="worlds.py", description=__doc__, formatter_class=argparse.RawDescriptionHelpFormatter, allow_abbrev=False)
    parser.add_argument("way", choices=("plain", "packed"))
    parser.add_argument("source", metavar="IN")
    parser.add_argument("target", metavar="OUT")
    parser.add_argument("--like", metavar="FOLDER")
    parser.add_argument("--progress", action="store_true")
    parser.set_defaults(picked={})
    words = parser.parse_args()
    if words.like is not None and words.way == "plain":
        parser.error("--like goes with packed")
    with contextlib.suppress(OSError):
        if os.path.samefile(words.source, words.target):
            parser.error("IN and OUT are one folder")
    return words


class Progress:
    """Tells on standard error, line by line, and how many files are done."""

    def __init__(self, total, shown):
        self.total, self.done, self.terminal = total, 0, sys.stderr.isatty()
        self.shown = shown or self.terminal

    def tell(self, lines):
        self.done += 1
        clear = "\r\033[K" if self.terminal else ""
        end = "" if self.terminal and self.done < self.total else "\n"
        line = "%s%d of %d files%s" % (clear, self.done, self.total, end) if self.shown else ""
        sys.stderr.write("".join("%s%s\n" % (clear, told) for told in lines) + line)
        sys.stderr.flush()


def processors():
    return len(os.sched_getaffinity(0))


def reports(words, found):
    """Does what the words say with these regions, by two pools of threads, for chunks and for files. What is to be told comes in the
    files' order. Signals are heeded while a file is waited for, and not while threads begin or end."""
    pools = concurrent.futures.ThreadPoolExecutor
    with held(), pools(processors()) as crew, pools(FILES_AT_ONCE) as files:
        work = Work(words, crew)
        futures = [files.submit(work.region, place) for place in sorted(found)]
        try:
            for future in futures:
                # What raises in the middle of a wait could leave a lock of the future taken.
                while not future.done():
                    with heeded():
                        time.sleep(MOMENT)
                yield future.result()
        finally:
            for future in futures:
                future.cancel()


def main():
    words, counts, wrong = words_read(), collections.Counter(regions=0, chunks=0), False
    try:
        found = places(words.source) | (places(words.like) if words.like is not None else set())
        progress = Progress(len(found), words.progress)
        for report in reports(words, found):
            progress.tell(report.lines)
            counts += report.counts
            wrong |= report.wrong
    except OSError as why:
        sys.exit("worlds.py: %s: %s" % (why.filename, why.strerror))
    except KeyboardInterrupt:
        sys.exit(130)
    last = "left out" if words.way == "plain" else "kept"
    print("regions %d chunks %d %s %d" % (counts["regions"], counts["chunks"], last, counts[last]))
    sys.exit(1 if wrong else 0)


if __name__ == "__main__":
    main()
