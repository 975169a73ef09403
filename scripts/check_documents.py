#!/usr/bin/env python3
"""Decodes documents that spell nothing, and refuses each growth in turn: each asks for as many growths as are worked out by hand,
so for none by what a List says and the bytes left can't hold.

    scripts/check_documents.py BENCH        as crates/av_bench/out/av_bench

Growths are refused as by check_memory.py; where there is no C compiler nothing is asked.
"""
import os
import struct
import sys
import tempfile

sys.dont_write_bytecode = True
from check_memory import ENDED, answer_of, answers
from preloads import built_library
from written_regions import BYTE, BYTES, COMPOUND, DOUBLE, FLOAT, INT, INTS, LIST, LONG, LONGS, SHORT, TEXT

# What BENCH answers of a document that spells nothing.
NO_DOCUMENT = ("", "Error: fault 10: BadNbt", 1)

# The smallest tag of each type has so many bytes, all 0.
SMALLEST = {BYTE: 1, SHORT: 2, INT: 4, LONG: 8, FLOAT: 4, DOUBLE: 8, BYTES: 4, TEXT: 2, LIST: 5, COMPOUND: 1, INTS: 4, LONGS: 4}


class Decoding:
    """A document that is read from a region's file, whose growths can be refused."""

    def __init__(self, bench, library, work, document):
        self.bench, self.library, self.work = bench, library, work
        locations = struct.pack(">I", 2 << 8 | 1) + bytes(4092)
        sector = struct.pack(">IB", len(document) + 1, 3) + document
        with open(os.path.join(work, "document.mca"), "wb") as file:
            file.write(locations + bytes(4096) + sector + bytes(4096 - len(sector)))

    def ask(self, call):
        return answer_of(self.library, call, [self.bench, "decode", "document.mca", "1"], self.work)


def list_of(kind, count, tags):
    """A List that says so many tags, whatever follows."""
    return struct.pack(">Bi", kind, count) + tags


def in_root(member, kind=LIST):
    """A root with the beginning of a member without a name."""
    return bytes((COMPOUND, 0, 0, kind, 0, 0)) + member


def documents():
    """Documents that spell nothing, and how many growths each asks for.

    A List's share is the bytes behind its length, halved for each List and Compound that its tags stand in: a quarter of them
    for a List in the root. Where all tags that it says fit into its share, it asks once for them, for 64 at most. Tags that have
    no room ask for that of 4, 8, 16, .. in all. A Compound asks once for its first four tags. A byte 13 is no type: there these
    documents are refused, once the List before it was put into its Compound.
    """
    yield 0, in_root(b"")[:3]
    for kind, size in SMALLEST.items():
        yield 2, in_root(list_of(kind, 5, bytes(5 * size) + bytes([13]) * (15 * size)))
        yield 3, in_root(list_of(kind, 5, bytes(5 * size) + bytes([13]) * (15 * size - 1)))
    yield 2, in_root(list_of(BYTE, 64, bytes(64) + bytes([13]) * 192))
    yield 6, in_root(list_of(BYTE, 64, bytes(64) + bytes([13]) * 191))
    yield 3, in_root(list_of(BYTE, 65, bytes(65) + bytes([13]) * 195))
    # in a List of one List, and in a Compound, the share is an eighth
    yield 3, in_root(list_of(LIST, 1, list_of(BYTE, 5, bytes(5) + bytes([13]) * 35)))
    yield 4, in_root(list_of(LIST, 1, list_of(BYTE, 5, bytes(5) + bytes([13]) * 34)))
    yield 2, in_root(in_root(list_of(BYTE, 5, bytes(5) + bytes([13]) * 35))[3:], COMPOUND)
    yield 3, in_root(in_root(list_of(BYTE, 5, bytes(5) + bytes([13]) * 34))[3:], COMPOUND)
    # refused at their first tag: too few bytes are left, or there is no such tag
    yield 0, in_root(list_of(LONG, 64, bytes(7)))
    yield 0, in_root(list_of(BYTE, 2 ** 31 - 1, b""))
    yield 0, in_root(list_of(COMPOUND, 64, bytes([13]) * 63))
    yield 0, in_root(list_of(0, 5, bytes(100)))
    # 511 Lists in one another, each of which says 64: the first can hold 64 Lists in its share, 2550 / 4 bytes, and the
    # second can't in 2545 / 8
    yield 1, in_root(list_of(LIST, 64, b"") * 511)


def check(bench, library, work):
    """How many growths of decoding were refused, and how many of the answers and of the numbers of growths are wrong."""
    asked = wrong = outside = 0
    for number, (growths, document) in enumerate(documents()):
        case = Decoding(bench, library, work, document)
        told = list(answers(case))
        if number == 0:
            outside = len(told)
        bad = sum(answer not in (NO_DOCUMENT, *ENDED) for answer in told)
        # behind the last growth none is left to refuse, and so the first of a document that asks for none
        bad += case.ask(outside + growths + 1) != (NO_DOCUMENT, False) or len(told) != outside + growths
        if bad:
            print("document %d: %d growths, not %d, and %d wrong" % (number, len(told) - outside, growths, bad))
        asked, wrong = asked + len(told), wrong + bad
    return asked, wrong


def main():
    bench = os.path.abspath(sys.argv[1])
    with tempfile.TemporaryDirectory() as work:
        library = built_library("refuse", work)
        if library is None:
            print("0 asked of documents that spell nothing: there is no C compiler")
            return
        asked, wrong = check(bench, library, work)
    print("%d asked of documents that spell nothing, %d wrong" % (asked, wrong))
    sys.exit(wrong > 0)


if __name__ == "__main__":
    main()
