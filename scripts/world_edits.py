"""The edits of a call, held against what is known before anything is run: their states against the table and what the game's blocks are, and
their places against the chunks that are loaded."""
import collections
import difflib
import os
import re
import sys
import typing

from block_properties import properties
from region_files import Place, Region, opened
from world_faults import Problem
from world_tables import game_rows

MARK = b"\xef\xbb\xbf"
LINE = re.compile(rb"[0-9]{1,10} (-?[0-9]{1,10}) (-?[0-9]{1,10}) (-?[0-9]{1,10}) ([a-z0-9_.-]+:[a-z0-9_./-]+)"
                  rb"(?:\[([a-z0-9_]+=[a-z0-9_]+(?:,[a-z0-9_]+=[a-z0-9_]+)*)\])?")
NAME = re.compile(rb'name\s*=\s*"([^"]+)"')
FULL = re.compile(rb"\x08\x00\x06Status\x00(?:\x04|\x0eminecraft:)full")
# How many are named at once.
NAMED = 20


class Edit(typing.NamedTuple):
    """A line of edits: its number, the position, and its state."""
    line: int
    x: int
    y: int
    z: int
    name: str
    pairs: tuple

    @property
    def state(self):
        return self.name + ("[%s]" % ",".join("%s=%s" % pair for pair in self.pairs) if self.pairs else "")


# ---------------------------------------------------------------- texts


def text_of(path):
    """The bytes of a file, or of standard input, without a byte-order mark. None is an empty one."""
    if path is None:
        return b""
    if path == "-":
        text = sys.stdin.buffer.read()
    else:
        with open(path, "rb") as file:
            text = file.read()
    return text[len(MARK):] if text.startswith(MARK) else text


def edits_of(text):
    """The lines that have the form of edits; of the others the program says what is wrong."""
    for number, line in enumerate(text.split(b"\n"), 1):
        found = LINE.fullmatch(line[:-1] if line.endswith(b"\r") else line)
        if found:
            pairs = (pair.split("=") for pair in found[5].decode().split(",")) if found[5] else ()
            yield Edit(number, *map(int, found.group(1, 2, 3)), found[4].decode(), tuple(map(tuple, pairs)))


def without(text, numbers):
    """A text without some of its lines, in whose place comments stand, so that the others keep their numbers."""
    lines = text.split(b"\n")
    for number in numbers:
        lines[number - 1] = b"#"
    return b"\n".join(lines)


# ---------------------------------------------------------------- states


class Known:
    """What names, properties and values there are, by a call's table and the game's for the versions that chunks of the world say."""

    def __init__(self, table, marks):
        self.names = {name.decode() for name in NAME.findall(table.text)} | game_rows(marks) | {"minecraft:air", "minecraft:water"}
        self.ordered, self.judged = sorted(self.names), {}

    def fault(self, edit):
        """What is not known of a state; None where all is."""
        key = edit.name, edit.pairs
        if key not in self.judged:
            self.judged[key] = self.judge(edit)
        return self.judged[key]

    def judge(self, edit):
        if edit.name not in self.names:
            return Unknown("%s is not known" % edit.name, edit.name, self.ordered, False)
        known = properties().get(edit.name)
        for key, value in edit.pairs if known is not None else ():
            if key not in known:
                return Unknown("%s: %s has no %s" % (edit.state, edit.name, key), key, sorted(known), False)
            if value not in known[key]:
                return Unknown("%s: %s is no value of %s" % (edit.state, value, key), value, sorted(known[key]), True)
        return None


class Unknown(typing.NamedTuple):
    """What is not known of a state, the word that is not, and those that there are, of which all are told where none is near."""
    text: str
    word: str
    words: list
    are_few: bool

    def told(self):
        found = difflib.get_close_matches(self.word, self.words, 1)
        if found:
            return "%s, and the nearest is %s" % (self.text, found[0])
        return self.text + (", which has " + ", ".join(self.words) if self.are_few else "")


def check_states(edits, known, path, complain):
    """Refuses edits with states of which the game would make something else."""
    wrong = [(edit, fault) for edit in edits for fault in [known.fault(edit)] if fault]
    if not wrong:
        return
    for edit, fault in wrong[:NAMED]:
        complain("%s, line %d: %s" % (path, edit.line, fault.told()))
    more = ", the first %d of which are named" % NAMED if len(wrong) > NAMED else ""
    raise Problem("%d of %d edits have states that are not known%s, and the game would make others of them; --allow-unknown sets them; "
                  "nothing is done" % (len(wrong), len(edits), more))


# ---------------------------------------------------------------- places


def outside(edits, folder, heights):
    """The edits whose place is in no chunk that is loaded, or out of the height."""
    regions = collections.defaultdict(list)
    for edit in edits:
        regions[Place(edit.z >> 9, edit.x >> 9)].append(edit)
    found = []
    for place, inside in regions.items():
        loaded = loaded_chunks(folder, place, {((edit.x >> 4) & 31) + 32 * ((edit.z >> 4) & 31) for edit in inside})
        found += [edit for edit in inside if edit.y not in heights or ((edit.x >> 4) & 31) + 32 * ((edit.z >> 4) & 31) not in loaded]
    return sorted(found)


def loaded_chunks(folder, place, indices):
    """Which of these chunks of a plain region are fully generated."""
    path = os.path.join(folder, place.name)
    if not os.path.exists(path):
        return set()
    with opened(path) as file:
        region = Region(folder, place, file)
        return {index for index in indices if region.locations[index] and FULL.search(region.record(index)[1])}


def check_places(found, count, path, is_skipped, complain):
    """Names edits outside, and refuses them unless they are to be left out."""
    if not found:
        return
    for edit in found[:NAMED]:
        complain("%s, line %d: %d %d %d is in no chunk that is loaded, or out of the height" % (path, edit.line, edit.x, edit.y, edit.z))
    more = ", the first %d of which are named" % NAMED if len(found) > NAMED else ""
    if not is_skipped:
        raise Problem("%d of %d edits are outside%s; --skip-outside leaves them out; nothing is done" % (len(found), count, more))
    complain("%d of %d edits are left out%s" % (len(found), count, more))
