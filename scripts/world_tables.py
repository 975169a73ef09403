"""The block table of a call: the one that it names, or that of the game's version and dimension, by what some chunks of the world say."""
import codecs
import os
import re
import typing

from world_faults import Problem

TABLES = os.path.join(os.path.dirname(os.path.dirname(os.path.abspath(__file__))), "tables")
SHORT = "blocks.toml"
# The first data version of those that a table is of (minecraft.wiki, Data version).
VERSIONS = (3953, "java-1.21.toml"), (3698, "java-1.20.3.toml"), (3463, "java-1.20.toml"), (3105, "java-1.19.toml"), (2860, "java-1.18.toml")
# How many sections the game's dimensions have from their lowest on: the Overworld, and the Nether and the End.
SECTIONS = {-4: 24, 0: 16}
HEIGHT = b"min_section = %d\nsections = %d\n"
ROW, LEFT_OUT = (re.compile(pattern, re.MULTILINE) for pattern in (rb'^  {name = "([^"]+)".*},$', rb"^#   (minecraft:[a-z_]+) "))
ANY_ROW = re.compile(rb'^  {name = "([^"]+)"', re.MULTILINE)
ADVICE = "name a table of its height by --table, which docs/FORMATS.md says how to make; nothing is done"
# What the program takes a block for that has no row.
SHUT = b'  {name = "%s", open = false, floor = true, opacity = 15, emission = 0},'


class Table(typing.NamedTuple):
    """The name of a table, or None where the call names it or nothing tells the world's version, and its text. One that the call does not
    name has to have all blocks of the world, since others would be dark and opaque."""
    name: typing.Optional[str]
    text: bytes
    is_strict: bool


def named(path, marks):
    """The table that a call names, which has to have the world's lowest section. A byte-order mark is passed over."""
    with open(path, "rb") as file:
        text = file.read()
    text = text[len(codecs.BOM_UTF8):] if text.startswith(codecs.BOM_UTF8) else text
    lowest = {mark.lowest for mark in marks} - {None}
    if lowest and lowest_of(text) not in lowest:
        refuse(min(lowest), text)
    return Table(None, text, False)


def of_world(marks):
    """The table of the newest version that chunks of a world say, with the height of their dimension; or the short one, where they say none."""
    names = names_for(marks)
    if not names:
        table = named(os.path.join(TABLES, SHORT), marks)
        return table._replace(is_strict=True)
    text = whole(*names)
    found = {mark.lowest for mark in marks} - {None}
    lowest = min(found, default=-4)
    if len(found) > 1 or lowest not in SECTIONS:
        refuse(min(found - {lowest_of(text)}), text)
    # Behind the last section a chunk can have one that has light alone.
    highest = max((mark.highest for mark in marks if mark.highest is not None), default=lowest)
    if highest > lowest + SECTIONS[lowest]:
        raise Problem("the world has the section %d, which is above the game's own height: %s" % (highest, ADVICE))
    return Table(names[0], text.replace(HEIGHT % (-4, SECTIONS[-4]), HEIGHT % (lowest, SECTIONS[lowest])), True)


def of_call(path, marks):
    return named(path, marks) if path else of_world(marks)


def names_for(marks):
    """The tables of the newest version that chunks of a world say and of those before it; none where they say none."""
    versions = {mark.version for mark in marks} - {None}
    return [name for first, name in VERSIONS if first <= max(versions)] or [VERSIONS[-1][1]] if versions else []


def game_rows(marks):
    """The names of the game's blocks in that version, or in the newest one."""
    return {name.decode() for name in ANY_ROW.findall(whole(*(names_for(marks) or [name for _, name in VERSIONS])))}


def whole(newest, *older):
    """A table, with the rows of older ones for names that it has no more, as chunks have them that were written before; and with rows for
    blocks that it leaves out, which stop all light."""
    text = read(newest)
    known, more = set(ROW.findall(text)), []
    for name in older:
        rows = [row for row in ROW.finditer(read(name)) if row[1] not in known]
        more += [row[0] for row in rows]
        known.update(row[1] for row in rows)
    more += [SHUT % name for name in LEFT_OUT.findall(text)]
    return text.replace(b"\n]\n", b"\n%s\n]\n" % b"\n".join(more), 1)


def read(name):
    with open(os.path.join(TABLES, name), "rb") as file:
        return file.read()


def lowest_of(text):
    found = re.search(rb"^[ \t]*min_section[ \t]*=[ \t]*([-+]?[0-9]+)", text, re.MULTILINE)
    return int(found[1]) if found else -4


def row_for(name):
    return (SHUT % os.fsencode(name)).decode()


def heights_of(text):
    """The y of a table's height."""
    found = re.search(rb"^[ \t]*sections[ \t]*=[ \t]*([-+]?[0-9]+)", text, re.MULTILINE)
    return range(16 * lowest_of(text), 16 * (lowest_of(text) + (int(found[1]) if found else SECTIONS[-4])))


def refuse(lowest, text):
    """Refuses a table with another height than the world's, whose chunks would get sections that the game does not have there."""
    raise Problem("the world's lowest section is %d, and the table's %d: %s" % (lowest, lowest_of(text), ADVICE))
