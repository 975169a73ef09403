#!/usr/bin/env python3
"""anvilwater-world: the words of a call, and what its verb does with each folder of region files that they mean."""
import contextlib
import os
import sys

sys.dont_write_bytecode = True
from stops import Stopped, heed_stops, stops_to_heed, unstopped_behind
from world_faults import DONE, PARTLY, Problem, Stuck
from world_folders import find_worlds
from world_program import Refused
from world_reading import Block, Check, States
from world_maps import Map
from world_run import Call, is_unfinished
from world_telling import Teller, complain
from world_undo import Undo
from world_words import words_read

CALLS = {"light": Call, "run": Call, "undo": Undo, "check": Check, "states": States, "map": Map, "block": Block}


def streams_opened():
    """Standard streams that are closed lead nowhere from now on: else a file that is opened would take the number of one, and what is
    told would be written into it."""
    while (descriptor := os.open(os.devnull, os.O_RDWR)) <= 2:
        os.set_inheritable(descriptor, True)
    os.close(descriptor)


def status_of(work, teller, world=None):
    """What this answers, or the status of what ends it, which is told."""
    more = ""
    try:
        return work()
    except Refused as why:
        return ended(teller, None, why.args[0])
    except Stuck as why:
        return ended(teller, str(why), why.status)
    except Problem as why:
        line, status = str(why), why.status
    except OSError as why:
        line, status = ": ".join(filter(None, (os.fsdecode(why.filename or ""), why.strerror or str(why)))), Problem.status
    except Stopped as why:
        line, status = "interrupted", 128 + why.args[0]
    if world is not None and is_unfinished(world):
        more = "; call again, which finishes what was begun"
    return ended(teller, line + more, status)


def ended(teller, line, status):
    """Tells why a call ends. Of a fault of the program that has told it."""
    if line is not None:
        complain(line)
    if teller.as_json:
        with contextlib.suppress(Problem):
            teller.tell(None, kind="error", status=status, error=line)
    return status


def main(given=None):
    streams_opened()
    words = words_read(sys.argv[1:] if given is None else given)
    teller, stops, found, status = Teller(words.json), stops_to_heed(), [], DONE
    heed_stops(stops)
    wrong = status_of(lambda: found.extend(find_worlds(words.world, words.dimension)), teller)
    if wrong is not None:
        return wrong
    for world in found:
        def work():
            heed_stops(stops)
            with contextlib.ExitStack() as stack, unstopped_behind():
                return CALLS[words.verb](words, world, teller).run(stack)
        status = max(status, status_of(work, teller, world))
        if status not in (DONE, PARTLY):
            break
    return status


if __name__ == "__main__":
    sys.exit(main())
