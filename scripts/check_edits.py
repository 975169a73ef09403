#!/usr/bin/env python3
"""Asks scripts/edits.py about a crate of a few lines, proved by the kit itself: edits that are refused, and wrong ones, each of which is told as what it is.

It also asks which functions scripts/rattle_text.py finds in files of odd layouts.
"""
import os
import pathlib
import shutil
import subprocess
import sys
import tempfile

sys.dont_write_bytecode = True
HERE = pathlib.Path(__file__).resolve().parent
sys.path.insert(0, str(HERE))
import rattle_text

LOW = """//! Small sums.
#![tactic(auto)]

ghost use Rattle.std.specs.Prelude.{◌≡◌, ◌+◌, ◌≤◌};

/// One more.
pub fn one_more(number: u8) -> u8
    requires { number ≤ 100 }
    ensures { result ≡ number + 1 }
{
    number + 1
}

/// Two more, of which nothing but its least value is told.
pub fn two_more(number: u8) -> u8
    requires { number ≤ 99 }
    ensures { number + 2 ≤ result }
{
    number + 2
}

/// Three more.
pub fn three_more(number: u8) -> u8
    requires { number ≤ 98 }
    ensures { number + 3 ≤ result }
{
    let more = two_more(number);
    if more > 150 { more } else { more + 1 }
}
"""
EDITS = {
    # refused by what its function ensures, in a batch
    "adds_two": ("    number + 1", "    number + 2"),
    # hidden in a batch by the one after it, and refused at its own goal in the next
    "adds_nothing": ("    if more > 150 { more } else { more + 1 }", "    if more > 150 { more } else { more }"),
    "adds_one": ("    number + 2", "    number + 1"),
    # of the same function as another, so in a batch of its own
    "adds_none": ("    number + 1", "    number"),
    # means what was there before, so that it is proved
    "adds_before": ("    number + 2", "    2 + number"),
    # a clause that says less, so that a caller alone is refused
    "says_less": ("    ensures { number + 2 ≤ result }", "    ensures { number + 1 ≤ result }"),
    # can't be read
    "has_no_such_name": ("    number + 1", "    nobody + 1"),
    # can't be applied
    "stands_twice": ("    requires { number", "    requires { 1 + number"),
}
EXPECTED = {
    "adds_two": "refused: one_more at ",
    "adds_nothing": "refused: three_more at ",
    "adds_one": "refused: two_more at ",
    "adds_none": "refused: one_more at ",
    "adds_before": "NOT REFUSED alone: NOT REFUSED: the crate is still proved",
    "says_less": "refused alone, elsewhere than in its own function: refused",
    "has_no_such_name": "NOT REFUSED alone: BAD EDIT",
    "stands_twice": "NOT REFUSED alone: BAD EDIT",
}
COUNTED = "8 edits: 5 refused, 1 of them alone and 1 elsewhere than in their own function; 0 kept from earlier runs, 0 left since only bodies below changed; 3 not refused"

LAYOUTS = '''impl<T: Into<u8>> From<Wide<T>> for Narrow<T> {
    fn from(wide: Wide<T>) -> Self {
        Narrow
    }

    fn is_none(&self) -> bool
        ensures { result ≡ true }
    {
        let held = |x: u8| {
            x > 0
        };
        held(1)
    }
}

trait Sized8 {
    fn size(&self) -> u8;
}

fn law()
    ensures {
        Holds
    }
{}

pub(crate) const fn last(
    one: u8,
) -> u8 {
    one
}
'''
FOUND = [("NarrowFromWide::from", 1, 3), ("NarrowFromWide::is_none", 7, 12), ("deep::odd::law", 23, 23), ("deep::odd::last", 27, 29)]


def tree_in(folder):
    """A tree of the small crate and the scripts."""
    crate = folder / "crates/low"
    (crate / "src").mkdir(parents=True)
    (crate / "must-fail").mkdir()
    (crate / "src/lib.rt").write_text(LOW)
    for name, (old, new) in EDITS.items():
        (crate / "must-fail" / (name + ".edit")).write_text("file: src/lib.rt\nold: %s\nnew: %s\n" % (old, new))
    (folder / "crates.txt").write_text("low:\n")
    (folder / "HANDLES").write_text("Handles allowed: none.\n")
    (folder / "scripts").mkdir()
    for name in ("edits.py", "kept_edits.py", "laid_edits.py", "prove.py", "rattle_text.py", "proof_seconds.txt"):
        shutil.copy(HERE / name, folder / "scripts")
    return folder


def asked_of(tree, *words):
    """The status of a call, and its lines by the edit that they begin with."""
    ran = subprocess.run(
        [tree / "scripts/edits.py", *words], env={**os.environ, "XDG_CACHE_HOME": str(tree / "cache")}, stdin=subprocess.DEVNULL,
        stdout=subprocess.PIPE, stderr=subprocess.STDOUT, text=True)
    lines = ran.stdout.splitlines()
    return ran.returncode, {line.split(".edit: ")[0].removeprefix("low/"): line.split(".edit: ")[-1] for line in lines}, lines[-1:]


def cases(tree):
    """What was asked, what is expected, and what was found."""
    status, lines, last = asked_of(tree)
    for name, expected in EXPECTED.items():
        yield name, expected, lines.get(name, "nothing")[:len(expected)]
    yield "counts", [COUNTED], last
    yield "status", 1, status
    for name in ("adds_before", "has_no_such_name", "stands_twice"):
        (tree / "crates/low/must-fail" / (name + ".edit")).unlink()
    status, lines, last = asked_of(tree)
    yield "kept", "refused (kept): one_more at ", lines["adds_two"][:len("refused (kept): one_more at ")]
    yield "all are kept", (0, "5 kept"), (status, last[0].split("; ")[1].split(" from")[0])
    for name in EDITS.keys() - {"adds_two"}:
        (tree / "crates/low/must-fail" / (name + ".edit")).unlink(missing_ok=True)
    root = tree / "crates/low/src/lib.rt"
    root.write_text(root.read_text().replace("number ≤ 98", "number ≤ 97"))
    yield "another file is tried anew", "refused: one_more at ", asked_of(tree)[1]["adds_two"][:len("refused: one_more at ")]
    yield "a crate that is not there", 2, asked_of(tree, "high")[0]


def main():
    asked = wrong = 0
    with tempfile.TemporaryDirectory(prefix="anvilwater-") as folder:
        found = [(one.name, one.begin, one.end) for one in rattle_text.functions(pathlib.Path("src/deep/odd.rt"), LAYOUTS)]
        bare = rattle_text.without_bodies(pathlib.Path("src/deep/odd.rt"), LAYOUTS)
        bodies = ("bodies", (False, False, True), ("Narrow\n" in bare, "held" in bare, "    one\n" in bare))
        for name, expected, found in [("functions", FOUND, found), bodies, *cases(tree_in(pathlib.Path(folder)))]:
            asked += 1
            if expected != found:
                wrong += 1
                print("%s: expected %r, found %r" % (name, expected, found))
    print("%d asked of edits, %d wrong" % (asked, wrong))
    sys.exit(wrong > 0)


if __name__ == "__main__":
    main()
