#!/usr/bin/env python3
"""Writes the table that the program carries, crates/av_commands/src/shipped.rt, from tables/blocks.toml.
  scripts/ship_table.py            writes it
  scripts/ship_table.py --check    says whether it is what would be written, but for its layout
"""
import pathlib
import re
import sys

TOP = pathlib.Path(__file__).resolve().parent.parent
TABLE = TOP / "tables" / "blocks.toml"
SHIPPED = TOP / "crates" / "av_commands" / "src" / "shipped.rt"
HEAD = """\
//! The block table of a run that names none, which is `tables/blocks.toml`; `scripts/ship_table.py` writes this file.

pub const SHIPPED_TABLE: &str =
    r#"%s"#;
"""


def main():
    table = TABLE.read_text()
    if '"#' in table:
        sys.exit(f"{TABLE} has a quote before a number sign, which ends the text in {SHIPPED}")
    if sys.argv[1:] == ["--check"]:
        found = re.search(r'r#"(.*)"#;', SHIPPED.read_text(), re.DOTALL)
        if not found or found.group(1) != table:
            sys.exit(f"{SHIPPED} does not have the bytes of {TABLE}: scripts/ship_table.py writes it")
        print("the shipped table is tables/blocks.toml")
    elif len(sys.argv) == 1:
        SHIPPED.write_text(HEAD % table)
    else:
        sys.exit(__doc__)


main()
