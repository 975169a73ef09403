#!/usr/bin/env bash
# Runs the program with words that it takes and words that it refuses, and with files that are odd, and compares each
# status and what is written to each of the two streams. Its parts are asked in this order: a later one uses the files and
# the names of those before it.
#   scripts/check_words.sh [PROGRAM]    by default ./anvilwater
set -eu
top=$(cd "$(dirname "$0")/.." && pwd)
program=${1:-$top/anvilwater}
wrong=0 asked=0
work=$(mktemp -d)
trap 'rm -rf "$work"' EXIT
cd "$top"

for part in asking words folders runs skips pictures chunks; do
  . "scripts/words/$part.sh"
done

echo "$asked calls, $wrong wrong"
[ "$wrong" -eq 0 ]
