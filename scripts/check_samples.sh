#!/usr/bin/env bash
# Asks the program for each block of samples/blocks.txt, without a block table and with the shipped one, whose height is
# the game's too, and compares its lines with the expected ones. The shipped table has to be the one that the tests of
# av_rules_tests read.
#   scripts/check_samples.sh [PROGRAM]    by default ./anvilwater
set -eu
top=$(cd "$(dirname "$0")/.." && pwd)
program=${1:-$top/anvilwater}
wrong=0 asked=0
while read -r file x y z state; do
  case $file in '#'*) continue ;; esac
  for table in "" --table="$top/tables/blocks.toml"; do
    answer=$("$program" block ${table:+"$table"} -- "$top/samples/$file" "$x" "$y" "$z" 2>&1) || true
    asked=$((asked + 1))
    if [ "$answer" != "$state" ]; then
      wrong=$((wrong + 1))
      echo "$file $x $y $z ${table:+with a table}: expected $state, answered $answer"
    fi
  done
done < "$top/samples/blocks.txt"
if ! sed -n '/^    r#"/,/^"#;/p' "$top/crates/av_rules_tests/src/tests.rt" | sed -e '1s/^    r#"//' -e '$d' | cmp -s - "$top/tables/blocks.toml"; then
  wrong=$((wrong + 1))
  echo "tables/blocks.toml is not the table of crates/av_rules_tests/src/tests.rt"
fi
echo "$asked blocks asked, $wrong wrong"
[ "$wrong" -eq 0 ]
