#!/usr/bin/env bash
# Runs the sample regions with the built program, and compares what it prints, the blocks that it wrote and the bytes of
# the files.
#   scripts/check_run.sh PROGRAM
set -eu
top=$(cd "$(dirname "$0")/.." && pwd)
program=$1
work=$(mktemp -d)
trap 'rm -rf "$work"' EXIT
asked=0 wrong=0

# run INPUT OUTPUT EDITS TICKS WORKERS: what a run prints.
run() {
  mkdir -p "$work/$2"
  "$program" run --in "$1" --out "$work/$2" --table "$top/tables/blocks.toml" --edits "$3" --ticks "$4" --workers "$5"
}

# expect WANT GOT WHAT
expect() {
  asked=$((asked + 1))
  [ "$1" = "$2" ] || {
    wrong=$((wrong + 1))
    printf '%s: %s, and not %s\n' "$3" "$2" "$1"
  }
}

# same FOLDER OTHER: both have the two regions with the same bytes, and nothing else.
same() {
  expect "$(printf 'r.-1.-1.mca\nr.0.0.mca')" "$(ls "$work/$2")" "files of $2"
  for file in r.-1.-1.mca r.0.0.mca; do
    expect yes "$(cmp -s "$work/$1/$file" "$work/$2/$file" && echo yes || echo no)" "$file is the same in $1 and $2"
  done
}

# block FOLDER X Y Z: the state at a position of its region (0, 0).
block() { "$program" block --table "$top/tables/blocks.toml" -- "$work/$1/r.0.0.mca" "$2" "$3" "$4"; }

# A source over the ground, which is at y 71 there: it falls a block in the ticks 6, 11 and 16, and spreads to its sides in
# tick 11, once there is water below it.
edits="$top/samples/edits.txt"
: > "$work/no_edits"
run "$top/samples" whole "$edits" 20 2 > "$work/printed"
expect "chunks 5" "$(cut -d ' ' -f 1,2 "$work/printed")" "a run of 20 ticks"
expect "minecraft:water[level=0]" "$(block whole 8 75 8)" "the source"
for y in 74 73 72; do
  expect "minecraft:water[level=8]" "$(block whole 8 "$y" 8)" "the block at y $y under it"
done
for side in "7 75 8" "9 75 8" "8 75 7" "8 75 9"; do
  expect "minecraft:water[level=1]" "$(block whole $side)" "its side $side"
done
expect "minecraft:air" "$(block whole 8 76 8)" "the block above it"
expect "minecraft:glowstone" "$(block whole 4 75 4)" "the light"
run "$top/samples" early "$edits" 10 1 > /dev/null
expect "minecraft:water[level=8]" "$(block early 8 74 8)" "the block under the source after 10 ticks"
expect "minecraft:air" "$(block early 9 75 8)" "a side of the source after 10 ticks"

# Without a table and workers it is the program's table, and the edits may come from standard input.
mkdir "$work/by_defaults"
"$program" run --in "$top/samples" --out "$work/by_defaults" --edits - --ticks 20 < "$edits" > "$work/told"
expect "$(cat "$work/printed")" "$(cat "$work/told")" "a run by defaults"
same whole by_defaults
# What a run would change, against its own files, those of a run without edits, its input and an empty folder, by another reader.
changes() {
  python3 - "$1" "$2" << 'END'
import os, sys
old, new = sys.argv[1:]
def read(folder, name):
    path = os.path.join(folder, name)
    return open(path, "rb").read() if os.path.exists(path) else None
def chunk(data, index):
    place = data[4 * index:4 * index + 4]
    if not any(place):
        return None
    start = 4096 * int.from_bytes(place[:3], "big")
    return data[start + 4:start + 4 + int.from_bytes(data[start:start + 4], "big")]
for name in sorted(os.listdir(new)):
    one, two = read(old, name), read(new, name)
    if one != two:
        count = sum(chunk(one or bytes(8192), index) != chunk(two, index) for index in range(1024))
        print(f"{name}: {count} chunks would change")
END
}
run "$top/samples" unedited "$work/no_edits" 20 1 > /dev/null
mkdir "$work/empty"
for folder in "$work/whole" "$work/unedited" "$top/samples" "$work/empty"; do
  "$program" run --in "$top/samples" --out "$folder" --edits "$edits" --ticks 20 --dry-run > "$work/told"
  expect "$(changes "$folder" "$work/whole"; cat "$work/printed")" "$(cat "$work/told")" "a dry run against $folder"
done
expect "" "$(ls -A "$work/empty")" "the files of a dry run"

# What a run says that it changed, and how far it is, where that is asked for.
mkdir "$work/changed"
cp "$top"/samples/r.*.mca "$work/changed"
"$program" run --in "$top/samples" --out "$work/changed" --edits "$edits" --ticks 20 --progress 2> "$work/told" > /dev/null
expect "$(changes "$top/samples" "$work/whole" | sed 's/would change/changed/')" "$(grep ' chunks changed$' "$work/told")" "what a run has changed"
expect "1 of 20 ticks run" "$(grep ' ticks run$' "$work/told" | head -n 1)" "its first tick"
expect "20 of 20 ticks run" "$(grep ' ticks run$' "$work/told" | tail -n 1)" "its last tick"
expect "2 of 2 files written" "$(grep ' files written$' "$work/told" | tail -n 1)" "its last file"
same whole changed
"$program" run --in "$top/samples" --out "$work/changed" --ticks 1000000 --progress 2> "$work/told" > /dev/null
expect yes "$([ "$(grep -c ' ticks run$' "$work/told")" -le 21 ] && echo yes)" "the lines on a million ticks"

# The number of workers makes no difference. A run that is stopped and resumed gives the same files, also in place.
for workers in 1 3 5 8; do
  run "$top/samples" "by_$workers" "$edits" 20 "$workers" > /dev/null
  same whole "by_$workers"
done
for x in 5 6 7 8 9 10; do
  for z in 6 7 8; do
    printf '1 %d %d %d minecraft:water[level=0]\n' "$x" 104 "$z" "$x" 88 "$z"
  done
done > "$work/lake_edits"
# 36 entries of two lakes are due in tick 6. Ticks of 256 and more are those of check_workers.py.
run "$top/samples" lakes "$work/lake_edits" 20 1 > /dev/null
for workers in 2 3 5 8; do
  run "$top/samples" "lakes_by_$workers" "$work/lake_edits" 20 "$workers" > /dev/null
  same lakes "lakes_by_$workers"
done
run "$work/early" resumed "$work/no_edits" 10 3 > /dev/null
same whole resumed
run "$work/early" early "$work/no_edits" 10 3 > /dev/null
same whole early

# With no tick and no edit nothing is turned, and what was written once is written again.
expect "chunks 5 turns 0" "$(run "$top/samples" lit "$work/no_edits" 0 1)" "a run of no tick"
expect "chunks 5 turns 0" "$(run "$work/lit" again "$work/no_edits" 0 1)" "the same over what it wrote"
same lit again

echo "$asked asked of runs, $wrong wrong"
[ "$wrong" -eq 0 ]
