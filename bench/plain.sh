#!/usr/bin/env bash
# Times the proved code beside the plain program, both over one full region of 1,024 chunks, in one run.
#   bench/plain.sh [TIMES]    how often each command runs, 7 by default (block 8 times as often); the best time counts
set -eu
top=$(cd "$(dirname "$0")/.." && pwd)
times=${1:-7}
work=$(mktemp -d)
trap 'rm -rf "$work"' EXIT

mkdir "$work/in" "$work/proved" "$work/plain_out"
"$top/scripts/make_samples.py" --bench "$work/r.0.0.mca"
"$top/scripts/make_samples.py" --dark "$work/dark.mca"
"$top/scripts/make_samples.py" --edits "$work/edits.txt"
: >"$work/no_edits.txt"
ln "$work/r.0.0.mca" "$work/in/r.0.0.mca"
rustc --edition 2024 -O "$top/bench/plain/main.rs" -o "$work/plain"
proved=$top/crates/av_bench/out/av_bench

# Builds a program, which prints its usage where it is given no words.
build() {
  log=$(cd "$top/crates/$1" && rt run </dev/null 2>&1) || true
  case $log in
    *"rt: running out/$1"*) ;;
    *)
      printf '%s\n' "$log" >&2
      exit 1
      ;;
  esac
}
build av_bench
"$top/anvilwater" block "$top/samples/r.0.0.mca" 4 67 15 >/dev/null

measure() { "$top/bench/measure.py" "$@"; }
measure block "$((8 * times))" "$top/crates/av_main/out/av_main" block "$work/r.0.0.mca" 300 20 300 -- "$work/plain" block "$work/r.0.0.mca" 300 20 300
measure decode "$times" "$proved" decode "$work/r.0.0.mca" 5 -- "$work/plain" decode "$work/r.0.0.mca" 5
measure recode "$times" "$proved" recode "$work/r.0.0.mca" "$work/proved.mca" -- "$work/plain" recode "$work/r.0.0.mca" "$work/plain.mca"
cmp "$work/proved.mca" "$work/plain.mca"
measure rewrite "$times" "$proved" rewrite "$work/r.0.0.mca" "$work/proved.mca" -- "$work/plain" rewrite "$work/r.0.0.mca" "$work/plain.mca"
cmp "$work/proved.mca" "$work/plain.mca"
measure turn "$times" "$proved" turn 10000 -- "$work/plain" turn 10000

# Light alone, on one thread and on all; the dark region is read as r.0.0 too.
mkdir "$work/dark"
mv "$work/dark.mca" "$work/dark/r.0.0.mca"
"$top/bench/light.py" "$proved" "$work/plain" \
  "$work/r.0.0.mca" "$work/dark/r.0.0.mca" "$top/tables/blocks.toml" 12 "$times"

# 20 plans of so many entries: anywhere in 1,024 chunks, in one lake, and in pools that are parts of their own.
for kind in spread lake pools; do
  for count in 50000 100000 200000; do
    measure "$kind" "$times" "$proved" plan "$kind" "$count" 20 -- "$work/plain" plan "$kind" "$count" 20
  done
done

# The commands of a whole run over the regions of a folder.
proved_run() {
  printf '%s\n' "$top/crates/av_main/out/av_main" run --in "$work/$1" --out "$work/proved" --table "$top/tables/blocks.toml" \
    --edits "$work/$2" --ticks "$3" --workers 1
}
plain_run() { printf '%s\n' "$work/plain" run "$work/$1" "$work/plain_out" "$top/tables/blocks.toml" "$work/$2" "$3"; }
measure_run() {
  mapfile -t one < <(proved_run "${@:2}")
  mapfile -t other < <(plain_run "${@:2}")
  measure "$1" "$times" "${one[@]}" -- "${other[@]}"
  for region in "$work/$2"/*; do
    cmp "$work/proved/${region##*/}" "$work/plain_out/${region##*/}"
  done
}
measure_run run in edits.txt 20

# The ticks of that run alone.
"$top/bench/ticks.py" "$((3 * times))" "$work/r.0.0.mca" "$work/edits.txt" "$work/plain"

# Runs of no tick over 1, 4 and 16 regions, the same one at other places.
for side in 1 2 4; do
  for ((x = 0; x < side; x++)); do
    for ((z = 0; z < side; z++)); do
      [ -e "$work/in/r.$x.$z.mca" ] || "$top/scripts/make_samples.py" --copy "$work/r.0.0.mca" "$x" "$z" "$work/in/r.$x.$z.mca"
    done
  done
  measure_run "light$((side * side))" in no_edits.txt 0
done

# Ticks of lakes that spread at once, on one thread and on several workers.
"$top/bench/ticks.py" "$times"
