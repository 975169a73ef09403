# A part of check_words.sh: runs: what is judged first, counts, files that are written, edits that are refused, and texts on standard input.

# A run of a folder. The words are judged before the output folder, that before the table, the table before the edits, these before
# the folder, and only when all files were read is anything judged or written: a table that can't be read comes before 9 workers, and these
# before a table that is no TOML.
for left_out in 1 3 9; do
  expect 2 "error: the following required arguments were not provided:" \
    "${nothing[@]:0:left_out}" "${nothing[@]:left_out + 2}"
done
# Without --table it is the program's own, without --edits there are none, and without --workers one for each processor.
for left_out in 5 7 11; do
  expect_all 0 "chunks 0 turns 0\n" "$work/nothing$bare" "${nothing[@]:0:left_out}" "${nothing[@]:left_out + 2}"
done
expect_all 0 "chunks 0 turns 0\n" "$work/nothing$bare" "${nothing[@]:0:5}" --ticks 0
# They are 8 at most, where the system says that it has 64 processors. That it was asked is written to 9.
if command -v cc > /dev/null; then
  cc -shared -fPIC -O1 -x c - -o "$work/processors.so" << 'END'
#define _GNU_SOURCE
#include <sched.h>
#include <string.h>
#include <unistd.h>

int sched_getaffinity(pid_t process, size_t size, cpu_set_t *set)
{
    memset(set, 0, size);
    memset(set, 255, 8);
    return write(9, "asked", 5) == 5 ? 0 : -1;
}
END
  LD_PRELOAD="$work/processors.so" expect_all 0 "chunks 0 turns 0\n" "$work/nothing$bare" "${nothing[@]:0:11}" 9> "$work/asked"
  asked=$((asked + 1))
  if ! grep -q asked "$work/asked"; then
    wrong=$((wrong + 1))
    echo "a run without --workers did not ask for the processors"
  fi
fi
expect 2 "Runs edits, water and block light over the region files of a folder" run --help
run() {
  local table=$1 edits=$2 input=$3 output=$4 workers=$5
  shift 5
  printf '%s\n' run --in "$input" --out "$output" --table "$table" --edits "$edits" --ticks 10 --workers "$workers" "$@"
}
# expect_run STATUS OUTPUT ERRORS TABLE EDITS INPUT OUTPUT WORKERS [OTHERS..]
expect_run() {
  local status=$1 out=$2 err=$3 words
  shift 3
  mapfile -t words < <(run "$@")
  expect_all "$status" "$out" "$err" "${words[@]}"
}
edits="$work/edits"
input="$work/input" output="$work/output"
mkdir "$input" "$output"
blocks=tables/blocks.toml
expect_run 1 "" "fault 25: Device missing\n" missing.toml missing.edits missing missing 9
expect_run 1 "" "fault 25: Device README.md\n" missing.toml missing.edits missing README.md 9
if [ -d /proc/self ]; then
  expect_run 1 "" "fault 25: Device /proc\n" missing.toml missing.edits missing /proc 9
fi
expect_run 1 "" "fault 25: Device missing.toml\n" missing.toml missing.edits missing "$output" 9
expect_run 1 "" "fault 25: Device missing.edits\n" README.md missing.edits missing "$output" 9
expect_run 1 "" "fault 25: Device missing\n" README.md "$edits" missing "$output" 9
expect_run 1 "" "$input${bare}fault 23: BadCount\n" README.md "$edits" "$input" "$output" 9
expect_run 1 "" "$input${bare}fault 23: BadCount\n" README.md "$edits" "$input" "$output" 0
expect_run 1 "" "$input${bare}fault 23: BadCount\n  --workers is 9, and 1 to 8 can work\n" README.md "$edits" "$input" "$output" 9 --explain
expect_run 1 "" "$input${bare}fault 19: BadTable\n  $work/twice.toml, line 2: duplicate key\n" \
  "$work/twice.toml" "$edits" "$input" "$output" 1 --explain
expect_all 1 "" "$work/nothing${bare}fault 23: BadCount\n  --ticks is 1000001, and 1000000 at most are run\n" \
  "${nothing[@]:0:9}" --ticks 1000001 --workers 8 --explain
# A count is a number of 32 bits that is not negative.
expect_run 1 "" "$input${bare}fault 23: BadCount\n" README.md "$edits" "$input" "$output" 4294967295
expect_run 1 "" "$input${bare}fault 19: BadTable\n" README.md "$edits" "$input" "$output" +08
expect_all 1 "" "$work/nothing${bare}fault 23: BadCount\n" "${nothing[@]:0:9}" --ticks 4294967295 --workers 9
for number in 4294967296 -1; do
  expect 2 "error: invalid value '$number' for '--workers <N>': $number is not in 0..=4294967295" \
    "${nothing[@]:0:9}" --ticks 0 "--workers=$number"
  expect 2 "error: invalid value '$number' for '--ticks <N>': $number is not in 0..=4294967295" \
    "${nothing[@]:0:9}" "--ticks=$number" --workers 1
done
expect_run 1 "" "$input${bare}fault 19: BadTable\n" README.md "$edits" "$input" "$output" 8
expect_run 0 "chunks 0 turns 0\n" "$input$bare" "$blocks" "$edits" "$input" "$output" 8
: > "$input/r.0.0.mca"
head -c 8192 /dev/zero > "$input/r.-1.0.mca"
printf 'no region' > "$input/README"
mkdir "$input/r.2.0.mca"
expect_run 1 "" "fault 25: Device r.2.0.mca\n" "$blocks" "$edits" "$input" "$output" 9
mkdir "$input/r.10.0.mca"
expect_run 1 "" "fault 25: Device r.10.0.mca\n" "$blocks" "$edits" "$input" "$output" 9
expect_run 1 "" "fault 25: Device r.10.0.mca\n" "$blocks" "$edits" "$input" "$output" 9 --skip r.0.0.mca
rmdir "$input/r.2.0.mca" "$input/r.10.0.mca"
# Files are written by (z, x) of their regions, and none behind one that can't be written.
mkdir "$output/r.-1.0.mca"
expect_run 1 "" "fault 25: Device r.-1.0.mca\n" "$blocks" "$edits" "$input" "$output" 1
asked=$((asked + 1))
if [ "$(ls "$output")" != r.-1.0.mca ]; then
  wrong=$((wrong + 1))
  echo "folder after a first write that failed: $(ls "$output")"
fi
mkdir "$output/r.-2.1.mca"
: > "$input/r.-2.1.mca"
expect_run 1 "" "fault 25: Device r.-1.0.mca\n" "$blocks" "$edits" "$input" "$output" 1
rm "$input/r.-2.1.mca"
rmdir "$output"/*
expect_run 0 "chunks 0 turns 0\n" "1 of 2 files read\n2 of 2 files read\nrunning
0 chunks loaded\n10 of 10 ticks run\nlight of 0 chunks\nmaking 2 files\n1 of 2 files written\n2 of 2 files written
r.-1.0.mca: 0 chunks changed\nr.0.0.mca: 0 chunks changed\n" "$blocks" "$edits" "$input" "$output" 1 --progress
expect_run 0 "chunks 0 turns 0\n" "" "$blocks" "$edits" "$input" "$input" 2
for file in "$input"/r.*.mca "$output"/r.*.mca; do
  asked=$((asked + 1))
  head -c 8192 /dev/zero | cmp -s - "$file" || {
    wrong=$((wrong + 1))
    echo "$file: not the bytes of an empty region"
  }
done
asked=$((asked + 1))
if [ "$(ls -A "$output")" != $'r.-1.0.mca\nr.0.0.mca' ] || [ "$(ls -A "$input")" != $'README\nr.-1.0.mca\nr.0.0.mca' ]; then
  wrong=$((wrong + 1))
  echo "folders after a run: $(ls "$input" "$output")"
fi
# A file that can't be put in its place leaves nothing behind.
rm "$output"/*
mkdir "$output/r.0.0.mca"
expect_run 1 "" "fault 25: Device r.0.0.mca\n" "$blocks" "$edits" "$input" "$output" 1
asked=$((asked + 1))
if [ "$(ls "$output")" != r.0.0.mca ]; then
  wrong=$((wrong + 1))
  echo "folder after a write that failed: $(ls "$output")"
fi

# A run of a compressed chunk. A run says how many states have no row, and with --strict runs nothing for them.
stone=crates/av_main/data/r.-1.-1.mca
rm -r "$output"/* "$input"/*
sector "$input/r.0.0.mca" '\0\0\0\5\2\12\0\0\0'
expect_run 1 "" "fault 09: Compression 2\n$advice" "$blocks" "$edits" "$input" "$output" 1
expect_run 1 "" "fault 09: Compression 2\n$advice  r.0.0.mca, chunk 0 0
  \`anvilwater check --in DIR\` lists each file and chunk that has a fault\n" "$blocks" "$edits" "$input" "$output" 1 --explain
rm "$input/r.0.0.mca"
cp "$stone" "$input"
printf 'version = 3\nmin_section = 4\nsections = 1\n' > "$work/bare.toml"
expect_run 1 "" "1$strict" "$work/bare.toml" "$edits" "$input" "$output" 1 --strict
expect_run 1 "" "fault 23: BadCount\n" "$work/bare.toml" "$edits" "$input" "$output" 9 --strict
asked=$((asked + 1))
if [ -n "$(ls "$output")" ]; then
  wrong=$((wrong + 1))
  echo "folder after --strict: $(ls "$output")"
fi
expect_run 0 "chunks 1 turns 0\n" "1$uncovered" "$work/bare.toml" "$edits" "$input" "$output" 1
expect_run 0 "chunks 1 turns 0\n" "" "$blocks" "$edits" "$input" "$output" 1 --strict

# The line of the edits that is refused, and what can be done.
form='  a line is TICK X Y Z STATE with single spaces, as `1 8 75 8 minecraft:water[level=0]`\n'
printf '# none\n1 0 64 nonsense\n' > "$work/bad.edits"
expect_run 1 "" "fault 20: BadEdit 2\n  $work/bad.edits, line 2: 1 0 64 nonsense\n$form" "$blocks" "$work/bad.edits" "$input" "$output" 1 --explain
expect_run 1 "" "fault 20: BadEdit 2\n" "$blocks" "$work/bad.edits" "$input" "$output" 1
expect_run 1 "" "fault 20: BadEdit 1\n  standard input, line 1\n$form" "$blocks" - "$input" "$output" 1 --explain <<< nonsense
printf '11 0 64 0 minecraft:stone\r\n' > "$work/bad.edits"
expect_run 1 "" "fault 21: EditTick 1\n  $work/bad.edits, line 1: 11 0 64 0 minecraft:stone
  its tick is its first number, and the run's are 1 to 10\n" "$blocks" "$work/bad.edits" "$input" "$output" 1 --explain
printf '1 0 64 0 minecraft:stone\n' > "$work/bad.edits"
expect_run 1 "" "fault 22: EditOutside 1\n  $work/bad.edits, line 1: 1 0 64 0 minecraft:stone
  its block is in no chunk that is loaded, or above or below the world: a chunk is loaded where it is fully generated\n" \
  "$blocks" "$work/bad.edits" "$input" "$output" 1 --explain

# A text that is named - is standard input, which can be read once.
twice="error: - is standard input, which can be read once, and two files are -"
rm "$output"/*
expect_run 0 "chunks 1 turns 0\n" "" - "$edits" "$input" "$output" 1 < "$blocks"
expect_run 0 "chunks 1 turns 0\n" "" "$blocks" - "$input" "$output" 1 < "$edits"
expect_run 1 "" "fault 19: BadTable\n" - "$edits" "$input" "$output" 1 < README.md
expect_run 1 "" "fault 19: BadTable\n" - "$edits" "$input" "$output" 1 --explain < README.md
expect_run 1 "" "fault 20: BadEdit 1\n" "$blocks" - "$input" "$output" 1 <<< nonsense
expect 2 "$twice" run --in "$input" --out "$output" --ticks 0 --table - --edits - < "$edits"
expect 2 "$twice" map --in samples --out "$work/twice.png" --table - --colours - < "$edits"
expect 1 "fault 19: BadTable" block --table - missing/r.0.0.mca 0 0 0 < README.md
expect 1 "fault 19: BadTable" check --table - --in missing < README.md
expect 1 "fault 19: BadTable" states --table - --in missing < README.md
expect 1 "fault 19: BadTable" map --colours - --in missing --out "$work/twice.png" < README.md
expect 1 "fault 25: Device missing" map --colours - --in missing --out "$work/twice.png" < tables/colours.toml
# One that can't be read is named -.
expect 1 "fault 25: Device -" block --table - samples/r.0.0.mca 4 67 15 < "$work"
expect 1 "fault 25: Device -" run --in samples --out "$output" --ticks 0 --edits - < "$work"
expect 1 "fault 25: Device -" map --in samples --out "$work/twice.png" --colours - < "$work"
# Two are refused before all else. A text of a longer name is none, nor is a region's file, a folder or a picture that is named -.
expect 2 "$twice" run --in missing --out missing --ticks 0 --table - --edits - --skip README < "$edits"
expect 1 "fault 25: Device -x" block --table=-x missing/r.0.0.mca 0 0 0
expect 1 "fault 25: Device -x" run --in "$input" --out "$output" --ticks 0 --table=-x --edits=-x
expect 1 "fault 25: Device -" block --table - - 0 0 0 < "$blocks"
expect 1 "fault 25: Device -" check --table - --in - < "$blocks"
expect 1 "fault 25: Device -" states --table - --in - < "$blocks"
expect 1 "fault 25: Device -" map --table - --in - --out - < "$blocks"
expect 1 "fault 25: Device -" run --table - --in - --out - --ticks 0 < "$blocks"
rm "$output"/*
