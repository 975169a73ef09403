# A part of check_words.sh: files that are skipped, runs that write nothing, and the states of a folder.

# Files that are skipped count as not there, and stay as they are, even where they can't be read.
skipped=" is skipped: it counts as not there and stays as it is\n"
expect_run 1 "" "--skip README: the name of a region's file is r.X.Z.mca\n" "$blocks" "$edits" "$input" "$output" 1 --skip README
expect_run 1 "" "--skip r.01.0.mca: the name of a region's file is r.X.Z.mca\n" "$blocks" "$edits" "$input" "$output" 1 --skip r.01.0.mca
expect_run 1 "" "--skip r.9.9.mca: the folder has no such file\n" "$blocks" "$edits" "$input" "$output" 1 --skip r.-1.-1.mca --skip r.9.9.mca
# They are judged before all else, one after the other.
expect_run 1 "" "--skip README: the name of a region's file is r.X.Z.mca\n" missing.toml missing.edits missing missing 9 --skip README
expect_run 1 "" "--skip r.9.9.mca: the folder has no such file\n" missing.toml missing.edits missing missing 9 --skip r.9.9.mca
expect_run 1 "" "--skip r.9.9.mca: the folder has no such file\n" "$blocks" "$edits" "$input" "$output" 1 --skip r.9.9.mca --skip README
expect_run 1 "" "--skip README: the name of a region's file is r.X.Z.mca\n" "$blocks" "$edits" "$input" missing 1 --skip README --dry-run
expect_run 1 "" "fault 25: Device $blocks\n" "$blocks" "$edits" "$blocks" "$output" 1 --skip r.9.9.mca
mkdir "$input/r.2.0.mca"
head -c 100 /dev/zero > "$input/r.3.0.mca"
expect_run 1 "" "fault 25: Device r.2.0.mca\n" "$blocks" "$edits" "$input" "$output" 1
expect_run 1 "" "fault 25: Device r.2.0.mca\n" "$blocks" "$edits" "$input" "$output" 1 --skip r.3.0.mca
expect_run 1 "" "r.2.0.mca${skipped}fault 04: ShortHeader\n" "$blocks" "$edits" "$input" "$output" 1 --skip r.2.0.mca
asked=$((asked + 1))
if [ -n "$(ls "$output")" ]; then
  wrong=$((wrong + 1))
  echo "folder after runs that were refused: $(ls "$output")"
fi
expect_run 0 "chunks 1 turns 0\n" "r.2.0.mca${skipped}r.3.0.mca$skipped" \
  "$blocks" "$edits" "$input" "$output" 1 --skip r.3.0.mca --skip r.2.0.mca
expect_run 0 "chunks 0 turns 0\n" "r.2.0.mca${skipped}r.-1.-1.mca${skipped}r.3.0.mca$skipped" \
  "$blocks" "$edits" "$input" "$output" 1 --skip r.3.0.mca --skip r.2.0.mca --skip r.-1.-1.mca
asked=$((asked + 1))
if [ "$(ls "$output")" != r.-1.-1.mca ] || [ "$(stat -c %s "$input/r.3.0.mca")" != 100 ]; then
  wrong=$((wrong + 1))
  echo "folders after files were skipped: $(ls -l "$input" "$output")"
fi
# One that is given twice is said once, and one beyond the limits may be given too.
expect_run 0 "chunks 1 turns 0\n" "r.2.0.mca${skipped}r.3.0.mca$skipped" \
  "$blocks" "$edits" "$input" "$output" 1 --skip r.3.0.mca --skip r.2.0.mca --skip r.3.0.mca
rmdir "$input/r.2.0.mca"
rm "$input/r.3.0.mca"
: > "$input/r.60001.0.mca"
expect_run 1 "" "fault 02: RegionRange\n" "$blocks" "$edits" "$input" "$output" 1
expect_run 0 "chunks 1 turns 0\n" "r.60001.0.mca$skipped" "$blocks" "$edits" "$input" "$output" 1 --skip r.60001.0.mca
rm "$input/r.60001.0.mca" "$output"/*

# What a run would change, in the order of the names, and nothing is written.
expect_run 0 "r.-1.-1.mca: 1 chunks would change\nchunks 1 turns 0\n" "" "$blocks" "$edits" "$input" "$output" 1 --dry-run
expect_run 0 "chunks 0 turns 0\n" "r.-1.-1.mca$skipped" "$blocks" "$edits" "$input" "$output" 1 --dry-run --skip r.-1.-1.mca
mapfile -t words < <(run "$blocks" "$edits" "$input" "$output" 1 --dry-run)
expect_full "$full" "${words[@]}"
expect_run 1 "" "fault 25: Device missing\n" "$blocks" "$edits" "$input" missing 1 --dry-run
expect_run 1 "" "fault 23: BadCount\n" "$blocks" "$edits" "$input" "$output" 9 --dry-run
expect_run 1 "" "1$strict" "$work/bare.toml" "$edits" "$input" "$output" 1 --strict --dry-run
expect_run 0 "r.-1.-1.mca: 1 chunks would change\nchunks 1 turns 0\n" "1 of 1 files read\nrunning
1 chunks loaded\n10 of 10 ticks run\nlight of 1 chunks\nmaking 1 files\ncomparing\n" \
  "$blocks" "$edits" "$input" "$output" 1 --dry-run --progress
asked=$((asked + 1))
if [ -n "$(ls -A "$output")" ]; then
  wrong=$((wrong + 1))
  echo "folder after dry runs: $(ls -A "$output")"
fi
expect_run 0 "chunks 1 turns 0\n" "" "$blocks" "$edits" "$input" "$output" 1
expect_run 0 "chunks 1 turns 0\n" "" "$blocks" "$edits" "$input" "$output" 1 --dry-run
expect_run 0 "chunks 1 turns 0\n" "" "$blocks" "$edits" "$output" "$output" 1 --dry-run
: > "$input/r.2.0.mca"
: > "$input/r.10.0.mca"
cp "$stone" "$output/r.10.0.mca"
mkdir "$output/r.2.0.mca"
expect_run 1 "" "fault 25: Device r.2.0.mca\n" "$blocks" "$edits" "$input" "$output" 1 --dry-run
rmdir "$output/r.2.0.mca"
expect_run 0 "r.10.0.mca: 1 chunks would change\nr.2.0.mca: 0 chunks would change\nchunks 1 turns 0\n" "" \
  "$blocks" "$edits" "$input" "$output" 1 --dry-run
rm "$input/r.2.0.mca" "$input/r.10.0.mca" "$output"/*

# The states of a folder. They have a row, or none, where a table is named.
expect 2 "error: the following required arguments were not provided:" states
expect 2 "Lists the block states of the region files of a folder, with how many blocks have each" states --help
expect 1 "fault 25: Device missing.toml" states --table missing.toml --in missing
expect 1 "fault 19: BadTable" states --table README.md --in missing
expect 1 "fault 25: Device missing" states --in missing
mkdir "$work/empty"
expect_all 0 "" "$work/empty$bare" states --in "$work/empty"
expect_all 0 "" "$work/world has no region files, but $work/world/region is there\n" states --in "$work/world"
expect_all 0 "98303 minecraft:air\n1 minecraft:stone\n" "" states --in "$input"
expect_all 0 "4095 minecraft:air open=true floor=false opacity=0 emission=0 wet=false\n1 minecraft:stone no row\n" "" \
  states --in "$input" --table "$work/bare.toml"
two_chunks "$input/r.0.0.mca"
expect_all 1 "98303 minecraft:air\n1 minecraft:stone\n" "2$unread" states --in "$input"
expect_full "$full" states --in samples
