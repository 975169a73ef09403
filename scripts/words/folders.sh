# A part of check_words.sh: what is wrong with a folder, what is told on a terminal, links and pipes, and reasons that are asked for.

# What is wrong with a folder. The words are judged before the table, the table before the folder, and that before its
# files, which are read in the byte order of their names.
expect 2 "error: the following required arguments were not provided:" check
expect 2 "error: unexpected argument 'samples' found" check samples
expect 2 "error: the argument '--in <DIR>' cannot be used multiple times" check --in samples --in samples
expect 2 "Lists what is wrong with the region files of a folder" check --help
expect_all 0 "" "" check --in samples
expect_all 0 "" "1 of 2 files read\n2 of 2 files read\n2 files, 6 chunks, 0 findings\n" check --progress --in samples
# On a terminal one line is written anew, and taken away at the end, and faults are explained.
on_terminal() {
  python3 - "$program" "$@" << 'END'
import os, subprocess, sys
master, slave = os.openpty()
subprocess.run(sys.argv[1:], stdout=subprocess.DEVNULL, stderr=slave, timeout=60)
os.close(slave)
told = b""
while True:
    try:
        more = os.read(master, 4096)
    except OSError:
        break
    told += more
    if not more:
        break
sys.stdout.write(told.decode().replace("\r\x1b[K", "|").replace("\r\n", "\n"))
END
}
expect_on_terminal() {
  local want=$1 told
  shift
  told=$(on_terminal "$@")
  asked=$((asked + 1))
  if [ "$told" != "$(printf "$want")" ]; then
    wrong=$((wrong + 1))
    echo "$*, on a terminal: expected '$want', found '$told'"
  fi
}
for words in '' --progress; do
  expect_on_terminal "|1 of 2 files read|2 of 2 files read|2 files, 6 chunks, 0 findings\n" check $words --in samples
done
expect_on_terminal "fault 25: Device missing\n  missing: No such file or directory (os error 2)\n$missing" check --in missing
expect 1 "fault 25: Device missing.toml" check --table missing.toml --in missing
expect 1 "fault 19: BadTable" check --table README.md --in missing
expect 1 "fault 25: Device missing" check --in missing
expect 1 "fault 25: Device missing/" check --in missing/
expect 1 "fault 25: Device README.md" check --in README.md
folder="$work/folder"
mkdir "$folder"
expect_all 0 "" "$folder$bare" check --in "$folder"
for name in README r.0.0.mcr r.00.0.mca r.-0.0.mca r.0.0.mca.part r.2147483648.0.mca $'r.0.\377.mca'; do
  printf 'no region' > "$folder/$name"
done
expect_all 0 "" "$folder$bare" check --in "$folder"
# Each file that can't be read is said, and then the others' faults.
mkdir "$folder/r.2.0.mca" "$folder/r.10.0.mca"
expect_all 1 "" "fault 25: Device r.10.0.mca\nfault 25: Device r.2.0.mca\n" check --in "$folder"
: > "$folder/r.60001.0.mca"
expect_all 1 "" "fault 25: Device r.10.0.mca\nfault 25: Device r.2.0.mca\nfault 02: RegionRange\n" check --in "$folder"
rmdir "$folder/r.2.0.mca" "$folder/r.10.0.mca"
expect 1 "fault 02: RegionRange" check --in "$folder"
rm "$folder"/*
# A world's folder has its region files in a folder of it.
mkdir -p "$work/world/region" "$work/other"
: > "$work/other/region"
expect_all 0 "" "$work/world has no region files, but $work/world/region is there\n" check --in "$work/world"
expect_all 0 "" "$work/world/ has no region files, but $work/world/region is there\n" check --in "$work/world/"
expect_all 0 "" "$work/other$bare" check --in "$work/other"

# Findings come by (z, x) of the regions and then by the chunks' indices, with the chunks' places in the world.
two_chunks "$folder/r.0.0.mca"
expect_all 1 "r.0.0.mca 0 0 fault 09: Compression 2\nr.0.0.mca 1 1 fault 07: BadLength\n" "$advice" check --in "$folder"
two_chunks "$folder/r.-1.1.mca"
head -c 100 /dev/zero > "$folder/r.3.0.mca"
: > "$folder/r.-2.2.mca"
expect_all 1 "r.0.0.mca 0 0 fault 09: Compression 2
r.0.0.mca 1 1 fault 07: BadLength
r.3.0.mca fault 04: ShortHeader
r.-1.1.mca -32 32 fault 09: Compression 2
r.-1.1.mca -31 33 fault 07: BadLength
" "$advice" check --in "$folder/"
expect_full "$full" check --in "$folder"
# The chunk with a fault that `block` meets, where that is asked for.
fault_at='  `anvilwater check --in DIR` lists each file and chunk that has a fault\n'
expect 1 "fault 07: BadLength" block "$folder/r.0.0.mca" 16 0 16
expect_all 1 "" "fault 07: BadLength\n  r.0.0.mca, chunk 1 1\n$fault_at" block --explain "$folder/r.0.0.mca" 16 0 16
expect_all 1 "" "fault 09: Compression 2\n$advice  r.0.0.mca, chunk 0 0\n$fault_at" block --explain "$folder/r.0.0.mca" 15 0 0
expect_all 1 "" "fault 04: ShortHeader\n  r.3.0.mca\n$fault_at" block --explain "$folder/r.3.0.mca" 1536 0 0
# How much was looked at: of a file that is cut short no chunks, and of one that can't be read nothing.
mkdir "$folder/r.4.0.mca"
expect_all 1 "$("$program" check --in "$folder" 2> /dev/null)\n" \
  "1 of 5 files read\n2 of 5 files read\n3 of 5 files read\n4 of 5 files read\n5 of 5 files read
fault 25: Device r.4.0.mca\n${advice}4 files, 4 chunks, 5 findings\n" check --progress --in "$folder"
rmdir "$folder/r.4.0.mca"

# A link to a region file is read. One to nowhere, a folder, a pipe and a file that may not be read are named, and all others are
# looked at; a run stops at the first.
odd="$work/odd"
mkdir -p "$odd/r.9.9.mca"
two_chunks "$work/two_chunks"
ln -s "$work/two_chunks" "$odd/r.1.0.mca"
ln -s "$work/missing" "$odd/r.5.0.mca"
mkfifo "$odd/r.7.0.mca"
: > "$odd/r.8.0.mca"
chmod 0 "$odd/r.8.0.mca"
closed='fault 25: Device r.8.0.mca\n'
[ "$(id -u)" != 0 ] || closed=
expect_all 1 "r.1.0.mca 32 0 fault 09: Compression 2\nr.1.0.mca 33 1 fault 07: BadLength\n" \
  "fault 25: Device r.5.0.mca\nfault 25: Device r.7.0.mca\n${closed}fault 25: Device r.9.9.mca\n$advice" check --in "$odd"
# With --explain lines follow that say where, why and what can be done.
rm "$odd/r.1.0.mca" "$odd/r.8.0.mca"
expect_all 1 "" "fault 25: Device r.5.0.mca
  $odd/r.5.0.mca: No such file or directory (os error 2)
${missing}fault 25: Device r.7.0.mca
  $odd/r.7.0.mca: neither a file nor a folder
fault 25: Device r.9.9.mca
  $odd/r.9.9.mca: Is a directory (os error 21)
  a folder has that name, where a file is wanted
" check --in "$odd/" --explain
expect_all 1 "" "fault 25: Device r.5.0.mca\n  $odd/r.5.0.mca: No such file or directory (os error 2)\n$missing" \
  states --explain --in "$odd"
expect_all 1 "" "fault 25: Device none.toml\n  none.toml: No such file or directory (os error 2)\n$missing" \
  block --explain --table none.toml samples/r.0.0.mca 0 0 0
expect_all 1 "" "fault 25: Device none.toml\n  none.toml: No such file or directory (os error 2)\n$missing" \
  map --explain --colours none.toml --in "$odd" --out "$work/odd.png"
expect_all 1 "" "fault 25: Device README.md\n  README.md: not a directory\n  a file has that name, where a folder is wanted\n" \
  "${nothing[@]:0:4}" README.md "${nothing[@]:5}" --explain
expect_all 0 "minecraft:stone\n" "" block --explain samples/r.0.0.mca 4 67 15
expect_all 0 "unloaded\n" "" block samples/r.0.0.mca 512 67 15
expect_all 0 "unloaded\n" "  that position is in r.1.0.mca\n" block --explain samples/r.0.0.mca 512 67 15
expect_all 0 "unloaded\n" "" block --explain samples/r.0.0.mca 511 67 511
printf 'version = 2\nversion = 2\n' > "$work/twice.toml"
printf 'version = 2\n[[block]]\nname = "a:b"\nopen = true\nfloor = true\nopacity = 16\nemission = 0\n' > "$work/row.toml"
expect_all 1 "" "fault 19: BadTable\n  $work/twice.toml, line 2: duplicate key\n" check --explain --table "$work/twice.toml" --in "$odd"
expect_all 1 "" "fault 19: BadTable\n  $work/row.toml: row 1, a:b: opacity and emission have to be whole numbers from 0 to 15\n" \
  states --explain --table "$work/row.toml" --in "$odd"
rm "$odd/r.5.0.mca"
expect 1 "fault 25: Device r.7.0.mca" "${nothing[@]:0:2}" "$odd" "${nothing[@]:3}"
expect 1 "fault 25: Device r.7.0.mca" states --in "$odd"
expect 1 "fault 25: Device r.7.0.mca" map --in "$odd" --out "$work/odd.png"
