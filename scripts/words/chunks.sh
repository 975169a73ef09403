# A part of check_words.sh: regions and chunks that are odd, and the table's height. It is asked last, since it bounds the memory.

# Regions without chunks, and one that ends in its header.
one="$work/r.0.0.mca"
for size in 0 8192; do
  head -c "$size" /dev/zero > "$one"
  expect 0 unloaded block "$one" 1 2 3
done
head -c 100 /dev/zero > "$one"
expect 1 "fault 04: ShortHeader" block "$one" 1 2 3

# Chunk (-1, -1), whose section 4 has stone at its last place of y 64 and air elsewhere.
expect 0 minecraft:stone block -- "$stone" -1 64 -1
expect 0 minecraft:air block -- "$stone" -2 64 -1
expect 0 unloaded block -- "$stone" -1 320 -1
expect 0 unloaded block -- "$stone" -33 64 -1
expect 0 unloaded block -- "$stone" 1 64 -1

# That file, cut. What is wanted of it ends with the chunk's 4 bytes of length and the bytes that those count.
length=$((16#$(od -An -tx1 -j8192 -N4 "$stone" | tr -d ' ')))
cut="$work/r.-1.-1.mca"
while read -r size status line; do
  head -c "$size" "$stone" > "$cut"
  expect "$status" "$line" block -- "$cut" -1 64 -1
done << END
0 0 unloaded
1 1 fault 04: ShortHeader
8191 1 fault 04: ShortHeader
8192 1 fault 06: TruncatedChunk
$((8195 + length)) 1 fault 06: TruncatedChunk
$((8196 + length)) 0 minecraft:stone
12287 0 minecraft:stone
END

# The first bytes of a sector. A fault is answered whatever the y is.
while read -r bytes line; do
  sector "$one" "$bytes"
  expect 1 "$line" block "$one" 0 900 0
done << 'END'
\0\0\0\5\3\12\0\0\0 fault 12: BadChunk
\0\0\0\1\203 fault 08: ExternalChunk
\0\0\0\1\200 fault 08: ExternalChunk
\0\0\0\0 fault 07: BadLength
\0\0\20\0\3 fault 06: TruncatedChunk
END
for type in 0 1 2 4 127; do
  sector "$one" "\\0\\0\\0\\5$(printf '\\%03o' $type)\\12\\0\\0\\0"
  expect_all 1 "" "fault 09: Compression $type\n$advice" block "$one" 0 900 0
done

# Payloads that spell no root: a negative length, elements of no kind, a name twice, a byte after the root, each proper
# beginning of a root, and a chain of 512 Lists one in another. That root and a chain of 511 are read, but are no chunk.
for payload in '\12\0\0\7\0\1a\377\377\377\377\0' '\12\0\0\11\0\1a\0\0\0\0\1\0' \
  '\12\0\0\1\0\1a\0\1\0\1a\0\0' '\12\0\0\0\0'; do
  region "$one" "$payload"
  expect 1 "fault 10: BadNbt" block "$one" 0 0 0
done
root=(12 0 0 11 0 1 141 0 377 377 377 377 0)
region "$one" ""
expect 1 "fault 10: BadNbt" block "$one" 0 0 0
for size in {1..12}; do
  region "$one" "$(printf '\\%s' "${root[@]:0:size}")"
  expect 1 "fault 10: BadNbt" block "$one" 0 0 0
done
region "$one" "$(printf '\\%s' "${root[@]}")"
expect 1 "fault 12: BadChunk" block "$one" 0 0 0
lists=$(printf '\\11\\0\\0\\0\\1%.0s' {1..510})
region "$one" "\\12\\0\\0\\11\\0\\1a$lists\\0\\0\\0\\0\\0\\0"
expect 1 "fault 12: BadChunk" block "$one" 0 0 0
region "$one" "\\12\\0\\0\\11\\0\\1a\\11\\0\\0\\0\\1$lists\\0\\0\\0\\0\\0\\0"
expect 1 "fault 10: BadNbt" block "$one" 0 0 0

# The height is the game's, or the table's.
expect 0 'minecraft:bedrock' block -- samples/r.0.0.mca 4 -64 15
expect 0 unloaded block -- samples/r.0.0.mca 4 -65 15
expect 0 minecraft:air block samples/r.0.0.mca 4 319 15
printf 'version = 3\nmin_section = 0\nsections = 16\n' > "$work/high.toml"
expect 0 'minecraft:deepslate[axis=y]' block -- samples/r.0.0.mca 4 -1 15
expect 0 unloaded block --table "$work/high.toml" -- samples/r.0.0.mca 4 -1 15
expect 0 minecraft:air block samples/r.0.0.mca 4 256 15
expect 0 unloaded block --table "$work/high.toml" samples/r.0.0.mca 4 256 15
printf 'version = 3\nmin_section = 2\nsections = 15\n' > "$work/high.toml"
expect 0 unloaded block --table "$work/high.toml" samples/r.0.0.mca 4 31 15
expect 0 minecraft:stone block --table "$work/high.toml" samples/r.0.0.mca 4 32 15
expect 0 minecraft:air block --table "$work/high.toml" samples/r.0.0.mca 4 271 15
expect 0 unloaded block --table "$work/high.toml" samples/r.0.0.mca 4 272 15

# A section without a palette, of number 17, is looked at where it is in the height.
region "$folder/r.0.0.mca" '\12\0\0\3\0\4xPos\0\0\0\0\3\0\4zPos\0\0\0\0\10\0\6Status\0\4full\11\0\10sections\12\0\0\0\1\1\0\1Y\21\12\0\14block_states\0\0\0'
rm "$folder"/r.-1.1.mca "$folder"/r.3.0.mca "$folder"/r.-2.2.mca
expect_all 1 "r.0.0.mca 0 0 fault 14: BadPalette\n" "" check --in "$folder"
expect_all 0 "" "" check --table "$work/high.toml" --in "$folder"

# No memory is asked for by a declared length that the bytes left can't fill: 2^31 - 1 longs, and as many Compounds.
ulimit -v 400000
region "$one" '\12\0\0\14\0\1a\177\377\377\377\0'
expect 1 "fault 10: BadNbt" block "$one" 0 0 0
region "$one" '\12\0\0\11\0\1a\12\177\377\377\377\0'
expect 1 "fault 10: BadNbt" block "$one" 0 0 0
