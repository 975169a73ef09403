# A part of check_words.sh: pictures of a folder.

# A picture of a folder. The table is read before the colours, and these before the folder.
picture="$work/picture.png"
expect 2 "error: the following required arguments were not provided:" map --in samples
expect 2 "error: the following required arguments were not provided:" map --out "$picture"
expect 2 "Draws the region files of a folder from above, a pixel for each column of blocks" map --help
expect 1 "fault 25: Device missing.toml" map --table missing.toml --colours missing.colours --in missing --out "$picture"
expect 1 "fault 25: Device missing.colours" map --colours missing.colours --in missing --out "$picture"
expect 1 "fault 19: BadTable" map --colours README.md --in missing --out "$picture"
expect 1 "fault 25: Device missing" map --in missing --out "$picture"
expect_all 1 "" "$work/empty${bare}no region file to draw\n" map --in "$work/empty" --out "$picture"
: > "$folder/r.60001.0.mca"
expect 1 "fault 02: RegionRange" map --in "$folder" --out "$picture"
rm "$folder/r.60001.0.mca"
expect 1 "fault 25: Device $work/missing/picture.png" map --in samples --out "$work/missing/picture.png"
mkdir "$picture"
expect 1 "fault 25: Device $picture" map --in samples --out "$picture"
rmdir "$picture"
expect 1 "fault 25: Device $work/empty/" map --in samples --out "$work/empty/"
asked=$((asked + 1))
if [ -n "$(ls -A "$work/empty")" ]; then
  wrong=$((wrong + 1))
  echo "folder after a picture without a name: $(ls -A "$work/empty")"
fi
asked=$((asked + 1))
if compgen -G "$work/.anvilwater*" > "$work/out" || compgen -G "$picture*" >> "$work/out"; then
  wrong=$((wrong + 1))
  echo "a picture that failed is left behind: $(cat "$work/out")"
fi
expect_all 0 "" "" map --in samples --out "$picture"
expect_all 0 "" "" map --in samples --out "$work/light.png" --light
expect_all 0 "" "2$unread" map --in "$input" --out "$work/parts.png"
# Two regions side by side are 1,024 by 1,024 pixels where one is north-west of the other.
for file in picture light parts; do
  asked=$((asked + 1))
  if [ "$(head -c 24 "$work/$file.png" | od -An -tx1 | tr -d ' \n')" != 89504e470d0a1a0a0000000d494844520000040000000400 ]; then
    wrong=$((wrong + 1))
    echo "$file.png: no picture of 1,024 by 1,024 pixels"
  fi
done
asked=$((asked + 1))
if cmp -s "$picture" "$work/light.png"; then
  wrong=$((wrong + 1))
  echo "the picture of the light is that of the blocks"
fi
# A name without a folder is that of a file here.
(cd "$work" && "$program" map --in "$top/samples" --out here.png)
asked=$((asked + 1))
if ! cmp -s "$picture" "$work/here.png"; then
  wrong=$((wrong + 1))
  echo "here.png: another picture"
fi
