# A part of check_words.sh: words that are taken and refused, the numbers and the file's name of a block, and streams that are full.

expect 0 minecraft:stone block samples/r.0.0.mca 4 67 15
expect 0 minecraft:stone block -- samples/r.-1.-1.mca -13 62 -14
expect 0 unloaded block samples/r.0.0.mca 4 320 15
expect 1 "fault 25: Device missing/r.0.0.mca" block missing/r.0.0.mca 0 0 0
expect 1 "fault 25: Device missing.toml" block --table missing.toml missing/r.0.0.mca 0 0 0
expect 1 "fault 25: Device missing/r.0.0.mca" block --table tables/blocks.toml missing/r.0.0.mca 0 0 0
expect 1 "fault 25: Device missing/README" block missing/README 0 0 0
expect 1 "fault 19: BadTable" block --table README.md missing/r.0.0.mca 0 0 0
expect 2 "$not_a_region" block README.md 0 0 0
expect 2 "error: the following required arguments were not provided:" block samples/r.0.0.mca 0 0
expect 2 "error: unexpected argument '-1' found" block samples/r.0.0.mca 0 -1 0
expect 2 "error: 'anvilwater' requires a subcommand but one was not provided"
for words in --help -h help; do
  expect 2 "Reads Minecraft region files, and runs water and light over them" $words
done
expect 2 "error: unrecognized subcommand 'blocks'" blocks
expect 0 "anvilwater 0.1.0" --version
expect 0 "anvilwater 0.1.0" -V
expect 2 "error: unexpected argument '--version' found" check --version
expect 2 "error: the words are no text in UTF-8" block $'\377' 0 0 0
expect 2 "error: unrecognized subcommand 'bloc'" bloc samples/r.0.0.mca 4 67 15
expect 2 "error: unexpected argument '--tab' found" check --tab tables/blocks.toml --in samples

# Each command has its own words, and is refused with those that only others have. A word has no letter, and all but --skip are given once.
for command in block check run map states; do
  case $command in
    block) others='in out edits ticks workers skip strict dry-run again in-use progress colours light' ;;
    check) others='out edits ticks workers skip strict dry-run again in-use colours light' ;;
    run) others='colours light' ;;
    map) others='edits ticks workers skip strict dry-run again in-use progress' ;;
    states) others='out edits ticks workers skip strict dry-run again in-use progress colours light' ;;
  esac
  for other in $others version; do
    expect 2 "error: unexpected argument '--$other' found" $command --$other
  done
  for letter in {a..g} {i..z} V; do
    expect 2 "error: unexpected argument '-$letter' found" $command -$letter
  done
  [ $command = block ] || expect 2 "error: unexpected argument 'samples' found" $command samples
done
for word in out=DIR table=FILE edits=FILE ticks=N workers=N; do
  expect 2 "error: the argument '--${word%=*} <${word#*=}>' cannot be used multiple times" run --in samples --${word%=*}=1 --${word%=*}=1
done
for word in strict dry-run again in-use progress explain; do
  expect 2 "error: the argument '--$word' cannot be used multiple times" run --in samples --$word --$word
done

# A coordinate is a number of 32 bits.
expect 0 unloaded block -- samples/r.0.0.mca 2147483647 -2147483648 2147483647
expect 0 unloaded block -- samples/r.0.0.mca -2147483648 2147483647 -2147483648
for number in 2147483648 -2147483649; do
  limits="$number is not in -2147483648..=2147483647"
  expect 2 "error: invalid value '$number' for '<X>': $limits" block -- samples/r.0.0.mca $number 0 0
  expect 2 "error: invalid value '$number' for '<Y>': $limits" block -- samples/r.0.0.mca 0 $number 0
  expect 2 "error: invalid value '$number' for '<Z>': $limits" block -- samples/r.0.0.mca 0 0 $number
done
for number in 0x1 1.0 ' 1' 1_0; do
  expect 2 "error: invalid value '$number' for '<X>': invalid digit found in string" block -- samples/r.0.0.mca "$number" 0 0
done

# The file is read before its name is, and the name before the region.
large='r.2147483648.0 r.-2147483649.0 r.0.2147483648 r.0.-2147483649'
for name in r.60001.0 r.0.60001 r.-60001.0 r.0.-60001 r.2147483647.0 $large r.00.0 r.-0.0; do
  expect 1 "fault 25: Device $work/$name.mca" block "$work/$name.mca" 0 0 0
  head -c 100 /dev/zero > "$work/$name.mca"
done
for name in r.60001.0 r.0.60001 r.-60001.0 r.0.-60001 r.2147483647.0; do
  expect 1 "fault 02: RegionRange" block "$work/$name.mca" 0 0 0
done
for name in $large r.00.0 r.-0.0; do
  expect 2 "$not_a_region" block "$work/$name.mca" 0 0 0
done
for name in r.60000.-60000 r.-60000.60000; do
  : > "$work/$name.mca"
  expect 0 unloaded block "$work/$name.mca" 0 0 0
done
mkdir "$work/r.1.1.mca"
expect 1 "fault 25: Device $work/r.1.1.mca" block "$work/r.1.1.mca" 0 0 0

# Writing that fails is no success, and is said.
: > "$work/edits"
mkdir "$work/nothing"
nothing=(run --in "$work/nothing" --out "$work/nothing" --table tables/blocks.toml --edits "$work/edits" --ticks 0 --workers 1)
expect_full "$full" block samples/r.0.0.mca 4 67 15
expect_full "$full" --version
expect_full "$work/nothing$bare$full" "${nothing[@]}"
# But for help, whose status stays, and on standard error: what can't be said there changes no status.
expect_unsaid 2 out --help
expect_unsaid 2 err blocks
expect_unsaid 2 err block README.md 0 0 0
expect_unsaid 1 err block missing/r.0.0.mca 0 0 0
expect_unsaid 0 err block --explain samples/r.0.0.mca 512 67 15
expect_unsaid 1 err "${nothing[@]}" --skip README
expect_unsaid 0 err "${nothing[@]}"
expect_unsaid 0 err check --progress --in samples
