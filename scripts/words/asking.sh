# A part of check_words.sh: how the program is asked, and what its parts have in common.

# expect STATUS LINE WORDS..: a state is one line of standard output, a fault one line of standard error; refused words
# begin standard error with the line, and a call for help standard output. The other stream has nothing.
expect() {
  local status=$1 line=$2 answered=0 said=err silent=out right=true
  shift 2
  case "$status $*" in '0 '* | *--help | '2 help'* | *' -h') said=out silent=err ;; esac
  "$program" "$@" > "$work/out" 2> "$work/err" || answered=$?
  asked=$((asked + 1))
  [ "$answered" = "$status" ] && [ ! -s "$work/$silent" ] || right=false
  if [ "$status" = 2 ]; then
    [ "$(head -n 1 "$work/$said")" = "$line" ] || right=false
  else
    printf '%s\n' "$line" | cmp -s - "$work/$said" || right=false
  fi
  if ! $right; then
    wrong=$((wrong + 1))
    echo "$*: expected $status, $line; status $answered, output '$(cat "$work/out")', errors '$(cat "$work/err")'"
  fi
}

# expect_all STATUS OUTPUT ERRORS WORDS..: the same of a call that may write several lines, or none, to each stream
expect_all() {
  local status=$1 out=$2 err=$3 answered=0
  shift 3
  "$program" "$@" > "$work/out" 2> "$work/err" || answered=$?
  asked=$((asked + 1))
  if [ "$answered" != "$status" ] || ! printf -- "$out" | cmp -s - "$work/out" || ! printf -- "$err" | cmp -s - "$work/err"; then
    wrong=$((wrong + 1))
    echo "$*: expected $status, '$out', '$err'; status $answered, output '$(cat "$work/out")', errors '$(cat "$work/err")'"
  fi
}

# sector FILE BYTES: a region with one chunk, at index 0, whose sector begins with bytes that are written for printf
sector() {
  printf '\0\0\2\1' > "$1"
  truncate -s 8192 "$1"
  printf "$2" >> "$1"
  truncate -s 12288 "$1"
}

# region FILE PAYLOAD: such a region, with the chunk's payload, that is written for printf
region() {
  local size
  size=$(($(printf "$2" | wc -c) + 1))
  sector "$1" "\\0\\0$(printf '\\%03o\\%03o' $((size / 256)) $((size % 256)))\\3$2"
}

# expect_full ERRORS WORDS..: status 1 and these errors, where standard output is full
expect_full() {
  local err=$1 answered=0
  shift
  [ -c /dev/full ] || return 0
  "$program" "$@" > /dev/full 2> "$work/err" || answered=$?
  asked=$((asked + 1))
  if [ "$answered" != 1 ] || ! printf "$err" | cmp -s - "$work/err"; then
    wrong=$((wrong + 1))
    echo "$*: output to /dev/full: status $answered, errors '$(cat "$work/err")'"
  fi
}

# expect_unsaid STATUS STREAM WORDS..: this status, where one of the two streams is full
expect_unsaid() {
  local status=$1 stream=$2 answered=0
  shift 2
  [ -c /dev/full ] || return 0
  if [ "$stream" = out ]; then
    "$program" "$@" > /dev/full || answered=$?
  else
    "$program" "$@" > "$work/out" 2> /dev/full || answered=$?
  fi
  asked=$((asked + 1))
  if [ "$answered" != "$status" ]; then
    wrong=$((wrong + 1))
    echo "$*: standard $stream to /dev/full: expected $status, status $answered"
  fi
}

# two_chunks FILE: a region with two chunks, one compressed and one whose length is none, at indices 0 and 33
two_chunks() {
  {
    printf '\0\0\2\1'
    head -c 128 /dev/zero
    printf '\0\0\3\1'
  } > "$1"
  truncate -s 8192 "$1"
  printf '\0\0\0\5\2\12\0\0\0' >> "$1"
  truncate -s 16384 "$1"
}

# What follows the fault of a compressed chunk, what is said of chunks that are left out, and of states that have no row.
advice='  scripts/worlds.py plain IN OUT makes such files readable; anvilwater-world WORLD does the whole way\n'
unread=' chunks or files have a fault and are left out: `anvilwater check --in DIR` lists them\n'
uncovered=' states have no row in the table and count as full and dark: `anvilwater states` lists them\n'
strict=' states have no row in the table, and --strict wants one: `anvilwater states` lists them\n'

# What is said of a folder without region files, and of an output that is full.
bare=' has no region files\n'
full='standard output: No space left on device (os error 28)\n'

# What can be done, where the system answers that nothing is there.
missing='  nothing has that name: is it spelled right, and does each link on the way lead to something?\n'

not_a_region="the file's name is not r.X.Z.mca, with X and Z the region's coordinates"
