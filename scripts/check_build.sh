#!/usr/bin/env bash
# Asks `anvilwater` to build its program, in a copy where stand-ins take the places of rt and of the proofs: one builds, and is then refused
# since it was run without words, as rt's own run is; one fails. Then scripts/prove.py is asked with a stand-in of rt.
set -eu
top=$(cd "$(dirname "$0")/.." && pwd)
work=$(mktemp -d)
trap 'rm -rf "$work"' EXIT
asked=0
wrong=0

expect() {
  asked=$((asked + 1))
  if [ "$2" != "$3" ]; then
    wrong=$((wrong + 1))
    echo "$1: expected '$2', found '$3'"
  fi
}

# A tree of one crate, and the rt of these lines.
tree() {
  rm -rf "$work/tree" "$work/bin"
  mkdir -p "$work/tree/scripts" "$work/tree/crates/av_main/src" "$work/bin"
  cp "$top/anvilwater" "$work/tree/"
  touch "$work/tree/crates.txt" "$work/tree/crates/av_main/src/main.rt"
  printf '#!/bin/sh\nshift 2\ncd "$(dirname "$0")/../crates/av_main" && echo "1 of 1 crates are proved" >&2 && exec "$@"\n' > "$work/tree/scripts/prove.py"
  printf '#!/bin/sh\n%s\n' "$1" > "$work/bin/rt"
  chmod +x "$work/tree/scripts/prove.py" "$work/bin/rt"
}

# What the tree's program is asked, with its status.
ask() {
  local status=0
  PATH="$work/bin:$PATH" "$work/tree/anvilwater" "$@" 2> "$work/err" || status=$?
  echo "status $status"
}

made='mkdir -p out && printf "#!/bin/sh\necho built \$*\n" > out/av_main && chmod +x out/av_main'
for where in 1 2; do
  tree "$made"$'\n'"echo 'rt: running out/av_main; to give it other input, run that file yourself' >&$where"$'\nexit 2'
  expect "first call, told on output $where" $'built check\nstatus 0' "$(ask check)"
  expect "which says how far it is" 1 "$(grep -cF 'anvilwater: 1 of 1 crates are proved' "$work/err")"
  expect "second call" $'built block 1\nstatus 0' "$(ask block 1)"
  expect "which builds nothing" "" "$(cat "$work/err")"
done
tree $'echo "error: a reason"\nexit 1'
expect "a build that fails" "status 3" "$(ask check)"
expect "and says why" 1 "$(grep -cF 'error: a reason' "$work/err")"
# Four crates, of which two stand on one and the last on those two: each is built once, where what it stands on was built. The smaller of
# the two is proved by one process, and with two jobs the larger one too.
lab=$work/lab
mkdir -p "$lab/tree/scripts" "$lab/bin"
cp "$top/scripts/prove.py" "$top/scripts/proof_seconds.txt" "$lab/tree/scripts/"
printf 'low:\nleft: low\nright: low\nhigh: left right\n' > "$lab/tree/crates.txt"
touch "$lab/tree/HANDLES"
for crate in low left right high; do mkdir -p "$lab/tree/crates/$crate/src"; done
seq 30 | sed 's/.*/fn turn&() {}/' > "$lab/tree/crates/left/src/main.rt"
cat > "$lab/bin/rt" <<'LINES'
#!/bin/sh
name=$(basename "$PWD")
case $name in low) below= ;; high) below="low left right" ;; *) below=low ;; esac
for crate in $below; do [ -e "../$crate/out/rlib/built" ] || exit 1; done
[ "$1" = lib ] && echo "$*: $name" >> "$BUILT"
mkdir -p out/rlib && touch out/rlib/built
LINES
chmod +x "$lab/bin/rt"

# How prove.py ends for the last crate.
prove() {
  local status=0
  BUILT=$lab/built XDG_CACHE_HOME=$lab/cache PATH="$lab/bin:$PATH" "$lab/tree/scripts/prove.py" high --jobs "$1" > "$lab/out" 2> "$lab/err" || status=$?
  echo "status $status"
}

expect "four crates side by side" "status 0" "$(prove 4)"
expect "its last step is told too" "3 of 4 crates are proved, less than a minute left; proving high" "$(tail -n 1 "$lab/err")"
expect "each is built once, and the large one by two processes" "lib --jobs 1: low lib --jobs 1: right lib --jobs 2: left" "$(sort "$lab/built" | xargs)"
expect "and how long each took" "left low right" "$(cut -d ' ' -f 1 "$lab/cache/anvilwater/proof_seconds.txt" | xargs)"
rm "$lab/built"
expect "two by two" "status 0" "$(prove 2)"
expect "each by one process" "lib --jobs 1: left lib --jobs 1: low lib --jobs 1: right" "$(sort "$lab/built" | xargs)"
expect "the last one in its own folder" 1 "$(find "$lab/tree/crates/high/out" -name built | wc -l)"
expect "what was built is kept" 3 "$(find "$lab"/tree/crates/low/out "$lab"/tree/crates/left/out "$lab"/tree/crates/right/out -name built | wc -l)"
printf '#!/bin/sh\necho "no proof here"\nexit 1\n' > "$lab/bin/rt"
expect "a proof that fails" "status 1" "$(prove 4)"
expect "and which" 1 "$(grep -cF 'the proof of low failed' "$lab/err")"
expect "and what was said of it" 1 "$(grep -cF 'no proof here' "$lab/err")"
echo "$asked asked of builds, $wrong wrong"
[ "$wrong" = 0 ]
