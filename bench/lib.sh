# For the measurements of one loop, which source this file: a folder of their own, the program of one crate beside the
# same work in C, and `timed`.
set -euo pipefail

root=$(cd "$(dirname "$(readlink -f "${BASH_SOURCE[0]}")")/.." && pwd)
room=$(mktemp -d)
trap 'rm -rf "$room"' EXIT

# The crates of ours that a crate stands on, itself among them.
needs() {
  local below
  echo "$1"
  for below in $(sed -n "s/^$1:\(.*\)/\1/p" "$root/crates.txt"); do
    [ ! -d "$root/crates/$below" ] || needs "$below"
  done
}

# Proves and builds `$room/ours`, the program on standard input, over these crates.
build_ours() {
  local crate program=$room/crates/ours
  mkdir -p "$program/src"
  for crate in $(for crate in "$@"; do needs "$crate"; done | sort -u); do
    cp -r "$root/crates/$crate" "$room/crates/$crate"
    grep "^$crate:" "$root/crates.txt" >>"$room/crates.txt"
  done
  echo "ours: $*" >>"$room/crates.txt"
  cat >"$program/src/main.rt"
  (cd "$program" && rt run >"$room/log" 2>&1) || { cat "$room/log"; exit 1; }
  cp "$program/out/ours" "$room/ours"
}

# Runs the words, and prints the seconds that they take; what they print is kept in `$room/printed`.
timed() {
  local start=$EPOCHREALTIME
  "$@" >"$room/printed"
  awk -v from="$start" -v to="$EPOCHREALTIME" 'BEGIN { print to - from }'
}

# compare NAME BYTES OTHER: prints the MB/s of `$room/ours` and `$room/theirs`, each of which takes in so many bytes.
compare() {
  local ours theirs printed
  ours=$(timed "$room/ours")
  printed=$(cat "$room/printed")
  theirs=$(timed "$room/theirs")
  [ "$printed" = "$(cat "$room/printed")" ] || { echo "they print different results"; exit 1; }
  awk -v name="$1" -v bytes="$2" -v other="$3" -v ours="$ours" -v theirs="$theirs" 'BEGIN {
    size = bytes / 1e6
    printf "%s %.0f MB/s, %s %.0f MB/s, ratio %.2f\n", name, size / ours, other, size / theirs, theirs / ours
  }'
}
