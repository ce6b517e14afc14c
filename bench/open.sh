#!/usr/bin/env bash
# The processor time of opening and ending a pool of 16 drives and 15 arrays on warm image files, with no line of a script.
# usage: bench/open.sh [OPENINGS]
. "$(dirname "$(readlink -f "${BASH_SOURCE[0]}")")/program.sh"
openings=${1:-20}

names=()
for drive in $(seq -w 0 15); do
  names+=("drive$drive")
  truncate -s $(((79104 + 3328 * 10#$drive) * 512)) "drive$drive"
done
"$program" create 128 "${names[@]}" </dev/null
cat "${names[@]}" >/dev/null

TIMEFORMAT='%U %S'
spent=$({ time for _ in $(seq "$openings"); do "$program" serve "${names[@]}" </dev/null; done; } 2>&1)
awk -v openings="$openings" '{ printf "%.1f ms an opening: user %.1f, system %.1f\n", ($1 + $2) * 1000 / openings, $1 * 1000 / openings, $2 * 1000 / openings }' <<<"$spent"
