#!/usr/bin/env bash
# The system calls that the rebuilding of a member of a RAID-5 over three images makes for each row of 64 KiB, by strace: what it reads and writes
# of the images, and how often it syncs. The works are asked for in steps of 1, of 8 and of all, so that the numbers of rows by one commit differ.
# usage: bench/rows.sh [MEBIBYTES]
. "$(dirname "$(readlink -f "${BASH_SOURCE[0]}")")/replaced.sh"
replaced "${1:-16}"
mkdir before
cp first new third before/

# Rebuilds all rows in steps of so many works, and prints what a row took. The opening and the end are counted too.
count() {
  local works=$1 turns=$(((left + $1 - 1) / $1)) turn
  cp before/* .
  for ((turn = 0; turn < turns; turn++)); do echo "step $works"; done >script
  strace -f -q -o calls -e trace=pread64,pwrite64,fsync,fdatasync "$program" serve first new third <script >said
  [ "$(tail -n 1 said)" = 'left 0' ] || { echo 'works are left'; exit 1; }
  awk -v works="$works" -v rows="$rows" '
    { sub(/^[0-9]+ +/, ""); call = $0; sub(/\(.*/, "", call); seen[call]++ }
    END {
      syncs = seen["fsync"] + seen["fdatasync"]
      printf "steps of %d: %d rows, %.1f reads, %.1f writes and %.2f syncs of images a row\n", works, rows,
        seen["pread64"] / rows, seen["pwrite64"] / rows, syncs / rows
    }' calls
}

count 1
count 8
count "$left"
"$program" export first new third >whole
"$program" export first new >rest
cmp whole rest
