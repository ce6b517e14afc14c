#!/usr/bin/env bash
# The system calls that `create`, `import` and `export` of a mebibyte over three images make, by strace: what they read and write of the images
# and of the standard streams, and how often they sync.
# usage: bench/calls.sh
. "$(dirname "$(readlink -f "${BASH_SOURCE[0]}")")/program.sh"

bytes=$((1 << 20))
truncate -s 64M one two three
head -c "$bytes" /dev/urandom >bytes

# Counts the calls of some words, and prints them under a name.
count() {
  local name=$1
  shift
  strace -f -q -o calls -e trace=pread64,pwrite64,fsync,fdatasync,read,write "$@" >said
  awk -v name="$name" '
    { sub(/^[0-9]+ +/, ""); call = $0; sub(/\(.*/, "", call); seen[call]++ }
    END {
      printf "%s: %d reads and %d writes of images, %d syncs, %d reads and %d writes of streams\n", name,
        seen["pread64"], seen["pwrite64"], seen["fsync"] + seen["fdatasync"], seen["read"], seen["write"]
    }' calls
}

count create "$program" create 2048 one two three
count import "$program" import one two three <bytes
count export "$program" export one two three
cmp -n "$bytes" bytes said
