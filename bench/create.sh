#!/usr/bin/env bash
# The seconds of `create` over two files of 1 GiB, beside dd's for zeros of the same length to two such files, both
# with their bytes durable at the end.
. "$(dirname "$(readlink -f "${BASH_SOURCE[0]}")")/program.sh"

# The seconds of one run over two fresh files.
seconds() {
  rm -f first second
  truncate -s 1G first second
  sync
  local from=$EPOCHREALTIME
  "$@" </dev/null >/dev/null
  awk -v from="$from" -v to="$EPOCHREALTIME" 'BEGIN { print to - from }'
}

zeros() {
  for image in first second; do
    dd if=/dev/zero of="$image" bs=1M count=1024 conv=notrunc,fsync status=none
  done
}

for turn in 1 2 3; do
  theirs=$(seconds zeros)
  ours=$(seconds "$program" create 8192 first second)
  echo "create $ours s, dd $theirs s"
done
