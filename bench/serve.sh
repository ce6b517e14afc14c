#!/usr/bin/env bash
# Lines a second of `serve`: random reads over a warm pool of 64 MiB on two images, and of three in RAID-5, replies to /dev/null,
# beside a C program that makes the same read of an image for each line and puts the same reply, one write for each.
# usage: bench/serve.sh [LINES]
. "$(dirname "$(readlink -f "${BASH_SOURCE[0]}")")/program.sh"
lines=${1:-1000000}

cat >script.c <<'C'
#include <stdint.h>
#include <stdio.h>
#include <stdlib.h>
int main(int words, char **word) {
  uint64_t x = 1;
  for (long line = atol(word[1]), sectors = atol(word[2]); line > 0; line--) {
    x = x * 6364136223846793005u + 1442695040888963407u;
    printf("read %ld\n", (long)((x >> 33) % sectors));
  }
  return 0;
}
C
cat >same.c <<'C'
#include <string.h>
#include "stripe.h"
int main(int words, char **word) {
  char line[1200];
  static const char digits[] = "0123456789abcdef";
  open_images(words - 1, word + 1);
  while (fgets(line, sizeof line, stdin)) {
    unsigned char sector[SECTOR];
    char reply[1040] = "data ";
    int length = SECTOR, at = 5;
    if (strncmp(line, "read ", 5)) return 1;
    struct place place = place_of(strtoll(line + 5, 0, 10));
    EXPECT(pread(images[place.image], sector, SECTOR, place.byte) == SECTOR);
    while (length > 0 && sector[length - 1] == 0) length--;
    if (length == 0) reply[at++] = '-';
    for (int byte = 0; byte < length; byte++) {
      reply[at++] = digits[sector[byte] >> 4];
      reply[at++] = digits[sector[byte] & 15];
    }
    reply[at++] = '\n';
    EXPECT(write(1, reply, at) == at);
  }
  return 0;
}
C
gcc -O2 -o script script.c
gcc -O2 -I "$top/bench" -o same same.c

# The seconds of one run, with replies to /dev/null.
seconds() {
  local from=$EPOCHREALTIME
  "$@" <lines >/dev/null
  awk -v from="$from" -v to="$EPOCHREALTIME" 'BEGIN { print to - from }'
}

# Each sector of the volume begins with a few bytes that aren't zero.
measure() {
  local size=$1 sectors ours theirs
  shift
  rm -f "$@"
  truncate -s "$size" "$@"
  sectors=$("$program" create 128 "$@" </dev/null | cut -d ' ' -f 2)
  awk -v sectors="$sectors" 'BEGIN { for (s = 0; s < sectors; s++) { printf "%08d", s % 100000000; for (b = 8; b < 512; b++) printf "\0" } }' |
    "$program" import "$@" >imported
  ./script "$lines" "$sectors" >lines
  "$program" serve "$@" <lines >ours
  ./same "$@" <lines >theirs
  cmp ours theirs
  # The best of five runs each, in turn.
  for _ in 1 2 3 4 5; do
    echo "$(seconds "$program" serve "$@") $(seconds ./same "$@")"
  done >runs
  ours=$(cut -d ' ' -f 1 runs | sort -g | head -n 1)
  theirs=$(cut -d ' ' -f 2 runs | sort -g | head -n 1)
  awk -v lines="$lines" -v images=$# -v sectors="$sectors" -v ours="$ours" -v theirs="$theirs" 'BEGIN {
    printf "%d images, a volume of %d MiB: serve %d lines a second, C %d: %.2f of the speed of C\n",
      images, sectors / 2048, lines / ours, lines / theirs, theirs / ours
  }'
}

# Of each image 77824 sectors hold no extents.
measure $(((77824 + 131072) * 512)) first second
measure $(((77824 + 65536) * 512)) first second third
