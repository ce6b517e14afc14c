#!/usr/bin/env bash
# The seconds of `import` and of `export` of 256 MiB, the whole volume of a pool of two images, and of one of three, beside a C program
# that makes the same calls, a sector each: of an import over three images the reads of the old data and parity and the writes of the new ones;
# and beside dd for the same bytes in pieces of a sector, to each of so many files, and from one of them. The bytes are durable at the end of an import.
# usage: bench/import.sh [TURNS]
. "$(dirname "$(readlink -f "${BASH_SOURCE[0]}")")/program.sh"
turns=${1:-3}

cat >same.c <<'C'
#include "stripe.h"

static void take_in(long sector, const unsigned char *bytes) {
  unsigned char old[SECTOR], parity[SECTOR];
  struct place place = place_of(sector);
  if (count > 2) {
    EXPECT(pread(images[place.image], old, SECTOR, place.byte) == SECTOR);
    EXPECT(pread(images[place.second], parity, SECTOR, place.byte) == SECTOR);
    for (int at = 0; at < SECTOR; at++) parity[at] ^= old[at] ^ bytes[at];
  }
  EXPECT(pwrite(images[place.image], bytes, SECTOR, place.byte) == SECTOR);
  EXPECT(pwrite(images[place.second], count > 2 ? parity : bytes, SECTOR, place.byte) == SECTOR);
}

static void give_out(long sector) {
  unsigned char bytes[SECTOR];
  struct place place = place_of(sector);
  EXPECT(pread(images[place.image], bytes, SECTOR, place.byte) == SECTOR);
  EXPECT(write(1, bytes, SECTOR) == SECTOR);
}

int main(int words, char **word) {
  unsigned char bytes[SECTOR];
  long sectors = atol(word[1]);
  open_images(words - 2, word + 2);
  if (sectors > 0) {
    for (long sector = 0; sector < sectors; sector++) give_out(sector);
    return 0;
  }
  for (long sector = 0; read(0, bytes, SECTOR) == SECTOR; sector++) take_in(sector, bytes);
  sync_images();
  return 0;
}
C
gcc -O2 -I "$top/bench" -o same same.c

# The seconds of the words.
seconds() {
  local from=$EPOCHREALTIME
  "$@" >/dev/null
  awk -v from="$from" -v to="$EPOCHREALTIME" 'BEGIN { print to - from }'
}

ours_in() { "$program" import "$@" <bytes; }

same_in() { ./same 0 "$@" <bytes; }

plain_in() {
  local image
  for image in "$@"; do
    dd if=bytes of="plain-$image" bs=512 conv=notrunc,fdatasync status=none
  done
}

ours_out() { "$program" export "$@" </dev/null >exported; }

same_out() { ./same "$sectors" "$@" </dev/null >exported; }

plain_out() { dd if=bytes of=exported bs=512 status=none; }

# A pool of these images of so many bytes, whose volume has the bytes exactly.
measure() {
  local size=$1 turn ours
  shift
  rm -f "$@"
  truncate -s "$size" "$@"
  sectors=$("$program" create 128 "$@" </dev/null | cut -d ' ' -f 2)
  head -c $((512 * sectors)) /dev/urandom >bytes
  echo "$# images, a volume of $((sectors / 2048)) MiB:"
  for turn in $(seq "$turns"); do
    sync
    ours=$(seconds ours_in "$@")
    awk -v ours="$ours" -v same="$(seconds same_in "$@")" -v plain="$(seconds plain_in "$@")" \
      'BEGIN { printf "  import %.2f s, C %.2f s, dd %.2f s: %.2f of the speed of C\n", ours, same, plain, same / ours }'
    ours=$(seconds ours_out "$@")
    cmp bytes exported
    awk -v ours="$ours" -v same="$(seconds same_out "$@")" -v plain="$(seconds plain_out)" \
      'BEGIN { printf "  export %.2f s, C %.2f s, dd %.2f s: %.2f of the speed of C\n", ours, same, plain, same / ours }'
    cmp bytes exported
  done
}

# Of each image 77824 sectors hold no extents, and the array's first 2048 sectors are the group's.
measure $(((77824 + 524288) * 512)) first second
measure $(((77824 + 262144) * 512)) first second third
