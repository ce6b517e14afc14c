#!/usr/bin/env bash
# The seconds of `create`, and of `import` and `export` of 256 MiB, the whole volume of a pool of two images, and of one of three, beside a C program
# that makes the same reads and writes of the same images in calls of 64 KiB: zeros to the members' rows and a sync; of an import over three images
# the old data and parity and the new ones, and a sync; of an export the data. Both take and put the standard streams in pieces of 64 KiB.
# usage: bench/joined.sh [TURNS]
. "$(dirname "$(readlink -f "${BASH_SOURCE[0]}")")/program.sh"
turns=${1:-3}

cat >joined.c <<'C'
#include <string.h>
#include "stripe.h"

enum { PIECE = SECTOR * CHUNK };

static unsigned char bytes[PIECE], old[PIECE], parity[PIECE];

// Zeros to these rows of all images, a row after the other.
static void make(long rows) {
  for (long row = 0; row < rows; row++)
    for (int image = 0; image < count; image++)
      EXPECT(pwrite(images[image], bytes, PIECE, (off_t)SECTOR * (MEMBER_DATA + row * CHUNK)) == PIECE);
}

// A piece of the input; 0 at its end.
static int take(void) {
  long filled = 0, more;
  while (filled < PIECE && (more = read(0, bytes + filled, PIECE - filled)) > 0) filled += more;
  EXPECT(filled == 0 || filled == PIECE);
  return filled > 0;
}

static void take_in(long chunk) {
  struct place place = place_of(chunk * CHUNK);
  unsigned char *second = bytes;
  if (count > 2) {
    EXPECT(pread(images[place.image], old, PIECE, place.byte) == PIECE);
    EXPECT(pread(images[place.second], parity, PIECE, place.byte) == PIECE);
    for (int at = 0; at < PIECE; at++) parity[at] ^= old[at] ^ bytes[at];
    second = parity;
  }
  EXPECT(pwrite(images[place.image], bytes, PIECE, place.byte) == PIECE);
  EXPECT(pwrite(images[place.second], second, PIECE, place.byte) == PIECE);
}

static void give_out(long chunk) {
  struct place place = place_of(chunk * CHUNK);
  EXPECT(pread(images[place.image], bytes, PIECE, place.byte) == PIECE);
  EXPECT(write(1, bytes, PIECE) == PIECE);
}

int main(int words, char **word) {
  long number = atol(word[2]);
  open_images(words - 3, word + 3);
  if (!strcmp(word[1], "create")) make(number);
  if (!strcmp(word[1], "import"))
    for (long chunk = 0; take(); chunk++) take_in(chunk);
  if (!strcmp(word[1], "export"))
    for (long chunk = 0; chunk < number; chunk++) give_out(chunk);
  if (strcmp(word[1], "export")) sync_images();
  return 0;
}
C
gcc -O3 -I "$top/bench" -o joined joined.c

# The seconds of the words, and those of processors.
seconds() {
  local TIMEFORMAT='%R %U %S'
  { time "$@" 2>&3; } 3>&2 2>&1 | awk '{ print $1, $2 + $3 }'
}

ours_new() { "$program" create 128 "$@" </dev/null >said; }

same_new() { ./joined create "$rows" "$@"; }

ours_in() { "$program" import "$@" <bytes >said; }

same_in() { ./joined import 0 "$@" <bytes; }

ours_out() { "$program" export "$@" </dev/null >exported; }

same_out() { ./joined export $((sectors / 128)) "$@" >exported; }

# Files anew, of so many bytes, and durable.
fresh() {
  local size=$1
  shift
  rm -f "$@"
  truncate -s "$size" "$@"
  sync
}

# Prints a line of the times of both.
beside() {
  echo "$2 $3" | awk -v name="$1" '{
    printf "  %s %.2f s, C %.2f s: %.2f of the speed of C; of processors %.2f s, C %.2f s: %.2f\n", name, $1, $3, $3 / $1, $2, $4, $4 / $2
  }'
}

# A pool of images of 38 MiB and so many rows each.
measure() {
  local ours turn size
  rows=$1
  shift
  size=$(((77824 + 128 * rows) * 512))
  for turn in $(seq "$turns"); do
    fresh "$size" "$@"
    same=$(seconds same_new "$@")
    fresh "$size" "$@"
    ours=$(seconds ours_new "$@")
    sectors=$(cut -d ' ' -f 2 said)
    [ "$turn" -gt 1 ] || echo "$# images, a volume of $((sectors / 2048)) MiB:"
    head -c $((512 * sectors)) /dev/urandom >bytes
    sync
    beside create "$ours" "$same"
    ours=$(seconds ours_in "$@")
    beside import "$ours" "$(seconds same_in "$@")"
    rm -f exported
    ours=$(seconds ours_out "$@")
    cmp bytes exported
    rm exported
    beside export "$ours" "$(seconds same_out "$@")"
    cmp bytes exported
  done
}

measure 4096 first second
measure 2048 first second third
