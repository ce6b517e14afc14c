#!/usr/bin/env bash
# The MB a second of the rebuilding of a member of a RAID-5 over three images, by `replace` and `step`, beside a C program that makes the same
# commits on files like them: for each 31 rows of 64 KiB the reads of the other two members, the record of 99 sectors and the rows on the three
# logs, a sync, the gates, a sync, the rows with three superblocks, a sync, and the gates with a sync. No call of it reads or writes more than a
# sector.
. "$(dirname "$(readlink -f "${BASH_SOURCE[0]}")")/replaced.sh"
replaced "${1:-64}"

cat >same.c <<'C'
#include <fcntl.h>
#include <stdio.h>
#include <stdlib.h>
#include <unistd.h>

#define EXPECT(call) do { if (!(call)) { perror(#call); exit(1); } } while (0)

enum { MOST = 31, CHUNK = 128 };

static int disks[3];

static void put(int disk, off_t sector, const unsigned char *bytes) {
  EXPECT(pwrite(disks[disk], bytes, 512, sector * 512) == 512);
}

static void sync_all(void) {
  for (int disk = 0; disk < 3; disk++) EXPECT(fdatasync(disks[disk]) == 0);
}

static void put_all(off_t sector, const unsigned char *bytes) {
  for (int disk = 0; disk < 3; disk++) put(disk, sector, bytes);
}

static void take(int disk, off_t sector, unsigned char *bytes) {
  EXPECT(pread(disks[disk], bytes, 512, sector * 512) == 512);
}

int main(int count, char **words) {
  static unsigned char batch[MOST * CHUNK][512], other[512], zeros[512];
  long rows = atol(words[1]);
  for (int disk = 0; disk < 3; disk++) EXPECT((disks[disk] = open(words[2 + disk], O_RDWR)) >= 0);
  for (long at = 0; at < rows; at += MOST) {
    int sectors = (rows - at < MOST ? rows - at : MOST) * CHUNK;
    off_t first = 12288 + at * CHUNK;
    for (int sector = 0; sector < sectors; sector++) {
      take(0, first + sector, batch[sector]);
      take(1, first + sector, other);
      for (int byte = 0; byte < 512; byte++) batch[sector][byte] ^= other[byte];
    }
    for (int sector = 0; sector < 99 + sectors; sector++) put_all(2050 + sector, batch[sector % sectors]);
    sync_all();
    put_all(2049, zeros);
    sync_all();
    put_all(10248, zeros);
    for (int sector = 0; sector < sectors; sector++) put(2, first + sector, batch[sector]);
    sync_all();
    put_all(2049, zeros);
    sync_all();
  }
}
C
gcc -O2 -o same same.c
truncate -s "$size" one two three
sync

seconds() {
  local from=$EPOCHREALTIME
  "$@" >/dev/null
  awk -v from="$from" -v to="$EPOCHREALTIME" 'BEGIN { print to - from }'
}

ours() { printf 'step 1000000\n' | "$program" serve first new third; }
mine=$(seconds ours)
theirs=$(seconds ./same "$rows" one two three)
awk -v rows="$rows" -v ours="$mine" -v theirs="$theirs" 'BEGIN {
  size = rows * 65536 / 1e6
  printf "%d rows: rebuilt %.1f MB/s, C %.1f MB/s, ratio %.2f\n", rows, size / ours, size / theirs, theirs / ours
}'
