#!/usr/bin/env bash
# Our partition tables, as sgdisk of Debian's gdisk reads them. The bytes are those that a test finds
# sector by sector where `write_whole` wrote a table.
. "$(dirname "$(readlink -f "${BASH_SOURCE[0]}")")/lib/checks.sh"

have sgdisk gdisk || { echo "skipped: sgdisk isn't here, and gdisk can't be installed"; exit 0; }

vectors=$top/crates/format_tests/src/partition_tables.rt
sectors=98304

# put AT NAME: writes the bytes of one constant of the test into the image.
put() {
  local bytes
  bytes=$(sed -n "/^const $2: /,/^];/p" "$vectors" | grep -o '0x[0-9a-f][0-9a-f]' | sed 's/^0/\\/' | tr -d '\n')
  printf "$bytes" | dd of=image bs=1 seek="$1" conv=notrunc status=none
}

# An image with both copies.
image() {
  truncate -s 0 image
  truncate -s $((512 * sectors)) image
  put 446 PARTITION
  printf '\x55\xaa' | dd of=image bs=1 seek=510 conv=notrunc status=none
  put 512 PRIMARY
  put $((512 * (sectors - 1))) BACKUP
  for entries in 2 $((sectors - 33)); do
    put $((512 * entries)) FIRST
    put $((512 * entries + 128)) SECOND
  done
}

# spoil SECTOR: writes zeros over it.
spoil() { dd if=/dev/zero of=image bs=512 seek="$1" count=1 conv=notrunc status=none; }

# What sgdisk says of the image, but for the ends of partitions, which our tables don't round.
says() { sgdisk "$@" image 2>&1 | grep -v "^Caution: Partition 2 doesn't end on\|^result in problems with some disk"; }

# complains WORD..: whether sgdisk finds a fault.
complains() { says "$@" | grep -qi 'caution\|warning\|error\|problem:\|invalid\|corrupt\|damaged'; }

image
expect 'sgdisk verifies both copies' grep -q '^No problems found\.' <(says --verify)
expect 'and finds no fault' eval '! complains --verify'
expect 'it prints the table with no complaint' eval '! complains -p'

says -p | tail -n +3 | sed 's/ *$//' >printed
cat >wanted <<'TABLE'
Disk identifier (GUID): 924ED0CF-1FFB-4849-AFCD-9F8E469FDB6F
Partition table holds up to 128 entries
Main partition table begins at sector 2 and ends at sector 33
First usable sector is 34, last usable sector is 98270
Partitions will be aligned on 2048-sector boundaries
Total free space is 2014 sectors (1007.0 KiB)

Number  Start (sector)    End (sector)  Size       Code  Name
   1            2048           49151   23.0 MiB    FD00
   2           49152           98270   24.0 MiB    FD00
TABLE
expect 'the table is the one that was written' cmp wanted printed

# Each copy by itself, and what the checks above would say of a fault.
for spoiled in 1 $((sectors - 1)); do
  image
  spoil "$spoiled"
  expect "a header that is gone is a fault, at $spoiled" complains --verify
  expect "the other copy says the table, at $spoiled" grep -q '^   2           49152           98270' <(says -p)
done
image
spoil 0
expect 'a missing protective MBR is a fault' complains --verify

close
