#!/usr/bin/env bash
# A file of 1 GiB goes into the volume of three unequal images, which it fills, and comes out again: by all drives, and without the first one, which is
# marked then. It takes 6 GiB of disk; where these aren't free, the file has 32 MiB, and the check says so.
. "$(dirname "$(readlink -f "${BASH_SOURCE[0]}")")/lib/program.sh"
. "$top/tests/lib/volume.sh"

# Sectors of an extent.
extent=8192
if [ "$(df --output=avail -B1M . | tail -n 1)" -lt 8192 ]; then
  extent=256
  echo 'less than 8 GiB are free: the file has 32 MiB'
fi

# Units of 120, 136 and 140 extents: RAID-5 over all drives and a mirror over the last two, 256 extents in all.
truncate -s $((512 * (77824 + extent * 120))) first
truncate -s $((512 * (77824 + extent * 136))) second
truncate -s $((512 * (77824 + extent * 140))) third
sectors=$((256 * extent))
: >script
check 'the pool is made' 0 "created $sectors\n" create "$extent" first second third
head -c $((512 * sectors)) /dev/urandom >bytes
ln -f bytes script
check 'a file goes in' 0 "imported $((512 * sectors))\n" import first second third
holds 'it comes out by all drives' first second third
holds 'it comes out without the first drive' second third
rm first
holds 'and again' second third
rm script
printf 'status\n' >script
"$tool" serve second third <script >out 2>err
expect 'the first drive is marked' grep -qx 'drive 0 units 120 missing' out

close
