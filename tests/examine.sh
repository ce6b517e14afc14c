#!/usr/bin/env bash
# `examine` of the built program: the drives of a pool, an image that sgdisk has partitioned, a folder.
. "$(dirname "$(readlink -f "${BASH_SOURCE[0]}")")/lib/program.sh"

: >script
nothing='md none\nlvm none\n'

truncate -s 0 empty
check 'an image without sectors' 0 "image 0\ntable none\n$nothing" examine empty
mkdir folder
check 'a folder' 6 'refused attach 0\n' examine folder
truncate -s 1000 part
check 'an image with part of a sector' 6 'refused attach 0\n' examine part
check 'no name' 2 'refused words\n' examine
check 'two names' 2 'refused words\n' examine empty empty

# Drives of three sizes: RAID-5 over all, whose members have no label, and a mirror over the last two, whose members have one.
truncate -s $((512 * 79104)) first
truncate -s $((512 * 80384)) second
truncate -s $((512 * 81664)) third
check 'a pool is made' 0 'created 3840\n' create 128 first second third
sha256sum first second third >sums
log="table primary\n${nothing}slice 1 2048 8192\n$nothing"
raid='slice 2 10240 5376\nmd level 5 members 3 chunk 128 size 3328 events 1 resync 18446744073709551615 role'
check 'a member of RAID-5' 0 "image 79104\n$log$raid 0 features 0\n" examine first
for role in 0 1; do
  image=second
  [ $role -eq 0 ] || image=third
  "$tool" examine $image <script >says
  expect "a member of a mirror: $image" grep -qx \
    "md level 1 members 2 chunk 0 size 3328 events 1 resync 18446744073709551615 role $role features 0" says
  expect 'and of RAID-5' grep -qx "md level 5 members 3 .* role $((role + 1)) features 0" says
  expect 'its text is there' sh -c "grep -Eqx 'text [0-9]+' says && grep -qx 'vg1000 {' says && grep -qx 'pv1 {' says"
  expect 'and its group' grep -qx 'group vg1000 seqno 1 extent 128 pvs 2 lvs 1' says
done
expect 'nothing was written to the pool' sha256sum --check --status sums
truncate -s $((512 * 79104)) first second
check 'a mirror is made' 0 'created 1280\n' create 128 first second
"$tool" examine second <script >says
expect 'its group' grep -qx 'group vg1000 seqno 1 extent 128 pvs 1 lvs 1' says

if have sgdisk gdisk; then
  truncate -s $((512 * 98304)) image
  sgdisk -n 1:2048:49151 -t 1:fd00 -n 2:49152:98270 -t 2:fd00 image >/dev/null 2>&1
  slices="slice 1 2048 47104\n${nothing}slice 2 49152 49119\n$nothing"
  check 'what sgdisk wrote' 0 "image 98304\ntable primary\n$nothing$slices" examine image
  sum=$(sha256sum image)
  dd if=/dev/zero of=image bs=512 seek=1 count=1 conv=notrunc status=none
  changed=$(sha256sum image)
  check 'its other copy' 0 "image 98304\ntable backup\n$nothing$slices" examine image
  expect 'nothing was written' eval '[ "$sum" != "$changed" ] && [ "$(sha256sum image)" = "$changed" ]'
else
  echo "skipped: sgdisk isn't here, and gdisk can't be installed"
fi

close
