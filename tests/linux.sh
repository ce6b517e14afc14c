#!/usr/bin/env bash
# A pool on real files is read by a real Linux, in an emulated machine: its kernel finds the partitions, assembles the md arrays and maps the
# logical volume, of all drives and of all but each one of them. One drive was lost and replaced before. Then so it reads the pool once it has grown
# by a fourth drive. Where Debian's packages for this aren't at hand, the check is passed over.
. "$(dirname "$(readlink -f "${BASH_SOURCE[0]}")")/lib/program.sh"
. "$top/tests/lib/guest.sh"

have qemu-system-x86_64 qemu-system-x86 && have busybox busybox-static && have mdadm mdadm && have lvm lvm2 && have depmod kmod && have cpio cpio \
  && guest_kernel || { echo "linux: passed over, since its packages aren't at hand"; exit 0; }

# Units of 10, 26 and 42 extents: RAID-5 over all drives, and a mirror over the last two.
truncate -s 48M first
truncate -s 64M second
truncate -s 80M third
: >script
check "the pool is made" 0 'created 73728\n' create 2048 first second third
head -c $((73728 * 512)) /dev/urandom >bytes
cp bytes script
check "the volume is filled" 0 "imported $((73728 * 512))\n" import first second third
rm second
truncate -s 64M new
printf 'replace 1 new\nstep 1000\n' >script
check "a lost drive is replaced and rebuilt" 0 'ok\nleft 0\n' serve first third

# A fourth drive as large as the second one: RAID-5 of four, and RAID-5 of three that was the mirror.
mkdir grown
cp first new third grown
truncate -s 64M grown/fourth
printf 'add grown/fourth\nstep 1000000\nsize\nfill 73728 1000 a5\nfill 126000 976 5a\n' >script
check "a copy of the pool grows" 0 'ok\nleft 0\nsize 126976\nok\nok\n' serve grown/first grown/new grown/third
{
  cat bytes
  head -c $((1000 * 512)) /dev/zero | tr '\0' '\245'
  head -c $(((126000 - 74728) * 512)) /dev/zero
  head -c $((976 * 512)) /dev/zero | tr '\0' '\132'
} >more

# The second partition of a drive is its member of the first array, the third one that of the second array, and so on.
cat >guest <<'END'
export LVM_SUPPRESS_FD_WARNINGS=1
mkdir -p /run/mdadm
# holds NAME MEMBERS..: the volume's bytes over these arrays, of each of which the members are given
holds() {
  name=$1
  arrays=
  number=0
  shift
  for members; do
    mdadm --assemble --run --readonly /dev/md$number $members
    arrays="$arrays /dev/md$number"
    number=$((number + 1))
  done
  lvm vgchange -ay --noudevsync --config 'activation{udev_sync=0 udev_rules=0 verify_udev_operations=0}'
  lvm vgmknodes
  echo "$name: $(sha256sum </dev/mapper/vg1000-lv) $(blockdev --getsz /dev/mapper/vg1000-lv)"
  lvm vgchange -an --noudevsync
  mdadm --stop $arrays
}
holds 'all drives' '/dev/vda2 /dev/vdb2 /dev/vdc2' '/dev/vdb3 /dev/vdc3'
holds 'without the first' '/dev/vdb2 /dev/vdc2' '/dev/vdb3 /dev/vdc3'
holds 'without the second' '/dev/vda2 /dev/vdc2' '/dev/vdc3'
holds 'without the third' '/dev/vda2 /dev/vdb2' '/dev/vdb3'
holds 'grown, all drives' '/dev/vdd2 /dev/vde2 /dev/vdf2 /dev/vdg2' '/dev/vde3 /dev/vdf3 /dev/vdg3'
holds 'grown, without the first' '/dev/vde2 /dev/vdf2 /dev/vdg2' '/dev/vde3 /dev/vdf3 /dev/vdg3'
holds 'grown, without the second' '/dev/vdd2 /dev/vdf2 /dev/vdg2' '/dev/vdf3 /dev/vdg3'
holds 'grown, without the third' '/dev/vdd2 /dev/vde2 /dev/vdg2' '/dev/vde3 /dev/vdg3'
holds 'grown, without the fourth' '/dev/vdd2 /dev/vde2 /dev/vdf2' '/dev/vde3 /dev/vdf3'
END
guest_run guest first new third grown/first grown/new grown/third grown/fourth >console
sum=$(sha256sum <bytes | cut -d ' ' -f 1)
for drives in 'all drives' 'without the first' 'without the second' 'without the third'; do
  expect "Linux reads the volume, $drives" grep -q "^$drives: $sum  - 73728\$" console
done
sum=$(sha256sum <more | cut -d ' ' -f 1)
for drives in 'all drives' 'without the first' 'without the second' 'without the third' 'without the fourth'; do
  expect "Linux reads the volume of the grown pool, $drives" grep -q "^grown, $drives: $sum  - 126976\$" console
done
[ "$failed" -eq 0 ] || tail -n 40 console
close
