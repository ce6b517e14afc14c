#!/usr/bin/env bash
# The recipes of docs/RECOVERY.md that a real Linux reads a pool by, run word by word in an emulated machine: after a stop and a lost drive; without
# our program; and after that Linux wrote to the pool without one drive, which the engine refuses then. Where Debian's packages for this aren't at
# hand, the check is passed over. The recipes by our own words are run by tests/front.sh.
# usage: tests/recovery.sh
. "$(dirname "$(readlink -f "${BASH_SOURCE[0]}")")/lib/program.sh"
. "$top/tests/lib/guest.sh"

have qemu-system-x86_64 qemu-system-x86 && have busybox busybox-static && have mdadm mdadm && have lvm lvm2 && have depmod kmod && have cpio cpio \
  && have mkfs.ext4 e2fsprogs && guest_kernel || { echo "recovery: passed over, since its packages aren't at hand"; exit 0; }
guest_modules+=(loop ext4 crc32c_generic)

# recipe NAME: the commands of a recipe.
recipe() { sed -n "/^<!-- linux: $1 -->/,/^\`\`\`\$/p" "$top/docs/RECOVERY.md" | sed '/^<!--/d; /^```/d'; }

# A pool of three images in the folder $1 of the disk, whose volume is `bytes`.
sectors=73728
pool() {
  mkdir -p "disk/$1"
  cp --sparse=always made/*.img "disk/$1"
}
mkdir made
truncate -s 48M made/first.img
truncate -s 64M made/second.img
truncate -s 80M made/third.img
images=(made/first.img made/second.img made/third.img)
: >script
check 'the pool is made' 0 "created $sectors\n" create 2048 "${images[@]}"
head -c $((sectors * 512)) /dev/urandom >bytes
cp bytes script
check 'the volume is filled' 0 "imported $((sectors * 512))\n" import "${images[@]}"
pool gone
pool written
rm disk/written/second.img

# A run that is killed amid its writes, and a drive that is lost then.
mkfifo pipe
: >out
"$tool" serve "${images[@]}" <pipe >out 2>err &
exec 3>pipe
# what is flushed is on all drives; a row that a stop tears in the middle would be read wrong without one of them
printf 'fill 100 300 5a\nwrite 70000 61\nflush\nread 0\n' >&3
for _ in $(seq 100); do [ "$(wc -l <out)" -ge 4 ] && break; sleep 0.1; done
kill -9 $! && wait $! 2>/dev/null
exec 3>&-
pool dirty-degraded
rm disk/dirty-degraded/second.img
"$tool" export "${images[@]}" </dev/null >stopped
: >script
check 'the engine refuses it without the drive' 6 'refused dirty-degraded 0\n' serve disk/dirty-degraded/first.img disk/dirty-degraded/third.img

for name in dirty-degraded gone written; do
  recipe "$name" >"disk/$name/recipe"
  expect "there is a recipe $name" test -s "disk/$name/recipe"
done
truncate -s 1G disk.img
mkfs.ext4 -q -d disk disk.img

cat >guest <<'END'
[ -n "$in_dash" ] || in_dash=yes exec /sbin/dash /script
export PATH=/sbin:/bin LVM_SUPPRESS_FD_WARNINGS=1
mkdir -p /run/mdadm /etc/lvm /pool
echo 'activation { udev_sync = 0 udev_rules = 0 verify_udev_operations = 0 }' >/etc/lvm/lvm.conf
for name in vgchange vgmknodes; do ln -s lvm /sbin/$name; done
mount -t ext4 /dev/vda /pool
cd /pool/written
losetup --partscan /dev/loop0 first.img
losetup --partscan /dev/loop1 third.img
mdadm --assemble --run /dev/md0 /dev/loop0p2 /dev/loop1p2
mdadm --assemble --run /dev/md1 /dev/loop1p3
vgchange -ay vg1000
tr '\0' z </dev/zero | dd of=/dev/vg1000/lv bs=4096 count=64 seek=16 conv=notrunc iflag=fullblock
sync
vgchange -an vg1000
mdadm --stop /dev/md0 /dev/md1
losetup --detach /dev/loop0 /dev/loop1
for name in dirty-degraded gone written; do
  cd /pool/$name
  echo "== $name"
  cat recipe
  dash -e recipe && echo "done $name"
  echo "volume $name: $(sha256sum <volume.img) $(wc -c <volume.img)"
done
cd /
umount /pool
END
# busybox's shell would take its own programs, whatever the path is
guest_more=(losetup cp dash)
guest_access=readonly=off guest_run guest disk.img >console

{ head -c 65536 bytes; head -c $((64 * 4096)) /dev/zero | tr '\0' z; tail -c +$((65536 + 64 * 4096 + 1)) bytes; } >written
for name in dirty-degraded:stopped gone:bytes written:written; do
  sum=$(sha256sum <"${name#*:}" | cut -d ' ' -f 1)
  expect "the recipe ${name%:*} runs to its end" grep -qx "done ${name%:*}" console
  expect "${name%:*}: the volume" grep -qx "volume ${name%:*}: $sum  - $((sectors * 512))" console
done
for image in first third; do debugfs -R "dump written/$image.img $image.img" disk.img 2>/dev/null; done
: >script
check 'the engine refuses what Linux wrote to' 6 'refused too-few 0\n' serve first.img third.img
check 'with the drive that was absent too' 6 'refused damaged 0 superblock\n' serve first.img disk/gone/second.img third.img
[ "$failed" -eq 0 ] || tail -n 80 console
close
