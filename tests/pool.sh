#!/usr/bin/env bash
# A pool on real files: what it keeps from run to run, what losses and damage it bears or refuses, and how Debian's gdisk
# and mdadm read its drives.
. "$(dirname "$(readlink -f "${BASH_SOURCE[0]}")")/lib/program.sh"

slice=10240

# Pools with extents of 128 sectors: the sectors of the volume, and those of the drives. The first is a mirror of ten
# extents. The other has RAID-5 of ten extents over all its drives, and a mirror of ten over the last two.
two=(1280 79104 79104)
three=(3840 79104 80384 81664)

# make NAME SECTORS SIZE..: a fresh pool of images of these sizes; `images` are their names.
make() {
  local name=$1 volume=$2 place
  shift 2
  rm -f first second third
  images=(first second third)
  images=("${images[@]:0:$#}")
  for place in "${!images[@]}"; do
    truncate -s $((512 * $1)) "${images[place]}"
    shift
  done
  : >script
  check "$name: the pool is made" 0 "created $volume\n" create 128 "${images[@]}"
}

# serve NAME STATUS SCRIPT REPLIES NAME..: a script over named images.
serve() {
  local name=$1 status=$2 replies=$4
  printf '%b' "$3" >script
  shift 4
  check "$name" "$status" "$replies" serve "$@"
}

# leave_out NAME: the kept images are put back, but for this one; `left` are those that remain, `place` is where it stood.
leave_out() {
  cp kept/* .
  rm "$1"
  left=(first second third)
  for place in "${!left[@]}"; do
    [ "${left[place]}" != "$1" ] || break
  done
  unset "left[place]"
}

# kill_run LINES SCRIPT NAME..: kills a run over named images once it has answered so many lines, before its script ends.
kill_run() {
  local lines=$1 script=$2
  shift 2
  : >out
  "$tool" serve "$@" <pipe >out 2>err &
  exec 3>pipe
  printf '%b' "$script" >&3
  for _ in $(seq 100); do [ "$(wc -l <out)" -ge "$lines" ] && break; sleep 0.1; done
  kill -9 $! && wait $! 2>/dev/null
  exec 3>&-
  expect "killed after $lines lines" test "$(wc -l <out)" -eq "$lines"
}
mkfifo pipe

# flip IMAGE SECTOR: changes byte 20 of a sector, which each checksum counts.
flip() {
  local byte
  byte=$(dd if="$1" bs=1 skip=$((512 * $2 + 20)) count=1 status=none | od -An -tu1)
  printf "\\$(printf '%03o' $(((byte + 1) % 256)))" | dd of="$1" bs=1 seek=$((512 * $2 + 20)) conv=notrunc status=none
}

# word IMAGE BYTE: eight bytes of the superblock of an image's member, as hexadecimal digits.
word() { dd if="$1" bs=1 skip=$((512 * (slice + 8) + $2)) count=8 status=none | od -An -tx1 | tr -d ' \n'; }

make 'from run to run' "${two[@]}"
serve 'a volume of zeros' 0 'size\nread 0\nread 1279\nread 1280\n' 'size 1280\ndata -\ndata -\nrefused range\n' first second
serve 'a fill and a write' 0 'fill 0 3 5a\nwrite 1 61\nflush\n' 'ok\nok\nok\n' first second
serve 'in the other order' 0 'read 1\nread 3\n' 'data 61\ndata -\n' second first
expect 'both members are equal' cmp -i $((512 * (slice + 2048))) -n $((512 * 3328)) first second
expect 'three events, and no row left to resync' test "$(word first 200) $(word second 208)" = '0300000000000000 ffffffffffffffff'
cp first whole
serve 'one drive alone' 0 'read 1\nwrite 1 62\nread 1\nlose 0\nlose 1\n' \
  'data 61\nok\ndata 62\nrefused last-drive\nrefused no-such-drive\n' first
serve 'the one that was left out is missing from then on' 0 'read 1\nlose 1\n' 'data 62\nrefused no-such-drive\n' second first
serve 'as it was before' 0 'read 1\n' 'data 61\n' whole second

# Drives of three sizes. Their lines write, and then read, sectors in each part of the volume.
writes='fill 300 1000 5a\nwrite 0 61\nwrite 128 62\nwrite 255 63\nwrite 256 64\nwrite 2559 65\nwrite 2560 66\nwrite 3839 67\n'
reads='read 0\nread 128\nread 255\nread 256\nread 2559\nread 2560\nread 3839\nread 700\nread 3838\n'
values="data 61\ndata 62\ndata 63\ndata 64\ndata 65\ndata 66\ndata 67\ndata $(printf '5a%.0s' {1..512})\ndata -\n"
make 'three drives' "${three[@]}"
serve 'a volume of zeros' 0 'size\nread 0\nread 2560\nread 3839\nread 3840\n' \
  'size 3840\ndata -\ndata -\ndata -\nrefused range\n' first second third
serve 'lines in each part' 0 "$writes" 'ok\nok\nok\nok\nok\nok\nok\nok\n' first second third
serve 'in another order' 0 "$reads" "$values" third first second
sha256sum first second third >sums
for image in first second third; do
  serve "all but $image are away" 6 'size\n' 'refused absent 2\n' $image
done
expect 'nothing was written' sha256sum --check --status sums
mkdir kept
cp first second third kept
for gone in first second third; do
  leave_out $gone
  serve "without $gone" 0 "size\n$reads" "size 3840\n$values" "${left[@]}"
  serve "without $gone, written" 0 'fill 0 128 71\nwrite 0 72\nwrite 3839 73\n' 'ok\nok\nok\n' "${left[@]}"
  serve "without $gone, read again" 0 'read 0\nread 128\nread 3838\nread 3839\n' 'data 72\ndata 62\ndata -\ndata 73\n' "${left[@]}"
  cp kept/$gone .
  serve "$gone is missing from then on" 0 "read 0\nlose $place\n" 'data 72\nrefused no-such-drive\n' first second third
done

# Bytes that are imported and exported, also without one drive.
make 'imported' 20480 88064 88064 98304
{ head -c 3000000 /dev/urandom; printf x; } >bytes
{ cat bytes; head -c $((512 * 20480 - 3000001)) /dev/zero; } >volume
serve 'a volume that was written' 0 'fill 5859 1 5a\nfill 20479 1 5a\n' 'ok\nok\n' first second third
cp bytes script
check 'an import' 0 'imported 3000001\n' import third first second
serve 'the rest of its last sector is zeros' 0 "read 5859\nwrite 20479 00\n" \
  "data $(tail -c +$((512 * 5859 + 1)) bytes | od -An -v -tx1 | tr -d ' \n')\nok\n" first second third
cp first second third kept
for gone in first second third; do
  leave_out $gone
  "$tool" export "${left[@]}" </dev/null >exported
  expect "exported without $gone" cmp volume exported
done
cp kept/* .
head -c $((512 * 20480)) /dev/urandom >volume
cp volume script
check 'an import as long as the volume' 0 "imported $((512 * 20480))\n" import first second third
echo >>script
check 'a longer one' 6 'refused long\n' import first second third
"$tool" export first second third </dev/null >exported
expect 'has written all that fits' cmp volume exported
# a short one, since each sector is a commit of the log where a member is missing
head -c 5000 /dev/urandom >script
{ cat script; head -c 120 /dev/zero; tail -c +5121 volume; } >later
check 'an import without a drive' 0 'imported 5000\n' import "${left[@]}"
"$tool" export "${left[@]}" </dev/null >exported
expect 'has written its sectors' cmp later exported
truncate -s 0 script
check 'an import of nothing' 0 'imported 0\n' import "${left[@]}"

# Drives that are lost while they are served.
make 'lost drives' "${three[@]}"
serve 'a drive is lost' 0 "$writes${reads}lose 3\nlose 1\nlose 1\n$reads" \
  "ok\nok\nok\nok\nok\nok\nok\nok\n${values}refused no-such-drive\nok\nrefused no-such-drive\n$values" first second third
serve 'and stays lost' 0 "$reads" "$values" first third
"$tool" status first third <bytes | sed -E 's/^pool [0-9a-f]{32} /pool ID /' >shown
expect 'as the pool says' diff - shown <<'END'
pool ID epoch 2 extent 128
drive 0 units 10 whole
drive 1 units 20 missing
drive 2 units 30 whole
array 0 level 5 members 3 rows 26
array 1 level 1 members 2 rows 26
plan nothing
size 3840
left 0
end
END
serve 'too many are lost' 8 'lose 0\nread 0\nwrite 1 61\nfill 2558 3 62\nread 2560\nwrite 2561 68\nread 2561\nlose 2\n' \
  'ok\nrefused spent 0\nrefused spent 1\nrefused spent 2558\ndata 66\nok\ndata 68\nrefused last-drive\n' first second third
serve 'the pool is not opened any more' 6 'size\n' 'refused too-few 0\n' first second third

# A run that is killed leaves its mark: two events, all rows left to resync. The next run keeps it.
make 'killed' "${two[@]}"
kill_run 2 'write 0 61\nflush\n' first second
expect 'two events, all rows left to resync' test "$(word first 200) $(word first 208)" = '0200000000000000 0000000000000000'
expect 'on the other member too' test "$(word second 200) $(word second 208)" = '0200000000000000 0000000000000000'
serve 'opened again' 0 'read 0\nwrite 1 62\n' 'data 61\nok\n' first second
expect 'the mark stays' test "$(word first 200) $(word first 208)" = '0200000000000000 0000000000000000'
serve 'a drive is lost while rows are left' 8 'lose 1\nread 0\nwrite 1 63\n' 'ok\nrefused spent 0\nrefused spent 1\n' first second
serve 'the pool is not opened any more' 6 'size\n' 'refused dirty-degraded 0\n' first second
make 'killed, of three' "${three[@]}"
kill_run 5 'write 0 61\nflush\nwrite 128 62\nread 0\nflush\n' first second third
serve 'with a drive left out' 6 'size\n' 'refused dirty-degraded 0\n' first third
serve 'with all drives' 0 'read 0\nread 128\nwrite 256 63\nread 256\n' 'data 61\ndata 62\nok\ndata 63\n' first second third
make 'killed without a drive' "${three[@]}"
serve 'the drive is lost' 0 'write 0 61\nwrite 128 62\nlose 1\n' 'ok\nok\nok\n' first second third
kill_run 3 'write 0 63\nwrite 3839 64\nflush\n' first third
serve 'opened again' 0 'read 0\nread 128\nread 3839\n' 'data 63\ndata 62\ndata 64\n' first third

# Damage.
make 'damage' "${two[@]}"
cp first whole
flip first $((slice + 8))
serve 'a superblock' 6 'size\n' 'refused damaged 0 superblock\n' first second
cp whole first
flip second 2048
serve 'a copy of the state' 6 'size\n' 'refused damaged 1 state\n' first second
make 'a primary table' "${two[@]}"
cp second whole
flip second 1
serve 'its backup is read' 0 'size\n' 'size 1280\n' first second
expect 'and it is mended' cmp whole second
flip second $((79104 - 33))
serve 'a backup' 0 'size\n' 'size 1280\n' first second
expect 'is mended too' cmp whole second
flip second 1
flip second $((79104 - 33))
serve 'both tables' 6 'size\n' 'refused damaged 1 table\n' first second
make 'a drive cut short' "${two[@]}"
cp first whole
truncate -s $((512 * 1000)) first
serve 'is absent' 0 'size\nlose 0\n' 'size 1280\nrefused no-such-drive\n' first second
dd if=second of=whole bs=512 skip=2048 seek=2048 count=1 conv=notrunc status=none
serve 'a drive with the state sector of another one' 6 'size\n' 'refused damaged 1 table\n' whole second
make 'beside the pool' "${two[@]}"
truncate -s 0 none
serve 'an image of no sectors' 0 'size\n' 'size 1280\n' none first second
truncate -s $((512 * 79104)) other
serve 'an image of zeros' 6 'size\n' 'refused no-pool\n' other
make 'two pools' "${two[@]}"
cp first old
make 'another pool' "${two[@]}"
serve 'of both' 6 'size\n' 'refused two-pools\n' first second old

# verify SLICES IMAGE..: sgdisk finds no problem on the images, and these slices, each as `NUMBER FIRST LAST`.
verify() {
  local image numbers
  for image in "${@:2}"; do
    expect "sgdisk finds no problem on $image" sh -c "sgdisk --verify $image | grep -q 'No problems found'"
    for numbers in ${1//,/ }; do
      expect "slice $numbers of $image" sh -c "sgdisk -p $image | grep -Eq '^ +${numbers//-/ +} '"
    done
  done
}

# member IMAGE FIRST LEVEL DEVICES ROLE: the slice from sector FIRST on, as mdadm reads it.
member() {
  dd if="$1" of=member bs=512 skip="$2" count=5376 status=none
  mdadm --examine member >says 2>&1
  expect "mdadm reads the superblock of $1 at $2" grep -q 'Magic : a92b4efc' says
  expect 'and its sum' grep -Eq 'Checksum : [0-9a-f]+ - correct' says
  expect "$3 of $4" sh -c "grep -q 'Raid Level : $3' says && grep -q 'Raid Devices : $4' says"
  expect 'clean' grep -q 'State : clean' says
  expect 'with its role' grep -q "Device Role : Active device $5" says
}

# A mirror with extents of 8192 sectors.
rm -f first second third
truncate -s $((512 * 159744)) first second
: >script
check 'large extents: the pool is made' 0 'created 81920\n' create 8192 first second
"$tool" status first second >shown
expect 'and has all its rows' grep -qx 'array 0 level 1 members 2 rows 656' shown
serve 'up to its last sector' 0 'write 81919 61\nread 81919\nread 81920\n' 'ok\ndata 61\nrefused range\n' first second

# As others read the drives.
have sgdisk gdisk || { echo "skipped: sgdisk isn't here, and gdisk can't be installed"; verify() { :; }; }
have mdadm mdadm || { echo "skipped: mdadm isn't here, and can't be installed"; member() { :; }; }
make 'two for others' "${two[@]}"
verify 2-10240-15615 first second
member first $slice raid1 2 0
member second $slice raid1 2 1
make 'three for others' "${three[@]}"
serve 'that were written' 0 "$writes" 'ok\nok\nok\nok\nok\nok\nok\nok\n' first second third
verify 2-10240-15615 first
verify 2-10240-15615,3-15616-20991 second third
member first $slice raid5 3 0
expect 'left-symmetric, in chunks of 128 sectors' sh -c "grep -q 'Layout : left-symmetric' says && grep -q 'Chunk Size : 64K' says"
member second $slice raid5 3 1
member third $slice raid5 3 2
member second 15616 raid1 2 0
member third 15616 raid1 2 1

close
