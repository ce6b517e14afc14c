#!/usr/bin/env bash
# A drive of a pool on real files is lost and replaced: by a new image and by its own old one, with a run killed amid its rebuilding; what the
# volume holds then without each one of its drives; and how Debian's mdadm and gdisk read the new drive.
. "$(dirname "$(readlink -f "${BASH_SOURCE[0]}")")/lib/program.sh"
. "$top/tests/lib/volume.sh"

# Units of ten, twenty and thirty extents: RAID-5 over all drives, and a mirror over the last two. The rows of an array are 26.
sectors=3840
make() {
  rm -f first second third new
  truncate -s $((512 * 79104)) first
  truncate -s $((512 * 80384)) second
  truncate -s $((512 * 81664)) third
  : >script
  check "$1: the pool is made" 0 'created 3840\n' create 128 first second third
  fill "$1: the volume is filled" first second third
}

serve() {
  local name=$1 status=$2 replies=$4
  printf '%b' "$3" >script
  shift 4
  check "$name" "$status" "$replies" serve "$@"
}

# Each drive by a new image of its size.
sizes=(79104 80384 81664)
rows=(26 52 52)
for place in 0 1 2; do
  make "drive $place"
  images=(first second third)
  rm "${images[place]}"
  truncate -s $((512 * sizes[place])) new
  left=("${images[@]}")
  unset "left[place]"
  serve "drive $place is replaced" 0 "replace $place new\nstep 0\nstep 1\nstep 1000\nreplace $place new\n" \
    "ok\nleft $((rows[place] + 1))\nleft ${rows[place]}\nleft 0\nrefused twice\n" "${left[@]}"
  images[place]=new
  any_absent "drive $place" "${images[@]}"
  "$tool" status "${images[@]}" >shown 2>err
  expect "drive $place is whole, and the plan has ended" sh -c "grep -qx 'plan nothing' shown && grep -qx 'left 0' shown && ! grep -q missing shown"
done

# A drive that was lost and comes back is stale: its own image is taken in as a new one.
make 'its own image'
serve 'a drive is lost' 0 'lose 1\nwrite 0 61\nquit\n' 'ok\nok\n' first second third
{ printf 'a'; head -c 511 /dev/zero; tail -c +513 bytes; } >written && mv written bytes
serve 'and taken in again' 0 'read 0\nreplace 1 second\nstep 1000\n' 'data 61\nok\nleft 0\n' first second third
any_absent 'its own image' first second third

# In the run that lost it.
make 'in one run'
serve 'lost and taken in again' 0 'lose 0\nreplace 0 first\nstep 1000\n' 'ok\nok\nleft 0\n' first second third
any_absent 'in one run' first second third

# A run that is killed amid the rebuilding goes on in the next one.
make 'killed'
rm second
truncate -s $((512 * 80384)) new
mkfifo pipe
: >out
"$tool" serve first third <pipe >out 2>err &
exec 3>pipe
printf 'replace 1 new\nstep 20\nread 0\n' >&3
for _ in $(seq 100); do [ "$(wc -l <out)" -ge 3 ] && break; sleep 0.1; done
kill -9 $! && wait $! 2>/dev/null
exec 3>&-
expect 'killed amid the rebuilding' sh -c "sed -n 2p out | grep -qx 'left 33'"
holds 'killed: the volume' first new third
serve 'the rest is rebuilt' 0 'step 0\nstep 1000\n' 'left 33\nleft 0\n' first new third
any_absent 'killed' first new third

# A drive that is there gives way to a new one, and isn't written from then on.
make 'gives way'
truncate -s $((512 * 80384)) new
serve 'a drive that is there is replaced' 0 'replace 1 new\nstep 0\n' 'ok\nleft 53\n' first second third
cp second before
serve 'it is rebuilt' 0 'step 1000\nreplace 1 new\n' 'left 0\nrefused twice\n' first new third
expect 'the former drive stayed as it was' cmp -s second before
any_absent 'gives way' first new third

# The former drive takes its place again: it has superblocks, a state and rows of the pool from before, which count no more. The volume changes in between, and
# again before it is rebuilt.
serve 'a former drive is taken in again' 0 'fill 128 128 a6\nreplace 1 second\nfill 128 64 a5\nstep 1000\n' 'ok\nok\nok\nleft 0\n' first new third
{
  head -c $((128 * 512)) bytes
  head -c $((64 * 512)) /dev/zero | tr '\0' '\245'
  head -c $((64 * 512)) /dev/zero | tr '\0' '\246'
  tail -c +$((256 * 512 + 1)) bytes
} >written && mv written bytes
any_absent 'a former drive' first second third

# Refusals.
make 'refused'
truncate -s $((512 * 80384)) new
truncate -s $((512 * 81024)) between
truncate -s $((512 * 79104)) smaller
serve 'by their causes' 0 'replace 3 new\nreplace 0 none\nreplace 1 third\nreplace 1 between\nreplace 1 smaller\nlose 1\nreplace 1 between\nreplace 1 smaller\nlose 0\nreplace 1 new\n' \
  'refused no-such-drive\nrefused attach\nrefused twice\nrefused size\nrefused smaller\nok\nrefused size\nrefused smaller\nok\nrefused not-whole\n' first second third

# As others read the new drive.
make 'for others'
rm second
truncate -s $((512 * 80384)) new
serve 'a new drive' 0 'replace 1 new\nstep 1000\n' 'ok\nleft 0\n' first third
if have sgdisk gdisk; then
  expect 'sgdisk finds nothing wrong with its tables' sh -c "sgdisk --verify new | grep -q 'No problems found'"
else
  echo "skipped: sgdisk isn't here, and gdisk can't be installed"
fi
if have mdadm mdadm; then
  dd if=new of=member bs=512 skip=10240 count=5376 status=none
  mdadm --examine member >says 2>&1
  expect 'mdadm reads its superblock' sh -c "grep -q 'Magic : a92b4efc' says && grep -Eq 'Checksum : [0-9a-f]+ - correct' says && grep -q 'Device Role : Active device 1' says"
else
  echo "skipped: mdadm isn't here, and can't be installed"
fi

close
