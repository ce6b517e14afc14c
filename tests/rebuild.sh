#!/usr/bin/env bash
# Each drive of four unequal ones on real files is lost, replaced and rebuilt, with a write of the volume between any two works and with runs that are
# killed at any time; another drive is lost in the middle; and rows that a killed run left are resynced while the volume is written. What the
# volume holds is compared with a file that is written alike.
. "$(dirname "$(readlink -f "${BASH_SOURCE[0]}")")/lib/program.sh"
. "$top/tests/lib/volume.sh"

# Units of 10, 20, 30 and 40 extents: RAID-5 over all drives and over the last three, and a mirror over the last two.
sizes=(79104 80384 81664 82944)
names=(first second third fourth)
sectors=7680

make() {
  rm -f "${names[@]}" new
  for place in 0 1 2 3; do truncate -s $((512 * sizes[place])) "${names[place]}"; done
  : >script
  check "$1: the pool is made" 0 "created $sectors\n" create 128 "${names[@]}"
  fill "$1: the volume is filled" "${names[@]}"
}

# Each drive, with a write between any two works.
for place in 0 1 2 3; do
  make "drive $place"
  rm "${names[place]}"
  truncate -s $((512 * sizes[place])) new
  left=("${names[@]}")
  unset "left[place]"
  works=$("$tool" status "${names[@]:0:place}" "${names[@]:place+1}" </dev/null 2>/dev/null | grep -c '^array')
  expect "drive $place: the pool has three arrays without it" [ "$works" -eq 3 ]
  printf 'replace %d new\n' "$place" >script
  for work in $(seq 120); do
    echo 'step 1' >>script
    put $((work * 61 % sectors)) $((work + 100))
  done
  printf 'step 1000\n' >>script
  "$tool" serve "${left[@]}" <script >out 2>err
  expect "drive $place: it is rebuilt amid writes" sh -c "head -n 1 out | grep -qx ok && tail -n 1 out | grep -qx 'left 0'"
  images=("${names[@]}")
  images[place]=new
  any_absent "drive $place" "${images[@]}"
done

# Runs that are killed in the rebuilding, each after some milliseconds more.
make 'killed'
rm third
truncate -s $((512 * sizes[2])) new
printf 'replace 2 new\n' >script
"$tool" serve first second fourth <script >out 2>err
expect 'killed: the new drive is taken in' grep -qx ok out
images=(first second new fourth)
yes $'step 1\nstep 6' | head -n 1000 >script
for milliseconds in $(seq 5 7 61); do
  killed "0.0$(printf %02d "$milliseconds")" serve "${images[@]}"
  holds "killed after $milliseconds milliseconds" "${images[@]}"
done
printf 'step 1000\n' >script
"$tool" serve "${images[@]}" <script >out 2>err
expect 'killed: the rest is rebuilt' grep -qx 'left 0' out
any_absent 'killed' "${images[@]}"

# Another drive is lost in the middle: what was rebuilt is read without it, and an array that has lost two of its members is named.
make 'two lost'
rm second
truncate -s $((512 * sizes[1])) new
printf 'replace 1 new\nstep 20\nlose 0\nread 0\nread %d\nstep 1\n' $((sectors - 1)) >script
"$tool" serve first third fourth <script >out 2>err
expect 'two lost: rows that were rebuilt, and arrays that the drives are no members of, are read' [ "$(grep -c '^data ' out)" -eq 2 ]
expect 'two lost: a work is stuck, and says so' sh -c "tail -n 1 out | grep -qx 'refused stuck 0'"
: >script
check 'two lost: the next run names the array' 6 'refused too-few 0\n' serve first new third fourth

# Rows that a killed run left are resynced while the volume is written.
make 'resynced'
mkfifo pipe
: >out
"$tool" serve "${names[@]}" <pipe >out 2>err &
exec 3>pipe
: >script
put 3 65
put 5000 66
echo flush >>script
cat script >&3
for _ in $(seq 100); do [ "$(wc -l <out)" -ge 3 ] && break; sleep 0.1; done
kill -9 $! && wait $! 2>/dev/null
exec 3>&-
: >script
for work in $(seq 60); do
  echo "step $((work % 4 + 1))" >>script
  put $((work * 97 % sectors)) $((work + 120))
done
printf 'step 1000\n' >>script
"$tool" serve "${names[@]}" <script >out 2>err
expect 'resynced: amid writes' sh -c "head -n 1 out | grep -q '^left [1-9]' && tail -n 1 out | grep -qx 'left 0'"
any_absent 'resynced' "${names[@]}"

close
