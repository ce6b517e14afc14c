#!/usr/bin/env bash
# Trials on real files: the line that one prints, and the bytes that it leaves, are those of the flat array of tests/lib/flat.py. So it is on all drives
# and without each one, over what an earlier run left that was killed, in the middle of a growth and behind it. Where too many drives fail in one
# it names the sector. The images are kept in memory where there is room for them, since a trial flushes its drives some thousand times.
if [ "$(df --output=avail -B1M /dev/shm 2>/dev/null | tail -n 1)" -ge 512 ] 2>/dev/null; then
  export TMPDIR=/dev/shm
fi
. "$(dirname "$(readlink -f "${BASH_SOURCE[0]}")")/lib/program.sh"
. "$top/tests/lib/volume.sh"
have python3 python3 || { echo 'no python3: trials are passed over'; close; exit; }

# trial NAME SEED IMAGE..: the line and the bytes of a trial on these images.
trial() {
  local name=$1 seed=$2
  shift 2
  check "$name" 0 "$(python3 "$top/tests/lib/flat.py" "$seed" bytes)\n" trial "$seed" "$@"
  holds "$name: what it leaves" "$@"
}

make 'three drives' 3840 A 79104 B 80384 C 81664
mkdir kept
cp "${images[@]}" kept
check 'the line of seed 0' 0 'trial turns 20000 writes 12510 reads 4958 flushes 2532 sum 444853\n' trial 0 A B C
trial 'the same once more, over what it left' 0 C A B
cp kept/* .
trial 'the same from the same images' 0 A B C
any_absent 'seed 0' A B C
trial 'seed 12345' 12345 A B C
trial 'the last seed' 18446744073709551615 A B C
trial 'a seed of twenty digits' 00000000000000012345 A B C
for gone in A B C; do
  cp kept/* .
  rm "$gone"
  left=(A B C)
  for place in 0 1 2; do [ "${left[place]}" != "$gone" ] || break; done
  unset "left[place]"
  trial "without $gone" 0 "${left[@]}"
done
cp kept/* .

# Nothing is taken from the input, and a line that can't be put has its status.
printf 'a line\n' >script
{ "$tool" trial 0 A B C >out; cat >rest; } <script
expect 'the input stays' cmp -s script rest
: >script
if [ -e /dev/full ]; then
  "$tool" trial 0 A B C >/dev/full
  expect 'a full output has status 5' [ $? -eq 5 ]
fi

# Runs that are killed, each a while later, and repeated.
for hundredths in 1 2 3 4 6; do
  killed "0.0$hundredths" trial 12345 A B C
  trial "after a trial that was killed after $hundredths hundredths of a second" 0 A B C
done
printf 'step 1000\n' >script
check 'the rows that they left are resynced' 0 'left 0\n' serve A B C
: >script
any_absent 'after trials that were killed' A B C
for tenths in 1 2 4; do
  killed "0.$tenths" 12345 A C
  trial "without a drive, after one that was killed after $tenths tenths" 0 A C
done

# The fewest sectors that a pool has.
make 'the smallest pool' 128 A 77952 B 77952
trial 'the smallest pool' 7 A B
any_absent 'the smallest pool' A B

# In the middle of a growth, and behind it: the first 4096 sectors of 6400 are written then.
make 'a growth' 3840 A 79104 B 80384 C 80384
rm -f D
truncate -s $((512 * 80384)) D
printf 'add D\nstep 20\nsize\n' >script
check 'a growth: twenty of its works' 0 'ok\nleft 39\nsize 3840\n' serve A B C
: >script
trial 'in the middle of a growth' 0 A B C D
printf 'step 1000\nsize\n' >script
check 'a growth: the rest of them' 0 'left 0\nsize 6400\n' serve A B C D
truncate -s $((512 * 6400)) bytes
printf 'fill 3840 2560 5a\n' >script
check 'a growth: the new sectors are filled' 0 'ok\n' serve A B C D
{ head -c $((512 * 3840)) bytes; head -c $((512 * 2560)) /dev/zero | tr '\0' Z; } >filled
mv filled bytes
: >script
trial 'behind a growth' 0 A B C D
any_absent 'behind a growth' A B C D

# A second drive fails in a trial: from some sector on the system refuses what is written to it. The first one was marked in an earlier run.
make 'too many drives' 3840 A 79104 B 80384 C 81664
trial 'too many drives: without the first one' 0 A C
(
  trap '' XFSZ
  ulimit -f 6800
  "$tool" trial 0 A C >out 2>err
)
expect 'the second one has failed: status 8' [ $? -eq 8 ]
expect 'the sector is named' grep -Eqx 'refused spent [0-9]+' out
expect 'it is one of the volume' [ "$(tr -dc 0-9 <out)" -lt 3840 ]
check 'the pool is not opened any more' 6 'refused too-few 0\n' serve A C

close
