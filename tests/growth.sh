#!/usr/bin/env bash
# Pools on real files grow by drives that are added, or that replace a smaller one: a mirror becomes RAID-5, arrays take one member more, and new ones
# are made. The volume is written between any two works, runs are killed at any time, and drives are lost in the middle. What the volume holds is
# compared with a file that is written alike, and its new sectors are zeros.
. "$(dirname "$(readlink -f "${BASH_SOURCE[0]}")")/lib/program.sh"
. "$top/tests/lib/volume.sh"

# serve NAME SCRIPT REPLIES: a script over the pool's images.
serve() {
  printf '%b' "$2" >script
  check "$1" 0 "$3" serve "${images[@]}"
}

# grown SECTORS: the volume has so many sectors now, and what came is zeros.
grown() {
  sectors=$1
  truncate -s $((sectors * 512)) bytes
}

# works NAME COUNT: does so many works of the pool, each with a write of the volume behind it.
works() {
  local work
  : >script
  for work in $(seq "$2"); do
    echo 'step 1' >>script
    put $((work * 61 % sectors)) $(((work + 100) % 256))
  done
  "$tool" serve "${images[@]}" <script >out 2>err
  expect "$1: nothing is refused" sh -c '[ -s out ] && ! grep -q refused out'
}

# tables_are_fine NAME IMAGE..: as sgdisk sees them, where it is at hand.
tables_are_fine() {
  local name=$1 image
  shift
  have sgdisk gdisk || { echo "skipped: sgdisk isn't here, and gdisk can't be installed"; return; }
  for image in "$@"; do
    expect "$name: sgdisk finds nothing wrong with the tables of $image" sh -c "sgdisk --verify $image | grep -q 'No problems found'"
  done
}

# kill_amid NAME SECTORS: the pool does the works that it has left in runs that are killed, each after some milliseconds more. In the end the volume has
# so many sectors.
kill_amid() {
  local milliseconds now
  for milliseconds in $(seq 3 3 48); do
    yes 'step 1' | head -n 1000 >script
    killed "0.0$(printf %02d "$milliseconds")" serve "${images[@]}"
    now=$(printf 'size\n' | "$tool" serve "${images[@]}" | sed 's/size //')
    [ "$now" = "$2" ] && grown "$2"
    holds "$1 after $milliseconds milliseconds" "${images[@]}"
  done
  printf 'step 1000\nsize\n' >script
  "$tool" serve "${images[@]}" <script >out 2>err
  expect "$1: the rest" cmp -s out <(printf 'left 0\nsize %d\n' "$2")
  grown "$2"
  any_absent "$1" "${images[@]}"
}

# lose_amid NAME LINE WORKS PLACE SECTORS IMAGE..: a line takes a drive in, so many works are done, and the drive of a place is lost: the plan goes on
# without it. IMAGE..: those of the pool that it leaves, by their places.
lose_amid() {
  local name="$1: drive $4 lost after $3 works" line=$2 works=$3 place=$4 size=$5
  shift 5
  printf '%s\nstep %d\nlose %d\nstep 1000\nsize\n' "$line" "$works" "$place" >script
  "$tool" serve "${images[@]}" <script >out 2>err
  expect "$name: the plan ends" sh -c "grep -qx 'left 0' out && grep -qx 'size $size' out"
  grown "$size"
  local left=("$@")
  unset "left[place]"
  holds "$name" "${left[@]}"
}

# A drive whose units lie between those of others isn't taken in, and nothing changes.
make 'between' 2560 A 79104 B 79104 C 80384
blank D 79744
serve 'between: it is refused' 'add D\nsize\n' 'refused size\nsize 2560\n'
holds 'between' A B C
expect 'between: its image stayed as it was' cmp -s D <(head -c $((512 * 79744)) /dev/zero)

# Other refusals, in their order.
serve 'refused: by their causes' 'add none\nadd A\nlose 1\nadd A\nadd B\nadd D\n' 'refused attach\nrefused twice\nok\nrefused twice\nrefused not-whole\nrefused not-whole\n'
make 'rows are left' 3840 A 79104 B 80384 C 80384
blank E 80384
mkfifo pipe
: >out
"$tool" serve A B C <pipe >out 2>err &
exec 3>pipe
printf 'write 0 61\nflush\n' >&3
for _ in $(seq 100); do [ "$(wc -l <out)" -ge 2 ] && break; sleep 0.1; done
kill -9 $! && wait $! 2>/dev/null
exec 3>&-
set_sector 0 97
serve 'rows are left: it is refused until they agree' 'add D\nstep 100\nadd D\nadd E\nadd D\n' 'refused not-resynced\nleft 0\nrefused size\nok\nrefused plan-pending\n'
holds 'rows are left' A B C E

# A fourth drive of the largest size: both arrays take it.
make 'a fourth drive' 3840 A 79104 B 80384 C 80384
blank D 80384
serve 'a fourth drive: all works' 'add D\nstep 0\nsize\nstep 100\nsize\nread 6399\n' 'ok\nleft 59\nsize 3840\nleft 0\nsize 6400\ndata -\n'
images=(A B C D)
grown 6400
any_absent 'a fourth drive' "${images[@]}"
"$tool" status "${images[@]}" </dev/null >shown 2>err
expect 'a fourth drive: the array has four members' grep -qx 'array 0 level 5 members 4 rows 26' shown
expect 'a fourth drive: there is RAID-5 over the large ones' grep -qx 'array 1 level 5 members 3 rows 26' shown
expect 'a fourth drive: the plan has ended' grep -qx 'plan nothing' shown
: >script
for turn in $(seq 100); do put $((turn * 673 % sectors)) $((turn + 100)); done
"$tool" serve "${images[@]}" <script >out 2>err
any_absent 'a fourth drive: the volume is written' "${images[@]}"
fill 'a fourth drive: the volume is filled again' "${images[@]}"
any_absent 'a fourth drive: the volume is filled again' "${images[@]}"
tables_are_fine 'a fourth drive' "${images[@]}"

# Lines while a plan is there.
make 'a plan' 3840 A 79104 B 80384 C 80384
blank D 80384
serve 'a plan: lines are refused' 'reed 0\nadd D\nadd E\nreplace 9 E\nlose 9\nstep 0\nsize\n' \
  'refused syntax\nok\nrefused plan-pending\nrefused no-such-drive\nrefused no-such-drive\nleft 59\nsize 3840\n'
images=(A B C D)
holds 'a plan: the drive is added' "${images[@]}"
serve 'a plan: the drive is there' 'add D\nadd E\nstep 1\n' 'refused twice\nrefused plan-pending\nleft 58\n'
holds 'a plan: it has begun' "${images[@]}"

# A third drive for a mirror of two.
make 'a third drive' 1280 A 79104 B 79104
blank C 79104
serve 'a third drive: all works' 'add C\nstep 0\nstep 31\nsize\n' 'ok\nleft 31\nleft 0\nsize 2560\n'
images=(A B C)
grown 2560
any_absent 'a third drive' "${images[@]}"

# A seventh drive for six.
make 'a seventh drive' 6400 A 79104 B 79104 C 79104 D 79104 E 79104 F 79104
blank G 79104
serve 'a seventh drive: six works' 'write 1024 61\nflush\nadd G\nstep 0\nstep 6\n' 'ok\nok\nok\nleft 30\nleft 24\n'
set_sector 1024 97
images=(A B C D E F G)
serve 'a seventh drive: the next run' 'step 0\nread 1024\n' 'left 24\ndata 61\n'
holds 'a seventh drive: in the middle' "${images[@]}"
serve 'a seventh drive: the rest' 'step 100\nsize\n' 'left 0\nsize 7680\n'
grown 7680
any_absent 'a seventh drive' "${images[@]}"

# Four unequal drives take a fifth, with a write between any two works.
make 'amid writes' 7680 A 79104 B 80384 C 81664 D 81664
blank E 81664
serve 'amid writes: it is added' 'add E\n' 'ok\n'
images+=(E)
left=$(printf 'step 0\n' | "$tool" serve "${images[@]}" | sed 's/left //')
expect 'amid writes: works are left' [ "${left:-0}" -eq 87 ]
for turn in $(seq 5); do
  works "amid writes: turn $turn" 13
  holds "amid writes: turn $turn" "${images[@]}"
done
works 'amid writes: the rest' $((${left:-0} - 5 * 13))
serve 'amid writes: nothing is left' 'step 0\nsize\n' 'left 0\nsize 11520\n'
grown 11520
any_absent 'amid writes' "${images[@]}"

# Runs that are killed in the growth, each after some milliseconds more.
make 'killed' 3840 A 79104 B 80384 C 80384
blank D 80384
serve 'killed: the drive is added' 'add D\n' 'ok\n'
images=(A B C D)
kill_amid 'killed' 6400

# A run that takes the drive in is killed: the pool is the one before, or has the drive.
make 'added' 3840 A 79104 B 80384 C 80384
for milliseconds in 1 2 3 5 8; do
  blank D 80384
  printf 'add D\n' >script
  killed "0.00$milliseconds" serve A B C
  printf 'step 0\n' >script
  if "$tool" serve A B C D <script >out 2>err && grep -qx 'left 59' out; then
    holds "added within $milliseconds milliseconds" A B C D
    make "added, after $milliseconds" 3840 A 79104 B 80384 C 80384
  else
    expect "not added within $milliseconds milliseconds: nothing is left" grep -qx 'left 0' out
    holds "not added within $milliseconds milliseconds" A B C
  fi
done

# A drive is lost at some work: the plan goes on without it.
for place in 0 1 2 3; do
  for works in 0 1 9 27 40 56; do
    make "a fourth drive: $place lost after $works" 3840 A 79104 B 80384 C 80384
    blank D 80384
    lose_amid 'a fourth drive' 'add D' "$works" "$place" 6400 A B C D
  done
done

# The drive that was lost is replaced then, and any one may be absent again.
blank new 80384
printf 'replace 3 new\nstep 1000\n' >script
check 'a lost drive is replaced after the growth' 0 'ok\nleft 0\n' serve A B C
any_absent 'a lost drive is replaced after the growth' A B C new

# From two drives to eight, one after the other.
make 'two to eight' 1280 A 79104 B 79104
for image in C D E F G H; do
  blank "$image" 79104
  serve "two to eight: $image" "add $image\nstep 1000\n" 'ok\nleft 0\n'
  images+=("$image")
  grown $((sectors + 1280))
  holds "two to eight: $image" "${images[@]}"
done
any_absent 'two to eight' "${images[@]}"

# Two large drives get an array of their own: it is made, zeroed and made ready, and the volume goes on over it.
make 'a new array' 2560 A 79104 B 79104 C 80384
blank D 80384
serve 'a new array: all works' 'add D\nstep 0\nsize\nstep 100\nsize\nread 5119\n' 'ok\nleft 58\nsize 2560\nleft 0\nsize 5120\ndata -\n'
images=(A B C D)
grown 5120
any_absent 'a new array' "${images[@]}"
"$tool" status "${images[@]}" </dev/null >shown 2>err
expect 'a new array: all drives have a part in the first one' grep -qx 'array 0 level 5 members 4 rows 26' shown
expect 'a new array: the large ones have a mirror' grep -qx 'array 1 level 1 members 2 rows 26' shown
fill 'a new array: the volume is filled again' "${images[@]}"
any_absent 'a new array: the volume is filled again' "${images[@]}"
tables_are_fine 'a new array' "${images[@]}"
make 'a new array, killed' 2560 A 79104 B 79104 C 80384
blank D 80384
serve 'a new array, killed: the drive is added' 'add D\nstep 27\n' 'ok\nleft 31\n'
images=(A B C D)
kill_amid 'a new array, killed' 5120
for place in 0 1 2 3; do
  for works in 0 27 28 29 40 55 56; do
    make "a new array: $place lost after $works" 2560 A 79104 B 79104 C 80384
    blank D 80384
    lose_amid 'a new array' 'add D' "$works" "$place" 5120 A B C D
  done
done

# A drive is replaced by a larger one, missing or not: its members are rebuilt, and the pool grows.
make 'a larger drive' 2560 A 79104 B 79104 C 80384
blank D 80384
serve 'a larger drive: all works' 'replace 0 D\nstep 0\nstep 56\nsize\n' 'ok\nleft 56\nleft 0\nsize 3840\n'
images=(D B C)
grown 3840
any_absent 'a larger drive' "${images[@]}"
make 'a larger drive for a missing one' 3840 A 79104 B 80384 C 80384
rm A
blank D 81664
images=(B C)
serve 'a larger drive for a missing one: refusals' 'replace 0 none\nreplace 0 B\nreplace 1 D\n' 'refused attach\nrefused twice\nrefused not-whole\n'
blank E 79744
serve 'a larger drive for a missing one: all works' 'replace 0 E\nreplace 0 D\nreplace 0 D\nstep 1000\nsize\n' \
  'refused size\nok\nrefused twice\nleft 0\nsize 5120\n'
images=(D B C)
grown 5120
any_absent 'a larger drive for a missing one' "${images[@]}"
make 'a larger drive, killed' 2560 A 79104 B 79104 C 80384
blank D 80384
serve 'a larger drive, killed: it is taken in' 'replace 0 D\n' 'ok\n'
images=(D B C)
kill_amid 'a larger drive, killed' 3840
for place in 0 1 2; do
  for works in 26 27 30 53 54; do
    make "a larger drive: $place lost after $works" 2560 A 79104 B 79104 C 80384
    blank D 80384
    lose_amid 'a larger drive' 'replace 0 D' "$works" "$place" 3840 D B C
  done
done

# Layer upon layer: each larger pair of drives gets an array above all others.
make 'layers' 1280 A 79104 B 79104
for drive in 'C 80384 31 2560' 'D 80384 58 5120' 'E 81664 59 7680' 'F 81664 86 11520'; do
  read -r image size works now <<<"$drive"
  blank "$image" "$size"
  serve "layers: $image" "add $image\nstep 0\nstep 1000\nsize\n" "ok\nleft $works\nleft 0\nsize $now\n"
  images+=("$image")
  grown "$now"
  holds "layers: $image" "${images[@]}"
done
any_absent 'layers' "${images[@]}"

close
