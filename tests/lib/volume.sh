# For checks of what a volume holds, which source this file after program.sh: the file `bytes` has what it is to hold. `images` are those of the pool
# that was made last, and `sectors` are its volume's.

# blank NAME SECTORS: an image of zeros.
blank() {
  rm -f "$1"
  truncate -s $((512 * $2)) "$1"
}

# fill NAME IMAGE..: the whole volume gets random bytes.
fill() {
  local name=$1
  shift
  head -c $((sectors * 512)) /dev/urandom >bytes
  cp bytes script
  check "$name" 0 "imported $((sectors * 512))\n" import "$@"
  : >script
}

# make NAME SECTORS IMAGE SIZE ..: a pool of images of so many sectors, its volume full of random bytes.
make() {
  local name=$1
  sectors=$2
  shift 2
  images=()
  while [ $# -gt 0 ]; do
    blank "$1" "$2"
    images+=("$1")
    shift 2
  done
  : >script
  check "$name: the pool is made" 0 "created $sectors\n" create 128 "${images[@]}"
  fill "$name: the volume is filled" "${images[@]}"
}

# set_sector SECTOR BYTE: the file is written as a sector of the volume is.
set_sector() {
  { printf "\\x$(printf %02x "$2")"; head -c 511 /dev/zero; } | dd of=bytes bs=512 seek="$1" conv=notrunc status=none
}

# put SECTOR BYTE: a line that writes a sector, and the file that is written alike.
put() {
  printf 'write %d %02x\n' "$1" "$2" >>script
  set_sector "$1" "$2"
}

# killed SECONDS WORD..: a run of the program over the file `script` that is killed after some time.
killed() {
  local seconds=$1
  shift
  "$tool" "$@" <script >out 2>err &
  sleep "$seconds"
  kill -9 $! 2>/dev/null
  wait $! 2>/dev/null
}

# holds NAME IMAGE..: the volume on these images holds the bytes.
holds() {
  local name=$1
  shift
  "$tool" export "$@" </dev/null >exported 2>err
  expect "$name" cmp -s bytes exported
}

# any_absent NAME IMAGE..: it holds them on all these images, and without each one of them.
any_absent() {
  local name=$1 left image one
  shift
  rm -rf kept && mkdir kept && cp "$@" kept
  holds "$name: all drives" "$@"
  for image in "$@"; do
    cp kept/* .
    left=()
    for one in "$@"; do [ "$one" = "$image" ] || left+=("$one"); done
    holds "$name: without $image" "${left[@]}"
  done
  cp kept/* .
}
