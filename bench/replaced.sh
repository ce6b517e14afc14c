# For the measurements of a rebuilding, which source this file: `replaced MEBIBYTES` makes a RAID-5 over the images `first`, `new` and `third`
# with so much of each for the volume, full of random bytes, whose member on `new` is to be rebuilt. `size` is that of an image in bytes, `left`
# how many works are left, and `rows` how many of them are rows.
. "$(dirname "$(readlink -f "${BASH_SOURCE[0]}")")/program.sh"

replaced() {
  # Of each image 77824 sectors are no extents.
  size=$((77824 * 512 + $1 * 1048576))
  truncate -s "$size" first second third
  "$program" create 128 first second third </dev/null >made
  head -c $((512 * $(cut -d ' ' -f 2 made))) /dev/urandom | "$program" import first second third >/dev/null
  rm second
  truncate -s "$size" new
  left=$(printf 'replace 1 new\nstep 0\n' | "$program" serve first third | sed -n 's/^left //p')
  rows=$((left - 1))
}
