#!/usr/bin/env bash
# Only the images of the words are touched, and by one program at a time: standard streams that are closed at the start, two names of one
# image, two programs on one image, and words that aren't UTF-8.
[ "${1:-}" = --help ] && { echo "usage: tests/edge.sh (it takes no words; it builds the program where it isn't built)"; exit 0; }
. "$(dirname "$(readlink -f "${BASH_SOURCE[0]}")")/lib/program.sh"

# Three images with a pool, kept in `fresh`; `reset` brings them back.
mkdir fresh
truncate -s $((512 * 79104)) a b
truncate -s $((512 * 80384)) c
: >script
check 'a pool is made' 0 'created 2560\n' create 128 a b c
"$tool" serve a b c >/dev/null <<'S'
fill 0 2560 5a
fill 128 128 a5
S
cp --sparse=always a b c fresh/
reset() { cp --sparse=always fresh/a fresh/b fresh/c .; }
hashes() { sha256sum a b c; }

# ---- standard streams

# run FORM WORD..: one form of the words over its own input, with the redirections in `how`, by the program `call`.
printf 'read 0\nwrite 7 61\nstatus\n' >lines
printf 'hello' >hello
stream() {
  case $how in
    in) "$@" <&- ;;
    out) "$@" >&- ;;
    err) "$@" 2>&- ;;
    all) "$@" <&- >&- 2>&- ;;
  esac
}
nulled() {
  case $how in
    in) "$@" </dev/null ;;
    out) "$@" >/dev/null ;;
    err) "$@" 2>/dev/null ;;
    all) "$@" </dev/null >/dev/null 2>/dev/null ;;
  esac
}
# same_as_null NAME INPUT WORD..: a closed stream does to the images, to the output and to the status what /dev/null in its place does.
same_as_null() {
  local name=$1 given=$2 want got
  shift 2
  for call in "$tool" "$top/roskubel"; do
    for how in in out err all; do
      reset
      nulled "$call" "$@" <"$given" >out.null 2>err.null
      want="$? $(hashes)"
      reset
      stream "$call" "$@" <"$given" >out 2>err
      got="$? $(hashes)"
      # The id and the time of a new pool are its own.
      if [ "$1" = create ]; then want=${want%% *} got=${got%% *}; fi
      expect "$name, $(basename "$call"), closed: $how" [ "$got" = "$want" ]
      case $how in
        in | err) [ "$1" = status ] || [ "$1" = create ] || expect "$name, output, closed: $how" cmp -s out out.null ;;
      esac
    done
  done
}
same_as_null serve lines serve a b c
same_as_null import hello import a b c
same_as_null export lines export a b c
same_as_null status lines status a b c
same_as_null create lines create 128 a b c
same_as_null layout lines layout 128 79104 79104
same_as_null examine lines examine a
same_as_null 'no form' lines reed

# ---- one program, and one name, for an image

refused_as_is() {
  local name=$1 wanted=$2 before
  shift 2
  before=$(hashes)
  check "$name" 6 "$wanted" "$@"
  expect "$name: the images are as they were" [ "$(hashes)" = "$before" ]
}
reset
ln -s a link
: >script
refused_as_is 'one image under two paths' 'refused attach 3\n' serve a b c ./a
refused_as_is 'and by a link' 'refused attach 1\n' create 128 a link
printf 'replace 0 ./b\nsize\n' >script
check 'a drive of the pool by another path' 0 'refused attach\nsize 2560\n' serve a b c
reset
mkfifo lines.fifo
"$tool" serve a b c <lines.fifo >first.out &
first=$!
exec 8>lines.fifo
printf 'write 3 33\nflush\n' >&8
for _ in $(seq 100); do
  [ "$(wc -l <first.out)" -ge 2 ] && break
  sleep 0.1
done
: >script
refused_as_is 'a second program' 'refused attach 0\n' serve a b c
truncate -s $((512 * 79104)) new
refused_as_is 'one that would make a pool' 'refused attach 1\n' create 128 new b
kill -9 "$first"
wait "$first" 2>/dev/null
exec 8>&-
printf 'read 3\n' >script
check 'after a kill the next run opens' 0 'data 33\n' serve a b c

# ---- words

reset
: >script
check 'a word that is not UTF-8' 2 'refused words\n' serve $'\xff' a
check 'and in the place of the form' 2 'refused words\n' $'\xff'

close
