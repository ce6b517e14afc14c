#!/usr/bin/env bash
# The built program over real files: lines, replies, refusals and statuses of `create` and `serve`.
. "$(dirname "$(readlink -f "${BASH_SOURCE[0]}")")/lib/program.sh"

# So many times one byte.
times() { printf "%${1}s" '' | tr ' ' "$2"; }

# Two fresh images of 77952 sectors, which is one extent of 128, and their pool: its volume has 128 sectors.
images() {
  truncate -s 0 first second
  truncate -s 39911424 first second
  "$tool" create 128 first second </dev/null >made 2>&1
}

# The sectors of the volume, as an image has them.
volume() { dd if="$1" bs=512 skip=14336 count=128 status=none; }

# serve NAME STATUS SCRIPT REPLIES: a script over a fresh pool.
serve() {
  images
  printf '%b' "$3" >script
  check "$1" "$2" "$4" serve first second
}

long_digits=$(times 1016 a)

# Lines and replies.
serve 'the lines of one script' 0 'read 0\nwrite 7 61\nread 7\nread 8\nflush\nsize\nquit\n' \
  'data -\nok\ndata 61\ndata -\nok\nsize 128\n'
expect 'the pool was made' test "$(cat made)" = 'created 128'
expect 'the volume is the same in both images' cmp <(volume first) <(volume second)
expect 'sector 7 has the byte' test "$(dd if=second bs=512 skip=14343 count=1 status=none | tr -d '\0')" = a
serve 'lines with carriage returns' 0 'write 1 62\r\nread 1\r\n\r\nquit\r\nread 1\r\n' 'ok\ndata 62\n'
serve 'a last line that is not ended' 0 'write 2 63\nread 2' 'ok\ndata 63\n'
serve 'a carriage return at the end of input' 0 'read 2\r' 'data -\n'
serve 'an empty script' 0 '' ''
serve 'empty lines' 0 '\n\n\r\n\n' ''
serve 'nothing after quit' 0 'quit\nread 0\n' ''
serve 'digits of either case, zeros at the end dropped' 0 'write 3 aBcD00\nread 3\nwrite 3 00\nread 3\n' 'ok\ndata abcd\nok\ndata -\n'
serve 'an old value is replaced whole' 0 'write 3 616263\nwrite 3 64\nread 3\n' 'ok\nok\ndata 64\n'
serve 'the last sector and the one past it' 0 'read 127\nread 128\nwrite 128 61\nread 18446744073709551615\n' \
  'data -\nrefused range\nrefused range\nrefused range\n'
serve 'wrong lines' 0 'read\nread 0 \nread  0\nread -1\nread x\nread 18446744073709551616\nREAD 0\nquit now\nflush 1\nnone\n read 0\nwrite 0\nwrite 0 6\nwrite 0 6g\n' \
  "$(times 14 x | sed 's/x/refused syntax\\n/g')"
serve 'drives that are not added' 0 'add x\nadd second\n' 'refused attach\nrefused twice\n'
serve 'wrong lines of drives that are added' 0 'add\nadd \nadd x y\nadd a\tb\n' \
  "$(times 4 x | sed 's/x/refused syntax\\n/g')"
serve 'drives that are not replaced' 0 'replace 2 x\nreplace 0 x\n' 'refused no-such-drive\nrefused attach\n'
serve 'wrong lines of drives that are replaced' 0 'replace\nreplace 0\nreplace 0 \nreplace x 0\nreplace 0 x y\nreplace 0 a\tb\n' \
  "$(times 6 x | sed 's/x/refused syntax\\n/g')"
serve 'wrong lines of how the pool stands' 0 'status 0\nstatus \nstatuses\n' \
  "$(times 3 x | sed 's/x/refused syntax\\n/g')"
serve 'works of maintenance where none is left' 0 'step 0\nstep 1\nstep\nstep x\nstep 1 1\n' \
  "left 0\nleft 0\n$(times 3 x | sed 's/x/refused syntax\\n/g')"
serve 'drives that are lost' 0 'write 3 61\nlose 2\nlose 18446744073709551615\nlose 1\nlose 1\nlose 0\nread 3\nwrite 3 62\nread 3\n' \
  'ok\nrefused no-such-drive\nrefused no-such-drive\nok\nrefused no-such-drive\nrefused last-drive\ndata 61\nok\ndata 62\n'
serve 'wrong lines of lost drives' 0 'lose\nlose \nlose x\nlose 0 0\nlose 18446744073709551616\n' \
  "$(times 5 x | sed 's/x/refused syntax\\n/g')"
serve 'sectors that are filled' 0 'fill 3 2 62\nread 4\nread 5\nfill 127 2 00\n' \
  "ok\ndata $(times 512 x | sed 's/x/62/g')\ndata -\nrefused range\n"
serve 'a whole sector' 0 "write 5 $(times 1024 f)\nread 5\n" "ok\ndata $(times 1024 f)\n"
serve 'a sector and a byte' 0 "write 5 $(times 1026 f)\nread 5\n" 'refused syntax\ndata -\n'
serve 'a line of 1100 bytes, which is only a wrong one' 0 "$(times 1100 x)\nread 0\n" 'refused syntax\ndata -\n'
serve 'a line of 1101 bytes' 0 "$(times 1101 x)\nread 0\n" 'refused syntax\ndata -\n'
serve 'a number is at most twenty digits' 0 "read $(times 20 0)\nread $(times 21 0)\n" 'data -\nrefused syntax\n'
serve 'a line of 1101 bytes by which a drive is added' 0 "add $(times 1097 x)\nread 0\n" 'refused syntax\ndata -\n'
serve 'a line far longer than a piece is read to its end' 0 "read $(times 20000 1)\nread 0\n" 'refused syntax\ndata -\n'

# A line of 1025 bytes that lies over the end of the first piece of 4096 bytes, behind empty lines.
boundary() {
  local shift_by=$1
  images
  {
    times "$shift_by" '\n'
    printf 'write 11 %s\nread 11\n' "$long_digits"
  } >script
  check "a piece's end inside a line, at $((4096 - shift_by))" 0 "ok\ndata $long_digits\n" serve first second
}
for shift_by in 3071 3500 4087 4088 4090 4094 4095 4096; do boundary "$shift_by"; done

# What was written is there in the next run.
images
printf 'write 9 7a\n' >script
check 'a first run' 0 'ok\n' serve first second
printf 'read 9\n' >script
check 'a second run' 0 'data 7a\n' serve first second
expect 'the volume is the same in both after two runs' cmp <(volume first) <(volume second)

# Refusals before a script, and their statuses.
: >script
images
check 'a missing first file' 6 'refused attach 0\n' serve none second
check 'a missing second file' 6 'refused attach 1\n' serve first none
expect 'no file is made' test ! -e none
head -c 513 /dev/zero >odd
check 'a file of 513 bytes' 6 'refused attach 0\n' serve odd second
check 'a folder' 6 'refused attach 0\n' serve . second
check 'one path twice' 6 'refused twice\n' serve first first
printf 'read 0\n' >script
check 'the other order' 0 'data -\n' serve second first
: >script
truncate -s 4096 third
check 'a file that is none of the pool' 0 '' serve first third second
cp first old_first
cp second old_second
check 'one drive in two copies' 0 '' serve first old_first second
check 'a drive that is not named' 0 '' serve old_second
check 'files without a pool' 6 'refused no-pool\n' serve third
images
check 'drives of two pools' 6 'refused two-pools\n' serve first old_second
dd if=/dev/zero of=first bs=512 seek=10248 count=1 conv=notrunc status=none
check 'a drive without its superblock' 6 'refused damaged 0 superblock\n' serve first second
dd if=/dev/zero of=second bs=512 seek=2048 count=1 conv=notrunc status=none
check 'a drive without its copy of the state' 6 'refused damaged 0 superblock\n' serve first second
dd if=/dev/zero of=first bs=512 seek=1 count=1 conv=notrunc status=none

# Making a pool.
check 'a pool of one drive' 6 'refused too-few\n' create 128 first
check 'a drive without room' 6 'refused no-room 1\n' create 128 first third
check 'a third drive without room' 6 'refused no-room 2\n' create 128 first second third
check 'an extent that is too large for the drives' 6 'refused no-room 0\n' create 256 first second
mkdir many
for drive in {10..26}; do truncate -s 39911424 many/$drive; done
check 'a pool of seventeen drives' 6 'refused too-many\n' create 128 many/*
rm many/26
check 'a pool of sixteen drives' 0 'created 1920\n' create 128 many/*
printf 'write 1919 61\nlose 14\nread 1919\n' >script
check 'sixteen drives' 0 'ok\nok\ndata 61\n' serve many/*
rm many/2?
printf 'read 1919\nsize\n' >script
check 'ten of them' 6 'refused absent 5\n' serve many/*
: >script
check 'a pool is made over an old one' 0 'created 128\n' create 128 second first

check 'no words' 2 'refused words\n'
check 'an unknown word' 2 'refused words\n' mount first second
check 'help is no form' 2 'refused words\n' help
check 'serve of nothing' 2 'refused words\n' serve
check 'a name with a dash' 2 'refused words\n' serve -first second
check 'an empty name' 2 'refused words\n' serve '' second
check 'create of nothing' 2 'refused words\n' create
check 'create of no names' 2 'refused words\n' create 128
check 'create with an extent of 64 sectors' 2 'refused words\n' create 64 first second
check 'a trial of nothing' 2 'refused words\n' trial 7
check 'status of nothing' 2 'refused words\n' status
check 'import of nothing' 2 'refused words\n' import
check 'a seed that is no number' 2 'refused words\n' trial +7 first second

# A sink that fails.
if [ -e /dev/full ]; then
  printf 'write 4 65\nread 4\n' >script
  "$tool" serve first second <script >/dev/full 2>err
  expect 'a full output has status 5' test $? -eq 5
  expect 'and says nothing on standard error' test ! -s err
fi

# The launcher passes words, ends and the status on, and adds nothing.
images
printf 'write 6 66\nread 6\n' >script
"$top/roskubel" serve first second <script >out 2>err
expect 'the launcher passes the status on' test $? -eq 0
expect 'the launcher passes the replies on' test "$(cat out)" = "$(printf 'ok\ndata 66')"
expect 'the launcher is quiet' test ! -s err
"$top/roskubel" serve first none </dev/null >out 2>err
expect 'the launcher passes a refusal on' test $? -eq 6

# A source that fails: a folder in the place of the script.
"$tool" serve first second <. >out 2>err
expect 'an input that cannot be read has status 4' test $? -eq 4
expect 'and no reply' test ! -s out -a ! -s err

close
