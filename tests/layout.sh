#!/usr/bin/env bash
# The built program's `layout`: its lines, refusals and statuses.
. "$(dirname "$(readlink -f "${BASH_SOURCE[0]}")")/lib/program.sh"

# layout NAME STATUS WANTED WORD..: runs `layout` with these words; it reads no input.
: >script
layout() { check "$1" "$2" "$3" layout "${@:4}"; }

layout 'drives of three sizes' 0 \
  'layer 0 members 0 1 2 3 height 238457 extents 715371\nlayer 1 members 1 2 3 height 238465 extents 476930\nlayer 2 members 2 3 height 476930 extents 476930\ncapacity 1669231\nbound 1669231 spared 2\n' \
  8192 1953525168 3907029168 7814037168 7814037168
layout 'a part that one drive has alone' 0 \
  'layer 0 members 0 1 2 height 10 extents 20\nunused 2 10\ncapacity 20\nbound 20 spared 2\n' \
  128 79104 79104 80384
layout 'one drive' 6 'refused too-few\n' 128 79104
layout 'seventeen drives' 6 'refused too-many\n' 128 $(printf '79104 %.0s' {1..17})
layout 'a drive without a unit' 6 'refused no-room 1\n' 128 79104 77951
layout 'no drive' 2 'refused words\n' 128
layout 'an extent that is no power of two' 2 'refused words\n' 100 79104 79104
layout 'a drive of 2^48 sectors' 2 'refused words\n' 128 79104 281474976710656

close
