#!/usr/bin/env bash
# The picture of a layout: README's is drawn from what the program prints.
. "$(dirname "$(readlink -f "${BASH_SOURCE[0]}")")/lib/program.sh"

have python3 python3 || { echo 'no python3: the picture is passed over'; close; exit; }
"$tool" layout 8192 1953525168 3907029168 7814037168 7814037168 </dev/null >layout
"$top/tools/draw-layout" 8192 <layout >drawn.svg
expect 'drives of one, two, four and four terabytes' cmp drawn.svg "$top/docs/layout.svg"
"$tool" layout 128 79104 79104 80384 </dev/null | "$top/tools/draw-layout" >unused.svg
expect 'a part that one drive has alone is named' grep -q 'unused: 10 extents that only drive 2 has' unused.svg
expect 'the drive whose size does not count says so' grep -q "size doesn't count" unused.svg
expect 'sizes stand beside extents' grep -q 'capacity: 1669231 extents, 7.00 TB' drawn.svg
expect 'other text is refused' bash -c "! echo 'refused too-few' | '$top/tools/draw-layout'"

close
