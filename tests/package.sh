#!/usr/bin/env bash
# The Debian package: debhelper builds it, lintian has no word against it, and what it has runs. Where debhelper isn't at hand, this is passed over.
# usage: tests/package.sh
. "$(dirname "$(readlink -f "${BASH_SOURCE[0]}")")/lib/checks.sh"

have dh debhelper && have dpkg-buildpackage dpkg-dev || { echo "package: passed over, since debhelper isn't at hand"; exit 0; }
have lintian lintian || echo 'no lintian: the package is not looked at by it'

if "$top/tools/package" "$folder" >said 2>&1; then
  passed=$((passed + 1))
else
  failed=$((failed + 1))
  cat said
fi
dpkg -x roskubel_*.deb installed
front=$folder/installed/usr/bin/roskubel
truncate -s 40M one two
expect 'it makes a pool' "$front" new one two
expect 'and looks at it' "$front" check one two
expect 'the engine is the one of release/' cmp installed/usr/lib/roskubel/shr_tool "$top/release/shr_tool"
expect 'the manual page is there' test -s installed/usr/share/man/man8/roskubel.8.gz
expect 'zsh finds its completion' test -s installed/usr/share/zsh/vendor-completions/_roskubel
expect 'it asks for Python 3.11' sh -c "dpkg -f roskubel_*.deb Depends | grep -q 'python3 (>= 3.11)'"
close
