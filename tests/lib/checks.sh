# For checks, which source this file: `--help`, a folder of their own, `expect` and `close`.
set -uo pipefail

# What a script says of itself at its top, and its usage.
if [ "${1:-}" = --help ]; then
  sed -n '2,/^[^#]/s/^# \{0,1\}//p' "$0"
  grep -q '^# usage: ' "$0" || echo "usage: tests/${0##*/}"
  exit
fi

top=$(cd "$(dirname "$(readlink -f "${BASH_SOURCE[0]}")")/../.." && pwd)
folder=$(mktemp -d)
trap 'rm -rf "$folder"' EXIT
cd "$folder" || exit 1
passed=0
failed=0

# expect NAME COMMAND..: one check, by the status of a command.
expect() {
  local name=$1
  shift
  if "$@" >/dev/null 2>&1; then
    passed=$((passed + 1))
  else
    failed=$((failed + 1))
    echo "FAILED: $name"
  fi
}

# Says how many checks passed; its status is 0 where none failed.
close() {
  echo "$passed passed, $failed failed"
  [ "$failed" -eq 0 ]
}

# have COMMAND PACKAGE: whether a tool is here, which Debian's package has; it is installed where it is missing, and said so.
PATH=$PATH:/usr/sbin:/sbin
have() {
  command -v "$1" >/dev/null && return
  echo "installing Debian's $2 for $1 (apt-get)"
  install() { DEBIAN_FRONTEND=noninteractive apt-get install -y --no-install-recommends "$1"; }
  { install "$2" || { apt-get update && install "$2"; }; } >/dev/null 2>&1 </dev/null
  command -v "$1" >/dev/null
}
