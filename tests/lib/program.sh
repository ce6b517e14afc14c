# For the checks of the built program, which source this file: the frame of all checks, the program, and `check`.
. "$(dirname "$(readlink -f "${BASH_SOURCE[0]}")")/checks.sh"

# Has the launcher build the program where it isn't built, and then calls that program alone: no build speaks below.
ROSKUBEL_BUILD=1 "$top/roskubel" </dev/null >/dev/null
[ $? -eq 2 ] || { echo "the program isn't built"; exit 1; }
tool=$top/out/shr_tool

# check NAME STATUS WANTED [WORD..]: runs the program with the words over the file `script`.
check() {
  local name=$1 status=$2 wanted=$3 got
  shift 3
  "$tool" "$@" <script >out 2>err
  got=$?
  printf '%b' "$wanted" >wanted
  if [ "$got" -eq "$status" ] && cmp -s wanted out && [ ! -s err ]; then
    passed=$((passed + 1))
  else
    failed=$((failed + 1))
    echo "FAILED: $name: status $got, wanted $status"
    diff wanted out | head -n 5
    head -n 5 err
  fi
}
