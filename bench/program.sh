# For the measurements of the program, which source this file: `top`, the program itself, since the launcher looks at the sources at each
# call, and a folder of their own, which they are in.
set -euo pipefail

top=$(cd "$(dirname "$(readlink -f "${BASH_SOURCE[0]}")")/.." && pwd)
"$top/roskubel" help >/dev/null
program=$top/out/shr_tool
[ -x "$program" ] || program=$top/release/shr_tool
folder=$(mktemp -d)
trap 'rm -rf "$folder"' EXIT
cd "$folder"
