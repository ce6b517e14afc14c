#!/usr/bin/env bash
# The laboratory's stored run is that of its cases, and those that take longer pass too, where the laboratory is built.
. "$(dirname "$(readlink -f "${BASH_SOURCE[0]}")")/lib/checks.sh"

"$top/tools/lab-cases" "$folder"
for file in stdin stdout; do
  expect "the stored $file is that of the cases" cmp "$file" "$top/crates/pool_lab/$file"
done
expect 'no two cases have one name' test -z "$(sort stdout | uniq -d)"

# As `rt ci` leaves it. Each file by a process of its own, since they take minutes.
lab=$top/crates/pool_lab/out/pool_lab
if [ -x "$lab" ]; then
  for file in "$top"/crates/pool_lab/cases/long/*.case; do
    "$lab" <"$file" >"said.${file##*/}" &
  done
  wait
  for file in "$top"/crates/pool_lab/cases/long/*.case; do
    sed -n 's/^case /ok /p' "$file" >wanted
    expect "the cases of ${file##*/}, which take longer" cmp "said.${file##*/}" wanted
    diff "said.${file##*/}" wanted | head -n 5
  done
else
  echo 'the laboratory is not built: the cases that take longer are left out'
fi

close
