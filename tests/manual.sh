#!/usr/bin/env bash
# The manual page: it is well formed, and its examples print what it says.
. "$(dirname "$(readlink -f "${BASH_SOURCE[0]}")")/lib/program.sh"

page=$top/docs/roskubel.8
if have mandoc mandoc; then
  mandoc -Tlint -Wwarning "$page" >lint 2>&1
  expect 'mandoc has no word against it' test ! -s lint
else
  echo 'no mandoc: the page is not looked at by it'
fi
if have groff groff; then
  groff -ww -mdoc -Tutf8 "$page" >/dev/null 2>warnings
  expect 'groff has no word against it' test ! -s warnings
else
  echo 'no groff: the page is not looked at by it'
fi

# The examples in their order, as the page shows them: a line that begins with `$ ` is run, what follows it is its output.
mkdir bin
ln -s "$top/roskubel" bin/roskubel
PATH=$folder/bin:$PATH
sed -n '/^\.\\" example$/,/^\.Ed$/p' "$page" | grep -v '^\.' | sed 's/\\e/\\/g' >wanted
while read -r line; do
  case $line in
    '$ '*)
      echo "$line"
      bash -c "${line#\$ }" </dev/null 2>>said
      ;;
  esac
done <wanted >printed
expect 'there are examples' test -s wanted
expect 'they print what the page says' diff wanted printed

expect 'its diagnostics are those of the table' "$top/tools/diagnostics" --check

# Each refusal that the page on the program has is explained.
for word in $(grep -oE '`refused [a-z-]+' "$top/docs/PROGRAM.md" | cut -d' ' -f2 | sort -u); do
  expect "refused $word is explained" grep -Eq "^\.It Li refused $word( |$)" "$page"
done

# So is each status.
for status in $(grep -oE '^\| [0-9] \|' "$top/docs/PROGRAM.md" | cut -d' ' -f2); do
  expect "status $status is explained" grep -qx "\.It $status" "$page"
done

close
