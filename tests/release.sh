#!/usr/bin/env bash
# The release: it is what these sources build, byte for byte, it runs without the kit, and it installs.
. "$(dirname "$(readlink -f "${BASH_SOURCE[0]}")")/lib/program.sh"
. "$top/tools/lib/sources.sh"

if [ -d "$top/release" ]; then
  expect 'the release is of these sources' test "$(cat "$top/release/SOURCES")" = "$(sources_hash "$top")"
  expect 'its checksum is its own' bash -c "cd '$top/release' && sha256sum --check --status SHA256SUMS"
  # another kit may build other bytes
  if [ "$(cat "$top/release/KIT")" = "$(rt version)" ]; then
    expect 'it is what these sources build' cmp "$top/release/shr_tool" "$tool"
  else
    echo "passed over: the release is by $(cat "$top/release/KIT"), and this is $(rt version)"
  fi

  # a machine without the kit: nothing but the base system on the path, and nothing built
  mkdir copy
  tar -C "$top" --exclude=.git --exclude=out -cf - . | tar -C copy -xf -
  without_kit() { env -i PATH=/usr/bin:/bin "$@"; }
  expect 'the demo runs without the kit' without_kit copy/demo
  expect 'nothing was built for it' test ! -e copy/out
else
  echo 'there is no release'
fi

expect 'install' "$top/tools/install" "$folder/prefix"
printf 'layer 0 members 0 1 height 10 extents 10\ncapacity 10\nbound 10 spared 0\n' >wanted
prefix/bin/roskubel layout 128 79104 79104 >out </dev/null
expect 'the installed program runs' cmp wanted out
expect 'the manual page is in its place' test -s prefix/share/man/man8/roskubel.8
expect 'so are the completions' test -s prefix/share/bash-completion/completions/roskubel -a -s prefix/share/zsh/site-functions/_roskubel
truncate -s 40M one two
expect 'the installed front makes a pool' prefix/bin/roskubel new one two
expect 'and looks at it' prefix/bin/roskubel check two one
rm one two
if command -v zsh >/dev/null; then
  expect 'zsh reads its completion' zsh -n prefix/share/zsh/site-functions/_roskubel
fi
expect 'install wants a prefix' bash -c "! '$top/tools/install'"

# completion: the forms by their beginnings, and files where names are meant
touch first.img
completed() {
  bash -c '. "$0"; COMP_WORDS=("$@"); COMP_CWORD=$(($# - 1)); _roskubel; printf "%s\n" "${COMPREPLY[@]}"' \
    "$top/tools/completions/roskubel.bash" "$@"
}
expect 'a form is completed' test "$(completed roskubel se)" = serve
expect 'an image is completed' test "$(completed roskubel serve fir)" = first.img
expect 'an extent is not' test -z "$(completed roskubel create fir)"
expect 'an option is completed' test "$(completed roskubel new --y)" = --yes

close
