# For the scripts that build or keep the program, which source this file: which sources it is built from.

# program_crates TOP: the crates of the repository that the program is built from, by crates.txt, one a line.
program_crates() {
  awk -F: '
    /^[a-z_0-9]+/ { split($1, name, " "); uses[name[1]] = $2 }
    END {
      todo["shr_program"]
      do {
        more = 0
        for (crate in todo) if (!(crate in done)) {
          done[crate]; more = 1
          count = split(uses[crate], below, " ")
          for (k = 1; k <= count; k++) if (below[k] in uses) todo[below[k]]
        }
      } while (more)
      for (crate in done) print crate
    }' "$1/crates.txt" | LC_ALL=C sort
}

# sources_hash TOP: one hash over the sources of these crates, and what they use.
sources_hash() {
  (
    cd "$1" || exit 1
    program_crates . | while read -r crate; do
      grep -E "^$crate( |:)" crates.txt
      find "crates/$crate/src" "crates/$crate/specs" "crates/$crate/proofs" -type f \
        \( -name '*.rt' -o -name '*.antt' \) -print0 2>/dev/null | LC_ALL=C sort -z | xargs -0 sha256sum
    done
  ) </dev/null | sha256sum | cut -d ' ' -f 1
}

# keep_program TOP: keeps the program that was just proved and built in its crate's folder, with its sources' hash.
keep_program() {
  mkdir -p "$1/out" &&
    cp "$1/crates/shr_program/out/shr_program" "$1/out/shr_tool.new" &&
    mv "$1/out/shr_tool.new" "$1/out/shr_tool" &&
    sources_hash "$1" >"$1/out/shr_tool.sources.new" &&
    mv "$1/out/shr_tool.sources.new" "$1/out/shr_tool.sources"
}

# is_released TOP HASH: whether release/ has the program of the sources of this hash, whole, and this machine runs it.
# With no words the program says `refused words` and ends with status 2.
is_released() {
  [ -x "$1/release/shr_tool" ] && [ "$(cat "$1/release/SOURCES" 2>/dev/null)" = "$2" ] || return 1
  (cd "$1/release" && sha256sum --check --status SHA256SUMS) || return 1
  local said
  said=$("$1/release/shr_tool" </dev/null 2>/dev/null)
  [ $? -eq 2 ] && [ "$said" = "refused words" ]
}
