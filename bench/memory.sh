#!/usr/bin/env bash
# The most memory that `create`, `import`, `serve` and `export` take on pools of three images whose volumes have 64 MiB and so many MiB: it doesn't go
# by the pool's size.
# usage: bench/memory.sh [MEBIBYTES]
. "$(dirname "$(readlink -f "${BASH_SOURCE[0]}")")/program.sh"
larger=${1:-4096}

cat >peak.c <<'C'
#include <stdio.h>
#include <sys/resource.h>
#include <sys/wait.h>
#include <unistd.h>
int main(int words, char **word) {
  int status;
  struct rusage used;
  pid_t child = fork();
  if (child == 0) {
    execv(word[1], word + 1);
    _exit(127);
  }
  if (child < 0 || wait4(child, &status, 0, &used) < 0) return 1;
  fprintf(stderr, "%ld\n", used.ru_maxrss);
  return WIFEXITED(status) ? WEXITSTATUS(status) : 1;
}
C
gcc -O2 -o peak peak.c

# The KiB of the program on the images.
took() {
  local form=$1
  shift
  ./peak "$program" "$form" "$@" 2>&1 >printed
}

for mebibytes in 64 "$larger"; do
  rm -f first second third
  # Of each image 77824 sectors hold no extents, and the volume lies on two of three of them.
  truncate -s $(((77824 + mebibytes * 1024) * 512)) first second third
  created=$(took create 128 first second third </dev/null)
  imported=$(head -c 1M /dev/urandom | took import first second third)
  served=$(printf 'fill 0 20000 61\nread 7\nflush\nquit\n' | took serve first second third)
  exported=$(took export first second third </dev/null)
  echo "a volume of $mebibytes MiB: create $created KiB, import $imported, serve $served, export $exported"
done
