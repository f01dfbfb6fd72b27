#!/bin/bash
# How much processor time `ccc` takes for source files, each 20 times, the starts of the process included. First the front beside
# `gcc -fsyntax-only`, on ten files of 262,144 bytes, each with much of one kind (front/text.awk): `interp` goes through
# lexer, parser, size limits, names and types to the program that the file means, which then ends at once. A file that
# is refused says so in its row. Then files of 131,072 and 262,144 bytes, with 8 and 16 functions of some 985 nodes:
# `interp`, and `build`, which compiles the file and writes its image too. The times are to grow as the size does. At last files
# that make the judgement of bounds work: 16 functions of 100 locals, with 100 facts that lead from the first to the last, by
# which 1 and 50 assignments are judged.
. "$(dirname "$0")/workspace.sh"

# The program itself, built by the launcher, whose own time has a row at the end.
"$top/ccc" exec "$top/examples/hello.c" > "$work/said"
program=$top/crates/ckc_main/out/ckc_main
# Stack and memory as the launcher sets them, and for gcc too.
ulimit -S -s hard
export GLIBC_TUNABLES=${GLIBC_TUNABLES:-glibc.malloc.hugetlb=1:glibc.malloc.top_pad=33554432:glibc.malloc.mmap_threshold=1048576}

# The milliseconds of processor time that a call of a command takes, which ends in a status of those given:
# `average '0 113' COMMAND..`.
TIMEFORMAT='%3U %3S'
repeat() { for ((k = 0; k < 20; k++)); do "$@" > "$work/said" 2>&1 || true; done; }
ends_so() {
  local wanted=" $1 " status=0; shift
  "$@" > "$work/said" 2>&1 || status=$?
  case $wanted in *" $status "*) ;; *) cat "$work/said" >&2; return 1 ;; esac
}
average() {
  ends_so "$@" || return 1
  shift
  { time repeat "$@"; } 2>&1 | awk '{ printf "%.1f", ($1 + $2) * 50 }'
}

# The same of a command and of its peer, called in turn, so that both meet what else the machine does: the middle one of
# 21 calls each. `beside COMMAND.. -- PEER..`
middle() { awk '{ print ($1 + $2) * 1000 }' "$1" | sort -n | sed -n 11p; }
beside() {
  local own=()
  while [ "$1" != -- ]; do own+=("$1"); shift; done
  shift
  rm -f "$work/ours" "$work/peers"
  for ((k = 0; k < 21; k++)); do
    { time "${own[@]}" > "$work/said" 2>&1; } 2>> "$work/ours" || true
    { time "$@" > /dev/null 2>&1; } 2>> "$work/peers" || true
  done
  echo "$(middle "$work/ours") beside $(middle "$work/peers")"
}

# Fills a file up with empty lines to so many bytes.
fill() { head -c $(($2 - $(stat -c %s "$1"))) /dev/zero | tr '\0' '\n' >> "$1"; }

for kind in functions 'long names' objects locals 'nested blocks' 'nested expressions' prototypes calls initialisers structures; do
  awk -v kind="$kind" -v half=1 -f "$top/bench/front/text.awk" > "$work/text.c"
  fill "$work/text.c" 262144
  ends_so '0 113' "$program" interp "$work/text.c"
  refused=$(sed -n 's/^refused: \(E[0-9]*\).*/, refused as \1/p' "$work/said")
  ends_so 0 gcc -w -fsyntax-only "$work/text.c"
  row "front, $kind$refused" "$(beside "$program" interp "$work/text.c" -- gcc -w -fsyntax-only "$work/text.c")" "ms a file, ccc beside gcc -fsyntax-only"
done

text() { # bytes functions
  {
    for ((f = 0; f < $2; f++)); do
      echo "int f$f(int n) {"
      for ((s = 0; s < 140; s++)); do echo "  n = n * 3 + 1;"; done
      echo "  return n; }"
    done
    echo "int main(void) { return 0; }"
  } > "$work/text"
  fill "$work/text" "$1"
}
for half in 2 1; do
  text $((262144 / half)) $((16 / half))
  row "front, $((262144 / half)) bytes" "$(average 0 "$program" interp "$work/text")" "ms a file"
  row "build, $((262144 / half)) bytes" "$(average 0 "$program" build "$work/text" "$work/image")" "ms a file"
done

facts() { # assignments
  for ((f = 0; f < 16; f++)); do
    echo "int f$f(int a0) {"
    for ((k = 1; k < 100; k++)); do echo "  int a$k = a0;"; done
    echo "  _Array_ptr<int> p : count(a0) = NULL;"
    echo "  _Array_ptr<int> q : count(a99) = NULL;"
    echo "  while (a0 < 9) {"
    echo "    _Dynamic_check(a0 >= 0);"
    for ((k = 1; k < 100; k++)); do echo "    _Dynamic_check(a$((k - 1)) <= a$k);"; done
    for ((k = 0; k < $1; k++)); do echo "    p = q;"; done
    echo "  }"
    echo "  return a0; }"
  done
  echo "int main(void) { return 0; }"
}
for count in 1 50; do
  facts "$count" > "$work/text"
  row "bounds, chains of 100 facts, $((16 * count)) assignments" "$(average 0 "$program" interp "$work/text")" "ms a file"
done
row "launcher, beside the program" "$(average 0 "$top/ccc" exec "$top/examples/hello.c") beside $(average 0 "$program" exec "$top/examples/hello.c")" "ms a call"
