#!/bin/bash
# How much processor time `ccc sample 7 250` takes, 20 times, the start of the process included; then the same apart: the text
# of this seed and size, made here by its rule, is built, and its image run. What `sample` tells is to be what that run gives.
. "$(dirname "$0")/workspace.sh"

# The program itself, built by the launcher, with stack and memory as the launcher sets them.
"$top/ccc" sample 7 250 > "$work/said"
program=$top/crates/ckc_main/out/ckc_main
ulimit -S -s hard
export GLIBC_TUNABLES=${GLIBC_TUNABLES:-glibc.malloc.hugetlb=1:glibc.malloc.top_pad=33554432:glibc.malloc.mmap_threshold=1048576}

awk -v x=7 -v size=250 'BEGIN {
  print "#pragma CHECKED_SCOPE on\nint a _Checked[64];"
  for (j = 0; j < size; j++) {
    x = (1664525 * x + 1013904223) % 4294967296
    print "int f" j "(int n) {\n  int i;\n  int s = 0;\n  int r = 0;"
    print "  for (i = 0; i < n; i = i + 1) { a[i] = a[i] + " x % 1000 "; s = s + a[i]; }\n  putchar(a[0]);"
    if (j > 0) print "  r = f" j - 1 "(n);"
    print "  return s + r;\n}"
  }
  print "int main(void) {\n  int r;\n  r = f" size - 1 "(64);\n  return r;\n}"
}' > "$work/text"
"$program" build "$work/text" "$work/image"
status=0; "$program" run "$work/image" > "$work/put" || status=$?
told=$(tr '\n' ' ' < "$work/said")
value=${told##*ended }
[ "${told%ended*}" = "functions 250 output $(stat -c %s "$work/put") " ] && [ $((value % 256)) = $status ] || { echo "sample told: $told" >&2; exit 1; }

TIMEFORMAT='%U %S'
repeat() { for ((k = 0; k < 20; k++)); do "$@" > "$work/said" || true; done; }
average() { { time repeat "$@"; } 2>&1 | awk '{ printf "%.1f", ($1 + $2) * 50 }'; }
row 'sample 7 250' "$(average "$program" sample 7 250)" 'ms a call'
row "sample 7 250, its text of $(stat -c %s "$work/text") bytes built" "$(average "$program" build "$work/text" "$work/image")" 'ms a call'
row 'sample 7 250, its image run' "$(average "$program" run "$work/image")" 'ms a call'
