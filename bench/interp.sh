#!/bin/bash
# How many steps a second `ccc interp` takes: a loop, and calls of a function, of three steps a turn each. User time, with
# the start of the process and the phases of the source file.
. "$(dirname "$0")/workspace.sh"
TIMEFORMAT=%U

measure() { # name steps value; the source file on standard input
  local seconds
  cat > "$work/text"
  seconds=$({ time "$top/ccc" interp "$work/text" 100000000 > "$work/said" 2>&1 || echo $? > "$work/status"; } 2>&1)
  [ "$(cat "$work/status")" = "$3" ] && [ ! -s "$work/said" ] || { cat "$work/said" >&2; return 1; }
  row "interpreter, $1" "$(awk "BEGIN { printf \"%.1f\", $2 / 1000000 / $seconds }")" "million steps/s"
}

measure 'a loop' 15000005 7 <<'TEXT'
int main(void) {
  unsigned i;
  unsigned sum = 0;
  for (i = 0; i < 5000000; i = i + 1)
    sum = sum + i;
  return 7;
}
TEXT
measure 'calls' 14000004 7 <<'TEXT'
int next(int n) {
  return n + 1;
}
int main(void) {
  int i = 0;
  while (i < 4666667)
    i = next(i);
  return 7;
}
TEXT
