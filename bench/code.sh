#!/bin/bash
# How many instructions the machine runs for programs: the least LIMIT with which `ccc exec` does not answer that the
# limit was reached. Those of code/ work on arrays, lists and words; of some there is a second form that is wholly
# checked. If a gcc for RISC-V is installed, the plain ones stand beside their images by its -O0 and -O1, which `ccc run`
# runs. -O1 is to call a function as often as the file says: without -fno-ipa-pure-const it calls crc once, not ten times.
. "$(dirname "$0")/workspace.sh"
reaches_limit() { # limit program input command
  printf '%s' "$3" | "$top/ccc" "${4:-exec}" "$2" "$1" > "$work/said" 2>&1
  [ $? = 110 ]
}
count() { # name program input command
  local low=0 high=1
  while reaches_limit $high "${@:2}"; do low=$high; high=$((high * 2)); done
  while [ $((high - low)) -gt 1 ]; do
    local middle=$(((low + high) / 2))
    if reaches_limit $middle "${@:2}"; then low=$middle; else high=$middle; fi
  done
  row "code, $1" $high instructions
}
gcc=riscv64-unknown-elf
by_gcc() { # flags program
  {
    echo '__attribute__((section(".start"), naked)) void _start(void) {'
    echo '  __asm__("lui sp, 0x4000\n jal main\n li a7, 0\n ecall");'
    echo '}'
    cat "$2"
  } > "$work/text.c"
  CC=$gcc-gcc OBJCOPY=$gcc-objcopy FLAGS="-w $1" "$top/examples/riscv/image.sh" "$work/text.c" "$work/image"
}
cat > "$work/loop.c" <<'TEXT'
int main(void) {
  unsigned i;
  unsigned sum = 0;
  for (i = 0; i < 1000; i = i + 1)
    sum = sum * 3 + i;
  return 7;
}
TEXT
cat > "$work/gcd.c" <<'TEXT'
int gcd(int a, int b) {
  int value = a;
  if (b != 0)
    value = gcd(b, a % b);
  return value;
}
int main(void) {
  int value = gcd(832040, 514229);
  return value;
}
TEXT
count 'a loop of 1,000 turns' "$work/loop.c" ''
count 'a greatest common divisor by 29 calls' "$work/gcd.c" ''
count 'towers of Hanoi of 8 disks' "$top/examples/hanoi.c" 8
count 'a calculator' "$top/examples/calculator.c" '2*(3+4)-10/3
'
count 'sorting of eight numbers' "$top/examples/sorter.c" '8 7 6 5 4 3 2 1
'
for program in "$top"/bench/code/*.c; do
  name=$(basename "$program" .c | tr _ ' ')
  count "$name" "$program" ''
  case $name in *checked) continue ;; esac
  command -v $gcc-gcc > "$work/said" || continue
  for level in -O0 -O1; do
    by_gcc "$level -fno-ipa-pure-const" "$program"
    count "$name by gcc $level" "$work/image" '' run
  done
done
