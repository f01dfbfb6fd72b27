/* A program for the simulated machine by another compiler: see image.sh. It prints a line and ends with its length. */
static int call(int number, int value) {
  register int a7 __asm__("a7") = number;
  register int a0 __asm__("a0") = value;
  __asm__ volatile("ecall" : "+r"(a0) : "r"(a7) : "memory");
  return a0;
}

const char text[] = "hello, machine\n";

int main(void) {
  int count = 0;
  for (const char *p = text; *p; p++) {
    call(1, *p);
    count++;
  }
  return count;
}

/* the stack begins at its upper end; environment call 0 ends with the value of main */
__attribute__((section(".start"), naked)) void _start(void) {
  __asm__("lui sp, 0x4000\n jal main\n li a7, 0\n ecall");
}
