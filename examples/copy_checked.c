/* copy.c converted, every line of it in a checked scope. The buffer has its length beside it. Where a name does not fit,
   `append` would write a byte over the zero at the end of the buffer, and stops at the check `terminator`. */
#include <stdchecked.h>

#pragma CHECKED_SCOPE on

char name nt_checked[64];
char greeting nt_checked[17];
char end nt_checked[8] = "!\n";

/* copies a text into a buffer from a place on; the place after the copy */
int append(nt_array_ptr<char> to : count(size), int size, int at, nt_array_ptr<char> from) {
  int n = 0;
  nt_array_ptr<char> bytes : count(n) = from;
  while (bytes[n]) {
    to[at + n] = bytes[n];
    n = n + 1;
  }
  to[at + n] = 0;
  return at + n;
}

void print(nt_array_ptr<char> text) {
  int n = 0;
  nt_array_ptr<char> bytes : count(n) = text;
  while (bytes[n]) {
    putchar(bytes[n]);
    n = n + 1;
  }
}

void greet(void) {
  int at;
  at = append(greeting, 16, 0, "Hello ");
  at = append(greeting, 16, at, name);
  print(greeting);
  print(end);
}

int main(void) {
  int byte = getchar();
  int used = 0;
  while (byte != EOF) {
    if (byte == '\n') {
      name[used] = 0;
      greet();
      used = 0;
    } else if (used < 63) {
      name[used] = byte;
      used = used + 1;
    }
    byte = getchar();
  }
  return 0;
}
