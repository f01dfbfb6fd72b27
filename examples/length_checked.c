/* length.c converted, every line of it in a checked scope. The eighth byte of a line is written where only the zero at
   the end may stand, so the program stops there at the check `terminator`. */
#include <stdchecked.h>

#pragma CHECKED_SCOPE on

char line nt_checked[8];
char label nt_checked[8] = "length";

int length(nt_array_ptr<char> text) {
  int n = 0;
  nt_array_ptr<char> bytes : count(n) = text;
  while (bytes[n])
    n = n + 1;
  return n;
}

/* prints the bytes of a text */
void print(nt_array_ptr<char> text) {
  int n = 0;
  nt_array_ptr<char> bytes : count(n) = text;
  while (bytes[n]) {
    putchar(bytes[n]);
    n = n + 1;
  }
}

void number(int n) {
  if (n >= 10)
    number(n / 10);
  putchar('0' + n % 10);
}

int main(void) {
  int byte = getchar();
  int used = 0;
  int n;
  while (byte != EOF) {
    if (byte == '\n') {
      line[used] = 0;
      n = length(line);
      print(label);
      putchar(' ');
      number(n);
      putchar('\n');
      used = 0;
    } else {
      line[used] = byte;
      used = used + 1;
    }
    byte = getchar();
  }
  return 0;
}
