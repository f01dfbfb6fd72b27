/* length.c half converted: what reads texts is checked, and `main` still writes the line by a plain pointer. A line that
   is too long still lays its last bytes over the label; the fault is that of `main`, never of the checked functions. */
#include <stdchecked.h>

char line nt_checked[8];
char label nt_checked[8] = "length";

checked int length(nt_array_ptr<char> text) {
  int n = 0;
  nt_array_ptr<char> bytes : count(n) = text;
  while (bytes[n])
    n = n + 1;
  return n;
}

/* prints the bytes of a text */
checked void print(nt_array_ptr<char> text) {
  int n = 0;
  nt_array_ptr<char> bytes : count(n) = text;
  while (bytes[n]) {
    putchar(bytes[n]);
    n = n + 1;
  }
}

checked void number(int n) {
  if (n >= 10)
    number(n / 10);
  putchar('0' + n % 10);
}

int main(void) {
  int byte = getchar();
  int used = 0;
  int n;
  char *to = (char *)line;
  while (byte != EOF) {
    if (byte == '\n') {
      to[used] = 0;
      n = length(line);
      print(label);
      putchar(' ');
      number(n);
      putchar('\n');
      used = 0;
    } else {
      to[used] = byte;
      used = used + 1;
    }
    byte = getchar();
  }
  return 0;
}
