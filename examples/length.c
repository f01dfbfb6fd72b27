/* Prints how long each line of the input is, in plain C. A line of eight bytes or more is written past the end of its
   buffer: `123456789012345678901234` lays its last bytes over the label. */
char line[8];
char label[8] = "length";

int length(char *text) {
  int n = 0;
  while (text[n])
    n = n + 1;
  return n;
}

/* prints the bytes of a text */
void print(char *text) {
  int n = 0;
  while (text[n]) {
    putchar(text[n]);
    n = n + 1;
  }
}

void number(int n) {
  if (n >= 10)
    number(n / 10);
  putchar('0' + n % 10);
}

int main(void) {
  int byte = getchar();
  int used = 0;
  int n;
  while (byte != EOF) {
    if (byte == '\n') {
      line[used] = 0;
      n = length(line);
      print(label);
      putchar(' ');
      number(n);
      putchar('\n');
      used = 0;
    } else {
      line[used] = byte;
      used = used + 1;
    }
    byte = getchar();
  }
  return 0;
}
