/* Greets the name on each line of the input, in plain C. `append` copies a text after another into a buffer of sixteen
   bytes and trusts that both fit: a name of eleven bytes or more does not. */
char name[64];
char greeting[16];
char end[8] = "!\n";

/* copies a text into a buffer from a place on; the place after the copy */
int append(char *to, int at, char *from) {
  int n = 0;
  while (from[n]) {
    to[at + n] = from[n];
    n = n + 1;
  }
  to[at + n] = 0;
  return at + n;
}

void print(char *text) {
  int n = 0;
  while (text[n]) {
    putchar(text[n]);
    n = n + 1;
  }
}

void greet(void) {
  int at;
  at = append(greeting, 0, "Hello ");
  at = append(greeting, at, name);
  print(greeting);
  print(end);
}

int main(void) {
  int byte = getchar();
  int used = 0;
  while (byte != EOF) {
    if (byte == '\n') {
      name[used] = 0;
      greet();
      used = 0;
    } else if (used < 63) {
      name[used] = byte;
      used = used + 1;
    }
    byte = getchar();
  }
  return 0;
}
