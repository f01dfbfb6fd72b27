/* Counts the lines, words and bytes of the input and prints its longest word, in plain C. Words of sixteen bytes or more
   are written past the end of their buffers. */
char word[16];
char longest[16];
int lines;
int words;
int bytes;
int most;

/* copies the word into the buffer for the longest */
void keep(char *to, char *from) {
  int n = 0;
  while (from[n]) {
    to[n] = from[n];
    n = n + 1;
  }
  to[n] = 0;
}

void print(char *text) {
  int n = 0;
  while (text[n]) {
    putchar(text[n]);
    n = n + 1;
  }
}

void number(int n) {
  if (n >= 10)
    number(n / 10);
  putchar('0' + n % 10);
}

/* counts the word, which has so many bytes */
void count(int length) {
  if (length == 0)
    return;
  word[length] = 0;
  words = words + 1;
  if (length > most) {
    most = length;
    keep(longest, word);
  }
}

int main(void) {
  int byte = getchar();
  int length = 0;
  while (byte != EOF) {
    bytes = bytes + 1;
    if (byte == '\n')
      lines = lines + 1;
    if (byte <= ' ') {
      count(length);
      length = 0;
    } else {
      word[length] = byte;
      length = length + 1;
    }
    byte = getchar();
  }
  count(length);
  number(lines);
  print(" lines, ");
  number(words);
  print(" words, ");
  number(bytes);
  print(" bytes, longest word ");
  print(longest);
  putchar('\n');
  return 0;
}
