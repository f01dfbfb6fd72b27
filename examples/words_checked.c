/* words.c converted, every line of it in a checked scope. The sixteenth byte of a word is written where only the zero at
   the end may stand, so the program stops there at the check `terminator`. */
#include <stdchecked.h>

#pragma CHECKED_SCOPE on

char word nt_checked[16];
char longest nt_checked[16];
int lines;
int words;
int bytes;
int most;

/* copies the word into the buffer for the longest */
void keep(nt_array_ptr<char> to : count(size), int size, nt_array_ptr<char> from) {
  int n = 0;
  nt_array_ptr<char> read : count(n) = from;
  while (read[n]) {
    to[n] = read[n];
    n = n + 1;
  }
  to[n] = 0;
}

void print(nt_array_ptr<char> text) {
  int n = 0;
  nt_array_ptr<char> read : count(n) = text;
  while (read[n]) {
    putchar(read[n]);
    n = n + 1;
  }
}

void number(int n) {
  if (n >= 10)
    number(n / 10);
  putchar('0' + n % 10);
}

/* counts the word, which has so many bytes */
void count(int length) {
  if (length == 0)
    return;
  word[length] = 0;
  words = words + 1;
  if (length > most) {
    most = length;
    keep(longest, 15, word);
  }
}

int main(void) {
  int byte = getchar();
  int length = 0;
  while (byte != EOF) {
    bytes = bytes + 1;
    if (byte == '\n')
      lines = lines + 1;
    if (byte <= ' ') {
      count(length);
      length = 0;
    } else {
      word[length] = byte;
      length = length + 1;
    }
    byte = getchar();
  }
  count(length);
  number(lines);
  print(" lines, ");
  number(words);
  print(" words, ");
  number(bytes);
  print(" bytes, longest word ");
  print(longest);
  putchar('\n');
  return 0;
}
