/* Adds the numbers of a line. `number` takes the line with its length, and stops reading at the first byte that is no
   digit. A line that ends in a digit has no such byte: reading on stops at the check `bounds`, just after the line. */
#include <stdio.h>
#include <stdchecked.h>

#pragma CHECKED_SCOPE on

char line checked[80];
int length;

/* after the blanks from here on */
int skip(array_ptr<char> text : count(size), int size, int at) {
  while (at < size && text[at] <= ' ')
    at = at + 1;
  return at;
}

/* after the digits from here on */
int end_of_digits(array_ptr<char> text : count(size), int size, int at) {
  while (text[at] >= '0' && text[at] <= '9')
    at = at + 1;
  return at;
}

int number(array_ptr<char> text : count(size), int size, int from, int to) {
  int value = 0;
  int at;
  for (at = from; at < to; at = at + 1)
    value = value * 10 + (text[at] - '0');
  return value;
}

/* the sum of the numbers of a text */
int sum(array_ptr<char> text : count(size), int size) {
  int total = 0;
  int at = skip(text, size, 0);
  while (at < size) {
    int end = end_of_digits(text, size, at);
    int value = number(text, size, at, end);
    if (end == at)
      return total;
    total = total + value;
    at = skip(text, size, end);
  }
  return total;
}

void show(int n) {
  if (n >= 10)
    show(n / 10);
  putchar('0' + n % 10);
}

int main(void) {
  int byte = getchar();
  int total;
  while (byte != EOF && length < 80) {
    line[length] = byte;
    length = length + 1;
    byte = getchar();
  }
  int size = length;
  _Dynamic_check(size >= 0 && size <= 80);
  total = sum(line, size);
  show(total);
  putchar('\n');
  return 0;
}
