/* editor.c half converted: the list of lines has checked pointers, and so has the buffer. The texts of the lines are plain
   pointers still, so `c 1 49 T` hits line 2 here too. */
#include <stdlib.h>
#include <stdchecked.h>

struct line {
  int size;
  char *text;
  ptr<struct line> next;
};

ptr<struct line> first;
char input nt_checked[64];
int used;

/* reads a line into the buffer; whether there was one */
checked int read_line(void) {
  int byte = getchar();
  used = 0;
  if (byte == EOF)
    return 0;
  while (byte != '\n' && byte != EOF) {
    input[used] = byte;
    used = used + 1;
    byte = getchar();
  }
  input[used] = 0;
  return 1;
}

/* a line with the bytes of the buffer from a place on, or null if memory is out */
ptr<struct line> line_of(int from) {
  int i;
  int size = used > from ? used - from : 0;
  ptr<struct line> line = calloc<struct line>(1, sizeof(struct line));
  char *text = calloc<char>(size + 1, sizeof(char));
  if (!line || !text)
    return NULL;
  for (i = 0; i < size; i = i + 1)
    text[i] = input[from + i];
  line->size = size;
  line->text = text;
  return line;
}

/* line n, counted from 1, or null */
checked ptr<struct line> find(int n) {
  ptr<struct line> here = first;
  while (here && n > 1) {
    here = here->next;
    n = n - 1;
  }
  return here;
}

checked void add(ptr<struct line> line) {
  ptr<struct line> here = first;
  if (!here) {
    first = line;
    return;
  }
  while (here->next)
    here = here->next;
  here->next = line;
}

checked void delete(int n) {
  ptr<struct line> before = find(n - 1);
  if (n <= 1) {
    if (first)
      first = first->next;
    return;
  }
  if (before && before->next)
    before->next = before->next->next;
}

void change(ptr<struct line> line, int at, int byte) {
  line->text[at - 1] = byte;
}

void show(char *text) {
  int n = 0;
  while (text[n]) {
    putchar(text[n]);
    n = n + 1;
  }
  putchar('\n');
}

/* the digit at a place of the buffer, with the one after it if there are two */
checked int number(int at) {
  int tens = input[at] - '0';
  if (input[at + 1] < '0')
    return tens;
  return 10 * tens + input[at + 1] - '0';
}

int main(void) {
  int more = read_line();
  while (more) {
    int n = number(2);
    ptr<struct line> here = NULL;
    if (input[0] == 'a') {
      here = line_of(2);
      add(here);
    }
    if (input[0] == 'd')
      delete(n);
    if (input[0] == 'c') {
      here = find(n);
      n = number(4);
      change(here, n, input[n < 10 ? 6 : 7]);
    }
    if (input[0] == 'p') {
      here = first;
      while (here) {
        show(here->text);
        here = here->next;
      }
    }
    more = read_line();
  }
  return 0;
}
