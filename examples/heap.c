/* Sorts numbers by heap sort, wholly checked. The first number of the input says how many come. If more come, the one
   too many is not written: the check `bounds` stops the program. */
#include <stdio.h>
#include <stdlib.h>
#include <stdchecked.h>

#pragma CHECKED_SCOPE on

/* moves the number at the root of a heap down to its place */
void sift(array_ptr<int> heap : count(size), int size, int root, int used) {
  int child = 2 * root + 1;
  while (child < used) {
    int moved = heap[root];
    if (child + 1 < used && heap[child] < heap[child + 1])
      child = child + 1;
    if (moved >= heap[child])
      return;
    heap[root] = heap[child];
    heap[child] = moved;
    root = child;
    child = 2 * root + 1;
  }
}

void sort(array_ptr<int> list : count(size), int size) {
  int i;
  for (i = size / 2; i > 0; i = i - 1)
    sift(list, size, i - 1, size);
  for (i = size; i > 1; i = i - 1) {
    int most = list[0];
    list[0] = list[i - 1];
    list[i - 1] = most;
    sift(list, size, 0, i - 1);
  }
}

/* the next number of the input, or -1 if none comes */
int number(void) {
  int byte = getchar();
  int value = 0;
  while (byte != EOF && (byte < '0' || byte > '9'))
    byte = getchar();
  if (byte == EOF)
    return -1;
  while (byte >= '0' && byte <= '9') {
    value = value * 10 + (byte - '0');
    byte = getchar();
  }
  return value;
}

void show(int n) {
  if (n >= 10)
    show(n / 10);
  putchar('0' + n % 10);
}

int main(void) {
  int size = number();
  array_ptr<int> list : count(size) = calloc<int>(size, sizeof(int));
  int used = 0;
  int i;
  int value = number();
  while (value >= 0) {
    list[used] = value;
    used = used + 1;
    value = number();
  }
  sort(list, size);
  for (i = 0; i < size; i = i + 1) {
    show(list[i]);
    putchar(i + 1 < size ? ' ' : '\n');
  }
  return 0;
}
