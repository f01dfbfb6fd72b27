/* A ring buffer with room for eight bytes. Its structure says how long the buffer is, and every access is judged by
   that. `+x` puts the byte x, which takes the place of the oldest one if the buffer is full. `-` takes the oldest byte
   and prints it. `?d` prints the byte in cell d: nothing but the check of its bounds keeps d below eight. */
#include <stdio.h>
#include <stdlib.h>
#include <stdchecked.h>

#pragma CHECKED_SCOPE on

struct ring {
  array_ptr<char> cells : count(size);
  int size;
  int first;
  int used;
};

struct ring bytes;

void make(ptr<struct ring> ring, int size) {
  array_ptr<char> cells : count(size) = calloc<char>(size, sizeof(char));
  _Bundled {
    ring->size = size;
    ring->cells = cells;
  }
}

void put(ptr<struct ring> ring, int byte) {
  ring->cells[(ring->first + ring->used) % ring->size] = byte;
  if (ring->used < ring->size)
    ring->used = ring->used + 1;
  else
    ring->first = (ring->first + 1) % ring->size;
}

/* the oldest byte, or -1 if there is none */
int take(ptr<struct ring> ring) {
  int byte;
  if (ring->used == 0)
    return -1;
  byte = ring->cells[ring->first];
  ring->first = (ring->first + 1) % ring->size;
  ring->used = ring->used - 1;
  return byte;
}

int cell(ptr<struct ring> ring, int at) {
  return ring->cells[at];
}

void show(int byte) {
  if (byte < ' ')
    putchar('.');
  else
    putchar(byte);
  putchar('\n');
}

int main(void) {
  int command = getchar();
  int byte;
  make(&bytes, 8);
  while (command != EOF) {
    if (command == '+') {
      byte = getchar();
      put(&bytes, byte);
    }
    if (command == '-') {
      byte = take(&bytes);
      show(byte);
    }
    if (command == '?') {
      byte = getchar();
      byte = cell(&bytes, byte - '0');
      show(byte);
    }
    command = getchar();
  }
  return 0;
}
