/* Answers packets, each on a line: a digit that says how many bytes follow, and the bytes. The answer repeats so many
   bytes as the packet said. A packet that says more than it has would give away what lies after it in memory; here the
   check `bounds` stops it. Length and bytes are set in one bundle, so that they never disagree. */
#include <stdio.h>
#include <stdlib.h>
#include <stdchecked.h>

#pragma CHECKED_SCOPE on

struct packet {
  int said;
  int length;
  array_ptr<char> bytes : count(length);
};

char input checked[64];

/* reads a line; how many bytes it has, or -1 at the end of the input */
int read_line(void) {
  int byte = getchar();
  int length = 0;
  if (byte == EOF)
    return -1;
  while (byte != '\n' && byte != EOF) {
    input[length] = byte;
    length = length + 1;
    byte = getchar();
  }
  return length;
}

/* a packet of so many bytes of the input, or null */
ptr<struct packet> packet_of(int length) {
  int i;
  ptr<struct packet> packet = calloc<struct packet>(1, sizeof(struct packet));
  array_ptr<char> bytes : count(length) = calloc<char>(length, sizeof(char));
  if (!packet || !bytes)
    return NULL;
  for (i = 0; i < length; i = i + 1)
    bytes[i] = input[i + 1];
  _Bundled {
    packet->length = length;
    packet->bytes = bytes;
  }
  packet->said = input[0] - '0';
  return packet;
}

void answer(ptr<struct packet> packet) {
  int i;
  for (i = 0; i < packet->said; i = i + 1)
    putchar(packet->bytes[i]);
  putchar('\n');
}

int main(void) {
  int length = read_line();
  while (length >= 0) {
    ptr<struct packet> packet = packet_of(length - 1);
    if (packet)
      answer(packet);
    length = read_line();
  }
  return 0;
}
