// Prints 7,700 names: at random; of one hash in the tables of ckc_resolve; of one group in those of ckc_asm. The hash
// is the one of the toolchain's maps: it multiplies to 128 bits and joins the halves.
#include <stdint.h>
#include <stdio.h>
#include <string.h>

enum { COUNT = 7700 };
static const uint64_t MULTIPLIER = 0x9e3779b97f4a7c15, START = 0x243f6a8885a308d3;
static const char LETTERS[] = "abcdefghijklmnopqrstuvwxyzABCDEFGHIJKLMNOPQRSTUVWXYZ_0123456789";

static uint64_t fold(uint64_t a, uint64_t b) {
  unsigned __int128 p = (unsigned __int128)a * b;
  return (uint64_t)p ^ (uint64_t)(p >> 64);
}

static uint64_t chance(void) {
  static uint64_t s = 88172645463325252;
  s ^= s << 13; s ^= s >> 7; s ^= s << 17;
  return s;
}

static void put_random(char *name, int len) {
  for (int i = 0; i < len; i++) name[i] = LETTERS[chance() % (i ? 63 : 53)];
}

// The hash of a name of 8 bytes as a slice: its length, then each byte.
static uint32_t slice_hash(const char *name) {
  uint64_t state = fold(START ^ 8, MULTIPLIER ^ 16);
  for (int i = 0; i < 8; i++) state = fold(state ^ (uint8_t)name[i] * 0x10101ull, MULTIPLIER ^ 2);
  return (uint32_t)(state ^ state >> 32);
}

// A name whose third word is the state after the first two: the next product is 0, whatever the fourth word is.
static void put_front(char *name) {
  for (;;) {
    uint64_t x, y, state;
    int letters = 1;
    put_random(name, 16);
    memcpy(&x, name, 8); memcpy(&y, name + 8, 8);
    state = fold(x ^ (START + 32), y ^ MULTIPLIER);
    memcpy(name + 16, &state, 8);
    for (int i = 16; i < 24; i++) letters &= name[i] && strchr(LETTERS, name[i]);
    if (letters) return;
  }
}

int main(int argc, char **argv) {
  char name[33] = {0};
  if (argc < 2) return 1;
  if (!strcmp(argv[1], "text")) put_front(name);
  for (int k = 0; k < COUNT; k++) {
    if (!strcmp(argv[1], "text"))
      for (int i = 24, n = k; i < 32; i++, n /= 63) name[i] = LETTERS[n % 63];
    else if (!strcmp(argv[1], "bytes"))
      do put_random(name, 8); while ((slice_hash(name) & 0x3FFF) != 0x155);
    else
      put_random(name, 32);
    puts(name);
  }
  return 0;
}
