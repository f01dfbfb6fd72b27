// A plain interpreter of images, the peer of `ckc_machine`: a switch over the fetched word, no cache of decoded
// instructions, every access checked. It reads an image, runs it without input and prints how many instructions it
// executed and in how many milliseconds.
#include <stdint.h>
#include <stdio.h>
#include <stdlib.h>
#include <string.h>
#include <time.h>

enum { CODE = 0x1000, REGION = 0x1000000 };
static const uint32_t DATA = 0x2000000, STACK = 0x3000000, END = 0x4000000;

static uint8_t *code, *data, *stack;
static uint32_t code_len;

static uint8_t *at(uint32_t a, uint32_t size) {
  if (a % size) return NULL;
  if (a >= DATA) {
    if (a >= END) return NULL;
    return a < STACK ? data + (a - DATA) : stack + (a - STACK);
  }
  return a - CODE < code_len && a >= CODE ? code + (a - CODE) : NULL;
}

static uint64_t run(uint32_t pc, uint64_t limit) {
  uint32_t x[32] = {0};
  for (uint64_t count = 0; count < limit; count++) {
    uint32_t w, next = pc + 4, value = 0;
    if (pc < CODE || pc - CODE + 3 >= code_len || pc % 4) return count;
    memcpy(&w, code + (pc - CODE), 4);
    uint32_t rd = w >> 7 & 31, f3 = w >> 12 & 7, f7 = w >> 25;
    uint32_t a = x[w >> 15 & 31], b = x[w >> 20 & 31];
    int32_t imm = (int32_t)w >> 20;
    switch (w & 127) {
    case 0x37: value = w & 0xFFFFF000; break;
    case 0x17: value = pc + (w & 0xFFFFF000); break;
    case 0x6F: {
      uint32_t off = (uint32_t)((int32_t)w >> 31) << 20 | (w & 0xFF000) | (w >> 20 & 1) << 11 | (w >> 21 & 0x3FF) << 1;
      value = next; next = pc + off;
      if (next % 4) return count;
      break;
    }
    case 0x67:
      if (f3) return count;
      value = next; next = (a + (uint32_t)imm) & ~1u;
      if (next % 4) return count;
      break;
    case 0x63: {
      int taken;
      switch (f3) {
      case 0: taken = a == b; break;
      case 1: taken = a != b; break;
      case 4: taken = (int32_t)a < (int32_t)b; break;
      case 5: taken = (int32_t)a >= (int32_t)b; break;
      case 6: taken = a < b; break;
      case 7: taken = a >= b; break;
      default: return count;
      }
      if (taken) {
        uint32_t off = (uint32_t)((int32_t)w >> 31) << 12 | (w >> 7 & 1) << 11 | (w >> 25 & 63) << 5 | (w >> 8 & 15) << 1;
        next = pc + off;
        if (next % 4) return count;
      }
      rd = 0;
      break;
    }
    case 0x03: {
      static const uint32_t sizes[8] = {1, 2, 4, 0, 1, 2, 0, 0};
      if (!sizes[f3]) return count;
      uint8_t *p = at(a + (uint32_t)imm, sizes[f3]);
      if (!p) return count;
      switch (f3) {
      case 0: value = (uint32_t)(int8_t)*p; break;
      case 1: { int16_t h; memcpy(&h, p, 2); value = (uint32_t)h; break; }
      case 2: memcpy(&value, p, 4); break;
      case 4: value = *p; break;
      case 5: { uint16_t h; memcpy(&h, p, 2); value = h; break; }
      }
      break;
    }
    case 0x23: {
      if (f3 > 2) return count;
      uint32_t address = a + (uint32_t)(((int32_t)w >> 25) * 32 + (int32_t)rd), size = 1u << f3;
      if (address < DATA) return count;
      uint8_t *p = at(address, size);
      if (!p) return count;
      memcpy(p, &b, size);
      rd = 0;
      break;
    }
    case 0x13:
      switch (f3) {
      case 0: value = a + (uint32_t)imm; break;
      case 1: if (f7) return count; value = a << (imm & 31); break;
      case 2: value = (int32_t)a < imm; break;
      case 3: value = a < (uint32_t)imm; break;
      case 4: value = a ^ (uint32_t)imm; break;
      case 5:
        if (f7 == 0) value = a >> (imm & 31);
        else if (f7 == 0x20) value = (uint32_t)((int32_t)a >> (imm & 31));
        else return count;
        break;
      case 6: value = a | (uint32_t)imm; break;
      case 7: value = a & (uint32_t)imm; break;
      }
      break;
    case 0x33:
      if (f7 == 0)
        switch (f3) {
        case 0: value = a + b; break;
        case 1: value = a << (b & 31); break;
        case 2: value = (int32_t)a < (int32_t)b; break;
        case 3: value = a < b; break;
        case 4: value = a ^ b; break;
        case 5: value = a >> (b & 31); break;
        case 6: value = a | b; break;
        case 7: value = a & b; break;
        }
      else if (f7 == 1)
        switch (f3) {
        case 0: value = a * b; break;
        case 1: value = (uint32_t)((int64_t)(int32_t)a * (int32_t)b >> 32); break;
        case 2: value = (uint32_t)((int64_t)(int32_t)a * (int64_t)b >> 32); break;
        case 3: value = (uint32_t)((uint64_t)a * b >> 32); break;
        case 4: value = !b ? UINT32_MAX : a == 0x80000000 && b == UINT32_MAX ? a : (uint32_t)((int32_t)a / (int32_t)b); break;
        case 5: value = !b ? UINT32_MAX : a / b; break;
        case 6: value = !b ? a : a == 0x80000000 && b == UINT32_MAX ? 0 : (uint32_t)((int32_t)a % (int32_t)b); break;
        case 7: value = !b ? a : a % b; break;
        }
      else if (f7 == 0x20 && f3 == 0) value = a - b;
      else if (f7 == 0x20 && f3 == 5) value = (uint32_t)((int32_t)a >> (b & 31));
      else return count;
      break;
    case 0x0F: if (w >> 28 || w >> 7 & 0x1FFF) return count; rd = 0; break;
    case 0x73: // the end alone
      return count + 1;
    default: return count;
    }
    if (rd) x[rd] = value;
    pc = next;
  }
  return limit;
}

static uint32_t word(const uint8_t *p) { uint32_t w; memcpy(&w, p, 4); return w; }

int main(int argc, char **argv) {
  static uint8_t file[0x100000];
  FILE *f = argc > 1 ? fopen(argv[1], "rb") : NULL;
  if (!f) return 1;
  size_t len = fread(file, 1, sizeof file, f);
  if (len < 116) return 1;
  code_len = word(file + 68);
  code = file + 116;
  data = calloc(REGION, 1);
  stack = calloc(REGION, 1);
  memcpy(data, code + code_len, word(file + 100));
  struct timespec from, to;
  clock_gettime(CLOCK_MONOTONIC, &from);
  uint64_t count = run(word(file + 24), 10000000000);
  clock_gettime(CLOCK_MONOTONIC, &to);
  printf("%llu instructions in %lld ms\n", (unsigned long long)count,
         (to.tv_sec - from.tv_sec) * 1000LL + (to.tv_nsec - from.tv_nsec) / 1000000);
  return 0;
}
