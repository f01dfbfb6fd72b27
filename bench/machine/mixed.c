// Lists, matrices, a state machine and a check sum, as in CoreMark; mixed.s is this text by
// `riscv64-unknown-elf-gcc -O2 -march=rv32im -mabi=ilp32 -ffreestanding -nostdlib -Ttext=0x1000 -Tdata=0x2000000`,
// disassembled.
typedef unsigned short u16;
typedef unsigned int u32;
struct node { struct node *next; short value, index; };
static struct node nodes[64];
static short left[16][16], right[16][16];
static int product[16][16];
static const char text[] = "5012,-334,+56.7e3,0.25,x12,1e-4,77,,-,9.9.9,";

static u16 crc(u32 value, u16 sum) {
  for (int i = 0; i < 16; i++) {
    u32 bit = (sum ^ value) & 1;
    sum >>= 1;
    if (bit) sum ^= 0xA001;
    value >>= 1;
  }
  return sum;
}

static struct node *build(u32 seed) {
  for (int i = 0; i < 64; i++) {
    nodes[i].next = i < 63 ? &nodes[i + 1] : 0;
    nodes[i].value = (short)((seed ^ (u32)i * 37) & 0x7FFF);
    nodes[i].index = (short)i;
  }
  return nodes;
}

static struct node *merge(struct node *a, struct node *b) {
  struct node head, *last = &head;
  while (a && b) {
    if (a->value <= b->value) { last->next = a; a = a->next; } else { last->next = b; b = b->next; }
    last = last->next;
  }
  last->next = a ? a : b;
  return head.next;
}

static struct node *sort(struct node *list) {
  if (!list || !list->next) return list;
  struct node *slow = list, *fast = list->next;
  while (fast && fast->next) { slow = slow->next; fast = fast->next->next; }
  fast = slow->next;
  slow->next = 0;
  return merge(sort(list), sort(fast));
}

static u16 matrices(short seed, u16 sum) {
  for (int i = 0; i < 16; i++)
    for (int j = 0; j < 16; j++) { left[i][j] = (short)(seed + i * j); right[i][j] = (short)(seed ^ (i + j)); }
  for (int i = 0; i < 16; i++)
    for (int j = 0; j < 16; j++) {
      int total = 0;
      for (int k = 0; k < 16; k++) total += left[i][k] * right[k][j];
      product[i][j] = total;
    }
  for (int i = 0; i < 16; i++) sum = crc((u32)product[i][15 - i] / (u32)(i + 3), sum);
  return sum;
}

static u16 states(u16 sum) {
  int state = 0, counts[6] = {0};
  for (const char *p = text; *p; p++) {
    char c = *p;
    int digit = c >= '0' && c <= '9';
    if (c == ',') { counts[state]++; state = 0; continue; }
    switch (state) {
    case 0: state = digit ? 1 : c == '+' || c == '-' ? 2 : c == '.' ? 3 : 5; break;
    case 1: case 2: state = digit ? 1 : c == '.' ? 3 : c == 'e' ? 4 : 5; break;
    case 3: state = digit ? 3 : c == 'e' ? 4 : 5; break;
    case 4: state = digit || c == '-' ? 4 : 5; break;
    }
  }
  for (int i = 0; i < 6; i++) sum = crc((u32)counts[i], sum);
  return sum;
}

__asm__(".globl _start\n_start: lui sp, 0x4000\n jal run\n li a7, 0\n ecall\n");

u32 run(void) {
  u16 sum = 0;
  for (u32 turn = 0; turn < 1200; turn++) {
    for (struct node *n = sort(build(turn * 2654435761u)); n; n = n->next) sum = crc((u32)n->value, sum);
    sum = matrices((short)turn, sum);
    sum = states(sum);
  }
  return sum;
}
