/* table.c half converted: what works on one entry has a `_Ptr`, and the chains and the pool are as they were. */
struct entry {
  int begin;
  int length;
  int times;
  struct entry *next;
};

char letters[4096];
struct entry pool[256];
struct entry *bucket[32];
int written;
int used;

/* whether the entry is the word that stands after the letters */
int same(_Ptr<struct entry> here, int length) {
  int i;
  if (here->length != length)
    return 0;
  for (i = 0; i < length; i = i + 1)
    if (letters[here->begin + i] != letters[written + i])
      return 0;
  return 1;
}

/* counts the word that stands after the letters */
void count(int length, int hash) {
  struct entry *here = bucket[hash];
  int found = 0;
  while (here) {
    found = same(_Assume_bounds_cast<_Ptr<struct entry>>(here), length);
    if (found) {
      here->times = here->times + 1;
      return;
    }
    here = here->next;
  }
  if (used == 256)
    return;
  here = &pool[used];
  used = used + 1;
  here->begin = written;
  here->length = length;
  here->times = 1;
  here->next = bucket[hash];
  bucket[hash] = here;
  written = written + length;
}

void number(int n) {
  if (n >= 10)
    number(n / 10);
  putchar('0' + n % 10);
}

void show(_Ptr<struct entry> here) {
  int i;
  for (i = 0; i < here->length; i = i + 1)
    putchar(letters[here->begin + i]);
  putchar(' ');
  number(here->times);
  putchar('\n');
}

int main(void) {
  int c = getchar();
  int length = 0;
  int hash = 0;
  int i;
  struct entry *here;
  while (c != EOF) {
    if (c > ' ') {
      if (written + length < 4096) {
        letters[written + length] = c;
        length = length + 1;
        hash = (hash * 31 + c) & 31;
      }
    } else {
      if (length > 0)
        count(length, hash);
      length = 0;
      hash = 0;
    }
    c = getchar();
  }
  if (length > 0)
    count(length, hash);
  for (i = 0; i < 32; i = i + 1) {
    here = bucket[i];
    while (here) {
      show(_Assume_bounds_cast<_Ptr<struct entry>>(here));
      here = here->next;
    }
  }
  return 0;
}
