/* table.c converted: every pointer is a `_Ptr`. What uses the plain arrays is unchecked: the letters, the pool and the
   buckets. All else is checked. */
struct entry {
  int begin;
  int length;
  int times;
  _Ptr<struct entry> next;
};

char letters[4096];
struct entry pool[256];
_Ptr<struct entry> bucket[32];
int written;
int used;

/* a letter of an entry, or of the word that stands after the letters */
int letter(int at) {
  return letters[at];
}

void keep(int at, int letter) {
  letters[at] = letter;
}

_Ptr<struct entry> chain(int hash) {
  return bucket[hash];
}

void begin_chain(int hash, _Ptr<struct entry> entry) {
  bucket[hash] = entry;
}

/* a fresh entry, or null if the pool is used up */
_Ptr<struct entry> take(void) {
  if (used == 256)
    return NULL;
  used = used + 1;
  return _Assume_bounds_cast<_Ptr<struct entry>>(&pool[used - 1]);
}

#pragma CHECKED_SCOPE on

/* whether the entry is the word that stands after the letters */
int same(_Ptr<struct entry> here, int length) {
  int i;
  if (here->length != length)
    return 0;
  for (i = 0; i < length; i = i + 1) {
    int one = letter(here->begin + i);
    int other = letter(written + i);
    if (one != other)
      return 0;
  }
  return 1;
}

/* counts the word that stands after the letters */
void count(int length, int hash) {
  _Ptr<struct entry> front = chain(hash);
  _Ptr<struct entry> here = front;
  int found = 0;
  while (here) {
    found = same(here, length);
    if (found) {
      here->times = here->times + 1;
      return;
    }
    here = here->next;
  }
  here = take();
  if (!here)
    return;
  here->begin = written;
  here->length = length;
  here->times = 1;
  here->next = front;
  begin_chain(hash, here);
  written = written + length;
}

void number(int n) {
  if (n >= 10)
    number(n / 10);
  putchar('0' + n % 10);
}

void show(_Ptr<struct entry> here) {
  int i;
  for (i = 0; i < here->length; i = i + 1) {
    int c = letter(here->begin + i);
    putchar(c);
  }
  putchar(' ');
  number(here->times);
  putchar('\n');
}

int main(void) {
  int c = getchar();
  int length = 0;
  int hash = 0;
  int i;
  while (c != EOF) {
    if (c > ' ') {
      if (written + length < 4096) {
        keep(written + length, c);
        length = length + 1;
        hash = (hash * 31 + c) & 31;
      }
    } else {
      if (length > 0)
        count(length, hash);
      length = 0;
      hash = 0;
    }
    c = getchar();
  }
  if (length > 0)
    count(length, hash);
  for (i = 0; i < 32; i = i + 1) {
    _Ptr<struct entry> here = chain(i);
    while (here) {
      show(here);
      here = here->next;
    }
  }
  return 0;
}
