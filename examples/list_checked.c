/* list.c converted: every pointer is a `_Ptr`, and all but `take` stands in a checked scope. `take` uses the plain
   array, so it is unchecked. */
struct node {
  int letter;
  int times;
  _Ptr<struct node> next;
};

struct node pool[64];
int used;
_Ptr<struct node> first;

/* a fresh node, or null if the pool is used up */
_Ptr<struct node> take(int letter) {
  if (used == 64)
    return NULL;
  _Ptr<struct node> fresh = _Assume_bounds_cast<_Ptr<struct node>>(&pool[used]);
  used = used + 1;
  fresh->letter = letter;
  fresh->times = 1;
  return fresh;
}

#pragma CHECKED_SCOPE on

void count(int letter) {
  _Ptr<struct node> before = NULL;
  _Ptr<struct node> here = first;
  while (here && here->letter < letter) {
    before = here;
    here = here->next;
  }
  if (here && here->letter == letter) {
    here->times = here->times + 1;
    return;
  }
  _Ptr<struct node> fresh = take(letter);
  if (!fresh)
    return;
  fresh->next = here;
  if (before)
    before->next = fresh;
  else
    first = fresh;
}

void number(int n) {
  if (n >= 10)
    number(n / 10);
  putchar('0' + n % 10);
}

int main(void) {
  int c = getchar();
  while (c != EOF) {
    if (c > ' ')
      count(c);
    c = getchar();
  }
  _Ptr<struct node> here = first;
  while (here) {
    putchar(here->letter);
    putchar(' ');
    number(here->times);
    putchar('\n');
    here = here->next;
  }
  return 0;
}
