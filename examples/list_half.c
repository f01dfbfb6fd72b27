/* list.c half converted: the list itself is of `_Ptr`, and `take`, which hands out the nodes, is as it was. At the
   border a cast says that the plain pointer points to a node; nothing checks that. */
struct node {
  int letter;
  int times;
  _Ptr<struct node> next;
};

struct node pool[64];
int used;
_Ptr<struct node> first;

/* a fresh node, or null if the pool is used up */
struct node *take(int letter) {
  struct node *fresh;
  if (used == 64)
    return NULL;
  fresh = &pool[used];
  used = used + 1;
  fresh->letter = letter;
  fresh->times = 1;
  return fresh;
}

void count(int letter) {
  _Ptr<struct node> before = NULL;
  _Ptr<struct node> here = first;
  struct node *taken;
  while (here && here->letter < letter) {
    before = here;
    here = here->next;
  }
  if (here && here->letter == letter) {
    here->times = here->times + 1;
    return;
  }
  taken = take(letter);
  if (!taken)
    return;
  _Ptr<struct node> fresh = _Assume_bounds_cast<_Ptr<struct node>>(taken);
  fresh->next = here;
  if (before)
    before->next = fresh;
  else
    first = fresh;
}

void number(int n) {
  if (n >= 10)
    number(n / 10);
  putchar('0' + n % 10);
}

int main(void) {
  int c = getchar();
  while (c != EOF) {
    if (c > ' ')
      count(c);
    c = getchar();
  }
  _Ptr<struct node> here = first;
  while (here) {
    putchar(here->letter);
    putchar(' ');
    number(here->times);
    putchar('\n');
    here = here->next;
  }
  return 0;
}
