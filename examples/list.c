/* Counts the letters of its input, in order: a linked list whose nodes lie in a pool. Plain C. */
struct node {
  int letter;
  int times;
  struct node *next;
};

struct node pool[64];
int used;
struct node *first;

/* a fresh node, or null if the pool is used up */
struct node *take(int letter) {
  struct node *fresh;
  if (used == 64)
    return NULL;
  fresh = &pool[used];
  used = used + 1;
  fresh->letter = letter;
  fresh->times = 1;
  return fresh;
}

void count(int letter) {
  struct node *before = NULL;
  struct node *here = first;
  struct node *fresh;
  while (here && here->letter < letter) {
    before = here;
    here = here->next;
  }
  if (here && here->letter == letter) {
    here->times = here->times + 1;
    return;
  }
  fresh = take(letter);
  if (!fresh)
    return;
  fresh->next = here;
  if (before)
    before->next = fresh;
  else
    first = fresh;
}

void number(int n) {
  if (n >= 10)
    number(n / 10);
  putchar('0' + n % 10);
}

int main(void) {
  int c = getchar();
  struct node *here;
  while (c != EOF) {
    if (c > ' ')
      count(c);
    c = getchar();
  }
  here = first;
  while (here) {
    putchar(here->letter);
    putchar(' ');
    number(here->times);
    putchar('\n');
    here = here->next;
  }
  return 0;
}
