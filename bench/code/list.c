struct node { int value; struct node *next; };
struct node nodes[400];
struct node *first;
void insert(int k, int value) {
  struct node *made = &nodes[k];
  struct node *at = first;
  made->value = value;
  if (!first || value <= first->value) { made->next = first; first = made; }
  else {
    while (at->next && at->next->value < value) at = at->next;
    made->next = at->next;
    at->next = made;
  }
}
int main(void) {
  int i; int r = 0; unsigned s = 1; struct node *at;
  for (i = 0; i < 400; i = i + 1) { s = s * 1103515245 + 12345; insert(i, (s >> 8) & 65535); }
  for (at = first; at; at = at->next) r = r * 3 + at->value;
  return r & 127;
}
