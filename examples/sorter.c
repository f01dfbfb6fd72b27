/* Reads eight numbers and writes them in order. There are no arrays: a call has the numbers as its parameters, and
   if two neighbours are out of order it calls itself with these exchanged. */
int read(void) {
  int value = 0;
  int c = getchar();
  while (c == ' ' || c == '\n')
    c = getchar();
  while (c >= '0' && c <= '9') {
    value = value * 10 + (c - '0');
    c = getchar();
  }
  return value;
}

void number(int n) {
  if (n >= 10)
    number(n / 10);
  putchar('0' + n % 10);
}

void line(int n) {
  number(n);
  putchar('\n');
}

void sort(int a, int b, int c, int d, int e, int f, int g, int h) {
  if (a > b)
    sort(b, a, c, d, e, f, g, h);
  else if (b > c)
    sort(a, c, b, d, e, f, g, h);
  else if (c > d)
    sort(a, b, d, c, e, f, g, h);
  else if (d > e)
    sort(a, b, c, e, d, f, g, h);
  else if (e > f)
    sort(a, b, c, d, f, e, g, h);
  else if (f > g)
    sort(a, b, c, d, e, g, f, h);
  else if (g > h)
    sort(a, b, c, d, e, f, h, g);
  else {
    line(a);
    line(b);
    line(c);
    line(d);
    line(e);
    line(f);
    line(g);
    line(h);
  }
}

int main(void) {
  int a = read();
  int b = read();
  int c = read();
  int d = read();
  int e = read();
  int f = read();
  int g = read();
  int h = read();
  sort(a, b, c, d, e, f, g, h);
  return 0;
}
