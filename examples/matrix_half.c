/* matrix.c half converted: what has one number to write has a `_Ptr` to it, and the matrices are as they were. */
int base[9] = { 1, 2, 0, 0, 1, 1, 2, 0, 1 };
int power[9] = { 1, 0, 0, 0, 1, 0, 0, 0, 1 };
int product[9];

/* adds the product of two numbers to a third one */
_Checked void add_product(_Ptr<int> to, int left, int right) {
  *to = *to + left * right;
}

/* to = left * right */
void multiply(int *to, int *left, int *right) {
  int row;
  int column;
  int k;
  for (row = 0; row < 3; row = row + 1)
    for (column = 0; column < 3; column = column + 1) {
      _Ptr<int> cell = _Assume_bounds_cast<_Ptr<int>>(&to[3 * row + column]);
      *cell = 0;
      for (k = 0; k < 3; k = k + 1)
        add_product(cell, left[3 * row + k], right[3 * k + column]);
    }
}

void copy(int *to, int *from) {
  int i;
  for (i = 0; i < 9; i = i + 1)
    to[i] = from[i];
}

void trace(int *of, _Ptr<int> to) {
  *to = of[0] + of[4] + of[8];
}

void number(int n) {
  if (n >= 10)
    number(n / 10);
  putchar('0' + n % 10);
}

void show(int *of) {
  int i;
  for (i = 0; i < 9; i = i + 1) {
    number(of[i]);
    putchar(i % 3 == 2 ? '\n' : ' ');
  }
}

int sum;

int main(void) {
  int n;
  for (n = 0; n < 4; n = n + 1) {
    multiply(product, power, base);
    copy(power, product);
  }
  show(power);
  trace(power, &sum);
  number(sum);
  putchar('\n');
  return 0;
}
