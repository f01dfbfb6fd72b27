/* Prints the first powers of a matrix of three rows, and the sum of its diagonal. Plain C. */
int base[9] = { 1, 2, 0, 0, 1, 1, 2, 0, 1 };
int power[9] = { 1, 0, 0, 0, 1, 0, 0, 0, 1 };
int product[9];

/* to = left * right */
void multiply(int *to, int *left, int *right) {
  int row;
  int column;
  int k;
  int sum;
  for (row = 0; row < 3; row = row + 1)
    for (column = 0; column < 3; column = column + 1) {
      sum = 0;
      for (k = 0; k < 3; k = k + 1)
        sum = sum + left[3 * row + k] * right[3 * k + column];
      to[3 * row + column] = sum;
    }
}

void copy(int *to, int *from) {
  int i;
  for (i = 0; i < 9; i = i + 1)
    to[i] = from[i];
}

void trace(int *of, int *to) {
  *to = of[0] + of[4] + of[8];
}

void number(int n) {
  if (n >= 10)
    number(n / 10);
  putchar('0' + n % 10);
}

void show(int *of) {
  int i;
  for (i = 0; i < 9; i = i + 1) {
    number(of[i]);
    putchar(i % 3 == 2 ? '\n' : ' ');
  }
}

int sum;

int main(void) {
  int n;
  for (n = 0; n < 4; n = n + 1) {
    multiply(product, power, base);
    copy(power, product);
  }
  show(power);
  trace(power, &sum);
  number(sum);
  putchar('\n');
  return 0;
}
