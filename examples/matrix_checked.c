/* matrix.c converted: every pointer is a `_Ptr` to one number. `at` alone knows the plain arrays, and tells a number of a
   matrix by its place or gives null; a null pointer that is followed stops the program. */
int base[9] = { 1, 2, 0, 0, 1, 1, 2, 0, 1 };
int power[9] = { 1, 0, 0, 0, 1, 0, 0, 0, 1 };
int product[9];

/* matrices 0, 1 and 2 are base, power and product */
_Ptr<int> at(int matrix, int row, int column) {
  if (row < 0 || row > 2 || column < 0 || column > 2)
    return NULL;
  if (matrix == 0)
    return _Assume_bounds_cast<_Ptr<int>>(&base[3 * row + column]);
  if (matrix == 1)
    return _Assume_bounds_cast<_Ptr<int>>(&power[3 * row + column]);
  return _Assume_bounds_cast<_Ptr<int>>(&product[3 * row + column]);
}

#pragma CHECKED_SCOPE on

/* product = power * base */
void multiply(void) {
  int row;
  int column;
  int k;
  for (row = 0; row < 3; row = row + 1)
    for (column = 0; column < 3; column = column + 1) {
      _Ptr<int> to = at(2, row, column);
      *to = 0;
      for (k = 0; k < 3; k = k + 1) {
        _Ptr<int> left = at(1, row, k);
        _Ptr<int> right = at(0, k, column);
        *to = *to + *left * *right;
      }
    }
}

/* power = product */
void copy(void) {
  int row;
  int column;
  for (row = 0; row < 3; row = row + 1)
    for (column = 0; column < 3; column = column + 1) {
      _Ptr<int> to = at(1, row, column);
      _Ptr<int> from = at(2, row, column);
      *to = *from;
    }
}

void trace(_Ptr<int> to) {
  int i;
  *to = 0;
  for (i = 0; i < 3; i = i + 1) {
    _Ptr<int> here = at(1, i, i);
    *to = *to + *here;
  }
}

void number(int n) {
  if (n >= 10)
    number(n / 10);
  putchar('0' + n % 10);
}

void show(void) {
  int row;
  int column;
  for (row = 0; row < 3; row = row + 1)
    for (column = 0; column < 3; column = column + 1) {
      _Ptr<int> here = at(1, row, column);
      number(*here);
      putchar(column == 2 ? '\n' : ' ');
    }
}

int sum;

#pragma CHECKED_SCOPE off

int main(void) {
  int n;
  for (n = 0; n < 4; n = n + 1) {
    multiply();
    copy();
  }
  show();
  trace(&sum);
  number(sum);
  putchar('\n');
  return 0;
}
