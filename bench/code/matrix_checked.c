#pragma CHECKED_SCOPE on
int a _Checked[400]; int b _Checked[400]; int c _Checked[400];
int multiply(_Array_ptr<int> x : count(m), _Array_ptr<int> y : count(m), _Array_ptr<int> z : count(m), int m, int n) {
  int i; int j; int k; int s;
  for (i = 0; i < n; i = i + 1)
    for (j = 0; j < n; j = j + 1) {
      s = 0;
      for (k = 0; k < n; k = k + 1) s = s + x[i * n + k] * y[k * n + j];
      z[i * n + j] = s;
    }
  return z[m - 1];
}
int main(void) {
  int i; int r = 0;
  for (i = 0; i < 400; i = i + 1) { a[i] = i % 7; b[i] = i % 5; }
  for (i = 0; i < 10; i = i + 1) r = multiply(a, b, c, 400, 20);
  return r % 251;
}
