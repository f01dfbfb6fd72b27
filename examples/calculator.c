/* A calculator: reads a line such as 2*(3+4)-10/3 and writes its value. Division by zero stops at the check `divide`,
   and a line that is no expression at the dynamic check in its place. */
int next;

void advance(void) {
  next = getchar();
  while (next == ' ')
    next = getchar();
}

int number(void) {
  int value = 0;
  _Dynamic_check(next >= '0' && next <= '9');
  while (next >= '0' && next <= '9') {
    value = value * 10 + (next - '0');
    advance();
  }
  return value;
}

int sum(void);

int factor(void) {
  int value;
  if (next == '-') {
    advance();
    value = factor();
    return -value;
  }
  if (next != '(') {
    value = number();
    return value;
  }
  advance();
  value = sum();
  _Dynamic_check(next == ')');
  advance();
  return value;
}

int product(void) {
  int value = factor();
  while (next == '*' || next == '/') {
    int divides = next == '/';
    advance();
    int right = factor();
    value = divides ? value / right : value * right;
  }
  return value;
}

int sum(void) {
  int value = product();
  while (next == '+' || next == '-') {
    int sign = next == '-' ? -1 : 1;
    advance();
    int right = product();
    value = value + sign * right;
  }
  return value;
}

void digits(unsigned n) {
  if (n >= 10u)
    digits(n / 10u);
  putchar('0' + n % 10u);
}

int main(void) {
  int value;
  advance();
  value = sum();
  _Dynamic_check(next == '\n' || next == EOF);
  if (value < 0)
    putchar('-');
  digits(value < 0 ? 0u - (unsigned)value : (unsigned)value);
  putchar('\n');
  return 0;
}
