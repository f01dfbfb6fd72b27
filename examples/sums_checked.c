/* sums.c converted: `answer` tests the two digits, and a line that has fewer bytes than it says stops at `cast`. `sum_of`
   is as it was in sums_half.c, so that plain callers elsewhere may stay. */
#pragma CHECKED_SCOPE on
char line _Checked[64];

/* the last digit of the sum of so many bytes */
int sum_of(char *bytes : count(size), int size) {
  int sum = 0;
  for (int i = 0; i < size; i++) sum += bytes[i];
  return sum % 10;
}

/* the answer to the line */
void answer(void) {
  int size = (line[0] - '0') * 10 + line[1] - '0';
  _Array_ptr<char> bytes : count(size) = _Dynamic_bounds_cast<_Array_ptr<char>>(line + 2, count(size));
  putchar('0' + sum_of(bytes, size));
}

int main(void) {
  int used = 0;
  int byte;
  while ((byte = getchar()) != EOF) {
    if (byte == '\n') {
      if (used >= 2) answer();
      used = 0;
    } else if (used < 64) {
      line[used] = byte;
      used++;
    }
  }
  putchar('\n');
  return 0;
}
