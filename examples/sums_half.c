/* sums.c half converted: `sum_of` is checked, and its head alone is new. `answer` passes a plain pointer as before, and is
   to blame if that has fewer bytes than it says. */
char line[64];

/* the last digit of the sum of so many bytes */
_Checked int sum_of(char *bytes : count(size), int size) {
  int sum = 0;
  for (int i = 0; i < size; i++) sum += bytes[i];
  return sum % 10;
}

/* the answer to the line */
void answer(void) {
  int size = (line[0] - '0') * 10 + line[1] - '0';
  putchar('0' + sum_of(line + 2, size));
}

int main(void) {
  int used = 0;
  int byte;
  while ((byte = getchar()) != EOF) {
    if (byte == '\n') {
      if (used >= 2) answer();
      used = 0;
    } else if (used < 64) {
      line[used] = byte;
      used++;
    }
  }
  putchar('\n');
  return 0;
}
