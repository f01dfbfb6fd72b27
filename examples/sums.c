/* Answers each line of the input, two digits that say how many bytes follow and these bytes, with a digit of the sum of
   the bytes, in plain C. `sum_of` is a function of a library, and `answer` its caller, which trusts the two digits. */
char line[64];

/* the last digit of the sum of so many bytes */
int sum_of(char *bytes, int size) {
  int sum = 0;
  for (int i = 0; i < size; i++) sum += bytes[i];
  return sum % 10;
}

/* the answer to the line */
void answer(void) {
  int size = (line[0] - '0') * 10 + line[1] - '0';
  putchar('0' + sum_of(line + 2, size));
}

int main(void) {
  int used = 0;
  int byte;
  while ((byte = getchar()) != EOF) {
    if (byte == '\n') {
      if (used >= 2) answer();
      used = 0;
    } else if (used < 64) {
      line[used] = byte;
      used++;
    }
  }
  putchar('\n');
  return 0;
}
