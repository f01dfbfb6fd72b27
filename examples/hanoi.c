/* Towers of Hanoi: reads the number of disks, a digit, and writes each move, as 1>3. Ends with the number of moves. */
int moves;

void number(int n) {
  if (n >= 10)
    number(n / 10);
  putchar('0' + n % 10);
}

void move(int disks, int from, int to) {
  if (disks == 0)
    return;
  move(disks - 1, from, 6 - from - to);
  putchar('0' + from);
  putchar('>');
  putchar('0' + to);
  putchar('\n');
  moves = moves + 1;
  move(disks - 1, 6 - from - to, to);
}

int main(void) {
  int digit = getchar();
  _Dynamic_check(digit >= '0' && digit <= '9');
  move(digit - '0', 1, 3);
  number(moves);
  putchar('\n');
  return moves;
}
