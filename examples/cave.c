/* A cave of 16 by 8. You are @: walk with w, a, s and d, a letter and a newline each; find the gold $ and come out
   at the door >. The walls are computed, so no array is needed. Ends with the number of steps. */
int x = 1;
int y = 1;
int has_gold;
int steps;

int is_wall(int column, int row) {
  if (column == 0 || row == 0 || column == 15 || row == 7)
    return !(column == 15 && row == 6);
  if (row == 2)
    return column != 13;
  if (row == 4)
    return column != 2;
  return column % 4 == 3 && row == 6 && column != 3 && column != 15;
}

int sight(int column, int row) {
  int wall;
  if (column == x && row == y)
    return '@';
  if (!has_gold && column == 13 && row == 5)
    return '$';
  if (column == 15 && row == 6)
    return '>';
  wall = is_wall(column, row);
  return wall ? '#' : '.';
}

void draw(void) {
  int row;
  for (row = 0; row < 8; row = row + 1) {
    for (int column = 0; column < 16; column = column + 1) {
      int c = sight(column, row);
      putchar(c);
    }
    putchar('\n');
  }
}

void walk(int right, int down) {
  int wall = is_wall(x + right, y + down);
  if (wall) {
    putchar('!');
    putchar('\n');
    return;
  }
  x = x + right;
  y = y + down;
  steps = steps + 1;
  if (x == 13 && y == 5)
    has_gold = 1;
}

int main(void) {
  int c = ' ';
  draw();
  while (c != EOF && !(x == 15 && has_gold)) {
    c = getchar();
    if (c == 'w')
      walk(0, -1);
    else if (c == 's')
      walk(0, 1);
    else if (c == 'a')
      walk(-1, 0);
    else if (c == 'd')
      walk(1, 0);
    if (c == '\n')
      draw();
  }
  putchar(has_gold ? '$' : '?');
  putchar('\n');
  return steps;
}
