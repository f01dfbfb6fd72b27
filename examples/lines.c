int main(void) {
  putchar(111);
  putchar(107);
  putchar(10);
  return 7;
}
