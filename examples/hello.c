int main(void) { putchar(72); return 0; }
