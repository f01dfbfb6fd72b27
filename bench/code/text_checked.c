#pragma CHECKED_SCOPE on
char line _Nt_checked[128];
int length(_Nt_array_ptr<char> text) {
  int n = 0;
  _Nt_array_ptr<char> bytes : count(n) = text;
  while (bytes[n]) n = n + 1;
  return n;
}
int count(_Nt_array_ptr<char> text, int byte) {
  int n = 0; int r = 0;
  _Nt_array_ptr<char> bytes : count(n) = text;
  while (bytes[n]) { if (bytes[n] == byte) r = r + 1; n = n + 1; }
  return r;
}
int main(void) {
  int i; int r = 0; int k;
  for (i = 0; i < 120; i = i + 1) line[i] = 'a' + i % 26;
  for (i = 0; i < 200; i = i + 1) { k = length(line); r = r + k; k = count(line, 'e'); r = r + k; }
  return r % 251;
}
