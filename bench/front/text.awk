# Writes a source file of one kind, within the limits on trees, whose length `front.sh` fills up with empty lines:
# awk -v kind=KIND -v half=1 -f text.awk. Where half is 2, the file has half the parts.

# A name of 24 or of 63 bytes.
function name(letter, k) { return sprintf("%s_%022d", letter, k) }
function long_name(letter, k) { return sprintf("%s_%061d", letter, k) }

function functions(  f, s) {
  for (f = 0; f < 490 / half; f++) {
    printf "int f%d(int n) {\n", f
    for (s = 0; s < 4; s++) printf "  n = n * %d + %d;\n", s + 2, f
    print "  return n;\n}"
  }
}
function long_names(  f, s) {
  for (f = 0; f < 16 / half; f++) {
    printf "int %s(int %s) {\n", long_name("f", f), long_name("n", f)
    for (s = 0; s < 110; s++) printf "  %s = %s + 1;\n", long_name("n", f), long_name("n", f)
    printf "  return %s;\n}\n", long_name("n", f)
  }
}
function objects(  f, s, k) {
  for (k = 0; k < 1024 / half; k++) printf "int %s;\n", name("o", k)
  for (f = 0; f < 14 / half; f++) {
    printf "int f%d(int n) {\n", f
    for (s = 0; s < 296; s++) printf "  %s = %s;\n", name("o", (f * 300 + s) % (1024 / half)), name("o", (f * 307 + s * 7) % (1024 / half))
    print "  return n;\n}"
  }
}
function locals(  f, k) {
  for (f = 0; f < 16 / half; f++) {
    printf "int f%d(int n) {\n", f
    for (k = 0; k < 160; k++) printf "  int %s = n;\n", name("v", k)
    for (k = 0; k < 160; k++) printf "  %s = %s;\n", name("v", k), name("v", (k * 7) % 160)
    print "  return n;\n}"
  }
}
function blocks(  f, k, d) {
  for (f = 0; f < 16 / half; f++) {
    printf "int f%d(int n) {\n", f
    for (k = 0; k < 4; k++) {
      for (d = 0; d < 60; d++) printf "{ int v%d = n;\n", d
      for (d = 0; d < 60; d++) print "}"
    }
    print "  return n;\n}"
  }
}
function expressions(  f, s, d) {
  for (f = 0; f < 15 / half; f++) {
    printf "int f%d(int n) {\n", f
    for (s = 0; s < 8; s++) {
      printf "  n = "
      for (d = 0; d < 50; d++) printf "("
      printf "n"
      for (d = 0; d < 50; d++) printf " %s %d)", substr("+-*^&", d % 5 + 1, 1), d + 1
      print ";"
    }
    print "  return n;\n}"
  }
}
function prototypes(  f, k) {
  for (k = 0; k < 11 / half; k++)
    for (f = 0; f < 400; f++) printf "int %s(int a, int b);\n", name("f", f)
  for (f = 0; f < 400; f++) printf "int %s(int a, int b) { return a; }\n", name("f", f)
}
function calls(  f, s, k) {
  printf "int wide("
  for (k = 0; k < 100; k++) printf "%sint %s", k ? ", " : "", name("a", k)
  print ") { return 1; }"
  for (f = 0; f < 15 / half; f++) {
    printf "int f%d(int a_long_argument) {\n", f
    for (s = 0; s < 9; s++) {
      printf "  a_long_argument = wide("
      for (k = 0; k < 100; k++) printf "%sa_long_argument", k ? ", " : ""
      print ");"
    }
    print "  return 0;\n}"
  }
}
function initialisers(  k, j) {
  for (k = 0; k < 150 / half; k++) {
    printf "int a%d[] = {\n", k
    for (j = 0; j < 100; j++) printf "  %d%s\n", 1000000000 + k * 100 + j, j < 99 ? "," : ""
    print "};"
  }
}
function structures(  k, j, f, s) {
  for (k = 0; k < 200 / half; k++) {
    printf "struct s%d {\n", k
    for (j = 0; j < 20; j++) printf "  int m_%08d;\n", j
    printf "};\nstruct s%d x%d;\n", k, k
  }
  for (f = 0; f < 10 / half; f++) {
    printf "int f%d(int n) {\n", f
    for (s = 0; s < 180; s++) printf "  x%d.m_%08d = x%d.m_%08d;\n", (f * 20 + s) % (200 / half), s % 20, (f * 31 + s * 7) % (200 / half), s * 3 % 20
    print "  return n;\n}"
  }
}
BEGIN {
  if (kind == "functions") functions()
  else if (kind == "long names") long_names()
  else if (kind == "objects") objects()
  else if (kind == "locals") locals()
  else if (kind == "nested blocks") blocks()
  else if (kind == "nested expressions") expressions()
  else if (kind == "prototypes") prototypes()
  else if (kind == "calls") calls()
  else if (kind == "initialisers") initialisers()
  else if (kind == "structures") structures()
  print "int main(void) { return 0; }"
}
