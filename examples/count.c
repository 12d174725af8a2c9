int n;
int main() {
  while (n < 3) {
    putchar('a');
    n = n + 1;
  }
  return n;
}
