int n;
int main(void) {
  kitsune_do_automigrate();
  while (n < 5) {
    kitsune_update("other");
    n = n + 1;
    putchar('b');
  }
  return 0;
}
