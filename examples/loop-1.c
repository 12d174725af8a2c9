int n;
int main(void) {
  kitsune_do_automigrate();
  while (n < 5) {
    kitsune_update("loop");
    n = n + 1;
    putchar('a');
  }
  return 0;
}
