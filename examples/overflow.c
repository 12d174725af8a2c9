int n = 2147483647;
int main() {
  n = n + 1;
  return 0;
}
