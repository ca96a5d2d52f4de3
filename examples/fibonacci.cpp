int main() {
  long a = 0;
  long b = 1;
  long n = 10;
  while (n) {
    corun::print(a);
    long next = a + b;
    a = b;
    b = next;
    n = n - 1;
  }
  return 0;
}
