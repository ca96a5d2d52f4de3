int main() {
  long big = 2147483647;
  while (1) {
    corun::print(big);
    big = big + big;
  }
  return 0;
}
