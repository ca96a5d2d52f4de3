int main() {
  long i = 0;
  while (i - 3) {
    corun::print(i);
    i = i + 1;
  }
  return 0;
}
