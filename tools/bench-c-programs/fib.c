#include <stdint.h>
#include <stdio.h>
#include <stdlib.h>
static uint64_t add(uint64_t a, uint64_t b) {
  uint64_t c;
  if (__builtin_add_overflow(a, b, &c))
    abort();
  return c;
}
static uint64_t sub(uint64_t a, uint64_t b) {
  uint64_t c;
  if (__builtin_sub_overflow(a, b, &c))
    abort();
  return c;
}
static uint64_t fib(uint64_t n) {
  return n < 2 ? n : add(fib(sub(n, 1)), fib(sub(n, 2)));
}
int main(void) {
  printf("%llu\n", (unsigned long long)fib(35));
  return 0;
}
