#include <stdint.h>
#include <stdio.h>
#include <stdlib.h>
static uint64_t add(uint64_t a, uint64_t b) {
  uint64_t c;
  if (__builtin_add_overflow(a, b, &c))
    abort();
  return c;
}
int main(void) {
  uint64_t s = 0, i;
  for (i = 1; i <= 100000000; i++)
    s = add(s, i);
  printf("%llu\n", (unsigned long long)s);
  for (i = 0; i < 100000000; i = add(i, 1))
    s = add(s, i / 3);
  printf("%llu\n", (unsigned long long)s);
  return 0;
}
