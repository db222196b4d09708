#include <stdint.h>
#include <stdio.h>
#include <stdlib.h>
static uint64_t add(uint64_t a, uint64_t b) {
  uint64_t c;
  if (__builtin_add_overflow(a, b, &c))
    abort();
  return c;
}
typedef struct {
  uint64_t *e;
  uint64_t n, room;
} B;
static void push(B *b, uint64_t v) {
  if (b->n == b->room) {
    b->room = b->room ? 2 * b->room : 4;
    b->e = realloc(b->e, b->room * 8);
    if (!b->e)
      exit(7);
  }
  b->e[b->n++] = v;
}
static uint64_t nth(B *b, uint64_t i) {
  if (i >= b->n)
    exit(3);
  return b->e[i];
}
int main(void) {
  B b = {0, 0, 0};
  uint64_t i, s = 0, o;
  for (i = 1; i <= 1000000; i++)
    push(&b, i);
  for (o = 0; o < 20; o++)
    for (i = 0; i < 1000000; i++)
      s = add(s, nth(&b, i));
  printf("%llu\n", (unsigned long long)s);
  while (b.n > 0)
    b.n--;
  free(b.e);
  return 0;
}
