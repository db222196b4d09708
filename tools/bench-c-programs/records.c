#include <stdint.h>
#include <stdio.h>
#include <stdlib.h>
static uint64_t add(uint64_t a, uint64_t b) {
  uint64_t c;
  if (__builtin_add_overflow(a, b, &c))
    abort();
  return c;
}
typedef struct {
  uint64_t v;
} R;
typedef struct {
  R *a, *b;
} P;
static R *mk(uint64_t v) {
  R *r = malloc(sizeof *r);
  if (!r)
    exit(7);
  r->v = v;
  return r;
}
__attribute__((noinline)) static P *make(uint64_t v) {
  P *p = malloc(sizeof *p);
  if (!p)
    exit(7);
  p->a = mk(v);
  p->b = mk(add(v, 1));
  return p;
}
__attribute__((noinline)) static uint64_t take(P *p) {
  R *a = p->a, *b = p->b;
  uint64_t x, y;
  free(p);
  x = a->v;
  free(a);
  y = b->v;
  free(b);
  return add(x, y);
}
int main(void) {
  uint64_t s = 0, i;
  for (i = 1; i <= 10000000; i++)
    s = add(s, take(make(i)));
  printf("%llu\n", (unsigned long long)s);
  return 0;
}
