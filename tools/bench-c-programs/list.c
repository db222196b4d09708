#include <stdint.h>
#include <stdio.h>
#include <stdlib.h>
static uint64_t add(uint64_t a, uint64_t b) {
  uint64_t c;
  if (__builtin_add_overflow(a, b, &c))
    abort();
  return c;
}
typedef struct L {
  uint64_t v;
  struct L *next;
} L;
static L *make(uint64_t n) {
  L *l;
  if (n == 0)
    return 0;
  l = malloc(sizeof *l);
  if (!l)
    exit(7);
  l->v = n;
  l->next = make(n - 1);
  return l;
}
static uint64_t sum(const L *l) {
  return l ? add(l->v, sum(l->next)) : 0;
}
static uint64_t eat(L *l) {
  uint64_t v;
  L *n;
  if (!l)
    return 0;
  v = l->v;
  n = l->next;
  free(l);
  return add(v, eat(n));
}
static void bump(L *l) {
  if (l) {
    l->v = add(l->v, 1);
    bump(l->next);
  }
}
int main(void) {
  uint64_t s = 0, i;
  for (i = 1; i <= 5000; i++) {
    L *l = make(1000);
    s = add(s, sum(l));
    s = add(s, sum(l));
    bump(l);
    s = add(s, eat(l));
  }
  printf("%llu\n", (unsigned long long)s);
  return 0;
}
