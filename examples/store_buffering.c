/* Store buffering: ./c11t run --seed 2 < examples/store_buffering.c prints `0 0` (`out 3020300a`): each thread missed the other's
   store, which relaxed accesses allow. */
#include <stdatomic.h>
#include <threads.h>
#include <stdio.h>

atomic_int x;
atomic_int y;

int other(void *arg) {
  atomic_store_explicit(&y, 1, memory_order_relaxed);
  return atomic_load_explicit(&x, memory_order_relaxed);
}

int main(void) {
  thrd_t t;
  int theirs;
  thrd_create(&t, other, NULL);
  atomic_store_explicit(&x, 1, memory_order_relaxed);
  int mine = atomic_load_explicit(&y, memory_order_relaxed);
  thrd_join(t, &theirs);
  printf("%d %d\n", mine, theirs);
  return 0;
}
