/* Store buffering with seq_cst fences: ./c11t run --seed 2 < examples/store_buffering_fences.c ends with `verdict done`, as it does
   for every seed: one of the two threads sees the other's store. */
#include <stdatomic.h>
#include <threads.h>
#include <assert.h>

atomic_int x;
atomic_int y;

int other(void *arg) {
  atomic_store_explicit(&y, 1, memory_order_relaxed);
  atomic_thread_fence(memory_order_seq_cst);
  return atomic_load_explicit(&x, memory_order_relaxed);
}

int main(void) {
  thrd_t t;
  int theirs;
  thrd_create(&t, other, NULL);
  atomic_store_explicit(&x, 1, memory_order_relaxed);
  atomic_thread_fence(memory_order_seq_cst);
  int mine = atomic_load_explicit(&y, memory_order_relaxed);
  thrd_join(t, &theirs);
  assert(mine == 1 || theirs == 1);
  return 0;
}
