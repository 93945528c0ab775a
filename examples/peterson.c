/* Peterson's lock with seq_cst: ./c11t run --seed 4 < examples/peterson.c ends with `verdict done`; no seed ends with a
   race. The order of the seq_cst accesses keeps one of the two threads out. */
#include <stdatomic.h>
#include <threads.h>
#include <assert.h>

atomic_int wants[2];
atomic_int turn;
int inside;

int worker(void *self) {
  int me = (long)self;
  int other = 1 - me;
  atomic_store(&wants[me], 1);
  atomic_store(&turn, other);
  while (atomic_load(&wants[other]) && atomic_load(&turn) == other);
  inside = inside + 1;
  assert(inside == 1);
  inside = inside - 1;
  atomic_store(&wants[me], 0);
  return 0;
}

int main(void) {
  thrd_t a, b;
  thrd_create(&a, worker, (void *)0);
  thrd_create(&b, worker, (void *)1);
  thrd_join(a, NULL);
  thrd_join(b, NULL);
  return 0;
}
