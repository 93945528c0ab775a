/* Peterson's lock with release stores and acquire loads alone: ./c11t run --seed 4 < examples/peterson_acquire_release.c ends with a
   race on `inside`. Each thread may miss the other's store, as in store buffering, and both go in. */
#include <stdatomic.h>
#include <threads.h>
#include <assert.h>

atomic_int wants[2];
atomic_int turn;
int inside;

int worker(void *self) {
  int me = (long)self;
  int other = 1 - me;
  atomic_store_explicit(&wants[me], 1, memory_order_release);
  atomic_store_explicit(&turn, other, memory_order_release);
  while (atomic_load_explicit(&wants[other], memory_order_acquire) &&
         atomic_load_explicit(&turn, memory_order_acquire) == other);
  inside = inside + 1;
  assert(inside == 1);
  inside = inside - 1;
  atomic_store_explicit(&wants[me], 0, memory_order_release);
  return 0;
}

int main(void) {
  thrd_t a, b;
  thrd_create(&a, worker, (void *)0);
  thrd_create(&b, worker, (void *)1);
  thrd_join(a, NULL);
  thrd_join(b, NULL);
  return 0;
}

/* ./c11t campaign < examples/peterson_acquire_release.c finds that most runs race, the first with seed 0:

   campaign 1 first 0 count 100 steps 2000
   done 22 1
   bound 0 -
   race 78 0
   assert 0 -
   fault 0 -
   local 0 -
   deadlock 0 -
   outputs 1
   100 - */
