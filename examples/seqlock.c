/* A sequence lock: ./c11t run --seed 1 < examples/seqlock.c ends with `verdict done`, as it does for every seed: a reader whose two
   looks at the sequence agree has read both halves of one write. */
#include <stdatomic.h>
#include <threads.h>
#include <assert.h>

atomic_uint sequence;
atomic_int low;
atomic_int high;

int writer(void *arg) {
  unsigned seen = atomic_load_explicit(&sequence, memory_order_relaxed);
  atomic_store_explicit(&sequence, seen + 1, memory_order_relaxed);
  atomic_thread_fence(memory_order_release);
  atomic_store_explicit(&low, 1, memory_order_relaxed);
  atomic_store_explicit(&high, 1, memory_order_relaxed);
  atomic_store_explicit(&sequence, seen + 2, memory_order_release);
  return 0;
}

int main(void) {
  thrd_t t;
  thrd_create(&t, writer, NULL);
  unsigned before = atomic_load_explicit(&sequence, memory_order_acquire);
  int a = atomic_load_explicit(&low, memory_order_relaxed);
  int b = atomic_load_explicit(&high, memory_order_relaxed);
  atomic_thread_fence(memory_order_acquire);
  unsigned after = atomic_load_explicit(&sequence, memory_order_relaxed);
  if (before == after && before % 2 == 0)
    assert(a == b);
  thrd_join(t, NULL);
  return 0;
}
