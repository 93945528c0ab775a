/* A flag passes a message: ./c11t run --seed 3 < examples/message_passing.c ends with `verdict done`, as it does for every seed.
   What happens before the release store happens before what follows an acquire load that reads it. */
#include <stdatomic.h>
#include <threads.h>
#include <assert.h>

int data;
atomic_int ready;

int writer(void *arg) {
  data = 42;
  atomic_store_explicit(&ready, 1, memory_order_release);
  return 0;
}

int main(void) {
  thrd_t t;
  thrd_create(&t, writer, NULL);
  if (atomic_load_explicit(&ready, memory_order_acquire))
    assert(data == 42);
  thrd_join(t, NULL);
  return 0;
}
