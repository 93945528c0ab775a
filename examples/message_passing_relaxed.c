/* The same with the release forgotten: ./c11t run --seed 48 < examples/message_passing_relaxed.c ends with a race on `data`.
   The load may read the flag, but nothing orders the write of the message before its read. */
#include <stdatomic.h>
#include <threads.h>
#include <assert.h>

int data;
atomic_int ready;

int writer(void *arg) {
  data = 42;
  atomic_store_explicit(&ready, 1, memory_order_relaxed);
  return 0;
}

int main(void) {
  thrd_t t;
  thrd_create(&t, writer, NULL);
  if (atomic_load_explicit(&ready, memory_order_acquire))
    assert(data == 42);
  thrd_join(t, NULL);
  return 0;
}

/* ./c11t campaign < examples/message_passing_relaxed.c finds the race in five runs of a hundred, and tells the least seed that shows it:

   campaign 1 first 0 count 100 steps 2000
   done 95 0
   bound 0 -
   race 5 48
   assert 0 -
   fault 0 -
   local 0 -
   deadlock 0 -
   outputs 1
   100 - */
