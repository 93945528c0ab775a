/* A ring for one producer and one consumer: ./c11t run --seed 81 < examples/ring.c prints 6 (`out 360a`) and ends with `verdict done`.
   Head and tail are published by release stores and read by acquire loads. */
#include <stdatomic.h>
#include <threads.h>
#include <stdio.h>

int slots[2];
atomic_uint head;
atomic_uint tail;

int producer(void *count) {
  for (int packet = 1; packet <= (long)count; packet++) {
    unsigned here = atomic_load_explicit(&head, memory_order_relaxed);
    while (here - atomic_load_explicit(&tail, memory_order_acquire) == 2);
    slots[here % 2] = packet;
    atomic_store_explicit(&head, here + 1, memory_order_release);
  }
  return 0;
}

int main(void) {
  thrd_t t;
  int sum = 0;
  thrd_create(&t, producer, (void *)3);
  for (unsigned taken = 0; taken < 3; taken++) {
    while (atomic_load_explicit(&head, memory_order_acquire) == taken);
    sum += slots[taken % 2];
    atomic_store_explicit(&tail, taken + 1, memory_order_release);
  }
  thrd_join(t, NULL);
  printf("%d\n", sum);
  return 0;
}
