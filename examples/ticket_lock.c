/* A ticket lock over a plain counter: ./c11t run --seed 1 < examples/ticket_lock.c prints 6 (`out 360a`) and ends with `verdict done`.
   No seed ends with a race: each unlock releases what the next lock acquires. */
#include <stdatomic.h>
#include <threads.h>
#include <stdio.h>

atomic_uint next_ticket;
atomic_uint now_serving;
int counter;

void lock(void) {
  unsigned mine = atomic_fetch_add_explicit(&next_ticket, 1, memory_order_relaxed);
  while (atomic_load_explicit(&now_serving, memory_order_acquire) != mine);
}

void unlock(void) {
  unsigned served = atomic_load_explicit(&now_serving, memory_order_relaxed);
  atomic_store_explicit(&now_serving, served + 1, memory_order_release);
}

int worker(void *rounds) {
  for (long i = 0; i < (long)rounds; i++) {
    lock();
    counter = counter + 1;
    unlock();
  }
  return 0;
}

int main(void) {
  thrd_t a, b;
  thrd_create(&a, worker, (void *)3);
  thrd_create(&b, worker, (void *)3);
  thrd_join(a, NULL);
  thrd_join(b, NULL);
  printf("%d\n", counter);
  return 0;
}
