/* Treiber's stack over the indexes of an array: ./c11t run --seed 1 < examples/treiber_stack.c prints 3 (`out 330a`) and ends with
   `verdict done`. Each node is pushed once, so no index comes back while another thread holds it. */
#include <stdatomic.h>
#include <threads.h>
#include <stdio.h>

int value[3];
int next[3];
atomic_int top;

void push(int node) {
  int seen = atomic_load_explicit(&top, memory_order_relaxed);
  do {
    next[node] = seen;
  } while (!atomic_compare_exchange_weak_explicit(&top, &seen, node, memory_order_release, memory_order_relaxed));
}

int pop(void) {
  int seen = atomic_load_explicit(&top, memory_order_acquire);
  while (seen != 0 &&
         !atomic_compare_exchange_weak_explicit(&top, &seen, next[seen], memory_order_acquire, memory_order_acquire));
  return seen;
}

int pusher(void *node) {
  value[(long)node] = (long)node;
  push((long)node);
  return 0;
}

int main(void) {
  thrd_t a, b;
  int sum = 0;
  thrd_create(&a, pusher, (void *)1);
  thrd_create(&b, pusher, (void *)2);
  thrd_join(a, NULL);
  thrd_join(b, NULL);
  for (int node = pop(); node != 0; node = pop()) sum += value[node];
  printf("%d\n", sum);
  return 0;
}
