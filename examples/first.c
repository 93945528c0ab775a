#include <stdatomic.h>
atomic_int x;
int main(void) {
  atomic_store_explicit(&x, 1, memory_order_relaxed);
  atomic_load_explicit(&x, memory_order_relaxed);
}
