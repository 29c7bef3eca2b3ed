// A lock that is taken by an exchange, round a counter: may a count be lost?
#include <stdatomic.h>

static void lock(atomic_int *l) {
  while (atomic_exchange_explicit(l, 1, memory_order_acquire))
    while (atomic_load_explicit(l, memory_order_relaxed))
      ;
}

static void unlock(atomic_int *l) {
  atomic_store_explicit(l, 0, memory_order_release);
}

void P0(atomic_int *l, int *count) {
  lock(l);
  ++*count;
  unlock(l);
}

void P1(atomic_int *l, int *count) {
  lock(l);
  ++*count;
  unlock(l);
}

// exists (count=1)
