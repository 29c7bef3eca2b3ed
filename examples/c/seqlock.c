// A sequence lock, with a writer of two words and a reader that tries once: may it read one new word and one old?
#include <stdatomic.h>

atomic_uint sequence;
atomic_int low, high;

void P0(void) {
  unsigned s = atomic_load_explicit(&sequence, memory_order_relaxed);
  atomic_store_explicit(&sequence, s + 1, memory_order_relaxed);
  atomic_thread_fence(memory_order_release);
  atomic_store_explicit(&low, 1, memory_order_relaxed);
  atomic_store_explicit(&high, 1, memory_order_relaxed);
  atomic_store_explicit(&sequence, s + 2, memory_order_release);
}

// -1 where the reader must try again, else what it read
int P1(void) {
  unsigned s = atomic_load_explicit(&sequence, memory_order_acquire);
  int l = atomic_load_explicit(&low, memory_order_relaxed);
  int h = atomic_load_explicit(&high, memory_order_relaxed);
  atomic_thread_fence(memory_order_acquire);
  if (s % 2 || s != atomic_load_explicit(&sequence, memory_order_relaxed))
    return -1;
  return 2 * h + l;
}

// exists (1:a0=1 \/ 1:a0=2)
