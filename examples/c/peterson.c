// Peterson's lock round a counter, by relaxed stores and a sequentially consistent fence: may a count be lost?
#include <stdatomic.h>

atomic_int flag[2], turn;
int count;

static inline void enter(int me) {
  atomic_store_explicit(&flag[me], 1, memory_order_relaxed);
  atomic_store_explicit(&turn, 1 - me, memory_order_relaxed);
  atomic_thread_fence(memory_order_seq_cst);
  while (atomic_load_explicit(&flag[1 - me], memory_order_acquire) &&
         atomic_load_explicit(&turn, memory_order_acquire) != me)
    ;
}

static inline void leave(int me) {
  atomic_store_explicit(&flag[me], 0, memory_order_release);
}

void P0(void) { enter(0); count++; leave(0); }
void P1(void) { enter(1); count++; leave(1); }

// exists (count=1)
