// A lock by tickets, round a counter: may a count be lost?
#include <stdatomic.h>

atomic_int next, serving;
int count;

static void work(void) {
  int mine = atomic_fetch_add_explicit(&next, 1, memory_order_relaxed);
  while (atomic_load_explicit(&serving, memory_order_acquire) != mine)
    ;
  count++;
  atomic_store_explicit(&serving, mine + 1, memory_order_release);
}

void P0(void) { work(); }
void P1(void) { work(); }

// exists (count=1)
