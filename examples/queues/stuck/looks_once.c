/* The sender looks at the other index once, before its loop, and waits for ever when it has filled the slots that were free then.
   queue: head=q.sent,tail=q.taken,slots=q.word,size=8
   answer: kept in every run, but not shown to go on
   named: hart 0 looks at tail of queue 0 only at pc */
#include <stdatomic.h>

#define SLOTS 8

struct {
  atomic_uint sent, taken;
  int word[SLOTS];
} q;

static int receive(int *word) {
  unsigned n = atomic_load_explicit(&q.taken, memory_order_relaxed);
  if (n == atomic_load_explicit(&q.sent, memory_order_acquire))
    return 0;
  *word = q.word[n % SLOTS];
  atomic_store_explicit(&q.taken, n + 1, memory_order_release);
  return 1;
}

void P0(void) {
  unsigned taken = atomic_load_explicit(&q.taken, memory_order_acquire);
  for (unsigned n = 0;; n++) {
    while (n - taken == SLOTS) {}
    q.word[n % SLOTS] = n;
    atomic_store_explicit(&q.sent, n + 1, memory_order_release);
  }
}
int P1(void) { for (int word, sum = 0;;) if (receive(&word) && (sum += word) < 0) return sum; }
// exists (1:a0=0)
