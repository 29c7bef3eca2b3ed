/* The receiver reads a slot after it gave it back.
   queue: head=q.sent,tail=q.taken,slots=q.word,size=8
   answer: reads of hart 1 at line 29 */
#include <stdatomic.h>

#define SLOTS 8

struct {
  atomic_uint sent, taken;
  int word[SLOTS];
} q;

volatile int shown;

static int send(int word) {
  unsigned n = atomic_load_explicit(&q.sent, memory_order_relaxed);
  if (n - atomic_load_explicit(&q.taken, memory_order_acquire) == SLOTS)
    return 0;
  q.word[n % SLOTS] = word;
  atomic_store_explicit(&q.sent, n + 1, memory_order_release);
  return 1;
}

static void receive(void) {
  unsigned n = atomic_load_explicit(&q.taken, memory_order_relaxed);
  if (n == atomic_load_explicit(&q.sent, memory_order_acquire))
    return;
  atomic_store_explicit(&q.taken, n + 1, memory_order_release);
  shown = q.word[n % SLOTS];
}

void P0(void) { for (int i = 0;; i++) while (!send(i)) {} }
void P1(void) { for (;;) receive(); }
// exists (shown=0)
